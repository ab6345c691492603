//! The library through its exported functions, with the record of a desk laid out as in the header.

mod c {
    use super::{Answer, Change, Compaction, Desk, Gather, Lookup, Profile};
    extern "C" {
        pub fn axlebloom_describe(m: usize, w: usize, c: usize) -> u8;
        pub fn axlebloom_places(m: usize, w: usize, c: usize) -> usize;
        pub fn axlebloom_data(m: usize, w: usize, c: usize) -> usize;
        pub fn axlebloom_sure(m: usize, w: usize, c: usize) -> usize;
        pub fn axlebloom_encode(m: usize, w: usize, c: usize, d: *const u8, k: usize, x: *mut u8, n: usize) -> u8;
        pub fn axlebloom_extract(m: usize, w: usize, c: usize, x: *const u8, n: usize, d: *mut u8, k: usize) -> u8;
        pub fn axlebloom_check(m: usize, w: usize, c: usize, x: *const u8, n: usize) -> Answer;
        pub fn axlebloom_check_marks(m: usize, w: usize, c: usize, l: *mut u8, n: usize) -> u8;
        pub fn axlebloom_judge(m: usize, w: usize, c: usize, l: *const u8, n: usize) -> u8;
        pub fn axlebloom_profile(m: usize, w: usize, c: usize, l: *const u8, n: usize) -> Profile;
        pub fn axlebloom_repair(m: usize, w: usize, c: usize, g: usize, x: *mut u8, n: usize, l: *mut u8, k: usize) -> Answer;
        pub fn axlebloom_recover(m: usize, w: usize, c: usize, x: *mut u8, n: usize, l: *mut u8, k: usize) -> Answer;
        pub fn axlebloom_edit(m: usize, w: usize, c: usize, x: *mut u8, n: usize, number: usize, byte: u8) -> Answer;
        pub fn axlebloom_fresh(desk: *mut Desk);
        pub fn axlebloom_open(desk: *mut Desk, m: usize, w: usize, c: usize, l: *const u8, n: usize, handle: *mut u64) -> u8;
        pub fn axlebloom_serve(desk: *mut Desk, handle: u64, x: *mut u8, n: usize) -> Answer;
        pub fn axlebloom_read(desk: *const Desk, handle: u64, served: *mut u32) -> u8;
        pub fn axlebloom_close(desk: *mut Desk, handle: u64) -> u8;
        pub fn axlebloom_lose(desk: *mut Desk, handle: u64, place: usize) -> u8;
        pub fn axlebloom_find(desk: *mut Desk, handle: u64, place: usize) -> u8;
        pub fn axlebloom_gather_begin(gather: *mut Gather, m: usize, w: usize, c: usize) -> u8;
        pub fn axlebloom_gather_take(gather: *mut Gather, first: usize, x: *const u8, n: usize) -> u8;
        pub fn axlebloom_gather_finish(gather: *mut Gather, x: *mut u8, n: usize) -> Answer;
        pub fn axlebloom_lookup(text: *const u8, capacity: usize, size: usize, name: *const u8, n: usize) -> Lookup;
        pub fn axlebloom_put(m: usize, w: usize, c: usize, name: *const u8, n: usize, e: usize, text: *mut u8, capacity: usize, size: usize) -> Change;
        pub fn axlebloom_remove(name: *const u8, n: usize, e: usize, text: *mut u8, capacity: usize, size: usize) -> Change;
        pub fn axlebloom_compact(text: *mut u8, capacity: usize, size: usize) -> Compaction;
    }
}

/// m, w and c.
pub type Shape = (usize, usize, usize);

#[repr(C)]
pub struct Answer {
    number: u8,
    group: u8,
}

/// The number, and the group that a 9 carries.
pub type Mended = (u8, u64);

fn mended(answer: Answer) -> Mended {
    (answer.number, answer.group.into())
}

pub fn describe(s: Shape) -> Result<(u64, u64, u64), u8> {
    let figure = |f: unsafe extern "C" fn(usize, usize, usize) -> usize| unsafe { f(s.0, s.1, s.2) as u64 };
    match unsafe { c::axlebloom_describe(s.0, s.1, s.2) } {
        0 => Ok((figure(c::axlebloom_places), figure(c::axlebloom_data), figure(c::axlebloom_sure))),
        number => Err(number),
    }
}

pub fn encode(s: Shape, d: &[u8], x: &mut [u8]) -> u8 {
    unsafe { c::axlebloom_encode(s.0, s.1, s.2, d.as_ptr(), d.len(), x.as_mut_ptr(), x.len()) }
}

pub fn extract(s: Shape, x: &[u8], d: &mut [u8]) -> u8 {
    unsafe { c::axlebloom_extract(s.0, s.1, s.2, x.as_ptr(), x.len(), d.as_mut_ptr(), d.len()) }
}

pub fn check(s: Shape, x: &[u8]) -> Mended {
    mended(unsafe { c::axlebloom_check(s.0, s.1, s.2, x.as_ptr(), x.len()) })
}

pub fn check_marks(s: Shape, l: &mut [u8]) -> u8 {
    unsafe { c::axlebloom_check_marks(s.0, s.1, s.2, l.as_mut_ptr(), l.len()) }
}

pub fn judge(s: Shape, l: &[u8]) -> u8 {
    unsafe { c::axlebloom_judge(s.0, s.1, s.2, l.as_ptr(), l.len()) }
}

#[repr(C)]
pub struct Profile {
    number: u8,
    count: u8,
    place: [u8; 4],
}

/// The set, or the number of a refusal, with which all else must be 0; so must a set be past its count.
pub fn profile(s: Shape, l: &[u8]) -> Result<Vec<u8>, u8> {
    let answer = unsafe { c::axlebloom_profile(s.0, s.1, s.2, l.as_ptr(), l.len()) };
    let (set, rest) = answer.place.split_at(answer.count as usize);
    assert!(rest.iter().all(|&place| place == 0) && (answer.number == 0 || answer.count == 0));
    if answer.number == 0 { Ok(set.to_vec()) } else { Err(answer.number) }
}

pub fn repair(s: Shape, g: usize, x: &mut [u8], l: &mut [u8]) -> Mended {
    mended(unsafe { c::axlebloom_repair(s.0, s.1, s.2, g, x.as_mut_ptr(), x.len(), l.as_mut_ptr(), l.len()) })
}

pub fn recover(s: Shape, x: &mut [u8], l: &mut [u8]) -> Mended {
    mended(unsafe { c::axlebloom_recover(s.0, s.1, s.2, x.as_mut_ptr(), x.len(), l.as_mut_ptr(), l.len()) })
}

pub fn edit(s: Shape, x: &mut [u8], number: usize, byte: u8) -> Mended {
    mended(unsafe { c::axlebloom_edit(s.0, s.1, s.2, x.as_mut_ptr(), x.len(), number, byte) })
}

#[repr(C)]
#[derive(Clone, Copy)]
pub struct Job {
    pub taken: u8,
    pub m: u8,
    pub w: u8,
    pub c: u8,
    pub served: u32,
    pub handle: u64,
    pub marks: [u8; 240],
    pub lost: [u8; 15],
    pub excess: u8,
}

/// How many bytes the record of a job has; there are none between its fields.
pub const JOB_SIZE: usize = 272;

#[repr(C)]
#[derive(Clone, Copy)]
pub struct Desk {
    pub t: u64,
    pub jobs: [Job; 8],
}

/// How many bytes the record of a desk has.
pub const DESK_SIZE: usize = 8 + 8 * JOB_SIZE;

impl Desk {
    /// A record that holds anything.
    pub fn of_bytes(bytes: [u8; DESK_SIZE]) -> Desk {
        unsafe { std::mem::transmute(bytes) }
    }

    /// Every byte of the record.
    pub fn bytes(&self) -> [u8; DESK_SIZE] {
        unsafe { std::mem::transmute(*self) }
    }
}

pub fn fresh(desk: &mut Desk) {
    unsafe { c::axlebloom_fresh(desk) }
}

pub fn open(desk: &mut Desk, s: Shape, l: &[u8], handle: &mut u64) -> u8 {
    unsafe { c::axlebloom_open(desk, s.0, s.1, s.2, l.as_ptr(), l.len(), handle) }
}

pub fn serve(desk: &mut Desk, handle: u64, x: &mut [u8]) -> Mended {
    mended(unsafe { c::axlebloom_serve(desk, handle, x.as_mut_ptr(), x.len()) })
}

pub fn read(desk: &Desk, handle: u64, served: &mut u32) -> u8 {
    unsafe { c::axlebloom_read(desk, handle, served) }
}

pub fn close(desk: &mut Desk, handle: u64) -> u8 {
    unsafe { c::axlebloom_close(desk, handle) }
}

pub fn lose(desk: &mut Desk, handle: u64, place: usize) -> u8 {
    unsafe { c::axlebloom_lose(desk, handle, place) }
}

pub fn find(desk: &mut Desk, handle: u64, place: usize) -> u8 {
    unsafe { c::axlebloom_find(desk, handle, place) }
}

#[repr(C)]
#[derive(Clone, Copy, Debug, PartialEq)]
pub struct Gather {
    pub m: u8,
    pub w: u8,
    pub c: u8,
    pub finished: u8,
    pub bytes: [u8; 240],
    pub marks: [u8; 240],
}

pub fn begin(gather: &mut Gather, s: Shape) -> u8 {
    unsafe { c::axlebloom_gather_begin(gather, s.0, s.1, s.2) }
}

pub fn take(gather: &mut Gather, first: usize, x: &[u8]) -> u8 {
    unsafe { c::axlebloom_gather_take(gather, first, x.as_ptr(), x.len()) }
}

pub fn finish(gather: &mut Gather, x: &mut [u8]) -> Mended {
    mended(unsafe { c::axlebloom_gather_finish(gather, x.as_mut_ptr(), x.len()) })
}

#[repr(C)]
pub struct Lookup {
    number: u8,
    m: u8,
    w: u8,
    c: u8,
    revision: u16,
}

#[repr(C)]
pub struct Change {
    number: u8,
    revision: u16,
    size: usize,
}

#[repr(C)]
pub struct Compaction {
    number: u8,
    size: usize,
}

/// Revision and shape, or the number of a refusal, with which all else must be 0.
pub fn lookup(buffer: &[u8], size: usize, name: &[u8]) -> Result<(u64, u64, u64, u64), u8> {
    let a = unsafe { c::axlebloom_lookup(buffer.as_ptr(), buffer.len(), size, name.as_ptr(), name.len()) };
    assert!(a.number == 0 || (a.revision, a.m, a.w, a.c) == (0, 0, 0, 0));
    if a.number == 0 { Ok((a.revision.into(), a.m.into(), a.w.into(), a.c.into())) } else { Err(a.number) }
}

/// The new length and the revision, or the number of a refusal, with which all else must be 0.
fn changed(a: Change) -> Result<(usize, u64), u8> {
    assert!(a.number == 0 || (a.revision, a.size) == (0, 0));
    if a.number == 0 { Ok((a.size, a.revision.into())) } else { Err(a.number) }
}

pub fn put(s: Shape, name: &[u8], expected: usize, buffer: &mut [u8], size: usize) -> Result<(usize, u64), u8> {
    let (text, capacity) = (buffer.as_mut_ptr(), buffer.len());
    changed(unsafe { c::axlebloom_put(s.0, s.1, s.2, name.as_ptr(), name.len(), expected, text, capacity, size) })
}

pub fn remove(name: &[u8], expected: usize, buffer: &mut [u8], size: usize) -> Result<(usize, u64), u8> {
    changed(unsafe { c::axlebloom_remove(name.as_ptr(), name.len(), expected, buffer.as_mut_ptr(), buffer.len(), size) })
}

/// The new length, or the number of a refusal, with which it must be 0.
pub fn compact(buffer: &mut [u8], size: usize) -> Result<usize, u8> {
    let a = unsafe { c::axlebloom_compact(buffer.as_mut_ptr(), buffer.len(), size) };
    assert!(a.number == 0 || a.size == 0);
    if a.number == 0 { Ok(a.size) } else { Err(a.number) }
}
