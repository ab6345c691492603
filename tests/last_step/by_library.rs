//! The calls by the library's exported functions.

use crate::library::{self, Mended, Shape};
use crate::second::Rebuilt;

#[repr(C)]
struct Answer {
    number: u8,
    group: u8,
}

#[repr(C)]
struct RebuildAnswer {
    word: usize,
    number: u8,
    group: u8,
}

extern "C" {
    fn axlebloom_wide_describe(m: usize, w: usize, c: usize) -> u8;
    fn axlebloom_wide_places(m: usize, w: usize, c: usize) -> usize;
    fn axlebloom_wide_data(m: usize, w: usize, c: usize) -> usize;
    fn axlebloom_wide_sure(m: usize, w: usize, c: usize) -> usize;
    fn axlebloom_wide_encode(m: usize, w: usize, c: usize, d: *const u16, k: usize, x: *mut u16, n: usize) -> u8;
    fn axlebloom_wide_extract(m: usize, w: usize, c: usize, x: *const u16, n: usize, d: *mut u16, k: usize) -> u8;
    fn axlebloom_wide_check(m: usize, w: usize, c: usize, x: *const u16, n: usize) -> Answer;
    fn axlebloom_wide_check_marks(m: usize, w: usize, c: usize, l: *mut u8, n: usize) -> u8;
    fn axlebloom_wide_judge(m: usize, w: usize, c: usize, l: *const u8, n: usize) -> u8;
    fn axlebloom_wide_repair(m: usize, w: usize, c: usize, g: usize, x: *mut u16, n: usize, l: *mut u8, k: usize) -> Answer;
    fn axlebloom_wide_recover(m: usize, w: usize, c: usize, x: *mut u16, n: usize, l: *mut u8, k: usize) -> Answer;
    fn axlebloom_rebuild(m: usize, w: usize, c: usize, length: usize, b: *mut u8, all: usize, l: *mut u8, n: usize) -> RebuildAnswer;
}

fn mended(answer: Answer) -> Mended {
    (answer.number, answer.group.into())
}

pub struct Exported;

impl crate::Calls for Exported {
    type Desk = library::Desk;
    type Gather = library::Gather;

    fn describe(&self, s: Shape) -> [u64; 4] {
        library::describe(s).map_or_else(|number| [number.into(), 0, 0, 0], |(n, k, sure)| [0, n, k, sure])
    }
    fn check_marks(&self, s: Shape, marks: &mut [u8]) -> u8 {
        library::check_marks(s, marks)
    }
    fn judge(&self, s: Shape, marks: &[u8]) -> u8 {
        library::judge(s, marks)
    }
    fn profile(&self, s: Shape, marks: &[u8]) -> Result<Vec<u8>, u8> {
        library::profile(s, marks)
    }
    fn extract(&self, s: Shape, word: &[u8], data: &mut [u8]) -> u8 {
        library::extract(s, word, data)
    }
    fn encode(&self, s: Shape, data: &[u8], word: &mut [u8]) -> u8 {
        library::encode(s, data, word)
    }
    fn check(&self, s: Shape, word: &[u8]) -> Mended {
        library::check(s, word)
    }
    fn repair(&self, s: Shape, g: usize, word: &mut [u8], marks: &mut [u8]) -> Mended {
        library::repair(s, g, word, marks)
    }
    fn recover(&self, s: Shape, word: &mut [u8], marks: &mut [u8]) -> Mended {
        library::recover(s, word, marks)
    }
    fn edit(&self, s: Shape, word: &mut [u8], number: usize, byte: u8) -> Mended {
        library::edit(s, word, number, byte)
    }

    fn fresh(&self) -> library::Desk {
        let mut desk = library::Desk::of_bytes([7; library::DESK_SIZE]);
        library::fresh(&mut desk);
        desk
    }
    fn open(&self, desk: &mut library::Desk, s: Shape, marks: &[u8]) -> Result<u64, u8> {
        let mut handle = 0;
        match library::open(desk, s, marks, &mut handle) {
            0 => Ok(handle),
            number => Err(number),
        }
    }
    fn serve(&self, desk: &mut library::Desk, handle: u64, word: &mut [u8]) -> Mended {
        library::serve(desk, handle, word)
    }
    fn read(&self, desk: &library::Desk, handle: u64) -> Result<u64, u8> {
        let mut served = 0;
        match library::read(desk, handle, &mut served) {
            0 => Ok(served.into()),
            number => Err(number),
        }
    }
    fn close(&self, desk: &mut library::Desk, handle: u64) -> u8 {
        library::close(desk, handle)
    }
    fn lose(&self, desk: &mut library::Desk, handle: u64, place: usize) -> u8 {
        library::lose(desk, handle, place)
    }
    fn find(&self, desk: &mut library::Desk, handle: u64, place: usize) -> u8 {
        library::find(desk, handle, place)
    }
    fn desk_fields(&self, desk: &library::Desk) -> Vec<u64> {
        let bytes = |bytes: &[u8]| bytes.iter().map(|&byte| byte.into()).collect::<Vec<u64>>();
        let mut all = vec![desk.t];
        for job in &desk.jobs {
            all.extend(bytes(&[job.taken, job.m, job.w, job.c, job.excess]));
            all.extend([job.served.into(), job.handle]);
            all.extend([bytes(&job.marks), bytes(&job.lost)].concat());
        }
        all
    }

    fn begin(&self, s: Shape) -> (library::Gather, u8) {
        let mut gather = library::Gather { m: 0, w: 0, c: 0, finished: 0, bytes: [0; 240], marks: [0; 240] };
        let number = library::begin(&mut gather, s);
        (gather, number)
    }
    fn take(&self, gather: &mut library::Gather, first: usize, bytes: &[u8]) -> u8 {
        library::take(gather, first, bytes)
    }
    fn finish(&self, gather: &mut library::Gather, word: &mut [u8]) -> Mended {
        library::finish(gather, word)
    }
    fn gather_fields(&self, g: &library::Gather) -> Vec<u64> {
        [g.m, g.w, g.c, g.finished].iter().chain(&g.bytes).chain(&g.marks).map(|&byte| byte.into()).collect()
    }

    fn lookup(&self, text: &[u8], size: usize, name: &[u8]) -> Result<(u64, u64, u64, u64), u8> {
        library::lookup(text, size, name)
    }
    fn put(&self, s: Shape, name: &[u8], expected: usize, text: &mut [u8], size: usize) -> Result<(usize, u64), u8> {
        library::put(s, name, expected, text, size)
    }
    fn remove(&self, name: &[u8], expected: usize, text: &mut [u8], size: usize) -> Result<(usize, u64), u8> {
        library::remove(name, expected, text, size)
    }
    fn compact(&self, text: &mut [u8], size: usize) -> Result<usize, u8> {
        library::compact(text, size)
    }

    fn wide_describe(&self, (m, w, c): Shape) -> [u64; 4] {
        let figures = unsafe { [axlebloom_wide_places(m, w, c), axlebloom_wide_data(m, w, c), axlebloom_wide_sure(m, w, c)] };
        [unsafe { axlebloom_wide_describe(m, w, c) } as u64, figures[0] as u64, figures[1] as u64, figures[2] as u64]
    }
    fn wide_check_marks(&self, (m, w, c): Shape, marks: &mut [u8]) -> u8 {
        unsafe { axlebloom_wide_check_marks(m, w, c, marks.as_mut_ptr(), marks.len()) }
    }
    fn wide_judge(&self, (m, w, c): Shape, marks: &[u8]) -> u8 {
        unsafe { axlebloom_wide_judge(m, w, c, marks.as_ptr(), marks.len()) }
    }
    fn wide_extract(&self, (m, w, c): Shape, word: &[u16], data: &mut [u16]) -> u8 {
        unsafe { axlebloom_wide_extract(m, w, c, word.as_ptr(), word.len(), data.as_mut_ptr(), data.len()) }
    }
    fn wide_encode(&self, (m, w, c): Shape, data: &[u16], word: &mut [u16]) -> u8 {
        unsafe { axlebloom_wide_encode(m, w, c, data.as_ptr(), data.len(), word.as_mut_ptr(), word.len()) }
    }
    fn wide_check(&self, (m, w, c): Shape, word: &[u16]) -> Mended {
        mended(unsafe { axlebloom_wide_check(m, w, c, word.as_ptr(), word.len()) })
    }
    fn wide_repair(&self, (m, w, c): Shape, g: usize, word: &mut [u16], marks: &mut [u8]) -> Mended {
        mended(unsafe { axlebloom_wide_repair(m, w, c, g, word.as_mut_ptr(), word.len(), marks.as_mut_ptr(), marks.len()) })
    }
    fn wide_recover(&self, (m, w, c): Shape, word: &mut [u16], marks: &mut [u8]) -> Mended {
        mended(unsafe { axlebloom_wide_recover(m, w, c, word.as_mut_ptr(), word.len(), marks.as_mut_ptr(), marks.len()) })
    }
    fn rebuild(&self, (m, w, c): Shape, length: usize, blocks: &mut [u8], marks: &mut [u8]) -> Rebuilt {
        let a = unsafe { axlebloom_rebuild(m, w, c, length, blocks.as_mut_ptr(), blocks.len(), marks.as_mut_ptr(), marks.len()) };
        (a.number, a.word as u64, a.group.into())
    }
}
