//! Random histories: which calls, with what, in what order.

use crate::desks::{Call, Change, Handle, History, Place, Word};
use crate::library::{Shape, DESK_SIZE};
use crate::random::{bad_shape, good_shape, marks, Random};

/// A slot, the low ones more often.
fn slot(r: &mut Random) -> usize {
    let end = 1 + r.below(8);
    r.below(end)
}

/// A handle: mostly an open one.
fn handle(r: &mut Random) -> Handle {
    match r.below(24) {
        0 => Handle::Number(r.below(8) as u64),
        1 => Handle::Number(r.number()),
        2 => Handle::Number(r.pick(&[u64::MAX, u64::MAX - 7, 1 << 32, 8 * 65_536])),
        3 => Handle::InSlot(slot(r), r.pick(&[1, 8, 16, 256, 1 << 32, u64::MAX, u64::MAX - 7])),
        4 | 5 => Handle::Given(r.below(12)),
        _ => Handle::InSlot(slot(r), 0),
    }
}

/// A place: mostly one below n.
fn place(r: &mut Random) -> Place {
    match r.below(32) {
        0 => Place::Number(r.pick(&[240, 255, 256, 1 << 32, usize::MAX, usize::MAX - 7])),
        1 => Place::Number(r.below(241)),
        _ => Place::About(r.below(1 << 20)),
    }
}

fn word(r: &mut Random) -> Word {
    match r.below(16) {
        0 => Word::Random(r.number()),
        1 | 2 | 5 | 6 => Word::Changed(r.number()),
        3 => Word::Off(r.pick(&[-2, -1, 1, 2])),
        4 => Word::Length(r.pick(&[0, 1, 6, 240, 241, 1000])),
        _ => Word::Fits(r.number()),
    }
}

/// An open, refused about one time in four.
fn open(r: &mut Random, shapes: &[Shape]) -> Call {
    let shape = r.pick(shapes);
    let more = r.pick(&[0, 0, 1, 2, 2, 2]);
    let mut lost = marks(r, shape, more);
    match r.below(32) {
        0 => lost = marks(r, shape, 3),
        1 => lost = marks(r, shape, 9),
        2 => lost.fill(1),
        3 | 4 => {
            let p = r.below(lost.len());
            lost[p] = r.pick(&[2, 3, 128, 255]);
        }
        5 => drop(lost.pop()),
        6 => lost.push(0),
        7 | 8 => return Call::Open(bad_shape(r, usize::MAX), lost),
        _ => (),
    }
    Call::Open(shape, lost)
}

/// A change that mostly leaves no sound desk.
fn change(r: &mut Random) -> Change {
    let s = slot(r);
    match r.below(17) {
        0 => Change::T(r.pick(&[0, 1, 65_534, 65_535, 65_536, 1 << 32, u64::MAX])),
        1 => Change::Taken(s, r.pick(&[0, 1, 2, 3, 128, 255])),
        2 => {
            let (m, w, c) = bad_shape(r, 255);
            Change::Shape(s, [m as u8, w as u8, c as u8])
        }
        3 => Change::Served(s, r.pick(&[0, u32::MAX - 1, u32::MAX])),
        4 => Change::Handle(s, r.pick(&[0, 7, s as u64, 8 + s as u64, 9 + s as u64, u64::MAX, u64::MAX - 7 + s as u64])),
        5 => Change::PastT(s, r.pick(&[0, 1, 2, u64::MAX])),
        6 | 7 => Change::CopyOf(s, slot(r), r.one_in(2)),
        8 => Change::Mark(s, r.below(12), r.pick(&[0, 1, 2, 3, 255])),
        9 => Change::Mark(s, r.below(240), r.pick(&[0, 1, 2, 3, 255])),
        10 => Change::Lost(s, r.below(12)),
        11 => Change::Junk(s, r.number()),
        12 => Change::Junk(7, r.number()),
        13 | 14 => Change::Count(s, r.below(15), r.pick(&[0, 1, 2, 3, 4, 255])),
        15 => Change::Excess(s, r.pick(&[0, 1, 2, 3, 255])),
        _ => Change::Byte(r.below(DESK_SIZE), r.byte()),
    }
}

/// One call of the library.
fn call(r: &mut Random, shapes: &[Shape]) -> Call {
    match r.below(13) {
        0..=2 => open(r, shapes),
        3..=5 => Call::Serve(handle(r), word(r)),
        6 | 7 => Call::Read(handle(r)),
        8 => Call::Close(handle(r)),
        9 | 10 => Call::Lose(handle(r), place(r)),
        _ => Call::Find(handle(r), place(r)),
    }
}

/// So many calls of the library.
fn some(r: &mut Random, shapes: &[Shape], count: usize) -> Vec<Call> {
    (0..count).map(|_| call(r, shapes)).collect()
}

/// Changes and some calls, after which the desk from before is lent again, mostly.
fn spoilt(r: &mut Random, shapes: &[Shape]) -> Vec<Call> {
    let mut calls = vec![Call::Save];
    for _ in 0..r.pick(&[1, 1, 1, 2, 3]) {
        calls.push(Call::Change(change(r)));
    }
    if r.one_in(2) {
        calls.extend((0..8).map(|s| Call::Change(Change::Worked(s))));
    }
    let count = 1 + r.below(4);
    calls.extend(some(r, shapes, count));
    if !r.one_in(8) {
        calls.push(Call::Lend(0));
    }
    calls
}

/// Opens as t nears its end, after which the desk from before is lent again.
fn last_handles(r: &mut Random, shapes: &[Shape]) -> Vec<Call> {
    let mut calls = vec![Call::Save, Call::Change(Change::T(65_535 - r.below(4) as u64))];
    for _ in 0..1 + r.below(8) {
        calls.push(open(r, shapes));
        calls.extend(some(r, shapes, 1));
    }
    calls.push(Call::Lend(0));
    calls
}

/// A served count near its end, and serves of that job.
fn last_serves(r: &mut Random) -> Vec<Call> {
    let s = slot(r);
    let mut calls = vec![Call::Change(Change::Served(s, u32::MAX - r.below(3) as u32))];
    for _ in 0..2 + r.below(3) {
        calls.push(Call::Serve(Handle::InSlot(s, 0), word(r)));
        calls.push(Call::Read(Handle::InSlot(s, 0)));
    }
    calls
}

/// One job loses and finds places, and serves between.
fn losses(r: &mut Random) -> Vec<Call> {
    let handle = Handle::InSlot(slot(r), 0);
    let mut calls = Vec::new();
    for _ in 0..4 + r.below(12) {
        let place = place(r);
        calls.push(match r.below(4) {
            0 => Call::Serve(handle, word(r)),
            1 => Call::Find(handle, place),
            _ => Call::Lose(handle, place),
        });
    }
    calls
}

/// Calls that belong together.
fn episode(r: &mut Random, shapes: &[Shape]) -> Vec<Call> {
    match r.below(40) {
        0..=4 => spoilt(r, shapes),
        5 => last_handles(r, shapes),
        6 => last_serves(r),
        7 => (0..9).map(|_| open(r, shapes)).collect(),
        8 => (0..4).map(|s| Call::Close(Handle::InSlot(s + r.below(5), 0))).collect(),
        9 | 10 => vec![Call::Save],
        11 => vec![Call::Lend(r.below(6))],
        12 if r.one_in(2) => vec![Call::Fresh],
        13..=15 => losses(r),
        _ => some(r, shapes, 1),
    }
}

/// A few shapes, mostly small ones, for all jobs of a history.
fn shapes(r: &mut Random) -> Vec<Shape> {
    let small = |r: &mut Random| good_shape(r, 4, 4);
    let mut shapes = vec![(2, 3, 1), small(r), small(r)];
    if r.one_in(12) {
        shapes.push(good_shape(r, 15, 15));
    }
    shapes
}

pub fn history(r: &mut Random) -> History {
    let shapes = shapes(r);
    let length = if r.one_in(20) { 400 } else { 10 + r.below(90) };
    let mut calls: Vec<Call> = (0..r.below(6)).map(|_| open(r, &shapes)).collect();
    while calls.len() < length {
        calls.extend(episode(r, &shapes));
    }
    History(calls)
}
