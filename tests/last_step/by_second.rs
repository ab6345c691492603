//! The calls by the second program.

use crate::library::{Mended, Shape};
use crate::second::{self, Checked, Rebuilt};
use crate::wide;

pub struct Second {
    field: wide::Field,
}

impl Second {
    pub fn new() -> Second {
        Second { field: wide::Field::new() }
    }
}

fn wide_shape((m, w, c): Shape) -> wide::Shape {
    wide::Shape { m, w, c }
}

fn long((m, w, c): Shape) -> (u64, u64, u64) {
    (m as u64, w as u64, c as u64)
}

/// A call on a good shape of the sixteen-bit edition; on any other its refusal.
fn if_good(s: Shape, call: impl FnOnce(wide::Shape) -> Mended) -> Mended {
    match wide::refusal(s.0, s.1, s.2) {
        0 => call(wide_shape(s)),
        number => (number, 0),
    }
}

impl crate::Calls for Second {
    type Desk = second::Desk;
    type Gather = second::Gather;

    fn describe(&self, s: Shape) -> [u64; 4] {
        let (m, w, c) = long(s);
        second::describe(m, w, c).map_or_else(|number| [number.into(), 0, 0, 0], |(n, k, sure)| [0, n, k, sure])
    }
    fn check_marks(&self, s: Shape, marks: &mut [u8]) -> u8 {
        let (m, w, c) = long(s);
        second::check_marks(m, w, c, marks)
    }
    fn judge(&self, s: Shape, marks: &[u8]) -> u8 {
        let (m, w, c) = long(s);
        second::judge(m, w, c, marks)
    }
    fn profile(&self, s: Shape, marks: &[u8]) -> Result<Vec<u8>, u8> {
        let (m, w, c) = long(s);
        second::profile(m, w, c, marks)
    }
    fn extract(&self, s: Shape, word: &[u8], data: &mut [u8]) -> u8 {
        let (m, w, c) = long(s);
        second::extract(m, w, c, word, data)
    }
    fn encode(&self, s: Shape, data: &[u8], word: &mut [u8]) -> u8 {
        let (m, w, c) = long(s);
        second::encode(m, w, c, data, word)
    }
    fn check(&self, s: Shape, word: &[u8]) -> Mended {
        let (m, w, c) = long(s);
        match second::check(m, w, c, word) {
            Ok(Checked::Yes) => (0, 0),
            Ok(Checked::No(group)) => (9, group),
            Err(number) => (number, 0),
        }
    }
    fn repair(&self, s: Shape, g: usize, word: &mut [u8], marks: &mut [u8]) -> Mended {
        let (m, w, c) = long(s);
        second::repair(m, w, c, g as u64, word, marks)
    }
    fn recover(&self, s: Shape, word: &mut [u8], marks: &mut [u8]) -> Mended {
        let (m, w, c) = long(s);
        second::recover(m, w, c, word, marks)
    }
    fn edit(&self, s: Shape, word: &mut [u8], number: usize, byte: u8) -> Mended {
        let (m, w, c) = long(s);
        second::edit(m, w, c, word, number as u64, byte)
    }

    fn fresh(&self) -> second::Desk {
        second::fresh()
    }
    fn open(&self, desk: &mut second::Desk, s: Shape, marks: &[u8]) -> Result<u64, u8> {
        let (m, w, c) = long(s);
        second::open(desk, m, w, c, marks)
    }
    fn serve(&self, desk: &mut second::Desk, handle: u64, word: &mut [u8]) -> Mended {
        second::serve(desk, handle, word)
    }
    fn read(&self, desk: &second::Desk, handle: u64) -> Result<u64, u8> {
        second::read(desk, handle)
    }
    fn close(&self, desk: &mut second::Desk, handle: u64) -> u8 {
        second::close(desk, handle)
    }
    fn lose(&self, desk: &mut second::Desk, handle: u64, place: usize) -> u8 {
        second::lose(desk, handle, place as u64)
    }
    fn find(&self, desk: &mut second::Desk, handle: u64, place: usize) -> u8 {
        second::find(desk, handle, place as u64)
    }
    fn desk_fields(&self, desk: &second::Desk) -> Vec<u64> {
        let mut all = vec![desk.t];
        for job in &desk.jobs {
            all.extend([job.taken, job.m, job.w, job.c, job.excess, job.served, job.handle]);
            all.extend(job.marks.iter().map(|&mark| u64::from(mark)));
            all.extend(job.lost);
        }
        all
    }

    fn begin(&self, s: Shape) -> (second::Gather, u8) {
        let (m, w, c) = long(s);
        let mut gather = second::Gather { m: 0, w: 0, c: 0, finished: 0, bytes: [0; 240], marks: [0; 240] };
        let number = second::begin(&mut gather, m, w, c);
        (gather, number)
    }
    fn take(&self, gather: &mut second::Gather, first: usize, bytes: &[u8]) -> u8 {
        second::take(gather, first as u64, bytes)
    }
    fn finish(&self, gather: &mut second::Gather, word: &mut [u8]) -> Mended {
        second::finish(gather, word)
    }
    fn gather_fields(&self, g: &second::Gather) -> Vec<u64> {
        [g.m, g.w, g.c, g.finished].into_iter().chain(g.bytes.iter().chain(&g.marks).map(|&byte| byte.into())).collect()
    }

    fn lookup(&self, text: &[u8], size: usize, name: &[u8]) -> Result<(u64, u64, u64, u64), u8> {
        second::lookup(text, size, name)
    }
    fn put(&self, s: Shape, name: &[u8], expected: usize, text: &mut [u8], size: usize) -> Result<(usize, u64), u8> {
        second::put(long(s), name, expected as u64, text, size)
    }
    fn remove(&self, name: &[u8], expected: usize, text: &mut [u8], size: usize) -> Result<(usize, u64), u8> {
        second::remove(name, expected as u64, text, size)
    }
    fn compact(&self, text: &mut [u8], size: usize) -> Result<usize, u8> {
        second::compact(text, size)
    }

    fn wide_describe(&self, (m, w, c): Shape) -> [u64; 4] {
        match wide::refusal(m, w, c) {
            0 => [0, m * w, m * (w - c) - 2, if w == c + 2 { 2 * c + 2 } else { c + 2 }].map(|figure| figure as u64),
            number => [number.into(), 0, 0, 0],
        }
    }
    fn wide_check_marks(&self, (m, w, c): Shape, marks: &mut [u8]) -> u8 {
        wide::check_marks(m, w, c, marks)
    }
    fn wide_judge(&self, s: Shape, marks: &[u8]) -> u8 {
        if_good(s, |s| match wide::recover(&self.field, s, &vec![0; marks.len()], marks).0 {
            8 => (8, 0),
            _ => (0, 0),
        })
        .0
    }
    fn wide_extract(&self, s: Shape, word: &[u16], data: &mut [u16]) -> u8 {
        if_good(s, |s| {
            let kept = (0..word.len()).filter(|&p| !wide::is_check(s, p));
            data.iter_mut().zip(kept).for_each(|(symbol, p)| *symbol = word[p]);
            (0, 0)
        })
        .0
    }
    fn wide_encode(&self, s: Shape, data: &[u16], word: &mut [u16]) -> u8 {
        if_good(s, |s| {
            if s.c == 4 {
                return (29, 0);
            }
            word.copy_from_slice(&wide::encode(&self.field, s, data));
            (0, 0)
        })
        .0
    }
    fn wide_check(&self, s: Shape, word: &[u16]) -> Mended {
        if_good(s, |s| {
            let (number, group, _) = wide::recover(&self.field, s, word, &vec![0; word.len()]);
            (number, group.into())
        })
    }
    fn wide_repair(&self, s: Shape, g: usize, word: &mut [u16], marks: &mut [u8]) -> Mended {
        if_good(s, |s| {
            if g >= s.m {
                return (7, 0);
            }
            let (number, filled) = wide::repair(&self.field, s, g, word, marks);
            if number == 0 {
                word.copy_from_slice(&filled);
                marks[g * s.w..(g + 1) * s.w].fill(0);
            }
            (number, if number == 9 { g as u64 } else { 0 })
        })
    }
    fn wide_recover(&self, s: Shape, word: &mut [u16], marks: &mut [u8]) -> Mended {
        if_good(s, |s| {
            let (number, group, filled) = wide::recover(&self.field, s, word, marks);
            if number == 0 {
                word.copy_from_slice(&filled);
                marks.fill(0);
            }
            (number, group.into())
        })
    }
    fn rebuild(&self, s: Shape, length: usize, blocks: &mut [u8], marks: &mut [u8]) -> Rebuilt {
        let (m, w, c) = long(s);
        second::rebuild(m, w, c, length as u64, blocks, marks)
    }
}
