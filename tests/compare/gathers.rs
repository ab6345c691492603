//! Gathers: a word cut at random and brought in a random order, with overlaps, stretches beyond the end, finishes on the way and records changed
//! by other hands, compared after every call; and a gather without refused stretches beside Recover.

use crate::library::{self, Shape};
use crate::random::{bad_shape, codeword, damaged, figures, good_shape, marks, wide, Random};
use crate::second;
use crate::shrink::{row, shorter, Case};

/// A change of the record by other hands.
#[derive(Clone, Copy, Debug, PartialEq)]
pub enum Change {
    Shape([u8; 3]),
    Finished(u8),
    Mark(usize, u8),
    Byte(usize, u8),
}

#[derive(Clone, Debug, PartialEq)]
pub enum Call {
    Begin(Shape),
    Take(usize, Vec<u8>),
    /// With a word of so many bytes.
    Finish(usize),
    Change(Change),
}

/// Calls on a record that holds anything.
#[derive(Clone)]
pub struct Gathering(pub Vec<Call>);

/// The word cut into stretches of what is present, in a random order, some empty ones among them.
fn cut(r: &mut Random, word: &[u8], marks: &[u8]) -> Vec<Call> {
    let mut calls = Vec::new();
    let longest = 1 + r.below(word.len());
    let mut p = 0;
    while p < word.len() {
        let end = (p + 1 + r.below(longest)).min(word.len());
        let end = (p..end).find(|&q| marks[q] == 1).unwrap_or(end);
        calls.push(Call::Take(p, word[p..end].to_vec()));
        p = if end == p { p + 1 } else { end };
    }
    for i in (1..calls.len()).rev() {
        let j = r.below(i + 1);
        calls.swap(i, j);
    }
    calls
}

fn change(r: &mut Random, n: usize) -> Change {
    match r.below(6) {
        0 => Change::Shape([r.below(17) as u8, r.below(18) as u8, r.below(6) as u8]),
        1 => Change::Finished(r.pick(&[0, 1, 2, 255])),
        2 | 3 => Change::Mark(r.below(n.max(1)), r.pick(&[0, 1, 2, 255])),
        4 => Change::Mark(r.below(240), r.byte()),
        _ => Change::Byte(r.below(240), r.byte()),
    }
}

/// A call that is likely refused, or changes the record, or ends the gather early.
fn odd_call(r: &mut Random, s: Shape, n: usize) -> Call {
    match r.below(8) {
        0 => Call::Begin(if r.one_in(2) { bad_shape(r, usize::MAX) } else { s }),
        1 => Call::Take(r.pick(&[n, n + 1, n - 1, usize::MAX, usize::MAX - 2, 1 << 32]), vec![7; r.below(4)]),
        2 => Call::Take(r.below(n), vec![9; r.below(n + 2)]),
        3 => Call::Take(0, vec![3; r.pick(&[n, n + 1, 240, 300])]),
        4 => Call::Finish(r.pick(&[0, n - 1, n + 1, 240])),
        5 if r.one_in(3) => Call::Finish(n),
        6 => Call::Take(r.below(n + 1), Vec::new()),
        _ => Call::Change(change(r, n)),
    }
}

/// Both programs' records, what was done so far, and the numbers that came.
struct Records {
    ours: library::Gather,
    theirs: second::Gather,
    log: Vec<String>,
    numbers: Vec<u8>,
}

/// The record of the second program as the header lays it out.
fn record(g: &second::Gather) -> library::Gather {
    library::Gather { m: g.m as u8, w: g.w as u8, c: g.c as u8, finished: g.finished as u8, bytes: g.bytes, marks: g.marks }
}

fn gather_of(g: &library::Gather) -> second::Gather {
    second::Gather { m: g.m.into(), w: g.w.into(), c: g.c.into(), finished: g.finished.into(), bytes: g.bytes, marks: g.marks }
}

impl Records {
    fn new() -> Records {
        let ours = library::Gather { m: 165, w: 165, c: 165, finished: 165, bytes: [165; 240], marks: [165; 240] };
        Records { ours, theirs: gather_of(&ours), log: Vec::new(), numbers: Vec::new() }
    }

    /// The numbers, groups and words that a call gave to both.
    fn answers(&mut self, call: &Call) -> ((u8, u64, Vec<u8>), (u8, u64, Vec<u8>)) {
        match call {
            Call::Begin(s) => {
                let (m, w, c) = wide(*s);
                ((library::begin(&mut self.ours, *s), 0, Vec::new()), (second::begin(&mut self.theirs, m, w, c), 0, Vec::new()))
            }
            Call::Take(first, bytes) => {
                let theirs = second::take(&mut self.theirs, *first as u64, bytes);
                ((library::take(&mut self.ours, *first, bytes), 0, Vec::new()), (theirs, 0, Vec::new()))
            }
            Call::Finish(size) => {
                let (mut x, mut y) = (vec![0xA5; *size], vec![0xA5; *size]);
                let (ours, theirs) = (library::finish(&mut self.ours, &mut x), second::finish(&mut self.theirs, &mut y));
                ((ours.0, ours.1, x), (theirs.0, theirs.1, y))
            }
            Call::Change(change) => {
                match *change {
                    Change::Shape([m, w, c]) => (self.ours.m, self.ours.w, self.ours.c) = (m, w, c),
                    Change::Finished(byte) => self.ours.finished = byte,
                    Change::Mark(p, mark) => self.ours.marks[p] = mark,
                    Change::Byte(p, byte) => self.ours.bytes[p] = byte,
                }
                self.theirs = gather_of(&self.ours);
                ((0, 0, Vec::new()), (0, 0, Vec::new()))
            }
        }
    }

    fn step(&mut self, call: &Call) -> Result<(), String> {
        let (ours, theirs) = self.answers(call);
        self.log.push(format!("{call:?}: {} {} {}", ours.0, ours.1, row(&ours.2)));
        if ours != theirs {
            return Err(format!("{call:?}\n  library        {ours:?}\n  second program {theirs:?}"));
        }
        if self.ours != record(&self.theirs) {
            return Err(format!("{call:?} leaves\n  library        {:?}\n  second program {:?}", self.ours, self.theirs));
        }
        if !matches!(call, Call::Change(_)) {
            self.numbers.push(ours.0);
        }
        Ok(())
    }
}

/// A list that begins, takes without a refusal and finishes gives what the library's own Recover gives for what came.
fn beside_recover(calls: &[Call], numbers: &[u8]) -> Result<(), String> {
    let (Some(Call::Begin(s)), Some(Call::Finish(size))) = (calls.first(), calls.last()) else { return Ok(()) };
    let takes = &calls[1..calls.len() - 1];
    let plain = takes.iter().all(|call| matches!(call, Call::Take(..))) && numbers[..numbers.len() - 1].iter().all(|&number| number == 0);
    let Some((n, _)) = figures(*s).filter(|&(n, _)| plain && *size == n) else { return Ok(()) };
    let (mut word, mut lost) = (vec![0x77; n], vec![1; n]);
    for call in takes {
        if let Call::Take(first, bytes) = call {
            word[*first..first + bytes.len()].copy_from_slice(bytes);
            lost[*first..first + bytes.len()].fill(0);
        }
    }
    let mended = library::recover(*s, &mut word, &mut lost);
    let mut records = Records::new();
    for call in &calls[..calls.len() - 1] {
        records.step(call)?;
    }
    let mut gathered = vec![0xA5; n];
    let finished = library::finish(&mut records.ours, &mut gathered);
    if finished != mended || (mended.0 == 0 && gathered != word) {
        return Err(format!("the finish gives {finished:?} {}\n  Recover gives {mended:?} {}", row(&gathered), row(&word)));
    }
    Ok(())
}

fn play(gathering: &Gathering) -> (Records, Result<(), String>) {
    let mut records = Records::new();
    let mut end = Ok(());
    for call in &gathering.0 {
        if end.is_ok() {
            end = records.step(call);
        }
    }
    if end.is_ok() && !records.numbers.is_empty() {
        end = beside_recover(&gathering.0, &records.numbers);
    }
    (records, end)
}

impl Case for Gathering {
    fn random(r: &mut Random) -> Gathering {
        let s = if r.one_in(20) { (15, 16, 4) } else { good_shape(r, 8, 9) };
        let (n, k) = figures(s).unwrap_or((1, 1));
        let more = r.below(4);
        let lost = marks(r, s, more);
        let data = r.bytes(k);
        let mut word = damaged(r, &codeword(s, &data), &lost);
        if r.one_in(4) {
            let p = r.below(n);
            word[p] ^= 1 + r.byte() % 255;
        }
        let mut calls = vec![Call::Begin(s)];
        calls.extend(cut(r, &word, &lost));
        calls.push(Call::Finish(n));
        if r.one_in(2) {
            for _ in 0..1 + r.below(5) {
                let at = r.below(calls.len() + 1);
                let call = odd_call(r, s, n);
                calls.insert(at, call);
            }
        }
        Gathering(calls)
    }

    fn compare(&self) -> Result<Vec<u8>, String> {
        let (records, end) = play(self);
        end.map(|()| records.numbers)
    }

    fn smaller(&self) -> Box<dyn Iterator<Item = Gathering> + '_> {
        Box::new(shorter(&self.0).map(Gathering))
    }

    fn show(&self) -> String {
        let (records, _) = play(self);
        let lines: Vec<String> = records.log.iter().enumerate().map(|(i, said)| format!("{}. {said}", i + 1)).collect();
        format!("on a record of bytes 165:\n{}", lines.join("\n"))
    }
}
