//! Histories: lists of calls on one desk, with saved copies lent again and records changed by other hands, compared after every call.

use crate::library::{self, Shape, DESK_SIZE, JOB_SIZE};
use crate::random::{codeword, damaged, figures, wide, Random};
use crate::second;
use crate::shrink::{row, shorter, zeroed, Case};

/// A handle, named so that it still means something when calls before it are left out.
#[derive(Clone, Copy, Debug, PartialEq)]
pub enum Handle {
    Number(u64),
    /// What stands in that slot, and so much more.
    InSlot(usize, u64),
    /// The one given that many opens ago.
    Given(usize),
}

/// The word lent to a serve, made from a seed for the job that the handle names; seed 0 means the data 0.
#[derive(Clone, Copy, Debug, PartialEq)]
pub enum Word {
    /// A codeword, damaged where the job's marks say.
    Fits(u64),
    /// The same with one byte changed.
    Changed(u64),
    Random(u64),
    /// So many bytes 0.
    Length(usize),
    /// As long as it should be and so many more, or fewer.
    Off(isize),
}

/// A place of the job that the handle names.
#[derive(Clone, Copy, Debug, PartialEq)]
pub enum Place {
    /// One below n+2, by a seed.
    About(usize),
    Number(usize),
}

/// A change of the record by other hands.
#[derive(Clone, Debug, PartialEq)]
pub enum Change {
    T(u64),
    Taken(usize, u8),
    Shape(usize, [u8; 3]),
    Served(usize, u32),
    Handle(usize, u64),
    /// The slot's handle becomes 8(t+d)+s.
    PastT(usize, u64),
    /// The slot gets the job of another slot; whether with a handle of its own slot and that u.
    CopyOf(usize, usize, bool),
    Mark(usize, usize, u8),
    /// The first so many places are lost.
    Lost(usize, usize),
    /// The lost count of a group, and the excess.
    Count(usize, usize, u8),
    Excess(usize, u8),
    /// The figures of a slot with a good shape become those of its marks.
    Worked(usize),
    /// Every field but taken, from a seed.
    Junk(usize, u64),
    Byte(usize, u8),
}

#[derive(Clone, Debug, PartialEq)]
pub enum Call {
    Fresh,
    Open(Shape, Vec<u8>),
    Serve(Handle, Word),
    Read(Handle),
    Close(Handle),
    Lose(Handle, Place),
    Find(Handle, Place),
    /// A copy of the desk is saved.
    Save,
    /// The copy saved that many saves ago is the desk now.
    Lend(usize),
    Change(Change),
}

#[derive(Clone)]
pub struct History(pub Vec<Call>);

/// What a call gave: the number, the handle or the count if one was written, or the group that a 9 carries, and the word lent.
#[derive(PartialEq)]
struct Outcome(u8, Option<u64>, Vec<u8>);

/// What stands where a handle or a count is to be written.
const UNWRITTEN: u32 = 0xA5A5_A5A5;

/// Both programs' desks, the saved copies, the handles given, and what was done so far.
struct Desks {
    ours: library::Desk,
    theirs: second::Desk,
    saved: Vec<(library::Desk, second::Desk)>,
    given: Vec<u64>,
    log: Vec<String>,
    numbers: Vec<u8>,
}

/// The record of the second program's desk as the header lays it out.
fn record(desk: &second::Desk) -> library::Desk {
    let jobs = desk.jobs.map(|job| library::Job {
        taken: job.taken as u8,
        m: job.m as u8,
        w: job.w as u8,
        c: job.c as u8,
        served: job.served as u32,
        handle: job.handle,
        marks: job.marks,
        lost: job.lost.map(|count| count as u8),
        excess: job.excess as u8,
    });
    library::Desk { t: desk.t, jobs }
}

/// The second program's desk with the fields of a record.
fn desk_of(record: &library::Desk) -> second::Desk {
    let jobs = record.jobs.map(|job| second::Job {
        taken: job.taken.into(),
        m: job.m.into(),
        w: job.w.into(),
        c: job.c.into(),
        served: job.served.into(),
        handle: job.handle,
        marks: job.marks,
        lost: job.lost.map(u64::from),
        excess: job.excess.into(),
    });
    second::Desk { t: record.t, jobs }
}

/// Where the first byte differs, by field.
fn place_of(byte: usize) -> String {
    if byte < 8 {
        return String::from("t");
    }
    let (slot, at) = ((byte - 8) / JOB_SIZE, (byte - 8) % JOB_SIZE);
    let field = match at {
        0 => "taken",
        1 => "m",
        2 => "w",
        3 => "c",
        4..=7 => "served",
        8..=15 => "handle",
        16..=255 => return format!("mark {} of slot {slot}", at - 16),
        271 => "excess",
        _ => return format!("lost count {} of slot {slot}", at - 256),
    };
    format!("{field} of slot {slot}")
}

/// t and every slot that is not all 0.
fn show_record(desk: &library::Desk) -> String {
    let mut text = format!("\n  then t is {}", desk.t);
    for (s, job) in desk.jobs.iter().enumerate() {
        let library::Job { taken, m, w, c, served, handle, marks, lost, excess } = job;
        let end = marks.iter().rposition(|&mark| mark != 0).map_or(0, |last| last + 1);
        if (*taken, *m, *w, *c, *served, *handle, end, *lost, *excess) != (0, 0, 0, 0, 0, 0, 0, [0; 15], 0) {
            let marks = if end == 0 { String::from("all 0") } else { format!("{}, then 0", row(&marks[..end])) };
            text += &format!("\n  slot {s}: taken {taken}, m {m}, w {w}, c {c}, served {served}, handle {handle}, marks {marks}");
            text += &format!(", lost {}, excess {excess}", row(lost));
        }
    }
    text
}

impl Desks {
    /// Fresh on a record that holds anything.
    fn new() -> Desks {
        let mut ours = library::Desk::of_bytes([0xA5; DESK_SIZE]);
        library::fresh(&mut ours);
        Desks { ours, theirs: second::fresh(), saved: Vec::new(), given: Vec::new(), log: Vec::new(), numbers: Vec::new() }
    }

    fn handle(&self, handle: Handle) -> u64 {
        match handle {
            Handle::Number(number) => number,
            Handle::InSlot(slot, more) => self.theirs.jobs[slot].handle.wrapping_add(more),
            Handle::Given(back) => self.given.iter().rev().nth(back).copied().unwrap_or(0),
        }
    }

    /// The shape and the marks of the job that a handle names, or of some job.
    fn job(&self, handle: u64) -> (Shape, Vec<u8>) {
        let taken = self.theirs.jobs.iter().find(|job| job.taken == 1 && job.handle == handle);
        let found = taken.map(|job| ((job.m as usize, job.w as usize, job.c as usize), job.marks));
        match found {
            Some((shape, marks)) if figures(shape).is_some() => (shape, marks[..shape.0 * shape.1].to_vec()),
            _ => ((2, 3, 1), vec![0; 6]),
        }
    }

    fn word(&self, handle: u64, word: Word) -> Vec<u8> {
        let (shape, marks) = self.job(handle);
        let (n, k) = figures(shape).expect("a good shape");
        match word {
            Word::Fits(0) => vec![0; n],
            Word::Fits(seed) => {
                let mut r = Random::new(seed);
                let whole = codeword(shape, &r.bytes(k));
                damaged(&mut r, &whole, &marks)
            }
            Word::Changed(seed) => {
                let mut copy = self.word(handle, Word::Fits(seed & !7));
                copy[seed as usize % n] ^= 1 + (seed as u8 >> 1);
                copy
            }
            Word::Random(seed) => Random::new(seed).bytes(n),
            Word::Length(length) => vec![0; length],
            Word::Off(more) => vec![0; n.saturating_add_signed(more)],
        }
    }

    fn open(&mut self, shape: Shape, marks: &[u8]) -> (String, Outcome, Outcome) {
        let (m, w, c) = wide(shape);
        let mut handle = u64::from(UNWRITTEN);
        let number = library::open(&mut self.ours, shape, marks, &mut handle);
        let theirs = second::open(&mut self.theirs, m, w, c, marks);
        if number == 0 {
            self.given.push(handle);
        }
        (format!("open m {m}, w {w}, c {c}, marks {}", row(marks)), Outcome::written(number, handle), Outcome::answered(theirs))
    }

    fn serve(&mut self, handle: Handle, word: Word) -> (String, Outcome, Outcome) {
        let handle = self.handle(handle);
        let lent = self.word(handle, word);
        let (mut x, mut y) = (lent.clone(), lent.clone());
        let a = library::serve(&mut self.ours, handle, &mut x);
        let b = second::serve(&mut self.theirs, handle, &mut y);
        (format!("serve handle {handle}, word {}", row(&lent)), Outcome::served(a, x), Outcome::served(b, y))
    }

    fn read(&mut self, handle: Handle) -> (String, Outcome, Outcome) {
        let handle = self.handle(handle);
        let mut served = UNWRITTEN;
        let number = library::read(&self.ours, handle, &mut served);
        let theirs = second::read(&self.theirs, handle);
        (format!("read handle {handle}"), Outcome::written(number, served.into()), Outcome::answered(theirs))
    }

    fn close(&mut self, handle: Handle) -> (String, Outcome, Outcome) {
        let handle = self.handle(handle);
        let a = library::close(&mut self.ours, handle);
        let b = second::close(&mut self.theirs, handle);
        (format!("close handle {handle}"), Outcome(a, None, Vec::new()), Outcome(b, None, Vec::new()))
    }

    /// The handle, and a place of its job.
    fn place(&self, handle: Handle, place: Place) -> (u64, usize) {
        let handle = self.handle(handle);
        let ((m, w, _), _) = self.job(handle);
        match place {
            Place::About(seed) => (handle, seed % (m * w + 2)),
            Place::Number(number) => (handle, number),
        }
    }

    fn lose(&mut self, handle: Handle, place: Place) -> (String, Outcome, Outcome) {
        let (handle, place) = self.place(handle, place);
        let a = library::lose(&mut self.ours, handle, place);
        let b = second::lose(&mut self.theirs, handle, place as u64);
        (format!("lose handle {handle}, place {place}"), Outcome(a, None, Vec::new()), Outcome(b, None, Vec::new()))
    }

    fn find(&mut self, handle: Handle, place: Place) -> (String, Outcome, Outcome) {
        let (handle, place) = self.place(handle, place);
        let a = library::find(&mut self.ours, handle, place);
        let b = second::find(&mut self.theirs, handle, place as u64);
        (format!("find handle {handle}, place {place}"), Outcome(a, None, Vec::new()), Outcome(b, None, Vec::new()))
    }

    /// Makes both records those of a copy, if there is one.
    fn lend(&mut self, back: usize) {
        if let Some(&(ours, theirs)) = self.saved.iter().rev().nth(back) {
            (self.ours, self.theirs) = (ours, theirs);
        }
    }

    /// What is no call of the library and gives no number.
    fn by_hand(&mut self, call: &Call) {
        match call {
            Call::Fresh => {
                library::fresh(&mut self.ours);
                self.theirs = second::fresh();
            }
            Call::Save => self.saved.push((self.ours, self.theirs)),
            Call::Lend(back) => self.lend(*back),
            Call::Change(change) => {
                change.make(&mut self.ours);
                self.theirs = desk_of(&self.ours);
            }
            _ => unreachable!("a call"),
        }
        let seen = if matches!(call, Call::Change(_)) { show_record(&self.ours) } else { String::new() };
        self.log.push(format!("{call:?}{seen}"));
    }

    /// Where the two records differ.
    fn records(&self) -> Result<(), String> {
        let (ours, theirs) = (self.ours.bytes(), record(&self.theirs).bytes());
        match (0..DESK_SIZE).find(|&i| ours[i] != theirs[i]) {
            None => Ok(()),
            Some(i) => Err(format!("byte {i} of the desk ({}): library {}, second program {}", place_of(i), ours[i], theirs[i])),
        }
    }

    /// One call on both desks, and all that it left.
    fn step(&mut self, call: &Call) -> Result<(), String> {
        let before = self.ours.bytes();
        let (said, ours, theirs) = match call {
            Call::Open(shape, marks) => self.open(*shape, marks),
            Call::Serve(handle, word) => self.serve(*handle, *word),
            Call::Read(handle) => self.read(*handle),
            Call::Close(handle) => self.close(*handle),
            Call::Lose(handle, place) => self.lose(*handle, *place),
            Call::Find(handle, place) => self.find(*handle, *place),
            _ => {
                self.by_hand(call);
                return self.records();
            }
        };
        if ours != theirs {
            self.log.push(format!("{said}\n  library        {}\n  second program {}", ours.show(), theirs.show()));
            return Err(String::from("the answers differ"));
        }
        if ours.0 != 0 && self.ours.bytes() != before {
            self.log.push(said);
            return Err(String::from("a refused call changed the desk"));
        }
        self.log.push(format!("{said}: {}", ours.show()));
        self.numbers.push(ours.0);
        self.records()
    }
}

impl Outcome {
    /// A refused call leaves the figure unwritten.
    fn written(number: u8, figure: u64) -> Outcome {
        let wrote = number == 0 || figure != u64::from(UNWRITTEN);
        Outcome(number, wrote.then_some(figure), Vec::new())
    }

    fn answered(answer: Result<u64, u8>) -> Outcome {
        Outcome(answer.err().unwrap_or(0), answer.ok(), Vec::new())
    }

    /// A 9 comes with a group, and no other number with one but 0.
    fn served((number, group): library::Mended, word: Vec<u8>) -> Outcome {
        Outcome(number, (number == 9 || group != 0).then_some(group), word)
    }

    fn show(&self) -> String {
        let figure = self.1.map_or(String::new(), |figure| format!(", figure {figure}"));
        let word = if self.2.is_empty() { String::new() } else { format!(", word {}", row(&self.2)) };
        format!("{}{figure}{word}", self.0)
    }
}

/// Makes the figures of a job with a good shape those of its marks.
fn work(job: &mut library::Job) {
    let Some((n, _)) = figures((job.m.into(), job.w.into(), job.c.into())) else { return };
    let (lost, excess) = second::worked(job.w.into(), job.c.into(), &job.marks[..n]);
    (job.lost, job.excess) = (lost.map(|count| count as u8), excess as u8);
}

impl Change {
    fn make(&self, desk: &mut library::Desk) {
        match *self {
            Change::T(t) => desk.t = t,
            Change::Taken(s, taken) => desk.jobs[s].taken = taken,
            Change::Shape(s, [m, w, c]) => (desk.jobs[s].m, desk.jobs[s].w, desk.jobs[s].c) = (m, w, c),
            Change::Served(s, served) => desk.jobs[s].served = served,
            Change::Handle(s, handle) => desk.jobs[s].handle = handle,
            Change::PastT(s, d) => desk.jobs[s].handle = desk.t.wrapping_add(d).wrapping_mul(8).wrapping_add(s as u64),
            Change::CopyOf(s, other, own_slot) => {
                desk.jobs[s] = desk.jobs[other];
                if own_slot {
                    desk.jobs[s].handle = desk.jobs[s].handle / 8 * 8 + s as u64;
                }
            }
            Change::Mark(s, p, mark) => desk.jobs[s].marks[p] = mark,
            Change::Lost(s, count) => desk.jobs[s].marks[..count].fill(1),
            Change::Count(s, g, count) => desk.jobs[s].lost[g] = count,
            Change::Excess(s, excess) => desk.jobs[s].excess = excess,
            Change::Worked(s) => work(&mut desk.jobs[s]),
            Change::Junk(s, seed) => {
                let mut r = Random::new(seed);
                let taken = desk.jobs[s].taken;
                let mut bytes = desk.bytes();
                bytes[8 + JOB_SIZE * s..][..JOB_SIZE].fill_with(|| r.byte());
                *desk = library::Desk::of_bytes(bytes);
                desk.jobs[s].taken = taken;
            }
            Change::Byte(i, byte) => {
                let mut bytes = desk.bytes();
                bytes[i] = byte;
                *desk = library::Desk::of_bytes(bytes);
            }
        }
    }
}

/// The numbers that came and what differs, with all that was done before.
fn play(history: &History) -> (Desks, Result<(), String>) {
    let mut desks = Desks::new();
    let mut end = desks.records();
    for call in &history.0 {
        if end.is_ok() {
            end = desks.step(call);
        }
    }
    (desks, end)
}

/// Words with more zeros in place of a word.
fn simpler_words(word: Word) -> Vec<Word> {
    match word {
        Word::Fits(0) | Word::Changed(0..8) => Vec::new(),
        Word::Changed(seed) => vec![Word::Fits(0), Word::Changed(seed % 8)],
        Word::Random(_) => vec![Word::Fits(0), Word::Changed(1)],
        _ => vec![Word::Fits(0)],
    }
}

/// Calls that say less in place of a call.
fn simpler(call: &Call) -> Vec<Call> {
    match call {
        Call::Open(shape, marks) => {
            let present = zeroed(marks).map(|marks| Call::Open(*shape, marks));
            let small = [Call::Open((2, 3, 1), vec![0; 6]), Call::Open((2, 3, 1), vec![1, 1, 1, 0, 0, 0])];
            small.into_iter().filter(|_| marks.len() > 6).chain(present).collect()
        }
        Call::Serve(handle, word) => {
            let words = simpler_words(*word).into_iter().map(|word| Call::Serve(*handle, word));
            [Call::Read(*handle)].into_iter().chain(words).collect()
        }
        Call::Lose(handle, Place::About(seed)) if *seed > 0 => vec![Call::Read(*handle), Call::Lose(*handle, Place::About(0))],
        Call::Find(handle, Place::About(seed)) if *seed > 0 => vec![Call::Read(*handle), Call::Find(*handle, Place::About(0))],
        _ => Vec::new(),
    }
}

impl Case for History {
    fn random(r: &mut Random) -> History {
        crate::calls::history(r)
    }

    fn compare(&self) -> Result<Vec<u8>, String> {
        let (desks, end) = play(self);
        end.map(|()| desks.numbers)
    }

    fn smaller(&self) -> Box<dyn Iterator<Item = History> + '_> {
        let simpler = (0..self.0.len()).flat_map(move |i| {
            simpler(&self.0[i]).into_iter().map(move |call| {
                let mut calls = self.0.clone();
                calls[i] = call;
                History(calls)
            })
        });
        Box::new(shorter(&self.0).map(History).chain(simpler))
    }

    fn show(&self) -> String {
        let (desks, _) = play(self);
        let lines: Vec<String> = desks.log.iter().enumerate().map(|(i, said)| format!("{}. {said}", i + 1)).collect();
        format!("on a fresh desk:\n{}", lines.join("\n"))
    }
}
