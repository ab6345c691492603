//! Catalogues: lists of calls on a text in a buffer, with damage, saved copies and buffers of other lengths between. Answers and every byte of the
//! buffer are compared after each call, and what holds over a whole list of calls is asked of the library's own texts.

use crate::library::{self, Shape};
use crate::listed::{Listed, Situation};
use crate::random::{wide, Random};
use crate::second;
use crate::shrink::{shorter, Case};

/// A name: these bytes; or that of a line of the text as it is then, or of one that has had a line so far, counted round.
#[derive(Clone, Debug, PartialEq)]
pub enum Name {
    Bytes(Vec<u8>),
    OfLine(usize),
    Listed(usize),
}

/// The expected revision: the right one, 0 for a name that is gone or not there; so much more than the one on the name's line; or a number.
#[derive(Clone, Copy, Debug, PartialEq)]
pub enum Expected {
    Right,
    OnLine(usize),
    Number(usize),
}

/// What other hands do to a text.
#[derive(Clone, Debug, PartialEq)]
pub enum Damage {
    Byte(usize, u8),
    Insert(usize, u8),
    Cut(usize),
    Truncate(usize),
    Append(Vec<u8>),
    Swap(usize, usize),
    Twice(usize),
    FirstLine(Vec<u8>),
    /// What stands after a line's name.
    Rest(usize, Vec<u8>),
}

#[derive(Clone, Debug, PartialEq)]
pub enum Call {
    Lookup(Name),
    Put(Shape, Name, Expected),
    Remove(Name, Expected),
    Compact,
    Save,
    /// The copy that was saved so many before the last one.
    Lend(usize),
    Damage(Damage),
    /// A buffer with so many bytes more than the text.
    Room(isize),
}

/// The buffer at first and the text's size; then each call, with what the size given is more than the text's.
#[derive(Clone)]
pub struct Catalogues {
    pub buffer: Vec<u8>,
    pub size: usize,
    pub calls: Vec<(Call, isize)>,
}

/// Both programs' buffers, the size, what the library's texts have said, copies of it all, what was done, and the numbers that came.
#[derive(Clone)]
struct Texts {
    ours: Vec<u8>,
    theirs: Vec<u8>,
    size: usize,
    listed: Listed,
    saved: Vec<(Vec<u8>, usize, Listed)>,
    log: Vec<String>,
    numbers: Vec<u8>,
}

/// What a call answers: a refusal, or the figures; of a change the new size first.
pub type Outcome = Result<Vec<u64>, u8>;

impl Damage {
    fn make(&self, text: &mut Vec<u8>) {
        let mut lines: Vec<Vec<u8>> = text.split_inclusive(|&byte| byte == b'\n').map(<[u8]>::to_vec).collect();
        let (size, count) = (text.len().max(1), lines.len().max(1));
        match self {
            _ if text.is_empty() => (),
            Damage::Byte(at, byte) => text[at % size] = *byte,
            Damage::Insert(at, byte) => text.insert(at % size, *byte),
            Damage::Cut(at) => drop(text.remove(at % size)),
            Damage::Truncate(at) => text.truncate(at % size),
            Damage::Append(more) => text.extend_from_slice(more),
            Damage::Swap(i, j) => lines.swap(i % count, j % count),
            Damage::Twice(i) => lines.insert(i % count, lines[i % count].clone()),
            Damage::FirstLine(line) => lines[0] = line.clone(),
            Damage::Rest(i, rest) => {
                let name = lines[i % count].split(|&byte| byte == b'\t').next().unwrap_or(b"").to_vec();
                lines[i % count] = [&name[..], rest].concat();
            }
        }
        if matches!(self, Damage::Swap(..) | Damage::Twice(_) | Damage::FirstLine(_) | Damage::Rest(..)) {
            *text = lines.concat();
        }
    }
}

impl Texts {
    fn new(case: &Catalogues) -> Texts {
        let (buffer, size) = (case.buffer.clone(), case.size);
        Texts { ours: buffer.clone(), theirs: buffer, size, listed: Listed::default(), saved: Vec::new(), log: Vec::new(), numbers: Vec::new() }
    }

    fn text(&self) -> &[u8] {
        self.ours.get(..self.size).unwrap_or(&[])
    }

    fn name(&self, name: &Name) -> Vec<u8> {
        match name {
            Name::Bytes(name) => name.clone(),
            Name::OfLine(i) => {
                let lines: Vec<&[u8]> = self.text().split(|&byte| byte == b'\n').skip(1).filter(|line| !line.is_empty()).collect();
                let line = if lines.is_empty() { b"none" } else { lines[i % lines.len()] };
                line.split(|&byte| byte == b'\t').next().unwrap_or(b"").to_vec()
            }
            Name::Listed(i) => self.listed.name(*i).unwrap_or(b"none").to_vec(),
        }
    }

    fn expected(&self, name: &[u8], expected: Expected) -> usize {
        let line = second::catalogue(self.text()).and_then(|list| list.lines.get(name).copied());
        match (expected, line) {
            (Expected::Number(number), _) => number,
            (Expected::Right, Some((_, None))) | (_, None) => 0,
            (Expected::Right, Some((revision, _))) => revision as usize,
            (Expected::OnLine(more), Some((revision, _))) => (revision as usize).wrapping_add(more),
        }
    }

    /// What is no call of the library and gives no number.
    fn by_hand(&mut self, call: &Call) {
        match call {
            Call::Save => self.saved.push((self.ours.clone(), self.size, self.listed.clone())),
            Call::Lend(back) => {
                if let Some((copy, size, listed)) = self.saved.iter().rev().nth(*back).cloned() {
                    (self.ours, self.size, self.listed) = (copy, size, listed);
                }
            }
            Call::Damage(damage) => {
                let (mut text, past) = (self.text().to_vec(), self.ours.get(self.size..).unwrap_or(&[]).to_vec());
                damage.make(&mut text);
                (self.size, self.ours) = (text.len(), [text, past].concat());
            }
            Call::Room(more) => self.ours.resize(self.size.saturating_add_signed(*more), 0xEE),
            _ => unreachable!("a call"),
        }
        self.theirs = self.ours.clone();
        self.log.push(format!("{call:?}: {} bytes of {}, \"{}\"", self.size, self.ours.len(), self.text().escape_ascii()));
    }

    /// One call on both buffers: what it was, the name, and both answers.
    fn call(&mut self, call: &Call, given: usize) -> (String, Vec<u8>, Outcome, Outcome) {
        let name = match call {
            Call::Lookup(name) | Call::Put(_, name, _) | Call::Remove(name, _) => self.name(name),
            _ => Vec::new(),
        };
        let shown = name.escape_ascii().to_string();
        let changed = |answer: Result<(usize, u64), u8>| answer.map(|(size, revision)| vec![size as u64, revision]);
        let found = |answer: Result<second::Named, u8>| answer.map(|(revision, m, w, c)| vec![revision, m, w, c]);
        let length = |answer: Result<usize, u8>| answer.map(|size| vec![size as u64]);
        let (said, a, b) = match *call {
            Call::Lookup(_) => {
                let (a, b) = (library::lookup(&self.ours, given, &name), second::lookup(&self.theirs, given, &name));
                (format!("lookup of \"{shown}\""), found(a), found(b))
            }
            Call::Put(s, _, expected) => {
                let expected = self.expected(&name, expected);
                let a = library::put(s, &name, expected, &mut self.ours, given);
                let b = second::put(wide(s), &name, expected as u64, &mut self.theirs, given);
                (format!("put of {s:?} as \"{shown}\" after {expected}"), changed(a), changed(b))
            }
            Call::Remove(_, expected) => {
                let expected = self.expected(&name, expected);
                let a = library::remove(&name, expected, &mut self.ours, given);
                let b = second::remove(&name, expected as u64, &mut self.theirs, given);
                (format!("remove of \"{shown}\" after {expected}"), changed(a), changed(b))
            }
            _ => {
                let (a, b) = (library::compact(&mut self.ours, given), second::compact(&mut self.theirs, given));
                (String::from("compact"), length(a), length(b))
            }
        };
        (said, name, a, b)
    }

    /// What differs after a call, or what the call should have left alone.
    fn changes(&self, call: &Call, before: &[u8], answer: &Outcome) -> Result<(), String> {
        if let Some(at) = (0..before.len()).find(|&i| self.ours[i] != self.theirs[i]) {
            return Err(format!("byte {at} of the buffer: library {}, second program {}", self.ours[at], self.theirs[at]));
        }
        let size = match (call, answer) {
            (_, Err(_)) | (Call::Lookup(_), _) => 0,
            (_, Ok(figures)) => figures[0] as usize,
        };
        if self.ours[size..] != before[size..] {
            return Err(String::from(if size == 0 { "a call that changes nothing changed the buffer" } else { "a byte past the new text changed" }));
        }
        Ok(())
    }

    /// One call on both texts, and all that it left.
    fn step(&mut self, call: &Call, off: isize) -> Result<(), String> {
        if matches!(call, Call::Save | Call::Lend(_) | Call::Damage(_) | Call::Room(_)) {
            self.by_hand(call);
            return Ok(());
        }
        let given = self.size.wrapping_add_signed(off);
        let before = self.ours.clone();
        let (said, name, answer, theirs) = self.call(call, given);
        let said = if off == 0 { said } else { format!("{said} with the size {given}") };
        if answer != theirs {
            self.log.push(format!("{said}\n  library        {answer:?}\n  second program {theirs:?}"));
            return Err(String::from("the answers differ"));
        }
        self.log.push(format!("{said}: {answer:?}"));
        self.changes(call, &before, &answer)?;
        let lent = before.get(..given).unwrap_or(&[]);
        let left = match (call, &answer) {
            (Call::Lookup(_), _) | (_, Err(_)) => lent,
            (_, Ok(figures)) => {
                self.size = figures[0] as usize;
                &self.ours[..self.size]
            }
        };
        let met = self.listed.after(call, &name, lent, &answer, left, before.len())?;
        self.numbers.push(*answer.as_ref().err().unwrap_or(&0));
        self.numbers.extend(met.iter().map(Situation::code));
        Ok(())
    }
}

/// The numbers that came and what differs, with all that was done before.
fn play(case: &Catalogues) -> (Texts, Result<(), String>) {
    let mut texts = Texts::new(case);
    let mut end = Ok(());
    for (call, off) in &case.calls {
        if end.is_ok() {
            end = texts.step(call, *off);
        }
    }
    (texts, end)
}

/// Calls that say less in place of a call.
fn simpler(call: &Call) -> Vec<Call> {
    let small = (2, 3, 1);
    match call {
        Call::Put(shape, name, expected) => {
            let shapes = [Call::Put(small, name.clone(), *expected), Call::Put((4, 8, 2), name.clone(), *expected)];
            let simple = *shape == small || *shape == (4, 8, 2);
            shapes.into_iter().filter(|_| !simple).chain((*expected != Expected::Right).then(|| Call::Put(*shape, name.clone(), Expected::Right))).collect()
        }
        Call::Remove(name, expected) if *expected != Expected::Right => vec![Call::Remove(name.clone(), Expected::Right)],
        _ => Vec::new(),
    }
}

impl Catalogues {
    /// The text at first without some of its lines, and without some of its bytes if it is short.
    fn shorter_texts(&self) -> impl Iterator<Item = Catalogues> + '_ {
        let text = &self.buffer[..self.size];
        let lines: Vec<&[u8]> = text.split_inclusive(|&byte| byte == b'\n').collect();
        let fewer: Vec<Vec<u8>> = shorter(&lines).map(|lines| lines.concat()).collect();
        let bytes = shorter(&text[..if self.size < 300 { self.size } else { 0 }]);
        fewer.into_iter().chain(bytes).map(|text| {
            let size = text.len();
            Catalogues { buffer: [&text, &self.buffer[self.size..]].concat(), size, calls: self.calls.clone() }
        })
    }
}

impl Case for Catalogues {
    fn random(r: &mut Random) -> Catalogues {
        crate::catalogue_calls::history(r)
    }

    fn compare(&self) -> Result<Vec<u8>, String> {
        let (texts, end) = play(self);
        end.map(|()| texts.numbers)
    }

    fn smaller(&self) -> Box<dyn Iterator<Item = Catalogues> + '_> {
        let fewer = shorter(&self.calls).map(|calls| Catalogues { calls, ..self.clone() });
        let less = shorter(&self.buffer[self.size..]).map(|past| Catalogues { buffer: [&self.buffer[..self.size], &past].concat(), ..self.clone() });
        let simpler = (0..self.calls.len()).flat_map(move |i| {
            let (call, off) = &self.calls[i];
            let exact = (*off != 0).then(|| call.clone()).into_iter().map(|call| (call, 0));
            exact.chain(simpler(call).into_iter().map(|call| (call, *off))).map(move |call| {
                let mut calls = self.calls.clone();
                calls[i] = call;
                Catalogues { calls, ..self.clone() }
            })
        });
        Box::new(fewer.chain(self.shorter_texts()).chain(less.take(20)).chain(simpler))
    }

    fn show(&self) -> String {
        let (texts, _) = play(self);
        let lines: Vec<String> = texts.log.iter().enumerate().map(|(i, said)| format!("{}. {said}", i + 1)).collect();
        let past = self.buffer.len() - self.size;
        format!("on the text \"{}\", {past} bytes past it:\n{}", self.buffer[..self.size].escape_ascii(), lines.join("\n"))
    }
}
