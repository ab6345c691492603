//! Catalogues to begin with and calls on them: random ones, and every short list of calls on two names.

use crate::catalogues::{Call, Catalogues, Damage, Expected, Name};
use crate::library::Shape;
use crate::random::{bad_shape, good_shape, wide, Random};
use crate::second::{self, Catalogue};

fn name(r: &mut Random) -> Vec<u8> {
    let letters = r.pick(&[&b"ab"[..], b"a-9", b"abcdefghijklmnopqrstuvwxyz0123456789-"]);
    let size = r.pick(&[1, 1, 2, 3, 4, 16]);
    (0..size).map(|_| r.pick(letters)).collect()
}

/// Names that are none, or that are names and look odd.
fn odd_name(r: &mut Random) -> Vec<u8> {
    match r.below(6) {
        0 => Vec::new(),
        1 => vec![b'a'; 17],
        2 => b"Rack".to_vec(),
        3 => b"a\tb".to_vec(),
        4 => vec![r.byte()],
        _ => r.pick(&[&b"-"[..], b"gone", b"shapes"]).to_vec(),
    }
}

/// A revision or a floor, near its end or not.
fn revision(r: &mut Random, high: bool) -> u64 {
    let any = 1 + r.below(65535) as u64;
    if high { r.pick(&[9999, 65533, 65534, 65535, any]) } else { r.pick(&[1, 1, 2, 8, 9, 10, 98, 99, 999, 9999]) }
}

/// A line, gone one time in three where lines may be.
fn line(r: &mut Random, version: u64, high: bool) -> second::Line {
    let gone = version == 2 && r.one_in(3);
    let shape = wide(good_shape(r, 15, 12));
    (revision(r, high), (!gone).then_some(shape))
}

/// How many bytes a line of a name takes.
fn line_size(name: &[u8], line: second::Line) -> usize {
    let one = Catalogue { version: 1, floor: 0, lines: [(name.to_vec(), line)].into() };
    second::catalogue_text(&one).len() - b"shapes\t1\n".len()
}

/// A catalogue with no names, and the size of its text.
fn no_names(version: u64, floor: u64) -> (Catalogue, usize) {
    let none = Catalogue { version, floor, lines: second::Lines::new() };
    let size = second::catalogue_text(&none).len();
    (none, size)
}

/// A good catalogue of at most so many bytes.
fn catalogue(r: &mut Random, most: usize) -> Catalogue {
    let version = 1 + r.below(2) as u64;
    let high = r.one_in(3);
    let floor = if version == 1 || r.one_in(2) { 0 } else { revision(r, high) };
    let (mut all, mut size) = no_names(version, floor);
    for _ in 0..r.pick(&[0, 1, 3, 10, 400]) {
        let (new, line) = (name(r), line(r, version, high));
        size += line_size(&new, line);
        if size > most {
            break;
        }
        all.lines.insert(new, line);
    }
    all
}

/// One of exactly so many bytes, or a few less: lines of all lengths, then one or two that fit.
fn full_catalogue(r: &mut Random, wanted: usize) -> Catalogue {
    let version = 1 + r.below(2) as u64;
    let (mut all, size) = no_names(version, 0);
    let mut left = wanted - size;
    for _ in 0..1000 {
        let length = if left > 62 { r.pick(&[6, 10, 16]) } else { (if left > 31 { left / 2 } else { left }).saturating_sub(9).clamp(1, 16) };
        let new: Vec<u8> = (0..length).map(|_| r.pick(b"abcdefghijklmnopqrstuvwxyz0123456789-")).collect();
        let line = if left > 62 { line(r, version, length == 6) } else { (r.pick(&[1, 9, 99, 999, 9999]), Some((2, 3, 1))) };
        let size = line_size(&new, line);
        if size <= left && !all.lines.contains_key(&new) {
            all.lines.insert(new, line);
            left -= size;
        }
        if left < 10 {
            break;
        }
    }
    all
}

/// First lines that are none, or that make another text of the text.
const FIRST_LINES: [&str; 20] = [
    "shapes\t1\n", "shapes\t2\t0\n", "shapes\t2\t65535\n", "shapes\t2\t65536\n", "shapes\t2\n", "shapes\t2\t\n", "shapes\t2\t00\n", "shapes\t2\t01\n",
    "shapes\t2\t0\t0\n", "shapes\t1\t0\n", "shapes\t3\t0\n", "shapes\t0\n", "shapes\t02\t0\n", "shapes\t2\t-1\n", "shapes\t2\t0\r\n", "shapes 2 0\n",
    "Shapes\t2\t0\n", "shapes\t2\t18446744073709551616\n", "shapes\t2\t65537\n", "shapes\t2\tgone\n",
];

/// What may stand after a line's name, and what may not.
const RESTS: [&str; 18] = [
    "\t1\tgone\n", "\t65535\tgone\n", "\t7\tgone\n", "\t0\tgone\n", "\t65536\tgone\n", "\t01\tgone\n", "\t1\tGone\n", "\t1\tgon\n", "\t1\tgones\n",
    "\t1\tgone\t\n",
    "\t1\tgone\t2\t3\t1\n", "\tgone\n", "\tgone\t1\n", "\t65535\t3\t6\t4\n", "\t1\t2\t3\n", "\t1\t0\t0\t0\n",
    "\t1\t0\t3\t1\n", "\t1\t2\t3\tgone\n",
];

fn damage(r: &mut Random) -> Damage {
    let at = r.below(1 << 20);
    match r.below(14) {
        0 => Damage::Byte(at, r.byte()),
        1 => Damage::Byte(at, r.pick(b"\t\n0a -")),
        2 => Damage::Cut(at),
        3 => Damage::Insert(at, r.pick(b"\t\n0a -")),
        4 => Damage::Truncate(at),
        5 => Damage::Append(b"zzzzzzzzzzzzzzzz\t1\t2\t3\t1".to_vec()),
        6 => Damage::Swap(at, r.below(1 << 20)),
        7 => Damage::Twice(at),
        8..=10 => Damage::FirstLine(r.pick(&FIRST_LINES).as_bytes().to_vec()),
        _ => Damage::Rest(at, r.pick(&RESTS).as_bytes().to_vec()),
    }
}

fn call_name(r: &mut Random) -> Name {
    match r.below(12) {
        0 => Name::Bytes(odd_name(r)),
        1..=3 => Name::Bytes(name(r)),
        4..=6 => Name::Listed(r.below(1 << 20)),
        _ => Name::OfLine(r.below(1 << 20)),
    }
}

fn expected(r: &mut Random) -> Expected {
    match r.below(12) {
        0 | 1 => Expected::OnLine(0),
        2 => Expected::OnLine(r.pick(&[1, 65536, usize::MAX])),
        3 => Expected::Number(r.pick(&[0, 0, 1, 65535, 65536, usize::MAX])),
        _ => Expected::Right,
    }
}

fn call(r: &mut Random) -> Call {
    match r.below(30) {
        0..=9 => {
            let shape = if r.one_in(8) { bad_shape(r, usize::MAX) } else { good_shape(r, 15, 12) };
            Call::Put(shape, call_name(r), expected(r))
        }
        10..=17 => Call::Remove(call_name(r), expected(r)),
        18..=21 => Call::Compact,
        22..=24 => Call::Lookup(call_name(r)),
        25 => Call::Save,
        26 | 27 => Call::Lend(r.below(3)),
        28 => Call::Damage(damage(r)),
        _ => Call::Room(r.pick(&[0, 0, 1, 2, 3, 10, 30, 5000, -1])),
    }
}

/// A text, damaged or not, near its longest or not, in a buffer of any length, and calls.
pub fn history(r: &mut Random) -> Catalogues {
    let all = match r.below(8) {
        0 | 1 => {
            let wanted = r.pick(&[4096, 4096, 4096, 4095, 4094, 4093, 4090]);
            full_catalogue(r, wanted)
        }
        2 => catalogue(r, 4096),
        3 => catalogue(r, 500),
        _ => catalogue(r, 60),
    };
    let mut text = second::catalogue_text(&all);
    let size = text.len();
    let room = r.pick(&[0, 1, 2, 3, 5, 20, 40, 4096, 5000]);
    text.extend(r.bytes(room));
    let mut calls = vec![Call::Save];
    if r.one_in(6) {
        calls.push(Call::Damage(damage(r)));
    }
    for _ in 0..r.pick(&[3, 8, 20]) {
        calls.push(call(r));
        if matches!(calls.last(), Some(Call::Damage(_) | Call::Room(-1))) && !r.one_in(4) {
            calls.extend([call(r), call(r), Call::Lend(0)]);
        }
    }
    let with_size = |r: &mut Random, call| (call, if r.one_in(16) { r.pick(&[1, -1, -2, 4096, isize::MAX / 2]) } else { 0 });
    Catalogues { buffer: text, size, calls: calls.into_iter().map(|call| with_size(r, call)).collect() }
}

/// What every short list of calls begins with.
const STARTS: [&str; 5] = [
    "shapes\t1\n", "shapes\t2\t65533\n", "shapes\t1\na\t65533\t2\t3\t1\n", "shapes\t2\t9\na\t1\t2\t3\t1\nb\t2\tgone\n",
    "shapes\t1\na\t9\t4\t8\t2\nb\t1\t2\t3\t1\n",
];

/// How many calls a short list has.
const SHORT: u32 = 5;

/// A list of five calls out of six on two names, on one of these texts; every such list has an index.
pub fn short_history(index: u64) -> Option<Catalogues> {
    let named = |name: &str| Name::Bytes(name.into());
    let put = |shape: Shape, name: &str| Call::Put(shape, named(name), Expected::Right);
    let remove = |name: &str| Call::Remove(named(name), Expected::Right);
    let choices = [put((2, 3, 1), "a"), put((4, 8, 2), "a"), put((2, 3, 1), "b"), remove("a"), remove("b"), Call::Compact];
    let count = choices.len() as u64;
    let start = STARTS.get((index / count.pow(SHORT)) as usize)?;
    let calls = (0..SHORT).map(|i| (choices[(index / count.pow(i) % count) as usize].clone(), 0)).collect();
    Some(Catalogues { buffer: [start.as_bytes(), &[0xEE; 40]].concat(), size: start.len(), calls })
}
