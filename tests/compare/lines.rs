//! Random sessions: good lines for the shape in force, and lines of every kind that is refused.

use crate::library::Shape;
use crate::random::{bad_shape, codeword, figures, good_shape, marks, Random};
use crate::sessions::Session;

/// A record with its fields.
fn record(name: &str, fields: &[String]) -> Vec<u8> {
    let mut line = name.as_bytes().to_vec();
    for field in fields {
        line.push(b'\t');
        line.extend(field.as_bytes());
    }
    line
}

fn shape_line(s: Shape) -> Vec<u8> {
    record("shape", &[s.0, s.1, s.2].map(|number| number.to_string()))
}

fn data_line(bytes: &[u8]) -> Vec<u8> {
    record("data", &bytes.iter().map(u8::to_string).collect::<Vec<_>>())
}

/// A word with - in its lost places.
fn word_line(word: &[u8], marks: &[u8]) -> Vec<u8> {
    let field = |(byte, &mark): (&u8, &u8)| if mark == 1 { String::from("-") } else { byte.to_string() };
    record("word", &word.iter().zip(marks).map(field).collect::<Vec<_>>())
}

/// Data of the right count.
fn data(r: &mut Random, s: Shape) -> Vec<u8> {
    let (_, k) = figures(s).expect("a good shape");
    r.bytes(k)
}

/// A word of the right count: a codeword with losses; sometimes with too many, with a byte changed, or of random bytes.
fn word(r: &mut Random, s: Shape) -> Vec<u8> {
    let more = r.pick(&[0, 0, 1, 2, 2, 3, 6]);
    let marks = marks(r, s, more);
    let mut word = codeword(s, &data(r, s));
    match r.below(8) {
        0 => word = r.bytes(word.len()),
        1 => {
            let p = r.below(word.len());
            word[p] ^= 1 + r.below(255) as u8;
        }
        _ => (),
    }
    word_line(&word, &marks)
}

/// A good line of data or a word.
fn good(r: &mut Random, s: Shape) -> Vec<u8> {
    if r.one_in(3) {
        data_line(&data(r, s))
    } else {
        word(r, s)
    }
}

/// Data or a word with some bytes too many or too few, or none.
fn wrong_count(r: &mut Random, s: Shape) -> Vec<u8> {
    let (n, k) = figures(s).expect("a good shape");
    let name = r.pick(&["data", "word"]);
    let right = if name == "data" { k } else { n };
    let count = r.pick(&[0, right + 1, right - 1, right + 5, n, k]);
    record(name, &(0..count).map(|_| r.byte().to_string()).collect::<Vec<_>>())
}

/// Fields that are no number.
#[rustfmt::skip]
const BAD_FIELDS: [&[u8]; 26] = [
    b"", b"00", b"01", b"007", b"0255", b"+1", b"-1", b"-0", b"--", b"256", b"260", b"300", b"999", b"1000", b"4294967296", b" 1", b"1 ",
    b"0x1", b"1.0", b"1e1", b"a", b"\x0012", b"1\x00", b"1\r", b"\xff", b"\xe2\x88\x92",
];

/// A good line of any record with one field made bad, added or left out.
fn bad_field(r: &mut Random, s: Shape) -> Vec<u8> {
    let line = if r.one_in(3) { shape_line(s) } else { good(r, s) };
    let mut fields: Vec<&[u8]> = line.split(|&byte| byte == b'\t').collect();
    let at = 1 + r.below(fields.len() - 1);
    match r.below(8) {
        0 => fields.insert(at, b""),
        1 => fields.push(b""),
        2 => fields[at] = b"-",
        3 => drop(fields.remove(at)),
        4 => fields.insert(at, b"1"),
        _ => fields[at] = r.pick(&BAD_FIELDS),
    }
    fields.join(&b'\t')
}

#[rustfmt::skip]
const NAMES: [&[u8]; 17] = [
    b"", b" ", b"s", b"shap", b"shapes", b"Shape", b"SHAPE", b" shape", b"shape ", b"dat", b"datas", b"Data", b"words", b"wor", b"ok",
    b"refused", b"\xffword",
];

/// A good line with another name.
fn bad_name(r: &mut Random, s: Shape) -> Vec<u8> {
    let line = good(r, s);
    [&r.pick(&NAMES), &line[4..]].concat()
}

/// A line of exactly so many bytes whose fields are all numbers.
fn long(name: &str, length: usize) -> Vec<u8> {
    let mut line = name.as_bytes().to_vec();
    if (length - line.len()) % 2 == 1 {
        line.extend(b"\t10");
    }
    while line.len() < length {
        line.extend(b"\t1");
    }
    line
}

/// A line about as long as lines may be, or far longer.
fn long_line(r: &mut Random) -> Vec<u8> {
    let length = r.pick(&[1023, 1024, 1024, 1025, 1025, 1026, 2048, 4096, 9000]);
    match r.below(5) {
        0 => vec![r.pick(b"x\t\x001"); length],
        1 => long("shape", length),
        2 => long("word", length),
        _ => long("data", length),
    }
}

/// The line with one byte changed, added or left out.
fn touched(r: &mut Random, mut line: Vec<u8>) -> Vec<u8> {
    let byte = r.pick(b"0123456789\t\t-+ \r\x00\xff");
    let at = r.below(line.len());
    match r.below(3) {
        0 => line[at] = byte,
        1 => line.insert(at, byte),
        _ => drop(line.remove(at)),
    }
    line
}

/// A shape, mostly a small one.
fn some_shape(r: &mut Random) -> Shape {
    if r.one_in(30) {
        good_shape(r, 15, 15)
    } else {
        good_shape(r, 4, 5)
    }
}

/// The next line, and the shape in force after it if it is a good line.
fn line(r: &mut Random, s: Shape) -> (Vec<u8>, Shape) {
    let line = match r.below(24) {
        0..=2 => {
            let next = some_shape(r);
            return (shape_line(next), next);
        }
        3 | 4 => shape_line(bad_shape(r, 255)),
        5 | 6 => wrong_count(r, s),
        7 | 8 => bad_field(r, s),
        9 => bad_name(r, s),
        10 if r.one_in(2) => long_line(r),
        11 => {
            let line = good(r, s);
            touched(r, line)
        }
        12 if r.one_in(2) => Vec::new(),
        13 if r.one_in(4) => {
            let length = 1 + r.below(40);
            r.bytes(length).into_iter().filter(|&byte| byte != b'\n').collect()
        }
        _ => good(r, s),
    };
    (line, s)
}

/// A session, mostly begun by a shape.
pub fn session(r: &mut Random) -> Session {
    let mut shape = some_shape(r);
    let mut lines = Vec::new();
    if !r.one_in(4) {
        lines.push(shape_line(shape));
    }
    for _ in 0..r.pick(&[0, 1, 5, 20, 40, 60, 80]) {
        let (next, after) = line(r, shape);
        lines.push(next);
        shape = after;
    }
    if r.one_in(50) {
        lines.clear();
    }
    Session { lines, ended: !r.one_in(4) }
}
