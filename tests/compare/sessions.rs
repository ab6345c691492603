//! Sessions: lines given to the program, run as a process, and to the second program, and the two outputs byte for byte.

use crate::random::Random;
use crate::second;
use crate::shrink::{shorter, Case};
use std::io::Write;
use std::process::{Command, Output, Stdio};

/// The lines, and whether the last one is ended by a line feed.
#[derive(Clone)]
pub struct Session {
    pub lines: Vec<Vec<u8>>,
    pub ended: bool,
}

/// The program, and the seconds after which it counts as hanging.
const PROGRAM: &str = "target/bin/axlebloom";
const LIMIT: &str = "20";

impl Session {
    fn input(&self) -> Vec<u8> {
        let mut input = self.lines.join(&b'\n');
        if self.ended && !self.lines.is_empty() {
            input.push(b'\n');
        }
        input
    }

    /// The same records, all for the shape 2, 3, 1 and with 0 for bytes.
    fn plain(&self) -> Session {
        let plain: [&[u8]; 3] = [b"shape\t2\t3\t1", b"data\t0\t0", b"word\t0\t0\t0\t0\t0\t0"];
        let like = |line: &Vec<u8>| plain.iter().find(|other| line.starts_with(&other[..4])).map_or(line.clone(), |other| other.to_vec());
        Session { lines: self.lines.iter().map(like).collect(), ended: self.ended }
    }

    fn with_line(&self, i: usize, line: Vec<u8>) -> Session {
        let mut lines = self.lines.clone();
        lines[i] = line;
        Session { lines, ended: self.ended }
    }
}

/// Runs the program on an input that is written while its output is read.
fn run(input: Vec<u8>) -> std::io::Result<Output> {
    let mut command = Command::new("timeout");
    command.args([LIMIT, PROGRAM]).stdin(Stdio::piped()).stdout(Stdio::piped()).stderr(Stdio::piped());
    let mut child = command.spawn()?;
    let mut pipe = child.stdin.take().expect("a pipe");
    // a program that ends early shows in its output
    let writer = std::thread::spawn(move || drop(pipe.write_all(&input)));
    let output = child.wait_with_output();
    writer.join().expect("the writing ends");
    output
}

/// Bytes with those that can't be read shown by their numbers.
fn text(bytes: &[u8]) -> String {
    bytes.escape_ascii().to_string()
}

/// The first line that differs.
fn first_difference(ours: &[u8], theirs: &[u8]) -> String {
    let (ours, theirs): (Vec<_>, Vec<_>) = (ours.split(|&b| b == b'\n').collect(), theirs.split(|&b| b == b'\n').collect());
    let at = (0..).find(|&i| ours.get(i) != theirs.get(i)).expect("a difference");
    let show = |line: Option<&&[u8]>| line.map_or(String::from("no line"), |line| format!("\"{}\"", text(line)));
    format!("output line {}\n  program        {}\n  second program {}", at + 1, show(ours.get(at)), show(theirs.get(at)))
}

/// The number of each output line, 0 for one that is no refusal.
fn numbers(output: &[u8]) -> Vec<u8> {
    let number = |line: &[u8]| match line.strip_prefix(b"refused\t") {
        Some(fields) => String::from_utf8_lossy(fields).split('\t').next().and_then(|digits| digits.parse().ok()).unwrap_or(255),
        None => 0,
    };
    let lines = output.strip_suffix(b"\n").map(|lines| lines.split(|&b| b == b'\n').map(number).collect());
    lines.unwrap_or_default()
}

/// The line without some of its fields, then with 0 in place of a longer field.
fn fewer_fields(line: &[u8]) -> Vec<Vec<u8>> {
    let fields: Vec<Vec<u8>> = line.split(|&b| b == b'\t').map(<[u8]>::to_vec).collect();
    let zero = |i: usize| [&fields[..i], &[b"0".to_vec()], &fields[i + 1..]].concat();
    let zeroed = (1..fields.len()).filter(|&i| fields[i].len() > 1).map(zero);
    let less = shorter(&fields).chain(zeroed).map(|fields| fields.join(&b'\t'));
    less.filter(|less| less.len() < line.len()).collect()
}

impl Case for Session {
    fn random(r: &mut Random) -> Session {
        crate::lines::session(r)
    }

    fn compare(&self) -> Result<Vec<u8>, String> {
        let input = self.input();
        let mut theirs = Vec::new();
        second::session(&input[..], &mut theirs).map_err(|error| format!("second program: {error}"))?;
        let ours = run(input).map_err(|error| format!("{PROGRAM}: {error}"))?;
        if ours.stdout != theirs {
            return Err(first_difference(&ours.stdout, &theirs));
        }
        if !ours.status.success() || !ours.stderr.is_empty() {
            return Err(format!("the program ended with {}, and wrote to stderr: {}", ours.status, text(&ours.stderr)));
        }
        Ok(numbers(&theirs))
    }

    fn smaller(&self) -> Box<dyn Iterator<Item = Session> + '_> {
        let all = 0..self.lines.len();
        let fewer = shorter(&self.lines).map(|lines| Session { lines, ended: self.ended });
        let fields = all.clone().flat_map(move |i| fewer_fields(&self.lines[i]).into_iter().map(move |line| self.with_line(i, line)));
        let bytes = all.flat_map(move |i| shorter(&self.lines[i]).map(move |line| self.with_line(i, line)));
        let plain = [self.plain()].into_iter().filter(|case| case.input().len() < self.input().len());
        Box::new(fewer.chain(plain).chain(fields).chain(bytes))
    }

    fn show(&self) -> String {
        let show = |line: &Vec<u8>| format!("\"{}\"", text(line));
        let lines: Vec<String> = self.lines.iter().map(show).collect();
        let end = match (lines.is_empty(), self.ended) {
            (true, _) => "(no line)",
            (false, true) => "",
            (false, false) => "\n(the last line has no line feed)",
        };
        format!("{}{end}", lines.join("\n"))
    }
}
