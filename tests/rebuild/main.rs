//! Block rebuild, the library and the program, beside the second program: seeded random cases, good and bad.
//! Arguments: SEED COUNT [INDEX [calls]]: so many cases from that index on; with calls the library alone, and not the program.

#[path = "../compare/library.rs"]
#[allow(dead_code)]
mod library;
#[path = "../compare/random.rs"]
#[allow(dead_code)]
mod random;
#[path = "../second/second.rs"]
#[allow(dead_code)]
mod second;

use library::Shape;
use random::{codeword, figures, good_shape, marks, wide, Random};
use std::io::Write;
use std::process::{Command, Stdio};

#[repr(C)]
struct Answer {
    word: usize,
    number: u8,
    group: u8,
}

extern "C" {
    fn axlebloom_rebuild(m: usize, w: usize, c: usize, length: usize, b: *mut u8, all: usize, l: *mut u8, n: usize) -> Answer;
}

/// What a call is given.
#[derive(Clone, Debug)]
struct Call {
    shape: Shape,
    length: usize,
    blocks: Vec<u8>,
    marks: Vec<u8>,
}

/// Codewords in the blocks, some blocks lost, now and then a wrong byte, length or mark.
fn call(r: &mut Random) -> Call {
    let shape = if r.one_in(12) { random::bad_shape(r, usize::MAX) } else { good_shape(r, 15, 12) };
    let Some((n, k)) = figures(shape) else {
        return Call { shape, length: 1 + r.below(4), blocks: r.bytes(24), marks: vec![0; 6] };
    };
    let most = 65536 / n;
    let few = if r.one_in(3) { 40 } else { 4 };
    let length = match r.below(30) {
        0 => most,
        1 => most + 1,
        2 => 0,
        _ => 1 + r.below(few),
    };
    let more = r.below(4);
    let mut marks = marks(r, shape, more);
    let mut blocks = vec![0; n * length.min(most)];
    for x in 0..length.min(most) {
        let data = r.bytes(k);
        for (p, &byte) in codeword(shape, &data).iter().enumerate() {
            blocks[p * length.min(most) + x] = if marks[p] == 1 { r.byte() } else { byte };
        }
    }
    for _ in 0..r.below(3) {
        if !blocks.is_empty() && r.one_in(2) {
            let at = r.below(blocks.len());
            blocks[at] ^= 1 + r.byte() % 255;
        }
    }
    match r.below(16) {
        0 => blocks.push(0),
        1 => drop(blocks.pop()),
        2 => marks[r.below(n)] = 2,
        3 => drop(marks.pop()),
        _ => (),
    }
    Call { shape, length, blocks, marks }
}

/// The library's call and the second program's give the same number, word and group, and leave the same blocks and marks.
fn compare_call(case: &Call) -> Result<u8, String> {
    let (m, w, c) = wide(case.shape);
    let (mut blocks, mut marks) = (case.blocks.clone(), case.marks.clone());
    let theirs = second::rebuild(m, w, c, case.length as u64, &mut blocks, &mut marks);
    let (mut b, mut l) = (case.blocks.clone(), case.marks.clone());
    let a = unsafe { axlebloom_rebuild(case.shape.0, case.shape.1, case.shape.2, case.length, b.as_mut_ptr(), b.len(), l.as_mut_ptr(), l.len()) };
    let ours = (a.number, a.word as u64, a.group as u64);
    if ours != theirs || b != blocks || l != marks {
        return Err(format!("library {ours:?}, second program {theirs:?}, blocks {}, marks {}", b == blocks, l == marks));
    }
    Ok(ours.0)
}

/// The three lines and the blocks, with something wrong in the lines now and then.
fn input(r: &mut Random, case: &Call) -> Vec<u8> {
    let (m, w, c) = case.shape;
    let shape = format!("shape\t{m}\t{w}\t{c}");
    let marks: String = case.marks.iter().map(|mark| format!("\t{mark}")).collect();
    let mut lines = [shape, format!("marks{marks}"), format!("length\t{}", case.length)].map(String::into_bytes).to_vec();
    let line = r.below(3);
    match r.below(24) {
        0 => lines.swap(line, (line + 1) % 3),
        1 => drop(lines.remove(line)),
        2 => lines[line].extend(b"\t0"),
        3 => lines[line].extend(r.pick(&[&b"\t"[..], b" ", b"\t256", b"\t-", b"\t01", b"0", b"x"])),
        4 => lines[line] = r.pick(&[&b""[..], b"marks", b"length", b"length\t", b"length\t00", b"length\t65536", b"length\t65537", b"length\t+1", b"shape"]).to_vec(),
        5 => lines[line].extend(vec![b'1'; 900 + r.below(300)]),
        6 => drop(lines[line].pop()),
        _ => (),
    }
    let mut input = lines.join(&b'\n');
    match r.below(20) {
        0 => return input,
        1 => input.truncate(r.below(input.len() + 1)),
        2 => return [input, vec![b'\n'], vec![7; 70_000]].concat(),
        _ => (),
    }
    input.push(b'\n');
    input.extend(&case.blocks);
    input
}

/// Runs the program on an input that is written in parts.
fn run(r: &mut Random, input: &[u8]) -> std::io::Result<(Vec<u8>, Vec<u8>)> {
    let mut command = Command::new("timeout");
    let mut child = command.args(["20", "target/bin/rebuild"]).stdin(Stdio::piped()).stdout(Stdio::piped()).stderr(Stdio::piped()).spawn()?;
    let mut pipe = child.stdin.take().expect("a pipe");
    let part = if r.one_in(4) { 1 + r.below(60) } else { input.len().max(1) };
    let parts: Vec<Vec<u8>> = input.chunks(part).take(400).map(<[u8]>::to_vec).collect();
    let rest = input.chunks(part).skip(400).flatten().copied().collect::<Vec<u8>>();
    // a program that has refused its input reads no more of it
    let writer = std::thread::spawn(move || {
        for part in parts.iter().chain([&rest]) {
            if pipe.write_all(part).is_err() {
                break;
            }
        }
    });
    let output = child.wait_with_output()?;
    writer.join().expect("the writing ends");
    Ok((output.stdout, output.stderr))
}

/// What rebuild --numbers says that a number means.
fn meaning(number: &str) -> String {
    static PAGE: std::sync::OnceLock<String> = std::sync::OnceLock::new();
    let page = PAGE.get_or_init(|| {
        let output = Command::new("target/bin/rebuild").arg("--numbers").output().expect("the list of numbers");
        String::from_utf8(output.stdout).expect("a text")
    });
    let entry = format!("{number:>2}  ");
    page.lines().find_map(|line| line.strip_prefix(&entry)).expect("an entry for every number").to_string()
}

/// What a refused run writes to standard error: the line of the refusal, and then what its number means, or which line can't be read.
fn explained(refusal: &[u8], line: u8) -> Vec<u8> {
    let number = std::str::from_utf8(refusal).ok().and_then(|line| line.trim_end().split('\t').nth(1)).expect("a number");
    let text = match line {
        0 => meaning(number),
        _ => format!("line {line} cannot be read as a {} line", ["shape", "marks", "length"][line as usize - 1]),
    };
    [refusal, b"rebuild: ", text.as_bytes(), b"\n"].concat()
}

/// The program writes what the second program does, and a refusal on standard error too.
fn compare_run(r: &mut Random, input: &[u8]) -> Result<(), String> {
    let (theirs, refused) = second::rebuild_run(input);
    let (ours, errors) = run(r, input).map_err(|error| error.to_string())?;
    let expected = refused.map_or(Vec::new(), |line| explained(&theirs, line));
    if ours != theirs || errors != expected {
        let show = |bytes: &[u8]| bytes[..bytes.len().min(60)].escape_ascii().to_string();
        return Err(format!("program {}, errors {}, second program {}", show(&ours), show(&errors), show(&theirs)));
    }
    Ok(())
}

fn main() {
    let mut words: Vec<String> = std::env::args().skip(1).collect();
    let calls_alone = words.len() == 4 && words.pop().as_deref() == Some("calls");
    let arguments: Vec<u64> = words.iter().map(|argument| argument.parse().expect("a number")).collect();
    let (seed, count, from) = match arguments[..] {
        [seed, count] => (seed, count, 0),
        [seed, count, from] => (seed, count, from),
        _ => panic!("arguments: SEED COUNT [INDEX [calls]]"),
    };
    let mut numbers = [0u64; 32];
    for index in from..from + count {
        let mut r = Random::of_case(seed, "rebuild", index);
        let case = call(&mut r);
        let text = input(&mut r, &case);
        let verdict = compare_call(&case).and_then(|number| if calls_alone { Ok(number) } else { compare_run(&mut r, &text).map(|()| number) });
        match verdict {
            Ok(number) => numbers[number as usize] += 1,
            Err(difference) => {
                println!("MISMATCH in case {index} of seed {seed}: {difference}\nshape {:?} length {} marks {:?}", case.shape, case.length, case.marks);
                println!("input begins {}", text[..text.len().min(900)].escape_ascii());
                std::process::exit(1);
            }
        }
    }
    let met: Vec<String> = (0..32).filter(|&i| numbers[i] > 0).map(|i| format!("{i}: {}", numbers[i])).collect();
    println!("rebuild: {count} calls and runs from seed {seed}, all alike; by number: {}", met.join(", "));
    let missing: Vec<usize> = [0, 1, 2, 3, 4, 5, 6, 8, 9, 27].into_iter().filter(|&i| numbers[i] == 0).collect();
    if from == 0 && count >= 1000 && !missing.is_empty() {
        println!("FAILED: never answered: {missing:?}");
        std::process::exit(1);
    }
}
