//! The calls of calls.rattle from the same seeds, by the library's exported functions or by the second program: the same digests, if both answer
//! alike and leave the same in every buffer and record. Arguments: library or second, and FIRST COUNT: so many seeds from that one on.
//! For each seed it prints what calls.rattle prints for the standard input "SEED\n".

#[path = "../compare/library.rs"]
#[allow(dead_code)]
mod library;
#[path = "../second/second.rs"]
#[allow(dead_code)]
mod second;
#[path = "../second/wide.rs"]
mod wide;

mod by_library;
mod by_second;

use library::{Mended, Shape};

/// What is called: each function gives number and figures as C gets them, 0 where there are none.
pub trait Calls {
    type Desk;
    type Gather;
    fn describe(&self, s: Shape) -> [u64; 4];
    fn check_marks(&self, s: Shape, marks: &mut [u8]) -> u8;
    fn judge(&self, s: Shape, marks: &[u8]) -> u8;
    fn profile(&self, s: Shape, marks: &[u8]) -> Result<Vec<u8>, u8>;
    fn extract(&self, s: Shape, word: &[u8], data: &mut [u8]) -> u8;
    fn encode(&self, s: Shape, data: &[u8], word: &mut [u8]) -> u8;
    fn check(&self, s: Shape, word: &[u8]) -> Mended;
    fn repair(&self, s: Shape, g: usize, word: &mut [u8], marks: &mut [u8]) -> Mended;
    fn recover(&self, s: Shape, word: &mut [u8], marks: &mut [u8]) -> Mended;
    fn edit(&self, s: Shape, word: &mut [u8], number: usize, byte: u8) -> Mended;
    fn fresh(&self) -> Self::Desk;
    fn open(&self, desk: &mut Self::Desk, s: Shape, marks: &[u8]) -> Result<u64, u8>;
    fn serve(&self, desk: &mut Self::Desk, handle: u64, word: &mut [u8]) -> Mended;
    fn read(&self, desk: &Self::Desk, handle: u64) -> Result<u64, u8>;
    fn close(&self, desk: &mut Self::Desk, handle: u64) -> u8;
    fn lose(&self, desk: &mut Self::Desk, handle: u64, place: usize) -> u8;
    fn find(&self, desk: &mut Self::Desk, handle: u64, place: usize) -> u8;
    fn desk_fields(&self, desk: &Self::Desk) -> Vec<u64>;
    fn begin(&self, s: Shape) -> (Self::Gather, u8);
    fn take(&self, gather: &mut Self::Gather, first: usize, bytes: &[u8]) -> u8;
    fn finish(&self, gather: &mut Self::Gather, word: &mut [u8]) -> Mended;
    fn gather_fields(&self, gather: &Self::Gather) -> Vec<u64>;
    fn lookup(&self, text: &[u8], size: usize, name: &[u8]) -> Result<(u64, u64, u64, u64), u8>;
    fn put(&self, s: Shape, name: &[u8], expected: usize, text: &mut [u8], size: usize) -> Result<(usize, u64), u8>;
    fn remove(&self, name: &[u8], expected: usize, text: &mut [u8], size: usize) -> Result<(usize, u64), u8>;
    fn compact(&self, text: &mut [u8], size: usize) -> Result<usize, u8>;
    fn wide_describe(&self, s: Shape) -> [u64; 4];
    fn wide_check_marks(&self, s: Shape, marks: &mut [u8]) -> u8;
    fn wide_judge(&self, s: Shape, marks: &[u8]) -> u8;
    fn wide_extract(&self, s: Shape, word: &[u16], data: &mut [u16]) -> u8;
    fn wide_encode(&self, s: Shape, data: &[u16], word: &mut [u16]) -> u8;
    fn wide_check(&self, s: Shape, word: &[u16]) -> Mended;
    fn wide_repair(&self, s: Shape, g: usize, word: &mut [u16], marks: &mut [u8]) -> Mended;
    fn wide_recover(&self, s: Shape, word: &mut [u16], marks: &mut [u8]) -> Mended;
    fn rebuild(&self, s: Shape, length: usize, blocks: &mut [u8], marks: &mut [u8]) -> second::Rebuilt;
}

/// Marsaglia's xorshift.
fn step(x: u64) -> u64 {
    let a = x ^ (x << 13);
    let b = a ^ (a >> 7);
    b ^ (b << 17)
}

/// Where the generator stands, and the digest of what was answered and left so far.
struct Run<'a, C: Calls> {
    calls: &'a C,
    draw: u64,
    digest: u64,
}

fn change(x: u64, lent: &mut [u8]) {
    if let Some(byte) = lent.get_mut(x as usize % 256) {
        *byte ^= (x >> 8) as u8;
    }
}

/// A shape of at most 5 groups of at most 8 data places and so many more, now and then a bad one.
fn drawn_shape(x: u64, more: u64) -> Shape {
    let c = ((x >> 8) % 64 + 3) / 16;
    (((x >> 16) % 6) as usize, (c + 1 + (x >> 24) % 8 + more) as usize, c as usize)
}

fn drawn_handle(x: u64) -> u64 {
    (x >> 40) % 16 / 5 * 9 + 8
}

impl<C: Calls> Run<'_, C> {
    fn add(&mut self, value: impl Into<u64>) {
        self.digest = step(self.digest.wrapping_add(value.into()));
    }

    fn add_all<T: Into<u64> + Copy>(&mut self, values: &[T]) {
        values.iter().for_each(|value| self.add(*value));
    }

    fn add_mended(&mut self, (number, group): Mended) {
        self.add(number);
        self.add(group);
    }

    fn add_word<T: Into<u64> + Copy>(&mut self, answer: Mended, word: &[T], marks: &[u8]) {
        self.add_mended(answer);
        self.add_all(word);
        self.add_all(marks);
    }

    fn add_answer(&mut self, answer: Result<u64, u8>) {
        match answer {
            Ok(figure) => self.add_all(&[0, figure]),
            Err(number) => self.add(number),
        }
    }

    fn next(&mut self) -> u64 {
        self.draw = step(self.draw);
        self.draw
    }

    fn fill(&mut self, lent: &mut [u8]) {
        lent.iter_mut().for_each(|byte| *byte = (self.next() >> 24) as u8);
    }

    fn losses(&mut self, bound: u64, marks: &mut [u8]) {
        marks.iter_mut().for_each(|mark| *mark = ((self.next() >> 24) % 256 < bound) as u8);
    }

    fn services(&mut self) {
        let s = drawn_shape(self.next(), 0);
        let figures = self.calls.describe(s);
        self.add_all(&figures);
        let (n, k) = (figures[1] as usize, figures[2] as usize);
        let (mut word, mut marks, mut data) = (vec![0; n], vec![0; n], vec![0; k]);
        self.fill(&mut word);
        if s.2 == 4 {
            word.fill(0);
        }
        self.add(self.calls.check_marks(s, &mut marks));
        let answer = self.calls.recover(s, &mut word, &mut marks);
        self.add_word(answer, &word, &marks);
        self.add(self.calls.extract(s, &word, &mut data));
        self.add_all(&data);
        self.add(self.calls.encode(s, &data, &mut word));
        self.add_all(&word);
        self.losses(self.draw % 64, &mut marks);
        let x = self.draw;
        change(step(x), &mut word);
        self.add_mended(self.calls.check(s, &word));
        self.judge(s, &marks);
        let answer = self.calls.repair(s, x as usize % 8, &mut word, &mut marks);
        self.add_word(answer, &word, &marks);
        let answer = self.calls.recover(s, &mut word, &mut marks);
        self.add_word(answer, &word, &marks);
        self.add_mended(self.calls.edit(s, &mut word, x as usize % 32, (x >> 8) as u8));
        self.add_all(&word);
    }

    fn judge(&mut self, s: Shape, marks: &[u8]) {
        self.add(self.calls.judge(s, marks));
        let (number, set) = self.calls.profile(s, marks).map_or_else(|number| (number, Vec::new()), |set| (0, set));
        self.add_all(&[number, set.len() as u8]);
        (0..4).for_each(|i| self.add(set.get(i).copied().unwrap_or(0)));
    }

    fn use_desk(&mut self, desk: &mut C::Desk, x: u64, word: &mut [u8]) {
        let h = drawn_handle(x);
        self.add(self.calls.lose(desk, h, x as usize % 32));
        self.add(self.calls.find(desk, h, (x >> 8) as usize % 32));
        self.add_mended(self.calls.serve(desk, h, word));
        self.add_all(word);
        self.add_answer(self.calls.read(desk, h));
    }

    fn desks(&mut self) {
        let s = drawn_shape(self.next(), 0);
        let n = self.calls.describe(s)[1] as usize;
        let (mut word, mut marks, mut desk) = (vec![0; n], vec![0; n], self.calls.fresh());
        self.losses(32, &mut marks);
        let x = self.draw;
        self.add_answer(self.calls.open(&mut desk, s, &marks));
        self.use_desk(&mut desk, x, &mut word);
        self.add_answer(self.calls.open(&mut desk, s, &marks));
        self.use_desk(&mut desk, step(x), &mut word);
        self.add(self.calls.close(&mut desk, drawn_handle(x)));
        self.use_desk(&mut desk, x, &mut word);
        self.add_all(&self.calls.desk_fields(&desk));
        self.next();
    }

    fn take(&mut self, gather: &mut C::Gather, x: u64, word: &[u8]) {
        let e = (x as usize % 64).min(word.len());
        let a = ((x >> 8) as usize % 64).min(e);
        self.add(self.calls.take(gather, (x >> 16) as usize % 32, &word[a..e]));
    }

    fn gathers(&mut self) {
        let x = self.next();
        let s = drawn_shape(x, 0);
        let mut word = vec![0; self.calls.describe(s)[1] as usize];
        let (mut gather, number) = self.calls.begin(s);
        self.add(number);
        [x, step(x), step(step(x))].into_iter().for_each(|x| self.take(&mut gather, x, &word));
        for _ in 0..2 {
            self.add_mended(self.calls.finish(&mut gather, &mut word));
            self.add_all(&word);
        }
        self.add_all(&self.calls.gather_fields(&gather));
        self.next();
    }

    fn changed(&mut self, answer: Result<(usize, u64), u8>, size: usize) -> usize {
        let (number, new, revision) = answer.map_or_else(|number| (number, 0, 0), |(new, revision)| (0, new, revision));
        self.add_all(&[number as u64, revision, new as u64]);
        if number == 0 { new } else { size }
    }

    fn entry(&mut self, text: &mut [u8], size: usize) -> usize {
        let x = self.next();
        let s = drawn_shape(x, 0);
        let name = [((x >> 32) % 3 + 97) as u8, ((x >> 40) % 27 + 96) as u8];
        let name = &name[..1 + (x >> 48) as usize % 2];
        let looked = self.calls.lookup(text, size, name);
        let (number, (revision, m, w, c)) = looked.map_or_else(|number| (number, (0, 0, 0, 0)), |found| (0, found));
        self.add_all(&[number as u64, m, w, c, revision]);
        let expected = (revision + (x >> 52) % 8 / 7) as usize;
        match (x >> 56) % 8 {
            0..=4 => self.changed(self.calls.put(s, name, expected, text, size), size),
            5 | 6 => self.changed(self.calls.remove(name, expected, text, size), size),
            _ => self.changed(self.calls.compact(text, size).map(|new| (new, 0)), size),
        }
    }

    fn catalogues(&mut self) {
        let (mut text, mut size) = ([0; 96], 9);
        text[..9].copy_from_slice(b"shapes\t1\n");
        (0..8).for_each(|_| size = self.entry(&mut text, size));
        self.add_all(&text);
    }

    fn wide_services(&mut self) {
        let x = self.next();
        let s = drawn_shape(x, (x >> 40) % 16 / 15 * 200);
        let figures = self.calls.wide_describe(s);
        self.add_all(&figures);
        let (n, k) = (figures[1] as usize, figures[2] as usize);
        let (mut word, mut marks, mut data) = (vec![0; n], vec![0; n], vec![0; k]);
        word.iter_mut().for_each(|symbol| *symbol = (self.next() >> 24) as u16);
        if s.2 == 4 {
            word.fill(0);
        }
        self.add(self.calls.wide_check_marks(s, &mut marks));
        let answer = self.calls.wide_recover(s, &mut word, &mut marks);
        self.add_word(answer, &word, &marks);
        self.add(self.calls.wide_extract(s, &word, &mut data));
        self.add_all(&data);
        self.add(self.calls.wide_encode(s, &data, &mut word));
        self.add_all(&word);
        self.losses(self.draw % 32, &mut marks);
        let x = self.draw;
        if let Some(symbol) = word.get_mut(step(x) as usize % 1024) {
            *symbol ^= (step(x) >> 10) as u16;
        }
        self.add_mended(self.calls.wide_check(s, &word));
        self.add(self.calls.wide_judge(s, &marks));
        let answer = self.calls.wide_repair(s, x as usize % 8, &mut word, &mut marks);
        self.add_word(answer, &word, &marks);
        let answer = self.calls.wide_recover(s, &mut word, &mut marks);
        self.add_word(answer, &word, &marks);
    }

    fn rebuild(&mut self, s: Shape, blocks: &mut [u8], marks: &mut [u8]) {
        let (number, word, group) = self.calls.rebuild(s, 33, blocks, marks);
        self.add_all(&[number as u64, word, group]);
        self.add_all(blocks);
        self.add_all(marks);
    }

    fn rebuilds(&mut self) {
        let s = drawn_shape(self.next(), 0);
        let n = self.calls.describe(s)[1] as usize;
        let (mut blocks, mut marks) = (vec![0; n * 33], vec![0; n]);
        self.fill(&mut blocks);
        if s.2 == 4 {
            blocks.fill(0);
        }
        self.add(self.calls.check_marks(s, &mut marks));
        self.rebuild(s, &mut blocks, &mut marks);
        self.losses(self.draw % 64, &mut marks);
        change(step(self.draw), &mut blocks);
        self.rebuild(s, &mut blocks, &mut marks);
    }
}

/// One run, of a seed.
fn run<'a, C: Calls>(calls: &'a C, seed: u64) {
    let draw = format!("{seed}\n").bytes().fold(1, |digest, byte| step(u64::wrapping_add(digest, byte.into())));
    let mut run = Run { calls, draw, digest: 0 };
    let kinds: [(&str, fn(&mut Run<'a, C>)); 6] = [
        ("services", Run::services),
        ("desks", Run::desks),
        ("gathers", Run::gathers),
        ("catalogues", Run::catalogues),
        ("sixteen bits", Run::wide_services),
        ("blocks", Run::rebuilds),
    ];
    for (name, kind) in kinds {
        kind(&mut run);
        println!("{name} {}", run.digest);
    }
}

fn main() {
    let words: Vec<String> = std::env::args().skip(1).collect();
    let numbers: Vec<u64> = words.iter().skip(1).filter_map(|word| word.parse().ok()).collect();
    match (words.first().map(String::as_str), &numbers[..]) {
        (Some("library"), [first, count]) => (*first..first + count).for_each(|seed| run(&by_library::Exported, seed)),
        (Some("second"), [first, count]) => {
            let second = by_second::Second::new();
            (*first..first + count).for_each(|seed| run(&second, seed));
        }
        _ => panic!("arguments: library or second, and FIRST COUNT"),
    }
}
