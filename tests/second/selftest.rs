//! Self test of the second program: every hand sum and text line of the
//! paper, tiny shapes against brute force, all shapes at random.

#[path = "second.rs"]
#[allow(dead_code)]
mod second;

use second::*;
use std::process::ExitCode;

/// Counts assertions; a failed one is printed and counted.
struct Tally {
    passed: u64,
    failed: u64,
}

impl Tally {
    fn ok(&mut self, holds: bool, what: &str) {
        if holds {
            self.passed += 1;
        } else {
            self.failed += 1;
            println!("FAILED: {what}");
        }
    }
}

/// Xorshift random numbers from a fixed start.
struct Random(u64);

impl Random {
    fn next(&mut self) -> u64 {
        self.0 ^= self.0 << 13;
        self.0 ^= self.0 >> 7;
        self.0 ^= self.0 << 17;
        self.0.wrapping_mul(0x2545F4914F6CDD1D) >> 11
    }
    fn below(&mut self, bound: u64) -> u64 {
        self.next() % bound
    }
    fn bytes(&mut self, count: u64) -> Vec<u8> {
        (0..count).map(|_| self.next() as u8).collect()
    }
}

// ------------------------------------------------------------------ helpers

fn encoded(m: u64, w: u64, c: u64, data: &[u8]) -> Vec<u8> {
    let mut word = vec![0; (m * w) as usize];
    if is_retired(c) {
        assert_eq!(encode(m, w, c, data, &mut word), 29);
        return codeword(m, w, c, data);
    }
    assert_eq!(encode(m, w, c, data, &mut word), 0);
    word
}

fn random_codeword(random: &mut Random, m: u64, w: u64, c: u64) -> Vec<u8> {
    let k = describe(m, w, c).unwrap().1;
    let data = random.bytes(k);
    encoded(m, w, c, &data)
}

/// The marks whose bits are set in the pattern.
fn marks_of(pattern: u64, n: u64) -> Vec<u8> {
    (0..n).map(|p| ((pattern >> p) & 1) as u8).collect()
}

/// The word with random bytes in its lost places.
fn spoiled(random: &mut Random, word: &[u8], marks: &[u8]) -> Vec<u8> {
    let mut copy = word.to_vec();
    for p in 0..copy.len() {
        if marks[p] == 1 {
            copy[p] = random.next() as u8;
        }
    }
    copy
}

/// Marks with `count` places lost, chosen at random.
fn random_marks(random: &mut Random, n: u64, count: u64) -> Vec<u8> {
    let mut marks = vec![0; n as usize];
    let mut left = count;
    while left > 0 {
        let p = random.below(n) as usize;
        if marks[p] == 0 {
            marks[p] = 1;
            left -= 1;
        }
    }
    marks
}

/// Marks losing about c in each group and `more` beyond, at random.
fn heavy_marks(random: &mut Random, m: u64, w: u64, c: u64, more: u64) -> Vec<u8> {
    let mut marks = Vec::new();
    for _ in 0..m {
        marks.extend(random_marks(random, w, c));
    }
    for _ in 0..more {
        let p = random.below(m * w) as usize;
        marks[p] = 1;
    }
    marks
}

/// All good shapes, in order.
fn good_shapes() -> Vec<Shape> {
    let mut shapes = Vec::new();
    for m in 0..20 {
        for w in 0..20 {
            for c in 0..8 {
                if describe(m, w, c).is_ok() {
                    shapes.push((m, w, c));
                }
            }
        }
    }
    shapes
}

// ---------------------------------------------------------------- the field

fn field(t: &mut Tally) {
    t.ok(mul(2, 128) == 29, "2*128 = 29");
    t.ok(mul(152, 152) == 78, "152*152 = 78");
    t.ok(mul(152, 11) == 1, "152*11 = 1");
    t.ok(mul(0, 77) == 0, "0*77 = 0");
    t.ok(pow(3, 16) == 77, "3^16 = 77");
    t.ok(pow(0, 0) == 1, "0^0 = 1");
    for e in 1..255 {
        t.ok(pow(2, e) != 1, "order of 2 not below 255");
    }
    t.ok(pow(2, 255) == 1, "order of 2 is 255");
    for x in 0..=255 {
        t.ok(mul(1, x) == x && mul(x, 1) == x, "1 is the unit");
        for y in 0..=255 {
            t.ok(mul(x, y) == mul(y, x), "product commutes");
        }
    }
    for x in 1..=255 {
        t.ok(mul(x, inverse(x)) == 1, "inverse");
    }
}

fn field_laws(t: &mut Tally, random: &mut Random) {
    for _ in 0..20_000 {
        let (x, y, z) = (random.next() as u8, random.next() as u8, random.next() as u8);
        t.ok(mul(x, mul(y, z)) == mul(mul(x, y), z), "associative");
        t.ok(mul(x, y ^ z) == mul(x, y) ^ mul(x, z), "distributive");
    }
}

fn locators(t: &mut Tally) {
    for j in 0..15 {
        t.ok(LOCATORS[j] == pow(2, 17 * j as u64), "place j is 2^(17j)");
    }
    t.ok(LOCATORS[15] == 0, "place 15 is 0");
    for x in LOCATORS {
        t.ok(pow(x, 16) == x, "locator in the subfield of 16");
        t.ok(LOCATORS.iter().filter(|&&y| y == x).count() == 1, "distinct");
        for y in LOCATORS {
            t.ok(LOCATORS.contains(&(x ^ y)), "closed under sum");
            t.ok(LOCATORS.contains(&mul(x, y)), "closed under product");
        }
    }
}

// ----------------------------------------------------------------- hand sums

fn shapes(t: &mut Tally) {
    t.ok(describe(2, 3, 1) == Ok((6, 2, 4)), "m 2 w 3 c 1");
    t.ok(describe(1, 3, 1) == Err(4), "m 1 w 3 c 1 is 4");
    t.ok(describe(15, 16, 4) == Ok((240, 178, 6)), "largest");
    t.ok(describe(15, 3, 1) == Ok((45, 28, 4)), "m 15 good");
    t.ok(describe(16, 3, 1) == Err(1), "m 16 is 1");
    t.ok(describe(0, 3, 1) == Err(1), "m 0 is 1");
    t.ok(describe(2, 6, 4) == Ok((12, 2, 10)), "c 4 good");
    t.ok(describe(2, 7, 5) == Err(2), "c 5 is 2");
    t.ok(describe(2, 7, 0) == Err(2), "c 0 is 2");
    t.ok(describe(2, 16, 1) == Ok((32, 28, 3)), "w 16 good");
    t.ok(describe(2, 17, 1) == Err(3), "w 17 is 3");
    t.ok(describe(2, 2, 1) == Err(3), "w below c+2 is 3");
    t.ok(describe(1, 6, 4) == Err(4), "m 1 w 6 c 4 is 4");
    t.ok(describe(16, 0, 0) == Err(1), "1 before 2 and 3");
    t.ok(describe(2, 0, 0) == Err(2), "2 before 3");
    let max = u64::MAX;
    t.ok(describe(max, max, max) == Err(1), "huge m");
    t.ok(describe(2, max, max) == Err(2), "huge c");
    t.ok(describe(2, max, 1) == Err(3), "huge w");
    t.ok(describe((1 << 32) + 2, 3, 1) == Err(1), "m not cut down");
    t.ok(describe(258, 3, 1) == Err(1), "258 not cut to 2");
    t.ok(describe(2, 259, 1) == Err(3), "259 not cut to 3");
    t.ok(describe(2, 3, 257) == Err(2), "257 not cut to 1");
    for (m, w, c) in good_shapes() {
        let (n, k, sure) = describe(m, w, c).unwrap();
        t.ok(n <= 240 && n == k + m * c + 2, "figures");
        t.ok(sure == c + 2 + 2 / (w - c) * c, "sure count by the quotient");
    }
    t.ok(good_shapes().len() == 15 * (14 + 13 + 12 + 11) - 4, "count of shapes");
}

fn hand_words(t: &mut Tally) {
    t.ok(encoded(1, 4, 1, &[1]) == [1, 79, 147, 221], "m 1 w 4 c 1");
    let word = [1, 1, 0, 78, 206, 128];
    t.ok(encoded(2, 3, 1, &[1, 1]) == word, "m 2 w 3 c 1");
    t.ok(check(2, 3, 1, &word) == Ok(Checked::Yes), "that word is a codeword");

    let (mut lent, mut marks) = ([9, 8, 7, 78, 206, 128], [1, 1, 1, 0, 0, 0]);
    t.ok(excess(2, 3, 1, &marks) == 2, "excess 2");
    t.ok(recover(2, 3, 1, &mut lent, &mut marks) == (0, 0), "first three lost");
    t.ok(lent == word && marks == [0; 6], "recovered, marks cleared");

    let (mut lent, mut marks) = ([9, 9, 9, 9, 9, 128], [1, 1, 1, 1, 1, 0]);
    t.ok(excess(2, 3, 1, &marks) == 3, "excess 3");
    t.ok(judge(2, 3, 1, &marks) == 8, "judge: first five lost is 8");
    t.ok(recover(2, 3, 1, &mut lent, &mut marks) == (8, 0), "first five lost is 8");
    t.ok(lent == [9, 9, 9, 9, 9, 128] && marks == [1, 1, 1, 1, 1, 0], "untouched");

    let (mut lent, mut marks) = ([1, 1, 0, 78, 206, 129], [0; 6]);
    t.ok(check(2, 3, 1, &lent) == Ok(Checked::No(1)), "last byte 129: no codeword");
    t.ok(recover(2, 3, 1, &mut lent, &mut marks) == (9, 1), "last byte 129 is 9 by group 1");
    t.ok(lent == [1, 1, 0, 78, 206, 129], "untouched at 9");

    let (mut lent, mut marks) = ([1, 0, 0, 78, 206, 129], [0, 1, 0, 0, 0, 0]);
    t.ok(recover(2, 3, 1, &mut lent, &mut marks) == (9, 1), "c lost in group 0: it can be filled");
    let (mut lent, mut marks) = ([1, 0, 0, 78, 206, 129], [0; 6]);
    t.ok(recover(2, 3, 1, &mut lent, &mut marks) == (9, 0), "both groups wrong: the lowest");
    let (mut lent, mut marks) = ([1, 1, 0, 0, 0, 0], [0; 6]);
    t.ok(check(2, 3, 1, &lent) == Ok(Checked::No(2)), "each group sound, no codeword");
    t.ok(recover(2, 3, 1, &mut lent, &mut marks) == (9, 2), "only the equations across fail: m");
}

fn hand_repairs(t: &mut Tally, random: &mut Random) {
    for (m, w, c) in [(2, 3, 1), (3, 16, 4), (2, 5, 2), (1, 8, 3)] {
        let word = random_codeword(random, m, w, c);
        for g in 0..m {
            let mut marks = vec![0; (m * w) as usize];
            let start = (g * w) as usize;
            marks[start..start + c as usize].fill(1);
            let mut lent = spoiled(random, &word, &marks);
            t.ok(repair(m, w, c, g, &mut lent, &mut marks) == (0, 0), "c lost: repaired");
            t.ok(lent == word && marks.iter().all(|&x| x == 0), "repaired whole");
            marks[start..start + c as usize + 1].fill(1);
            let mut lent = spoiled(random, &word, &marks);
            let before = (lent.clone(), marks.clone());
            t.ok(repair(m, w, c, g, &mut lent, &mut marks) == (8, 0), "c+1 lost: 8");
            t.ok((lent, marks) == before, "untouched at 8");
        }
    }
    let (mut word, mut marks) = ([1, 1, 1, 78, 206, 128], [0, 0, 0, 1, 0, 0]);
    t.ok(repair(2, 3, 1, 0, &mut word, &mut marks) == (9, 0), "no loss: still 9");
    t.ok(word == [1, 1, 1, 78, 206, 128] && marks == [0, 0, 0, 1, 0, 0], "untouched");
    t.ok(repair(2, 3, 1, 1, &mut word, &mut marks) == (0, 0), "other group repaired");
    t.ok(word == [1, 1, 1, 78, 206, 128] && marks == [0; 6], "group 0 untouched");
    t.ok(repair(2, 3, 1, 2, &mut word, &mut marks) == (7, 0), "group m is 7");
    t.ok(repair(2, 3, 1, 1 << 32, &mut word, &mut marks) == (7, 0), "huge group is 7");
}

/// Undetermined and contradictory at once: 8, since the lower number is given.
fn both_faults(t: &mut Tally, random: &mut Random) {
    for (m, w, c) in [(2, 4, 1), (2, 5, 2), (3, 6, 3), (2, 7, 4), (15, 16, 4)] {
        let mut word = random_codeword(random, m, w, c);
        let mut marks = vec![0; (m * w) as usize];
        marks[..c as usize + 3].fill(1);
        let last = word.len() - 1;
        word[last] ^= 1;
        let before = (word.clone(), marks.clone());
        t.ok(repair(m, w, c, m - 1, &mut word, &mut marks) == (9, m - 1), "last group is 9");
        t.ok(repair(m, w, c, 0, &mut word, &mut marks) == (8, 0), "first group is 8");
        t.ok(recover(m, w, c, &mut word, &mut marks) == (8, 0), "8 before 9");
        t.ok((word, marks) == before, "untouched");
    }
}

/// The order of refusals, with the buffers as they were.
fn refusals(t: &mut Tally) {
    let (mut word, mut data) = ([7u8; 6], [7u8; 2]);
    t.ok(encode(0, 3, 1, &[1, 1], &mut word) == 1, "encode 1");
    t.ok(encode(1, 3, 1, &[], &mut word[..3]) == 4, "encode 4");
    t.ok(encode(1, 6, 4, &[], &mut word) == 4, "encode 4 before 29");
    t.ok(encode(1, 7, 4, &[], &mut word) == 29, "encode 29 before 5");
    t.ok(encode(2, 3, 1, &[1], &mut word) == 5, "encode short data");
    t.ok(encode(2, 3, 1, &[1, 1], &mut word[..5]) == 5, "encode short word");
    t.ok(extract(2, 3, 9, &word, &mut data) == 2, "extract 2");
    t.ok(extract(2, 3, 1, &word[..5], &mut data) == 5, "extract short word");
    t.ok(extract(2, 3, 1, &word, &mut data[..1]) == 5, "extract short data");
    t.ok(word == [7; 6] && data == [7; 2], "untouched");
    t.ok(extract(2, 3, 1, &[1, 2, 3, 4, 5, 6], &mut data) == 0, "extract any word");
    t.ok(data == [1, 2], "its data");
    t.ok(check(2, 99, 1, &word) == Err(3), "check 3");
    t.ok(check(2, 3, 1, &word[..5]) == Err(5), "check 5");
    t.ok(judge(2, 3, 1, &[2, 0, 0, 0, 0]) == 5, "judge 5 before 6");
    t.ok(judge(2, 3, 1, &[1, 1, 1, 1, 1, 2]) == 6, "judge 6 before 8");
    let mut marks = [1, 1, 1, 1, 1, 2];
    t.ok(repair(2, 3, 1, 9, &mut word, &mut marks[..5]) == (5, 0), "repair 5 before 7");
    t.ok(repair(2, 3, 1, 9, &mut word, &mut marks) == (6, 0), "repair 6 before 7");
    t.ok(repair(2, 3, 1, 0, &mut word, &mut marks) == (6, 0), "repair 6 looks at all");
    t.ok(repair(2, 3, 1, 9, &mut word[..5], &mut marks) == (5, 0), "repair short word");
    t.ok(recover(2, 3, 1, &mut word, &mut marks) == (6, 0), "recover 6 before 8");
    t.ok(recover(2, 3, 1, &mut word[..5], &mut marks) == (5, 0), "recover 5 before 6");
    t.ok(recover(2, 3, 1, &mut word, &mut marks[..5]) == (5, 0), "recover short marks");
    t.ok(word == [7; 6] && marks == [1, 1, 1, 1, 1, 2], "untouched");
}

// -------------------------------------------------------------- brute force

/// All words that satisfy the equations, by trying data; k at most 2.
fn all_codewords(m: u64, w: u64, c: u64) -> Vec<Vec<u8>> {
    let k = describe(m, w, c).unwrap().1;
    let mut words = Vec::new();
    for value in 0..(1u64 << (8 * k)) {
        let data: Vec<u8> = (0..k).map(|i| (value >> (8 * i)) as u8).collect();
        words.push(encoded(m, w, c, &data));
    }
    words
}

/// Whether two words agree at all present places.
fn agree(x: &[u8], y: &[u8], marks: &[u8]) -> bool {
    (0..x.len()).all(|p| marks[p] == 1 || x[p] == y[p])
}

/// Judge and recover against the list of all codewords, by the paper's words.
fn brute(t: &mut Tally, random: &mut Random, m: u64, w: u64, c: u64, rounds: u64) {
    let words = all_codewords(m, w, c);
    t.ok(words.iter().all(|x| check(m, w, c, x) == Ok(Checked::Yes)), "all are codewords");
    let zero = &words[0];
    for pattern in 0..(1u64 << (m * w)) {
        let marks = marks_of(pattern, m * w);
        // The code is linear: two agree exactly if one but 0 agrees with 0.
        let twins = words[1..].iter().any(|x| agree(x, zero, &marks));
        t.ok(judge(m, w, c, &marks) == if twins { 8 } else { 0 }, "brute judge");
        for round in 0..rounds {
            let pick = random.below(words.len() as u64) as usize;
            let mut start = spoiled(random, &words[pick], &marks);
            if round % 2 == 1 {
                let p = random.below(m * w) as usize;
                start[p] ^= 1 + random.below(255) as u8;
            }
            let fits: Vec<_> = words.iter().filter(|x| agree(x, &start, &marks)).collect();
            let (mut lent, mut left) = (start.clone(), marks.clone());
            let (number, group) = recover(m, w, c, &mut lent, &mut left);
            let expected = if twins { 8 } else if fits.is_empty() { 9 } else { 0 };
            t.ok(number == expected, "brute recover number");
            let named = if number == 9 { lowest_broken(m, w, c, &start, &marks) } else { 0 };
            t.ok(group == named, "brute recover group");
            let end = if number == 0 { fits[0].clone() } else { start };
            let clear = if number == 0 { vec![0; marks.len()] } else { marks.clone() };
            t.ok(lent == end && left == clear, "brute recover buffers");
        }
    }
}

/// The lowest group that no filling satisfies, by trying them; m if none is
/// so. For c at most 2.
fn lowest_broken(m: u64, w: u64, c: u64, word: &[u8], marks: &[u8]) -> u64 {
    (0..m).find(|&g| fillings(m, w, c, g, word, marks).is_empty()).unwrap_or(m)
}

/// All fillings of the lost places of group g that satisfy its equations; of
/// more than two lost places the first two are tried, the others left.
fn fillings(m: u64, w: u64, c: u64, g: u64, word: &[u8], marks: &[u8]) -> Vec<Vec<u8>> {
    let group = (g * w) as usize..(g * w + w) as usize;
    let lost: Vec<usize> = group.clone().filter(|&p| marks[p] == 1).take(2).collect();
    let rows = equations(m, w, c);
    let own = &rows[(g * c) as usize..(g * c + c) as usize];
    let mut found = Vec::new();
    let mut trial = word.to_vec();
    for value in 0..(1u64 << (8 * lost.len())) {
        for (i, &p) in lost.iter().enumerate() {
            trial[p] = (value >> (8 * i)) as u8;
        }
        let holds = own.iter().all(|row| {
            group.clone().fold(0, |sum, p| sum ^ mul(row[p], trial[p])) == 0
        });
        if holds {
            found.push(trial.clone());
        }
    }
    found
}

/// Repair against all fillings, for every pattern; c at most 2.
fn brute_repair(t: &mut Tally, random: &mut Random, m: u64, w: u64, c: u64) {
    for pattern in 0..(1u64 << (m * w)) {
        let marks = marks_of(pattern, m * w);
        let g = random.below(m);
        let group = (g * w) as usize..(g * w + w) as usize;
        let losses = marks[group.clone()].iter().filter(|&&x| x == 1).count() as u64;
        let word = random_codeword(random, m, w, c);
        let mut start = spoiled(random, &word, &marks);
        if random.below(2) == 1 {
            start[(g * w + random.below(w)) as usize] ^= 1;
        }
        let (mut lent, mut left) = (start.clone(), marks.clone());
        let (number, named) = repair(m, w, c, g, &mut lent, &mut left);
        t.ok(named == if number == 9 { g } else { 0 }, "brute repair group");
        if losses > c {
            t.ok(number == 8 && lent == start && left == marks, "brute repair 8");
            continue;
        }
        let found = fillings(m, w, c, g, &start, &marks);
        if found.is_empty() {
            t.ok(number == 9 && lent == start && left == marks, "brute repair 9");
        } else {
            let mut clear = marks.clone();
            clear[group].fill(0);
            t.ok(found.len() == 1, "only filling");
            t.ok(number == 0 && lent == found[0] && left == clear, "brute repair 0");
        }
    }
}

/// Over all patterns: judge is 8 exactly above excess 2, recover of a random
/// codeword follows it, and the sure count is one less than the fewest
/// losses that are judged 8.
fn all_patterns(t: &mut Tally, random: &mut Random, m: u64, w: u64, c: u64) {
    let mut fewest = u64::MAX;
    for pattern in 0..(1u64 << (m * w)) {
        let mut marks = marks_of(pattern, m * w);
        let verdict = if excess(m, w, c, &marks) > 2 { 8 } else { 0 };
        t.ok(judge(m, w, c, &marks) == verdict, "judge is excess above 2");
        if judge(m, w, c, &marks) == 8 {
            fewest = fewest.min(pattern.count_ones() as u64);
        }
        let word = random_codeword(random, m, w, c);
        let start = spoiled(random, &word, &marks);
        let (mut lent, before) = (start.clone(), marks.clone());
        let number = recover(m, w, c, &mut lent, &mut marks).0;
        t.ok(number == verdict, "recover follows judge");
        if number == 0 {
            t.ok(lent == word && marks.iter().all(|&x| x == 0), "codeword stands");
        } else {
            t.ok(lent == start && marks == before, "untouched");
        }
        let mut any = random.bytes(m * w);
        let number = recover(m, w, c, &mut any, &mut before.clone()).0;
        t.ok((number == 8) == (verdict == 8), "any bytes: 8 as judge says");
    }
    t.ok(describe(m, w, c).unwrap().2 + 1 == fewest, "sure count is the largest");
}

// ---------------------------------------------------------------- at random

/// Every good shape: encode, check, extract, the sure count, judge.
fn every_shape(t: &mut Tally, random: &mut Random) {
    for (m, w, c) in good_shapes() {
        let (n, k, sure) = describe(m, w, c).unwrap();
        let data = random.bytes(k);
        let word = encoded(m, w, c, &data);
        let mut back = vec![0; k as usize];
        t.ok(check(m, w, c, &word) == Ok(Checked::Yes), "encode gives a codeword");
        t.ok(extract(m, w, c, &word, &mut back) == 0 && back == data, "extract");
        let mut marks = random_marks(random, n, sure);
        let mut lent = spoiled(random, &word, &marks);
        t.ok(recover(m, w, c, &mut lent, &mut marks) == (0, 0), "sure count");
        t.ok(lent == word && marks.iter().all(|&x| x == 0), "sure count word");
        let more: Vec<u8> = (0..n).map(|p| (p <= sure) as u8).collect();
        t.ok(judge(m, w, c, &more) == 8, "one loss more than the sure count");
        for more in 1..5 {
            let marks = heavy_marks(random, m, w, c, more);
            let verdict = if excess(m, w, c, &marks) > 2 { 8 } else { 0 };
            t.ok(judge(m, w, c, &marks) == verdict, "judge of heavy loss");
        }
        let mut bad = word.clone();
        let p = random.below(n);
        bad[p as usize] ^= 1 + random.below(255) as u8;
        t.ok(check(m, w, c, &bad) == Ok(Checked::No(p / w)), "one byte off: no codeword");
        t.ok(recover(m, w, c, &mut bad, &mut vec![0; n as usize]) == (9, p / w), "and 9 by its group");
    }
}

/// The group that a 9 names, on every good shape: the lowest of those wrong;
/// m where the wrong byte's group has c lost places, or where each group is
/// sound and the two equations across are not.
fn named_groups(t: &mut Tally, random: &mut Random) {
    for (m, w, c) in good_shapes() {
        let whole = random_codeword(random, m, w, c);
        let (g, h) = (random.below(m), random.below(m));
        let (p, q) = ((g * w + w - 1) as usize, (h * w) as usize);
        let mut two = whole.clone();
        two[p] ^= 1 + random.below(255) as u8;
        two[q] ^= 1 + random.below(255) as u8;
        if g != h {
            t.ok(recover(m, w, c, &mut two, &mut vec![0; whole.len()]) == (9, g.min(h)), "two wrong: the lowest");
        }
        let mut one = whole.clone();
        one[p] ^= 1 + random.below(255) as u8;
        let mut marks = vec![0; whole.len()];
        marks[q..q + c as usize].fill(1);
        let named = if g == h { m } else { g };
        t.ok(recover(m, w, c, &mut one, &mut marks) == (9, named), "c lost in a group: it is never named");
        let mut local = random.bytes(m * w);
        for g in 0..m {
            let mut marks = vec![0; local.len()];
            marks[(g * w) as usize..(g * w + c) as usize].fill(1);
            t.ok(repair(m, w, c, g, &mut local, &mut marks) == (0, 0), "each group made sound");
        }
        if check(m, w, c, &local) != Ok(Checked::Yes) {
            t.ok(check(m, w, c, &local) == Ok(Checked::No(m)), "check: only across");
            t.ok(recover(m, w, c, &mut local, &mut vec![0; whole.len()]) == (9, m), "only across: m");
        }
    }
}

/// Demand 3: any list of repairs, then recovery, against recovery at once.
fn repairs_then_recovery(t: &mut Tally, random: &mut Random) {
    let shapes = good_shapes();
    for round in 0..1500 {
        let (m, w, c) = shapes[random.below(shapes.len() as u64) as usize];
        let more = random.below(5);
        let marks = heavy_marks(random, m, w, c, more);
        let word = match round % 3 {
            0 => random.bytes(m * w),
            _ => random_codeword(random, m, w, c),
        };
        let mut word = spoiled(random, &word, &marks);
        if round % 3 == 1 {
            word[random.below(m * w) as usize] ^= 1;
        }
        let (mut once_word, mut once_marks) = (word.clone(), marks.clone());
        let once = recover(m, w, c, &mut once_word, &mut once_marks);
        let (mut list_word, mut list_marks) = (word, marks);
        for _ in 0..random.below(2 * m + 1) {
            let g = random.below(m + 1);
            repair(m, w, c, g, &mut list_word, &mut list_marks);
        }
        let after = recover(m, w, c, &mut list_word, &mut list_marks);
        t.ok(once == after, "demand 3 number and group");
        if once.0 == 0 {
            t.ok(list_word == once_word && list_marks == once_marks, "demand 3 buffers");
        }
    }
}

// ----------------------------------------------------------------- the desk

fn desk_handles(t: &mut Tally) {
    let mut desk = fresh();
    let marks = [1, 1, 1, 0, 0, 0];
    t.ok(sound(&desk) && desk.t == 0 && desk.jobs == [FREE; 8], "fresh");
    for s in 0..8 {
        t.ok(open(&mut desk, 2, 3, 1, &marks) == Ok(8 * (s + 1) + s), "handle 8t+s");
    }
    let full = desk;
    t.ok(open(&mut desk, 2, 3, 1, &marks) == Err(11), "ninth open is 11");
    t.ok(open(&mut desk, 2, 3, 1, &[1; 6]) == Err(8), "8 before 11");
    t.ok(open(&mut desk, 2, 3, 1, &[1; 5]) == Err(5), "5 before 11");
    t.ok(open(&mut desk, 2, 3, 1, &[3; 6]) == Err(6), "6 before 11");
    t.ok(open(&mut desk, 1, 3, 1, &marks) == Err(4), "4 before 11");
    for handle in [0, 7, 1, 8, 9, 16, 72, u64::MAX, 8 + (1 << 32)] {
        let open_here = handle == 8;
        t.ok(read(&desk, handle) == if open_here { Ok(0) } else { Err(12) }, "read");
    }
    t.ok(desk == full, "desk as it was");
    t.ok(close(&mut desk, 8 * 3 + 2) == 0 && desk.jobs[2] == FREE, "close");
    t.ok(close(&mut desk, 8 * 3 + 2) == 12, "closed handle: close is 12");
    t.ok(read(&desk, 8 * 3 + 2) == Err(12), "closed handle: read is 12");
    let mut word = [0; 6];
    t.ok(serve(&mut desk, 8 * 3 + 2, &mut word) == (12, 0), "closed handle: serve is 12");
    t.ok(serve(&mut desk, 0, &mut word[..1]) == (12, 0), "12 before 5, handle 0");
    t.ok(close(&mut desk, 7) == 12, "handle 7 is 12");
    t.ok(open(&mut desk, 2, 3, 1, &marks) == Ok(8 * 9 + 2), "accepted after a close");
    desk.t = 65_535;
    t.ok(open(&mut desk, 2, 3, 1, &marks) == Err(10), "10 before 11");
    t.ok(open(&mut desk, 2, 3, 1, &[1; 6]) == Err(8), "8 before 10");
    let mut desk = Desk { t: 65_534, ..fresh() };
    t.ok(open(&mut desk, 2, 3, 1, &marks) == Ok(8 * 65_535), "last handle");
    t.ok(open(&mut desk, 2, 3, 1, &marks) == Err(10), "t at its end");
}

fn desk_serves(t: &mut Tally) {
    let mut desk = fresh();
    let marks = [1, 1, 1, 0, 0, 0];
    let handle = open(&mut desk, 2, 3, 1, &marks).unwrap();
    let other = open(&mut desk, 1, 4, 1, &[0; 4]).unwrap();
    let mut word = [5, 5, 5, 78, 206, 128];
    t.ok(serve(&mut desk, handle, &mut word) == (0, 0), "serve");
    t.ok(word == [1, 1, 0, 78, 206, 128], "served word");
    t.ok(desk.jobs[0].marks[..6] == marks, "marks stay");
    t.ok(read(&desk, handle) == Ok(1) && read(&desk, other) == Ok(0), "served 1");
    t.ok(serve(&mut desk, handle, &mut word[..5]) == (5, 0), "serve 5");
    let mut bad = [1, 79, 147, 220];
    t.ok(serve(&mut desk, other, &mut bad) == (9, 0), "serve 9");
    t.ok(bad == [1, 79, 147, 220] && read(&desk, other) == Ok(0), "9 not counted");
    desk.jobs[1].served = LAST_SERVED - 1;
    let mut good = [1, 79, 147, 221];
    t.ok(serve(&mut desk, other, &mut good) == (0, 0), "last serve");
    t.ok(read(&desk, other) == Ok(4_294_967_295), "served at its end");
    t.ok(serve(&mut desk, other, &mut good) == (13, 0), "then 13");
    t.ok(serve(&mut desk, other, &mut bad) == (13, 0), "13 before 9");
    t.ok(serve(&mut desk, other, &mut bad[..3]) == (5, 0), "5 before 13");
    t.ok(read(&desk, other) == Ok(4_294_967_295), "served stays");
    t.ok(close(&mut desk, other) == 0 && desk.jobs[1] == FREE, "close zeroes");
    t.ok(desk.t == 2, "t stays at close");
}

/// A disk dies in the middle of a rebuild, and another comes back.
fn desk_losses(t: &mut Tally) {
    let mut desk = fresh();
    let handle = open(&mut desk, 2, 3, 1, &[1, 1, 1, 0, 0, 0]).unwrap();
    let other = open(&mut desk, 2, 3, 1, &[0; 6]).unwrap();
    t.ok(desk.jobs[0].lost[..3] == [3, 0, 0] && desk.jobs[0].excess == 2, "figures of open");
    let before = desk;
    t.ok(lose(&mut desk, 0, 6) == 12 && find(&mut desk, 7, 6) == 12, "12 before 25");
    t.ok(lose(&mut desk, handle, 6) == 25 && find(&mut desk, handle, u64::MAX) == 25, "25");
    t.ok(lose(&mut desk, handle, 2) == 0 && find(&mut desk, handle, 3) == 0, "as wanted already");
    t.ok(desk == before, "nothing has changed");
    t.ok(lose(&mut desk, handle, 3) == 0, "a check of the group is left");
    t.ok(desk.jobs[0].lost[..3] == [3, 1, 0] && desk.jobs[0].excess == 2, "its count alone");
    t.ok(lose(&mut desk, handle, 4) == 8 && lose(&mut desk, handle, 3) == 0, "8, but not for a lost place");
    t.ok(desk.jobs[1] == before.jobs[1] && desk.t == 2, "the other job stays");
    let mut garbage = [0, 0, 0, 0, 207, 128];
    t.ok(serve(&mut desk, handle, &mut garbage) == (0, 0), "a refused loss counts as present");
    t.ok(garbage == [158, 131, 29, 79, 207, 128], "a wrong word");
    t.ok(find(&mut desk, handle, 0) == 0 && lose(&mut desk, handle, 4) == 0, "another place found first");
    t.ok(desk.jobs[0].lost[..3] == [2, 2, 0] && desk.jobs[0].excess == 2, "figures of both");
    let mut word = [1, 0, 0, 0, 207, 128];
    t.ok(serve(&mut desk, handle, &mut word) == (0, 0), "serve");
    t.ok(word == [1, 1, 0, 78, 206, 128] && read(&desk, handle) == Ok(2), "the right word");
    let mut wrong = [1, 1, 0, 78, 206, 129];
    t.ok(serve(&mut desk, other, &mut wrong) == (9, 1), "9 before");
    t.ok(lose(&mut desk, other, 5) == 0 && serve(&mut desk, other, &mut wrong) == (0, 0), "0 after");
    t.ok(wrong == [1, 1, 0, 78, 206, 128], "mended");
}

/// One changed field: the desk is refused 31 by every service, untouched.
fn refused_31(t: &mut Tally, base: &Desk, what: &str, change: fn(&mut Desk)) {
    let mut desk = *base;
    change(&mut desk);
    let before = desk;
    let mut word = [0; 6];
    t.ok(!sound(&desk), what);
    t.ok(open(&mut desk, 0, 0, 0, &[]) == Err(31), what);
    t.ok(serve(&mut desk, 0, &mut word) == (31, 0), what);
    t.ok(read(&desk, 0) == Err(31), what);
    t.ok(close(&mut desk, 0) == 31, what);
    t.ok(lose(&mut desk, 0, u64::MAX) == 31 && find(&mut desk, 0, u64::MAX) == 31, what);
    t.ok(desk == before && word == [0; 6], what);
}

fn desk_sound(t: &mut Tally) {
    let mut base = fresh();
    open(&mut base, 2, 3, 1, &[1, 1, 1, 0, 0, 0]).unwrap();
    open(&mut base, 2, 3, 1, &[0; 6]).unwrap();
    refused_31(t, &base, "t above", |d| d.t = 65_536);
    refused_31(t, &base, "t below an issue", |d| d.t = 1);
    refused_31(t, &base, "taken 2", |d| d.jobs[5].taken = 2);
    refused_31(t, &base, "taken huge", |d| d.jobs[1].taken = u64::MAX);
    refused_31(t, &base, "taken zero job", |d| d.jobs[5].taken = 1);
    refused_31(t, &base, "bad m", |d| d.jobs[0].m = 258);
    refused_31(t, &base, "bad w", |d| d.jobs[0].w = u64::MAX);
    refused_31(t, &base, "bad c", |d| d.jobs[0].c = u64::MAX);
    refused_31(t, &base, "bad mark", |d| d.jobs[1].marks[5] = 2);
    refused_31(t, &base, "excess 3", |d| d.jobs[0].marks = [1; 240]);
    refused_31(t, &base, "a count less", |d| d.jobs[0].lost[0] = 2);
    refused_31(t, &base, "a count more", |d| d.jobs[1].lost[1] = 1);
    refused_31(t, &base, "a count past the groups", |d| d.jobs[0].lost[14] = 1);
    refused_31(t, &base, "another excess", |d| d.jobs[0].excess = 1);
    refused_31(t, &base, "marks without their figures", |d| d.jobs[1].marks[0] = 1);
    refused_31(t, &base, "handle 0", |d| d.jobs[0].handle = 0);
    refused_31(t, &base, "wrong slot", |d| d.jobs[0].handle = 9);
    refused_31(t, &base, "u above t", |d| d.jobs[0].handle = 24);
    refused_31(t, &base, "u twice", |d| d.jobs[0].handle = 16);
    refused_31(t, &base, "huge handle", |d| d.jobs[0].handle = (1 << 32) + 8);
    let mut desk = base;
    desk.jobs[0].marks[6] = 77;
    desk.jobs[0].served = 12;
    desk.jobs[7] = Job { taken: 0, m: 99, w: 99, c: 99, handle: 8, served: 9, marks: [9; 240], lost: [9; 15], excess: 9 };
    t.ok(sound(&desk), "marks past n, served and free slots do not matter");
    t.ok(read(&desk, 8) == Ok(12), "a free slot holds no handle");
}

// --------------------------------------------------------------- text lines

/// One line with no shape, or with m 2 w 3 c 1 in force.
fn gives(t: &mut Tally, state: Option<Shape>, input: &str, output: &str) {
    let (text, next) = line(state, input.as_bytes());
    t.ok(text == output.as_bytes(), input);
    t.ok(next == state, "shape stays in force");
}

fn lines(t: &mut Tally) {
    let s = Some((2, 3, 1));
    let (ok, next) = line(None, b"shape\t2\t3\t1");
    t.ok(ok == b"ok\t6\t2" && next == s, "shape line");
    gives(t, s, "data\t1\t1", "word\t1\t1\t0\t78\t206\t128");
    gives(t, s, "word\t1\t-\t0\t78\t-\t128", "word\t1\t1\t0\t78\t206\t128");
    gives(t, s, "word\t-\t-\t-\t-\t-\t128", "refused\t8");
    gives(t, s, "word\t1\t1\t0\t78\t206\t129", "refused\t9\t1");
    gives(t, s, "word\t1\t1\t0\t0\t0\t0", "refused\t9\t2");
    gives(t, s, "word\t1\t0\t0\t-\t206\t129", "refused\t9\t0");
    for bad in [
        "", "\t", "Shape\t2\t3\t1", " data\t1\t1", "data ", "shape", "shape\t2\t3",
        "shape\t2\t3\t1\t1", "shape\t2\t3\t-", "shape\t02\t3\t1", "shape\t256\t3\t1",
        "shape\t2\t3\t1\r", "shape\t2\t3\t1\t", "data\t", "data\t-\t1", "data\t1\t1\t-",
        "data\t1\t256", "data\t1\t+1", "data\t1\t00", "data\t1\t 1", "data\t1\t1 ",
        "data\t1\t\t1", "data\t1\t1000", "word\t1\t--", "word\t", "word\t1\t2\t3\t4\t5\t6\t7\tx",
        "words\t1", "ok\t6\t2", "data 1 1", "data\t1\t\u{0661}",
    ] {
        gives(t, s, bad, "refused\t14");
        gives(t, None, bad, "refused\t14");
    }
    for short in ["data", "word", "data\t1", "data\t1\t1\t1", "word\t-", "word\t1\t2\t3\t4\t5\t6\t7"] {
        gives(t, s, short, "refused\t5");
        gives(t, None, short, "refused\t15");
    }
    for (shape, number) in [("0\t3\t1", 1), ("16\t0\t0", 1), ("2\t3\t5", 2), ("2\t17\t1", 3),
        ("2\t2\t1", 3), ("1\t3\t1", 4), ("255\t255\t255", 1)] {
        gives(t, s, &format!("shape\t{shape}"), &format!("refused\t{number}"));
        gives(t, None, &format!("shape\t{shape}"), &format!("refused\t{number}"));
    }
}

fn run(input: &[u8]) -> Vec<u8> {
    let mut output = Vec::new();
    session(input, &mut output).unwrap();
    output
}

fn sessions(t: &mut Tally) {
    let text = "shape\t2\t3\t1\ndata\t1\t1\nword\t1\t-\t0\t78\t-\t128\nword\t-\t-\t-\t-\t-\t128";
    let answer = "ok\t6\t2\nword\t1\t1\t0\t78\t206\t128\nword\t1\t1\t0\t78\t206\t128\nrefused\t8\n";
    t.ok(run(text.as_bytes()) == answer.as_bytes(), "session, no last line feed");
    t.ok(run(format!("{text}\n").as_bytes()) == answer.as_bytes(), "session");
    t.ok(run(b"") == b"", "empty input");
    t.ok(run(b"\n") == b"refused\t14\n", "lone line feed");
    t.ok(run(b"\n\n") == b"refused\t14\nrefused\t14\n", "two line feeds");
    t.ok(run(b"data\t1") == b"refused\t15\n", "no shape yet");
    let kept = "shape\t2\t3\t1\nshape\t9\t9\t9\nshape\t1\ndata\t1\t1\n";
    let answer = b"ok\t6\t2\nrefused\t2\nrefused\t14\nword\t1\t1\t0\t78\t206\t128\n";
    t.ok(run(kept.as_bytes()) == answer, "a refused shape leaves the earlier one");
    // 1,024 bytes are readable (a wrong count, 5); 1,025 are not (14).
    let longest = format!("data{}", "\t1".repeat(510));
    t.ok(longest.len() == 1024, "longest line");
    let text = format!("shape\t2\t3\t1\n{longest}\n{longest}0\n{longest}\t1\n{longest}");
    let answer = b"ok\t6\t2\nrefused\t5\nrefused\t14\nrefused\t14\nrefused\t5\n";
    t.ok(run(text.as_bytes()) == answer, "1,024 and 1,025 bytes");
    let mut long = vec![b'x'; 1_000_000];
    t.ok(run(&long) == b"refused\t14\n", "long last line");
    long.push(b'\n');
    long.extend(b"shape\t2\t3\t1");
    t.ok(run(&long) == b"refused\t14\nok\t6\t2\n", "long line answered once");
    t.ok(run(b"\xff\x00\n") == b"refused\t14\n", "raw bytes");
    let text = format!("shape\t15\t16\t4\nword{}\n", "\t0".repeat(240));
    let answer = format!("ok\t240\t178\nword{}\n", "\t0".repeat(240));
    t.ok(run(text.as_bytes()) == answer.as_bytes(), "largest shape");
}

// --------------------------------------------------------------------- main

/// The judge of the profile: patterns done by hand, and a yes means judge 0.
fn profiles(t: &mut Tally, random: &mut Random) {
    t.ok(profile(2, 4, 1, &[0; 8]) == Ok(vec![]), "profile: nothing lost");
    t.ok(profile(2, 4, 1, &[1, 0, 0, 0, 0, 0, 0, 1]) == Ok(vec![]), "profile: two sectors");
    t.ok(profile(2, 4, 1, &[1, 0, 0, 0, 1, 1, 0, 0]) == Ok(vec![0]), "profile: the first that is enough");
    t.ok(profile(2, 4, 1, &[1, 1, 0, 0, 0, 1, 0, 0]) == Ok(vec![0]), "profile: not the largest count");
    t.ok(profile(2, 4, 1, &[1, 1, 0, 0, 0, 1, 0, 1]) == Ok(vec![1]), "profile: a disk and two sectors");
    t.ok(profile(2, 4, 1, &[1, 1, 0, 0, 0, 0, 1, 1]) == Err(28), "profile: crosswise");
    t.ok(judge(2, 4, 1, &[1, 1, 0, 0, 0, 0, 1, 1]) == 0, "profile: crosswise is judged 0");
    t.ok(profile(2, 3, 1, &[2, 0, 0, 0, 0]) == Err(5), "profile: 5 before 6");
    t.ok(profile(2, 3, 1, &[1, 1, 1, 1, 1, 2]) == Err(6), "profile: 6 before 28");
    for _ in 0..200 {
        let marks: Vec<u8> = (0..24).map(|_| (random.below(3) == 0) as u8).collect();
        t.ok(profile(4, 6, 2, &marks).is_err() || judge(4, 6, 2, &marks) == 0, "profile: yes is judged 0");
    }
}

/// A gather of the word of the paper: in stretches, with an 8 and with a 9.
fn gathers(t: &mut Tally) {
    let mut gather = Gather { m: 9, w: 9, c: 9, finished: 9, bytes: [9; 240], marks: [9; 240] };
    let (old, mut word) = (gather, [7; 6]);
    t.ok(begin(&mut gather, 1, 3, 1) == 4 && gather == old, "gather: begin refused");
    t.ok(take(&mut gather, 0, &[]) == 2, "gather: a bad record");
    t.ok(begin(&mut gather, 2, 3, 1) == 0 && gather.finished == 0, "gather: begin");
    t.ok(take(&mut gather, 5, &[128]) == 0 && take(&mut gather, 6, &[]) == 0, "gather: the end, and none at n");
    t.ok(take(&mut gather, 7, &[]) == 23 && take(&mut gather, u64::MAX, &[1]) == 23, "gather: beyond");
    let copy = gather;
    t.ok(finish(&mut gather, &mut word) == (8, 0) && gather.finished == 1 && word == [7; 6], "gather: an 8 finishes");
    t.ok(finish(&mut gather, &mut word[..5]) == (22, 0) && take(&mut gather, 0, &[1]) == 22, "gather: finished");
    gather = copy;
    t.ok(take(&mut gather, 2, &[0, 78]) == 0 && take(&mut gather, 1, &[1, 0]) == 24, "gather: a place twice");
    t.ok(finish(&mut gather, &mut word[..5]) == (5, 0) && gather.finished == 0, "gather: a 5 does not finish");
    t.ok(take(&mut gather, 1, &[1]) == 0, "gather: one more");
    t.ok(finish(&mut gather, &mut word) == (0, 0) && word == [1, 1, 0, 78, 206, 128], "gather: done");
    begin(&mut gather, 2, 3, 1);
    t.ok(take(&mut gather, 0, &[1, 1, 0, 78, 206, 129]) == 0, "gather: a wrong byte");
    t.ok(finish(&mut gather, &mut word) == (9, 1) && gather.finished == 1, "gather: a 9 finishes");
}

// -------------------------------------------------------------------- edits

/// Every shape: one edit leaves all but the places that may differ, two go in either order, and refusals come in their order.
fn edits(t: &mut Tally, random: &mut Random) {
    for (m, w, c) in good_shapes() {
        let k = describe(m, w, c).unwrap().1;
        let word = random_codeword(random, m, w, c);
        let (i, a, b) = (random.below(k), random.next() as u8, random.next() as u8);
        let mut once = word.clone();
        if is_retired(c) {
            t.ok(edit(m, w, c, &mut once, k, a) == (29, 0) && once == word, "four checks are refused before the number");
            continue;
        }
        t.ok(edit(m, w, c, &mut once, i, a) == (0, 0), "an edit is done");
        let place = (0..m * w).filter(|&p| !is_check_place(m, w, c, p)).nth(i as usize).unwrap();
        let may_differ = |p: u64| p == place || (p / w == place / w && p % w >= w - c) || p >= m * w - c - 2;
        t.ok((0..m * w).all(|p| may_differ(p) || once[p as usize] == word[p as usize]), "nothing differs elsewhere");
        t.ok(once[place as usize] == a, "the byte stands in its place");
        let j = (i + 1) % k;
        let (mut there, mut back) = (once.clone(), word.clone());
        edit(m, w, c, &mut there, j, b);
        edit(m, w, c, &mut back, j, b);
        edit(m, w, c, &mut back, i, a);
        t.ok(there == back || i == j, "either order");
        let mut other = word.clone();
        other[0] ^= 1;
        let broken = other.clone();
        t.ok(edit(m, w, c, &mut other, k, a) == (30, 0) && other == broken, "30 comes before 9");
        t.ok(edit(m, w, c, &mut other, i, a) == (9, 0) && other == broken, "a word that is no codeword is not edited");
        t.ok(edit(m, w, c, &mut other[1..], k, a) == (5, 0) && other == broken, "5 comes before 30");
    }
    let mut word = [1, 1, 0, 78, 206, 128];
    t.ok(edit(2, 3, 1, &mut word, 1, 1) == (0, 0) && word == [1, 1, 0, 78, 206, 128], "the byte that stands there");
}

/// The catalogue: puts and lookups done by hand, and texts that are none.
fn catalogues(t: &mut Tally) {
    let mut buffer = [0xEE; 60];
    buffer[..9].copy_from_slice(b"shapes\t1\n");
    t.ok(put((2, 3, 1), b"rack", 0, &mut buffer, 9) == Ok((24, 1)), "put: the first, and the first line of version 2");
    t.ok(put((4, 8, 2), b"desk-box", 0, &mut buffer, 24) == Ok((41, 1)), "put: before it");
    t.ok(put((15, 16, 3), b"rack", 1, &mut buffer, 41) == Ok((43, 2)), "put: again");
    t.ok(&buffer[..43] == b"shapes\t2\t0\ndesk-box\t1\t4\t8\t2\nrack\t2\t15\t16\t3\n", "put: the text");
    t.ok(buffer[43..].iter().all(|&byte| byte == 0xEE), "put: bytes past the text");
    t.ok(lookup(&buffer, 43, b"rack") == Ok((2, 15, 16, 3)), "lookup");
    t.ok(lookup(&buffer, 43, b"rac") == Err(18), "lookup: 18");
    t.ok(lookup(&buffer, 43, b"Rack") == Err(17), "lookup: 17");
    t.ok(lookup(&buffer, 42, b"Rack") == Err(16), "lookup: 16 before 17");
    t.ok(put((3, 6, 4), b"Rack", 1, &mut buffer, 42) == Err(29), "put: 29 before 16");
    t.ok(put((2, 3, 1), b"net", 1, &mut buffer, 43) == Err(19), "put: 19 of a new name");
    t.ok(put((2, 3, 1), b"a-long-name-0123", 0, &mut buffer, 43) == Err(21), "put: 21 by the buffer");
    let texts: [&[u8]; 18] = [
        b"", b"shapes\t1", b"shapes\t1\n\n", b"shapes\t1\na\t01\t2\t3\t1\n", b"shapes\t1\na\t1\t2\t3\t1", b"shapes\t1\na\t0\t2\t3\t1\n",
        b"shapes\t1\nb\t1\t2\t3\t1\na\t1\t2\t3\t1\n", b"shapes\t1\na\t1\t2\t3\t1\na\t1\t2\t3\t1\n", b"shapes\t1\na\t+1\t2\t3\t1\n",
        b"shapes\t1\na\t2\tgone\n", b"shapes\t2\n", b"shapes\t1\t0\n", b"shapes\t2\t65536\n", b"shapes\t2\t00\n", b"shapes\t3\t0\n",
        b"shapes\t2\t0\na\t0\tgone\n", b"shapes\t2\t0\na\t2\tgone\t\n", b"shapes\t2\t0\na\t2\tgone\na\t3\t2\t3\t1\n",
    ];
    t.ok(texts.iter().all(|text| catalogue(text).is_none()), "texts that are none");
    t.ok(catalogue(b"shapes\t1\nold\t65535\t3\t6\t4\n").is_some(), "a text with a retired shape");
    t.ok(catalogue(b"shapes\t2\t65535\nold\t1\tgone\n").is_some(), "the highest floor and a gone line");
}

/// A text in a buffer with this many bytes past it.
fn lent(text: &str, room: usize) -> (Vec<u8>, usize) {
    ([text.as_bytes(), &vec![0xEE; room]].concat(), text.len())
}

/// Removes and compactions done by hand.
fn removals(t: &mut Tally) {
    let (mut buffer, size) = lent("shapes\t1\na\t7\t2\t3\t1\nb\t3\t4\t8\t2\n", 10);
    t.ok(compact(&mut buffer, size) == Ok(size) && buffer.starts_with(b"shapes\t1\n"), "compact: version 1 stays");
    t.ok(remove(b"a", 0, &mut buffer, size) == Err(19), "remove: 19");
    t.ok(remove(b"c", 7, &mut buffer, size) == Err(18), "remove: 18");
    t.ok(remove(b"C", 7, &mut buffer, size - 1) == Err(16) && remove(b"C", 7, &mut buffer, size) == Err(17), "remove: 16 and 17 before 18");
    t.ok(remove(b"a", 7, &mut buffer, size) == Ok((size + 1, 8)), "remove");
    t.ok(buffer.starts_with(b"shapes\t2\t0\na\t8\tgone\nb\t3\t4\t8\t2\n\xEE"), "remove: the text");
    let size = size + 1;
    t.ok(lookup(&buffer, size, b"a") == Err(18), "lookup: 18 of a gone name");
    t.ok(remove(b"a", 8, &mut buffer, size) == Err(18), "remove: 18 of a gone name");
    t.ok(put((2, 3, 1), b"a", 8, &mut buffer, size) == Err(19), "put: 19 of a gone name with its revision");
    let mut again = buffer.clone();
    t.ok(put((4, 8, 2), b"a", 0, &mut again, size) == Ok((size + 1, 9)), "put: a gone name's revision rises");
    t.ok(compact(&mut buffer, size) == Ok(size - 9), "compact");
    t.ok(buffer.starts_with(b"shapes\t2\t8\nb\t3\t4\t8\t2\n\t3\t4\t8\t2\n\xEE"), "compact: the text, and the bytes past it");
    let size = size - 9;
    t.ok(put((4, 8, 2), b"a", 0, &mut buffer, size) == Ok((size + 10, 9)), "put: a dropped name starts above the floor");
    t.ok(remove(b"b", 3, &mut buffer, size + 10) == Ok((size + 9, 4)), "remove: a name below the floor");
    t.ok(compact(&mut buffer, size + 9) == Ok(size), "compact: again");
    t.ok(buffer.starts_with(b"shapes\t2\t8\na\t9\t4\t8\t2\n"), "compact: the floor never falls");
}

/// Revisions, floors and rooms at their ends.
fn removal_ends(t: &mut Tally) {
    let (mut buffer, size) = lent("shapes\t2\t0\na\t65534\t2\t3\t1\nb\t65535\t2\t3\t1\n", 40);
    t.ok(remove(b"b", 65534, &mut buffer, size) == Err(19) && remove(b"b", 65535, &mut buffer, size) == Err(20), "remove: 19, then 20");
    t.ok(remove(b"a", 65534, &mut buffer, size) == Ok((size - 1, 65535)), "remove: to the last revision");
    t.ok(put((2, 3, 1), b"a", 1, &mut buffer, size - 1) == Err(19), "put: 19 before 20");
    t.ok(put((2, 3, 1), b"a", 0, &mut buffer, size - 1) == Err(20), "put: 20 of a gone name");
    t.ok(put((2, 3, 1), b"c", 0, &mut buffer, size - 1).is_ok_and(|(_, revision)| revision == 1), "put: the floor is still 0");
    let (mut buffer, size) = lent("shapes\t2\t0\na\t65535\tgone\nb\t1\t2\t3\t1\n", 40);
    t.ok(compact(&mut buffer, size) == Ok(size - 9), "compact: to the highest floor");
    t.ok(put((2, 3, 1), b"a", 1, &mut buffer, size - 9) == Err(19), "put: 19 before 20 by the floor");
    t.ok(put((2, 3, 1), b"a", 0, &mut buffer, size - 9) == Err(20), "put: 20 by the floor");
    t.ok(put((2, 3, 1), b"b", 1, &mut buffer, size - 9).is_ok(), "put: a name that is there");
    for room in 0..2 {
        let (mut buffer, size) = lent("shapes\t1\na\t9\t2\t3\t1\n", room);
        let before = buffer.clone();
        t.ok(remove(b"a", 9, &mut buffer, size) == Err(21) && buffer == before, "remove: 21 for the first line of version 2");
        t.ok(put((2, 3, 1), b"a", 9, &mut buffer, size) == Err(21) && buffer == before, "put: 21 for the first line of version 2");
    }
    let (mut buffer, size) = lent("shapes\t1\na\t9\t2\t3\t1\n", 2);
    t.ok(remove(b"a", 9, &mut buffer, size) == Ok((size + 2, 10)), "remove: to the buffer's end");
}

/// Marks of the check places, and that a recovery by them encodes.
fn check_places(t: &mut Tally, random: &mut Random) {
    let mut marks = vec![7; 6];
    t.ok(check_marks(2, 3, 1, &mut marks) == 0 && marks == [0, 0, 1, 1, 1, 1], "check marks of 2, 3, 1");
    let mut marks = vec![7; 10];
    t.ok(check_marks(2, 5, 2, &mut marks) == 0 && marks == [0, 0, 0, 1, 1, 0, 1, 1, 1, 1], "check marks of 2, 5, 2");
    let mut marks = vec![7; 12];
    for ((m, w, c), number) in [((0, 4, 1), 1), ((3, 4, 0), 2), ((3, 2, 1), 3), ((1, 3, 1), 4), ((2, 6, 4), 29), ((2, 7, 4), 29), ((2, 5, 2), 5)] {
        t.ok(check_marks(m, w, c, &mut marks) == number && marks == [7; 12], "check marks refused");
    }
    for (m, w, c) in [(1, 4, 1), (3, 6, 2), (15, 16, 3)] {
        let whole = random_codeword(random, m, w, c);
        let (mut word, mut marks) = (whole.clone(), vec![0; whole.len()]);
        check_marks(m, w, c, &mut marks);
        word.iter_mut().zip(&marks).for_each(|(byte, &mark)| *byte ^= mark);
        t.ok(word != whole && recover(m, w, c, &mut word, &mut marks) == (0, 0) && word == whole, "a recovery by check marks encodes");
    }
}

fn main() -> ExitCode {
    let t = &mut Tally { passed: 0, failed: 0 };
    let random = &mut Random(0x9E3779B97F4A7C15);
    field(t);
    field_laws(t, random);
    locators(t);
    shapes(t);
    hand_words(t);
    hand_repairs(t, random);
    both_faults(t, random);
    refusals(t);
    brute(t, random, 1, 4, 1, 20);
    brute(t, random, 1, 5, 2, 20);
    brute(t, random, 2, 3, 1, 10);
    for (m, w, c) in [(2, 3, 1), (1, 4, 1), (3, 3, 1), (2, 4, 2), (1, 6, 2)] {
        brute_repair(t, random, m, w, c);
    }
    for (m, w, c) in [(2, 3, 1), (1, 4, 1), (3, 3, 1), (1, 7, 4), (2, 5, 2), (3, 4, 2), (2, 6, 4)] {
        all_patterns(t, random, m, w, c);
    }
    every_shape(t, random);
    named_groups(t, random);
    repairs_then_recovery(t, random);
    profiles(t, random);
    gathers(t);
    edits(t, random);
    check_places(t, random);
    catalogues(t);
    removals(t);
    removal_ends(t);
    desk_handles(t);
    desk_serves(t);
    desk_losses(t);
    desk_sound(t);
    lines(t);
    sessions(t);
    println!("{} passed, {} failed", t.passed, t.failed);
    if t.failed == 0 {
        ExitCode::SUCCESS
    } else {
        ExitCode::FAILURE
    }
}
