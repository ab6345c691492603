//! The sixteen-bit edition of the library beside its second program: all patterns of small shapes, and random words and losses up to 4,096 places.
//! Arguments: none, or SEED COUNT INDEX for so many random cases from that index on.
#[path = "../second/wide.rs"]
mod second;
use second::{Field, Shape};

#[repr(C)]
struct Answer {
    number: u8,
    group: u8,
}

extern "C" {
    fn axlebloom_wide_describe(m: usize, w: usize, c: usize) -> u8;
    fn axlebloom_wide_encode(m: usize, w: usize, c: usize, data: *const u16, k: usize, word: *mut u16, n: usize) -> u8;
    fn axlebloom_wide_extract(m: usize, w: usize, c: usize, word: *const u16, n: usize, data: *mut u16, k: usize) -> u8;
    fn axlebloom_wide_check(m: usize, w: usize, c: usize, word: *const u16, n: usize) -> Answer;
    fn axlebloom_wide_check_marks(m: usize, w: usize, c: usize, marks: *mut u8, n: usize) -> u8;
    fn axlebloom_wide_judge(m: usize, w: usize, c: usize, marks: *const u8, n: usize) -> u8;
    fn axlebloom_wide_repair(m: usize, w: usize, c: usize, g: usize, word: *mut u16, n: usize, marks: *mut u8, n2: usize) -> Answer;
    fn axlebloom_wide_recover(m: usize, w: usize, c: usize, word: *mut u16, n: usize, marks: *mut u8, n2: usize) -> Answer;
}

struct Random(u64);

impl Random {
    fn below(&mut self, n: u64) -> u64 {
        self.0 ^= self.0 << 13;
        self.0 ^= self.0 >> 7;
        self.0 ^= self.0 << 17;
        (self.0 >> 11) % n
    }
}

/// One word and its marks through every service that takes them.
fn compare(f: &Field, s: Shape, word: &[u16], marks: &[u8], r: &mut Random) {
    let Shape { m, w, c } = s;
    let n = m * w;
    let (number, group, filled) = second::recover(f, s, word, marks);
    let (mut x, mut l) = (word.to_vec(), marks.to_vec());
    let a = unsafe { axlebloom_wide_recover(m, w, c, x.as_mut_ptr(), n, l.as_mut_ptr(), n) };
    assert_eq!((a.number, a.group), (number, group), "recover {m}x{w} c {c} {marks:?}");
    assert!(if number == 0 { x == filled && l.iter().all(|b| *b == 0) } else { x == word && l == marks });
    assert_eq!(unsafe { axlebloom_wide_judge(m, w, c, marks.as_ptr(), n) }, if number == 8 { 8 } else { 0 });
    let g = r.below(m as u64) as usize;
    let (number, filled) = second::repair(f, s, g, word, marks);
    let (mut x, mut l) = (word.to_vec(), marks.to_vec());
    let a = unsafe { axlebloom_wide_repair(m, w, c, g, x.as_mut_ptr(), n, l.as_mut_ptr(), n) };
    assert_eq!((a.number, a.group), (number, if number == 9 { g as u8 } else { 0 }), "repair {g} {m}x{w} c {c} {marks:?}");
    let cleared: Vec<u8> = (0..n).map(|p| if p / w == g { 0 } else { marks[p] }).collect();
    assert!(if number == 0 { x == filled && l == cleared } else { x == word && l == marks });
    let none = vec![0; n];
    let (number, group, _) = second::recover(f, s, word, &none);
    let a = unsafe { axlebloom_wide_check(m, w, c, word.as_ptr(), n) };
    assert_eq!((a.number, a.group), (number, group), "check {m}x{w} c {c}");
}

/// Check marks into marks of any length, good and refused, by both.
fn check_marks(m: usize, w: usize, c: usize, length: usize) {
    let (mut ours, mut theirs) = (vec![7; length], vec![7; length]);
    let number = unsafe { axlebloom_wide_check_marks(m, w, c, ours.as_mut_ptr(), length) };
    assert_eq!(number, second::check_marks(m, w, c, &mut theirs), "check marks {m}x{w} c {c}, {length} marks");
    assert_eq!(ours, theirs, "check marks {m}x{w} c {c}, {length} marks");
}

/// A codeword of random data, by both; c 4 is out of sale.
fn codeword(f: &Field, s: Shape, r: &mut Random) -> Vec<u16> {
    let Shape { m, w, c } = s;
    let k = m * (w - c) - 2;
    let data: Vec<u16> = (0..k).map(|_| r.below(65536) as u16).collect();
    let word = second::encode(f, s, &data);
    let mut x = vec![7; m * w];
    let number = unsafe { axlebloom_wide_encode(m, w, c, data.as_ptr(), k, x.as_mut_ptr(), m * w) };
    assert_eq!(number, if c == 4 { 29 } else { 0 });
    assert!(if c == 4 { x.iter().all(|v| *v == 7) } else { x == word }, "encode {m}x{w} c {c}");
    let mut back = vec![0; k];
    assert_eq!(unsafe { axlebloom_wide_extract(m, w, c, word.as_ptr(), m * w, back.as_mut_ptr(), k) }, 0);
    assert_eq!(back, data);
    [0, 1, m * w - 1, m * w, m * w + 1].into_iter().for_each(|length| check_marks(m, w, c, length));
    word
}

/// Losses: most groups lose up to c places, and up to three places more are lost.
fn losses(s: Shape, r: &mut Random) -> Vec<u8> {
    let mut marks = vec![0; s.m * s.w];
    for g in 0..s.m {
        if r.below(3) == 0 {
            for _ in 0..r.below(s.c as u64 + 1) {
                marks[g * s.w + r.below(s.w as u64) as usize] = 1;
            }
        }
    }
    for _ in 0..r.below(s.c as u64 + 4) {
        marks[r.below(s.w as u64) as usize] = 1;
    }
    for _ in 0..r.below(3) {
        marks[r.below((s.m * s.w) as u64) as usize] = 1;
    }
    marks
}

/// A word with random losses, and the same with a symbol changed.
fn random_words(f: &Field, s: Shape, r: &mut Random, rounds: usize) {
    let (Shape { m, w, .. }, word) = (s, codeword(f, s, r));
    for _ in 0..rounds {
        let marks = losses(s, r);
        let mut x: Vec<u16> = (0..m * w).map(|p| if marks[p] == 1 { r.below(65536) as u16 } else { word[p] }).collect();
        compare(f, s, &x, &marks, r);
        x[r.below((m * w) as u64) as usize] ^= 1 << r.below(16);
        compare(f, s, &x, &marks, r);
    }
}

/// A good shape: mostly a small one; three in 800 of any size, and one in 800 of the widest groups.
fn good_shape(r: &mut Random) -> Shape {
    loop {
        let c = 1 + r.below(4);
        let (m, w) = match r.below(800) {
            0 => (1 + r.below(16), 256),
            1..=3 => (1 + r.below(255), c + 2 + r.below(255 - c)),
            _ => (1 + r.below(6), c + 2 + r.below(8)),
        };
        let s = Shape { m: m as usize, w: w as usize, c: c as usize };
        if second::refusal(s.m, s.w, s.c) == 0 {
            return s;
        }
    }
}

/// So many random words from an index on, each of a seed of its own; a case is a word with its losses and the same with a symbol changed.
fn many(f: &Field, seed: u64, count: u64, from: u64) {
    for index in from..from + count {
        let mut r = Random((seed.wrapping_mul(0x9E37_79B9_7F4A_7C15) ^ index.wrapping_add(1).wrapping_mul(0xBF58_476D_1CE4_E5B9)) | 1);
        (0..8).for_each(|_| _ = r.below(2));
        let s = good_shape(&mut r);
        random_words(f, s, &mut r, 1);
    }
    println!("sixteen bits: {count} cases from seed {seed} and index {from}, all alike");
}

fn main() {
    let f = Field::new();
    let arguments: Vec<u64> = std::env::args().skip(1).map(|argument| argument.parse().expect("a number")).collect();
    if let [seed, count, from] = arguments[..] {
        return many(&f, seed, count, from);
    }
    assert_eq!((f.mul(2, 32768), f.pow(2, 257)), (4107, 5726));
    let mut r = Random(88172645463325252);
    for (m, w, c) in (0..600).flat_map(|m| [0, 1, 2, 3, 4, 5, 6, 16, 17, 255, 256, 257, 300, 65536 + 20].map(|w| (m, w))).flat_map(|(m, w)| (0..7).map(move |c| (m, w, c))) {
        assert_eq!(unsafe { axlebloom_wide_describe(m, w, c) }, second::refusal(m, w, c), "describe {m} {w} {c}");
        check_marks(m, w, c, 12);
    }
    let mut cases = 0;
    for (m, w, c) in [(1, 4, 1), (2, 3, 1), (3, 3, 1), (2, 4, 2), (2, 5, 3), (2, 6, 4), (3, 4, 1)] {
        let s = Shape { m, w, c };
        let word = codeword(&f, s, &mut r);
        for pattern in 0..1u32 << (m * w) {
            let marks: Vec<u8> = (0..m * w).map(|p| (pattern >> p & 1) as u8).collect();
            let mut x: Vec<u16> = (0..m * w).map(|p| if marks[p] == 1 { r.below(65536) as u16 } else { word[p] }).collect();
            compare(&f, s, &x, &marks, &mut r);
            x[r.below((m * w) as u64) as usize] ^= 1 << r.below(16);
            compare(&f, s, &x, &marks, &mut r);
            cases += 2;
        }
    }
    let shapes = [(255, 16, 3), (16, 256, 4), (64, 64, 2), (255, 3, 1), (8, 256, 1), (200, 20, 4), (15, 16, 3), (17, 17, 2)];
    for round in 0..24 {
        let (m, w, c) = if round < 8 { shapes[round] } else { (1 + r.below(20) as usize, 6 + r.below(40) as usize, 1 + r.below(4) as usize) };
        let s = Shape { m, w, c };
        random_words(&f, s, &mut r, 3);
        cases += 6;
    }
    println!("sixteen bits: {cases} words alike");
}
