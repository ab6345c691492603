//! Random numbers, shapes, marks and words. Every case has a seed of its own, made of the run's seed, the kind's name and its index.

use crate::library::Shape;
use crate::second;

/// Marsaglia's xorshift.
pub struct Random(u64);

/// Every bit of the result depends on every bit of x.
fn mix(x: u64) -> u64 {
    let x = x.wrapping_add(0x9E37_79B9_7F4A_7C15);
    let x = (x ^ (x >> 30)).wrapping_mul(0xBF58_476D_1CE4_E5B9);
    let x = (x ^ (x >> 27)).wrapping_mul(0x94D0_49BB_1331_11EB);
    x ^ (x >> 31)
}

impl Random {
    pub fn new(seed: u64) -> Random {
        Random(mix(seed) | 1)
    }

    pub fn of_case(seed: u64, kind: &str, index: u64) -> Random {
        let kind = kind.bytes().fold(0, |sum, byte| mix(sum ^ u64::from(byte)));
        Random::new(mix(mix(seed) ^ kind) ^ mix(index))
    }

    pub fn number(&mut self) -> u64 {
        self.0 ^= self.0 << 13;
        self.0 ^= self.0 >> 7;
        self.0 ^= self.0 << 17;
        mix(self.0)
    }

    pub fn below(&mut self, n: usize) -> usize {
        (self.number() % n as u64) as usize
    }

    pub fn one_in(&mut self, n: usize) -> bool {
        self.below(n) == 0
    }

    pub fn byte(&mut self) -> u8 {
        self.number() as u8
    }

    pub fn bytes(&mut self, n: usize) -> Vec<u8> {
        (0..n).map(|_| self.byte()).collect()
    }

    pub fn pick<T: Clone>(&mut self, from: &[T]) -> T {
        from[self.below(from.len())].clone()
    }
}

/// The shape in the second program's numbers.
pub fn wide(s: Shape) -> (u64, u64, u64) {
    (s.0 as u64, s.1 as u64, s.2 as u64)
}

/// n and k of a good shape.
pub fn figures(s: Shape) -> Option<(usize, usize)> {
    let (m, w, c) = wide(s);
    second::describe(m, w, c).ok().map(|(n, k, _)| (n as usize, k as usize))
}

/// A good shape with at most so many groups, and so many places in a group more than its checks.
pub fn good_shape(r: &mut Random, groups: usize, room: usize) -> Shape {
    loop {
        let c = 1 + r.below(4);
        let s = (1 + r.below(groups), (c + 2 + r.below(room - 1)).min(16), c);
        if figures(s).is_some() {
            return s;
        }
    }
}

/// A shape that is likely refused, by numbers up to the highest.
pub fn bad_shape(r: &mut Random, highest: usize) -> Shape {
    let c = 1 + r.below(4);
    let (m, w) = (1 + r.below(15), c + 2 + r.below(15 - c));
    let odd = r.pick(&[0, 0, 1, 5, 15, 16, 17, 18, 255, highest]);
    match r.below(6) {
        0 => (odd, w, c),
        1 => (m, w, odd),
        2 => (m, odd, c),
        3 => (m, c + r.below(3), c),
        4 => (1, c + 2, c),
        _ => (r.below(18), r.below(19), r.below(7)),
    }
}

/// n marks of a good shape: groups have lost up to c places, and then so many more are lost, each from a group that has lost c or more.
pub fn marks(r: &mut Random, s: Shape, more: usize) -> Vec<u8> {
    let (m, w, c) = s;
    let mut lost: Vec<usize> = (0..m).map(|_| if r.one_in(2) { c } else { r.below(c + 1) }).collect();
    if r.one_in(3) {
        lost.fill(0);
    }
    for _ in 0..more {
        let g = r.below(m);
        lost[g] = (lost[g].max(c) + 1).min(w);
    }
    let mut marks = vec![0; m * w];
    for g in 0..m {
        while lost[g] > 0 {
            let p = g * w + r.below(w);
            if marks[p] == 0 {
                marks[p] = 1;
                lost[g] -= 1;
            }
        }
    }
    marks
}

/// The codeword of these data of a good shape.
pub fn codeword(s: Shape, data: &[u8]) -> Vec<u8> {
    let (m, w, c) = wide(s);
    second::codeword(m, w, c, data)
}

/// The word with other bytes in its lost places.
pub fn damaged(r: &mut Random, word: &[u8], marks: &[u8]) -> Vec<u8> {
    word.iter().enumerate().map(|(p, &byte)| if marks.get(p) == Some(&1) { r.byte() } else { byte }).collect()
}
