//! Calls of every service with one shape, word, row of marks and list of groups.

use crate::edits;
use crate::library::{self, Mended, Shape};
use crate::profiles;
use crate::random::{bad_shape, codeword, damaged, figures, good_shape, marks, wide, Random};
use crate::second;
use crate::shrink::{row, shorter, zeroed, Case};

#[derive(Clone)]
pub struct Services {
    shape: Shape,
    data: Vec<u8>,
    word: Vec<u8>,
    marks: Vec<u8>,
    list: Vec<usize>,
}

/// The numbers answered so far.
type Seen<'a> = &'a mut Vec<u8>;

/// Keeps the number that both gave; what else they left is compared with it.
fn alike<T: PartialEq + std::fmt::Debug>(what: &str, ours: (u8, T), theirs: (u8, T), seen: Seen) -> Result<(), String> {
    if ours != theirs {
        return Err(format!("{what}\n  library        {ours:?}\n  second program {theirs:?}"));
    }
    seen.push(ours.0);
    Ok(())
}

/// The same of a number with the group that a 9 carries.
fn alike_mended<T: PartialEq + std::fmt::Debug>(what: &str, ours: (Mended, T), theirs: (Mended, T), seen: Seen) -> Result<(), String> {
    let (((a, g), x), ((b, h), y)) = (ours, theirs);
    alike(what, (a, (g, x)), (b, (h, y)), seen)
}

/// The number and the figures of a description.
fn described(answer: Result<(u64, u64, u64), u8>) -> (u8, (u64, u64, u64)) {
    match answer {
        Ok(figures) => (0, figures),
        Err(number) => (number, (0, 0, 0)),
    }
}

/// Describe, Encode, Extract, Check, Check marks and Judge.
fn plain_services(case: &Services, seen: Seen) -> Result<(), String> {
    let s = case.shape;
    let (m, w, c) = wide(s);
    alike("describe", described(library::describe(s)), described(second::describe(m, w, c)), seen)?;
    let (mut x, mut y) = (case.word.clone(), case.word.clone());
    let (a, b) = (library::encode(s, &case.data, &mut x), second::encode(m, w, c, &case.data, &mut y));
    alike("encode", (a, x), (b, y), seen)?;
    let (mut d, mut e) = (case.data.clone(), case.data.clone());
    let (a, b) = (library::extract(s, &case.word, &mut d), second::extract(m, w, c, &case.word, &mut e));
    alike("extract", (a, d), (b, e), seen)?;
    let checked = match second::check(m, w, c, &case.word) {
        Ok(second::Checked::Yes) => (0, 0),
        Ok(second::Checked::No(group)) => (9, group),
        Err(number) => (number, 0),
    };
    alike_mended("check", (library::check(s, &case.word), ()), (checked, ()), seen)?;
    let (mut k, mut l) = (case.marks.clone(), case.marks.clone());
    let (a, b) = (library::check_marks(s, &mut k), second::check_marks(m, w, c, &mut l));
    alike("check marks", (a, k), (b, l), seen)?;
    alike("judge", (library::judge(s, &case.marks), ()), (second::judge(m, w, c, &case.marks), ()), seen)
}

/// Repair of each listed group, Recover, and the list of repairs with the recovery after it.
fn repairs(case: &Services, seen: Seen) -> Result<(), String> {
    let s = case.shape;
    let (m, w, c) = wide(s);
    let start = || (case.word.clone(), case.marks.clone());
    for &g in &case.list {
        let ((mut x, mut k), (mut y, mut l)) = (start(), start());
        let (a, b) = (library::repair(s, g, &mut x, &mut k), second::repair(m, w, c, g as u64, &mut y, &mut l));
        alike_mended(&format!("repair of group {g}"), (a, (x, k)), (b, (y, l)), seen)?;
    }
    let ((mut x, mut k), (mut y, mut l)) = (start(), start());
    let (a, b) = (library::recover(s, &mut x, &mut k), second::recover(m, w, c, &mut y, &mut l));
    let at_once = (a, (x, k));
    alike_mended("recover", at_once.clone(), (b, (y, l)), seen)?;
    let ((mut x, mut k), (mut y, mut l)) = (start(), start());
    for &g in &case.list {
        let (a, b) = (library::repair(s, g, &mut x, &mut k), second::repair(m, w, c, g as u64, &mut y, &mut l));
        alike_mended(&format!("repair of group {g} in the list"), (a, (&x, &k)), (b, (&y, &l)), seen)?;
    }
    let (a, b) = (library::recover(s, &mut x, &mut k), second::recover(m, w, c, &mut y, &mut l));
    let after = (a, (x, k));
    alike_mended("the repairs, then recover", after.clone(), (b, (y, l)), seen)?;
    if after.0 != at_once.0 || a.0 == 0 && after != at_once {
        return Err(format!("the library's recovery\n  at once           {at_once:?}\n  after the repairs {after:?}"));
    }
    Ok(())
}

/// A word of which each group meets its own equations, and mostly not the two across: each is from another codeword.
fn sound_groups(shape: Shape, data: &[u8]) -> Vec<u8> {
    let w = shape.1;
    let part = |g: usize| codeword(shape, &data.iter().map(|&byte| byte.wrapping_mul(2 * g as u8 + 1)).collect::<Vec<_>>())[g * w..g * w + w].to_vec();
    (0..shape.0).flat_map(part).collect()
}

/// Random data and a word and marks of the shape's lengths, or of any if it is refused.
fn of_shape(r: &mut Random, shape: Shape) -> Services {
    let Some((_, k)) = figures(shape) else {
        let (n, k) = (r.below(20), r.below(20));
        return Services { shape, data: r.bytes(k), word: r.bytes(n), marks: vec![0; n], list: vec![0] };
    };
    let data = r.bytes(k);
    let more = r.pick(&[0, 0, 1, 2, 2, 2, 3, 5]);
    let marks = marks(r, shape, more);
    let mut word = codeword(shape, &data);
    match r.below(8) {
        0 => word = r.bytes(word.len()),
        1 => word = sound_groups(shape, &data),
        _ => (),
    }
    word = damaged(r, &word, &marks);
    let list = (0..r.below(6)).map(|_| r.below(shape.0 + 1)).collect();
    Services { shape, data, word, marks, list }
}

impl Case for Services {
    fn random(r: &mut Random) -> Services {
        let shape = match r.below(10) {
            0 => bad_shape(r, usize::MAX),
            1 => good_shape(r, 15, 15),
            _ => good_shape(r, 5, 6),
        };
        let mut case = of_shape(r, shape);
        while !case.word.is_empty() && r.one_in(4) {
            let p = r.below(case.word.len());
            case.word[p] ^= 1 + r.below(255) as u8;
        }
        if !case.marks.is_empty() && r.one_in(16) {
            let p = r.below(case.marks.len());
            case.marks[p] = r.byte();
        }
        match r.below(40) {
            0 => case.word.push(0),
            1 => case.word.truncate(r.below(4)),
            2 => case.marks.push(1),
            3 => drop(case.marks.pop()),
            4 => case.data.push(7),
            5 => drop(case.data.pop()),
            6 => case.list.push(r.number() as usize),
            _ => (),
        }
        case
    }

    fn compare(&self) -> Result<Vec<u8>, String> {
        let mut seen = Vec::new();
        plain_services(self, &mut seen)?;
        repairs(self, &mut seen)?;
        profiles::compare(self.shape, &self.marks, &self.data, &mut seen)?;
        edits::compare(self.shape, &self.word, &self.data, &mut seen)?;
        Ok(seen)
    }

    fn smaller(&self) -> Box<dyn Iterator<Item = Services> + '_> {
        let fewer = shorter(&self.list).map(|list| Services { list, ..self.clone() });
        let present = zeroed(&self.marks).map(|marks| Services { marks, ..self.clone() });
        let lost = [self.lost_bytes()].into_iter().filter(|word| *word != self.word);
        let word = lost.chain(zeroed(&self.word)).map(|word| Services { word, ..self.clone() });
        let data = zeroed(&self.data).map(|data| Services { data, ..self.clone() });
        Box::new(fewer.chain(self.smaller_shapes()).chain(present).chain(data).chain(word))
    }

    fn show(&self) -> String {
        let (m, w, c) = self.shape;
        let (data, word, marks) = (row(&self.data), row(&self.word), row(&self.marks));
        format!("shape m {m}, w {w}, c {c}\ndata   {data}\nword   {word}\nmarks  {marks}\ngroups {:?}", self.list)
    }
}

impl Services {
    /// The word with 0 in every present place.
    fn lost_bytes(&self) -> Vec<u8> {
        self.word.iter().enumerate().map(|(p, &byte)| if self.marks.get(p) == Some(&1) { byte } else { 0 }).collect()
    }

    /// The same with a group, a place of each group or a check less: the word cut, or the codeword of the data cut, or no word but 0.
    fn smaller_shapes(&self) -> impl Iterator<Item = Services> + '_ {
        let (m, w, c) = self.shape;
        let less = [(m.wrapping_sub(1), w, c), (m, w.wrapping_sub(1), c), (m, w.wrapping_sub(1), c.wrapping_sub(1))];
        let good = less.into_iter().filter(|&s| figures(s).is_some());
        good.flat_map(|s| self.with_shape(s))
    }

    fn with_shape(&self, s: Shape) -> Vec<Services> {
        let (Some((n, k)), Some((old_n, old_k))) = (figures(s), figures(self.shape)) else {
            return Vec::new();
        };
        let (data, word) = (resized(&self.data, old_k, k), resized(&self.word, old_n, n));
        let marks = places_kept(self.shape, s, &self.marks);
        let list = self.list.iter().map(|&g| g.min(s.0)).collect();
        let cut = Services { shape: s, data, word: word.clone(), marks, list };
        let mut whole = cut.clone();
        if cut.data.len() == k && word.len() == n {
            whole.word = codeword(s, &cut.data);
        }
        let zero = Services { word: vec![0; word.len()], ..cut.clone() };
        vec![zero, whole, cut]
    }
}

/// As much longer or shorter than it should be as before.
fn resized(bytes: &[u8], before: usize, after: usize) -> Vec<u8> {
    let mut copy = bytes.to_vec();
    copy.resize((bytes.len() + after).saturating_sub(before), 0);
    copy
}

/// The marks of the places that are left, each in its group.
fn places_kept(from: Shape, to: Shape, marks: &[u8]) -> Vec<u8> {
    if marks.len() != from.0 * from.1 {
        return resized(marks, from.0 * from.1, to.0 * to.1);
    }
    (0..to.0 * to.1).map(|p| marks[p / to.1 * from.1 + p % to.1]).collect()
}

/// Small shapes of which every loss pattern is compared in every run.
const PATTERN_SHAPES: [Shape; 6] = [(1, 4, 1), (2, 3, 1), (3, 3, 1), (2, 4, 2), (1, 6, 3), (2, 5, 2)];

/// Those, and then every other good shape of at most 14 places.
fn pattern_shapes() -> &'static [Shape] {
    static SHAPES: std::sync::OnceLock<Vec<Shape>> = std::sync::OnceLock::new();
    SHAPES.get_or_init(|| {
        let all = (1..=15).flat_map(|m| (1..=16).flat_map(move |w| (1..=4).map(move |c| (m, w, c))));
        let others = all.filter(|s| s.0 * s.1 <= 14 && figures(*s).is_some() && !PATTERN_SHAPES.contains(s));
        PATTERN_SHAPES.into_iter().chain(others).collect()
    })
}

/// How many cases there are of the first shapes, and of all.
pub fn pattern_counts() -> (u64, u64) {
    let count = |shapes: &[Shape]| shapes.iter().map(|s| 2 << (s.0 * s.1)).sum();
    (count(&PATTERN_SHAPES), count(pattern_shapes()))
}

/// Every loss pattern of those shapes, on a codeword and on one with a byte changed, with a repair of every group; none past the last.
pub fn pattern(index: u64) -> Option<Services> {
    let mut left = index as usize / 2;
    for &shape in pattern_shapes() {
        let n = shape.0 * shape.1;
        if left < 1 << n {
            let (_, k) = figures(shape).expect("a good shape");
            let data: Vec<u8> = (0..k as u8).map(|i| i.wrapping_mul(37).wrapping_add(11)).collect();
            let mut word = codeword(shape, &data);
            word[left % n] ^= (index % 2) as u8;
            let marks = (0..n).map(|p| (left >> p & 1) as u8).collect();
            return Some(Services { shape, data, word, marks, list: (0..shape.0).rev().chain([0]).collect() });
        }
        left -= 1 << n;
    }
    None
}
