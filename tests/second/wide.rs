//! Second program, sixteen-bit edition: an independent reference written from
//! the requirements papers alone. Products go through logarithms, every
//! equation is written out, and Gaussian elimination runs over the full set.

pub struct Field {
    log: Vec<u32>,
    exp: Vec<u16>,
}

impl Field {
    pub fn new() -> Field {
        let mut log = vec![0; 65536];
        let mut exp = vec![0; 131072];
        let mut x: u32 = 1;
        for i in 0..65535 {
            exp[i] = x as u16;
            exp[i + 65535] = x as u16;
            log[x as usize] = i as u32;
            x <<= 1;
            if x >> 16 != 0 {
                x ^= 69643;
            }
        }
        assert!(x == 1, "2 has order 65,535");
        Field { log, exp }
    }
    pub fn mul(&self, a: u16, b: u16) -> u16 {
        if a == 0 || b == 0 {
            return 0;
        }
        self.exp[(self.log[a as usize] + self.log[b as usize]) as usize]
    }
    pub fn pow(&self, a: u16, e: u64) -> u16 {
        match (a, e) {
            (_, 0) => 1,
            (0, _) => 0,
            _ => self.exp[(self.log[a as usize] as u64 * e % 65535) as usize],
        }
    }
    fn inverse(&self, a: u16) -> u16 {
        self.exp[(65535 - self.log[a as usize]) as usize]
    }
}

#[derive(Clone, Copy)]
pub struct Shape {
    pub m: usize,
    pub w: usize,
    pub c: usize,
}

/// 0 for a good shape, else 1 to 4 or 26.
pub fn refusal(m: usize, w: usize, c: usize) -> u8 {
    if m < 1 || m > 255 {
        1
    } else if c < 1 || c > 4 {
        2
    } else if w < c + 2 || w > 256 {
        3
    } else if m * (w - c) <= 2 {
        4
    } else if m * w > 4096 {
        26
    } else {
        0
    }
}

fn locator(f: &Field, j: usize) -> u16 {
    if j < 255 { f.pow(2, 257 * j as u64) } else { 0 }
}

/// The equations as rows of (place, coefficient): the groups' own first, then the two across.
fn equations(f: &Field, s: Shape) -> Vec<Vec<(usize, u16)>> {
    let mut rows = Vec::new();
    for g in 0..s.m {
        for e in 0..s.c {
            rows.push((0..s.w).map(|j| (g * s.w + j, f.pow(locator(f, j), e as u64))).collect());
        }
    }
    let b: Vec<u16> = (0..s.w)
        .map(|j| {
            let a = locator(f, j);
            f.pow(a, s.c as u64) ^ f.mul(2, f.pow(a, s.c as u64 + 1))
        })
        .collect();
    rows.push((0..s.m * s.w).map(|p| (p, b[p % s.w])).collect());
    rows.push((0..s.m * s.w).map(|p| (p, f.mul(f.pow(2, (p / s.w) as u64), f.pow(b[p % s.w], 256)))).collect());
    rows
}

pub enum Solved {
    Only(Vec<u16>),
    Several,
    None,
}

/// The fillings of the lost places that meet the equations from..to.
fn solve(f: &Field, rows: &[Vec<(usize, u16)>], word: &[u16], lost: &[usize]) -> Solved {
    let at: std::collections::HashMap<usize, usize> = lost.iter().enumerate().map(|(i, p)| (*p, i)).collect();
    let n = lost.len();
    let mut matrix: Vec<Vec<u16>> = rows
        .iter()
        .map(|row| {
            let mut r = vec![0; n + 1];
            for (p, x) in row {
                match at.get(p) {
                    Some(i) => r[*i] = *x,
                    None => r[n] ^= f.mul(*x, word[*p]),
                }
            }
            r
        })
        .collect();
    let mut used = 0;
    let mut free = false;
    for column in 0..n {
        match (used..matrix.len()).find(|i| matrix[*i][column] != 0) {
            None => free = true,
            Some(i) => {
                matrix.swap(used, i);
                let x = f.inverse(matrix[used][column]);
                let pivot: Vec<u16> = matrix[used].iter().map(|v| f.mul(*v, x)).collect();
                for (i, row) in matrix.iter_mut().enumerate() {
                    if i != used && row[column] != 0 {
                        let y = row[column];
                        row.iter_mut().zip(&pivot).for_each(|(v, p)| *v ^= f.mul(y, *p));
                    }
                }
                matrix[used] = pivot;
                used += 1;
            }
        }
    }
    if free {
        return Solved::Several;
    }
    if matrix[used..].iter().any(|r| r[n] != 0) {
        return Solved::None;
    }
    let mut filled = word.to_vec();
    lost.iter().enumerate().for_each(|(i, p)| filled[*p] = matrix[i][n]);
    Solved::Only(filled)
}

fn lost_of(marks: &[u8]) -> Vec<usize> {
    (0..marks.len()).filter(|p| marks[*p] == 1).collect()
}

/// Whether some filling meets the equations, also where several do.
fn some(f: &Field, rows: &[Vec<(usize, u16)>], word: &[u16], lost: &[usize]) -> bool {
    let mut kept = lost.to_vec();
    loop {
        match solve(f, rows, word, &kept) {
            Solved::Only(_) => return true,
            Solved::None => return false,
            Solved::Several => {
                kept.pop();
            }
        }
    }
}

/// Recover: the number, the group of a 9, and the word where it is done.
pub fn recover(f: &Field, s: Shape, word: &[u16], marks: &[u8]) -> (u8, u8, Vec<u16>) {
    let rows = equations(f, s);
    match solve(f, &rows, word, &lost_of(marks)) {
        Solved::Several => (8, 0, Vec::new()),
        Solved::Only(filled) => (0, 0, filled),
        Solved::None => {
            let group = (0..s.m).find(|g| {
                let own: Vec<usize> = (g * s.w..(g + 1) * s.w).filter(|p| marks[*p] == 1).collect();
                own.len() < s.c && !some(f, &rows[g * s.c..(g + 1) * s.c], word, &own)
            });
            (9, group.unwrap_or(s.m) as u8, Vec::new())
        }
    }
}

/// Repair of group g: the number, and the word where it is done.
pub fn repair(f: &Field, s: Shape, g: usize, word: &[u16], marks: &[u8]) -> (u8, Vec<u16>) {
    let rows = equations(f, s);
    let own: Vec<usize> = (g * s.w..(g + 1) * s.w).filter(|p| marks[*p] == 1).collect();
    if own.len() > s.c {
        return (8, Vec::new());
    }
    match solve(f, &rows[g * s.c..(g + 1) * s.c], word, &own) {
        Solved::Only(filled) => (0, filled),
        _ => (9, Vec::new()),
    }
}

pub fn is_check(s: Shape, p: usize) -> bool {
    let (g, j) = (p / s.w, p % s.w);
    j >= s.w - s.c || (g == s.m - 1 && j >= s.w - s.c - 2)
}

/// Check marks: 1 at every check place and 0 at every other: 0, or 1 to 4, 26, 29, 5.
pub fn check_marks(m: usize, w: usize, c: usize, marks: &mut [u8]) -> u8 {
    let number = refusal(m, w, c);
    if number != 0 {
        return number;
    }
    if c == 4 {
        return 29;
    }
    if marks.len() != m * w {
        return 5;
    }
    marks.iter_mut().enumerate().for_each(|(p, mark)| *mark = is_check(Shape { m, w, c }, p) as u8);
    0
}

/// The codeword that carries the data.
pub fn encode(f: &Field, s: Shape, data: &[u16]) -> Vec<u16> {
    let mut next = data.iter();
    let word: Vec<u16> = (0..s.m * s.w).map(|p| if is_check(s, p) { 0 } else { *next.next().unwrap() }).collect();
    let marks: Vec<u8> = (0..s.m * s.w).map(|p| is_check(s, p) as u8).collect();
    match recover(f, s, &word, &marks) {
        (0, _, filled) => filled,
        _ => panic!("every data has a codeword"),
    }
}
