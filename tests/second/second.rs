//! Second program: an independent reference written from the requirements
//! papers alone. It takes the plainest way everywhere: products by shifts,
//! every equation written out, Gaussian elimination over the full set.

use std::io::{self, ErrorKind, Read, Write};

// ---------------------------------------------------------------- the field

/// The sixteen locators in place order, as the paper lists them.
pub const LOCATORS: [u8; 16] = [
    1, 152, 78, 10, 153, 214, 68, 147, 79, 146, 215, 220, 221, 69, 11, 0,
];

/// Multiply by 2: shift left, and reduce by 285 if bit 8 is set.
pub fn double(x: u8) -> u8 {
    let shifted = (x as u16) << 1;
    if shifted & 256 != 0 {
        (shifted ^ 285) as u8
    } else {
        shifted as u8
    }
}

/// Product: the sum over the set bits of x of y times that power of two.
pub fn mul(x: u8, y: u8) -> u8 {
    let mut sum = 0;
    let mut term = y;
    for bit in 0..8 {
        if (x >> bit) & 1 == 1 {
            sum ^= term;
        }
        term = double(term);
    }
    sum
}

/// Power by repeated product; the power 0 is 1 for every x, 0 included.
pub fn pow(x: u8, exponent: u64) -> u8 {
    let mut product = 1;
    for _ in 0..exponent {
        product = mul(product, x);
    }
    product
}

/// Inverse of a nonzero byte, by search.
pub fn inverse(x: u8) -> u8 {
    for y in 1..=255 {
        if mul(x, y) == 1 {
            return y;
        }
    }
    panic!("0 has no inverse")
}

// ---------------------------------------------------------------- the shape

/// Describe: n, k and the sure count, or 1 to 4.
pub fn describe(m: u64, w: u64, c: u64) -> Result<(u64, u64, u64), u8> {
    if m == 0 || m > 15 {
        return Err(1);
    }
    if c == 0 || c > 4 {
        return Err(2);
    }
    if w < c + 2 || w > 16 {
        return Err(3);
    }
    let k = m * (w - c) - 2;
    if k == 0 {
        return Err(4);
    }
    let sure = if w == c + 2 { 2 * c + 2 } else { c + 2 };
    Ok((m * w, k, sure))
}

/// Whether place p of the word is a check place (good shape).
pub fn is_check_place(m: u64, w: u64, c: u64, p: u64) -> bool {
    let (group, place) = (p / w, p % w);
    place >= w - c || (group == m - 1 && place >= w - c - 2)
}

/// Coefficient of place p in equation r (good shape). Equations 0 to mc-1
/// are the local ones, group after group; then the two across.
fn coefficient(m: u64, w: u64, c: u64, r: u64, p: u64) -> u8 {
    let (group, place) = (p / w, p % w);
    let a = LOCATORS[place as usize];
    let b = pow(a, c) ^ mul(2, pow(a, c + 1));
    if r < m * c {
        if r / c == group {
            pow(a, r % c)
        } else {
            0
        }
    } else if r == m * c {
        b
    } else {
        mul(pow(2, group), pow(b, 16))
    }
}

/// All mc+2 equations, each a row of n coefficients (good shape).
pub fn equations(m: u64, w: u64, c: u64) -> Vec<Vec<u8>> {
    let mut rows = Vec::new();
    for r in 0..m * c + 2 {
        let mut row = Vec::new();
        for p in 0..m * w {
            row.push(coefficient(m, w, c, r, p));
        }
        rows.push(row);
    }
    rows
}

// -------------------------------------------------------------- elimination

enum Solution {
    Undetermined,
    Contradictory,
    Unique(Vec<u8>),
}

/// Bring the first `unknowns` columns to reduced row echelon form, carrying
/// any further columns along; gives the rank of the first columns.
fn reduce(rows: &mut [Vec<u8>], unknowns: usize) -> usize {
    let mut rank = 0;
    for column in 0..unknowns {
        let Some(pivot) = (rank..rows.len()).find(|&r| rows[r][column] != 0) else {
            continue;
        };
        rows.swap(rank, pivot);
        let scale = inverse(rows[rank][column]);
        for entry in rows[rank].iter_mut() {
            *entry = mul(scale, *entry);
        }
        let pivot_row = rows[rank].clone();
        for (r, row) in rows.iter_mut().enumerate() {
            if r != rank && row[column] != 0 {
                let factor = row[column];
                for (entry, above) in row.iter_mut().zip(&pivot_row) {
                    *entry ^= mul(factor, *above);
                }
            }
        }
        rank += 1;
    }
    rank
}

/// Augmented matrix: the columns of the lost places, then the sum over the
/// present places. The byte in a lost place is never read.
fn system(rows: &[Vec<u8>], word: &[u8], lost: &[bool]) -> Vec<Vec<u8>> {
    let mut matrix = Vec::new();
    for row in rows {
        let mut line = Vec::new();
        let mut sum = 0;
        for p in 0..lost.len() {
            if lost[p] {
                line.push(row[p]);
            } else {
                sum ^= mul(row[p], word[p]);
            }
        }
        line.push(sum);
        matrix.push(line);
    }
    matrix
}

/// Solve the equations for the lost places. Undetermined comes first,
/// whether or not the equations are consistent.
fn solve(rows: &[Vec<u8>], word: &[u8], lost: &[bool]) -> Solution {
    let unknowns = lost.iter().filter(|&&x| x).count();
    let mut matrix = system(rows, word, lost);
    let rank = reduce(&mut matrix, unknowns);
    if rank < unknowns {
        return Solution::Undetermined;
    }
    if matrix[rank..].iter().any(|line| line[unknowns] != 0) {
        return Solution::Contradictory;
    }
    Solution::Unique(matrix[..rank].iter().map(|line| line[unknowns]).collect())
}

/// Write the found bytes into the lost places, in place order.
fn fill(word: &mut [u8], lost: &[bool], found: &[u8]) {
    let mut next = 0;
    for p in 0..lost.len() {
        if lost[p] {
            word[p] = found[next];
            next += 1;
        }
    }
}

/// Whether some filling of the lost places of group g meets its own c
/// equations, of all these: the sums over its present places don't raise the
/// rank.
fn fits_alone(rows: &[Vec<u8>], w: u64, c: u64, g: u64, word: &[u8], lost: &[bool]) -> bool {
    let (start, end) = ((g * w) as usize, (g * w + w) as usize);
    let mut own = Vec::new();
    for row in &rows[(g * c) as usize..(g * c + c) as usize] {
        own.push(row[start..end].to_vec());
    }
    let unknowns = lost[start..end].iter().filter(|&&x| x).count();
    let mut matrix = system(&own, &word[start..end], &lost[start..end]);
    let rank = reduce(&mut matrix, unknowns);
    matrix[rank..].iter().all(|line| line[unknowns] == 0)
}

/// The group that a 9 carries: the lowest whose present bytes no filling can
/// satisfy locally, or m if each group is sound.
pub fn contradicting_group(m: u64, w: u64, c: u64, word: &[u8], lost: &[bool]) -> u64 {
    let rows = equations(m, w, c);
    (0..m).find(|&g| !fits_alone(&rows, w, c, g, word, lost)).unwrap_or(m)
}

// ----------------------------------------------------------------- services

/// The number given back and the group that a 9 carries; 0 with any other.
pub type Mended = (u8, u64);

/// Yes, or no with the group that contradicts.
#[derive(Clone, Copy, Debug, PartialEq, Eq)]
pub enum Checked {
    Yes,
    No(u64),
}

/// Four local checks are out of sale; old words with them stay readable.
pub fn is_retired(c: u64) -> bool {
    c == 4
}

/// Encode k data bytes into a word of n bytes: 0, or 1 to 4, 29, 5.
pub fn encode(m: u64, w: u64, c: u64, data: &[u8], word: &mut [u8]) -> u8 {
    let (n, k, _) = match describe(m, w, c) {
        Ok(figures) => figures,
        Err(number) => return number,
    };
    if is_retired(c) {
        return 29;
    }
    if data.len() as u64 != k || word.len() as u64 != n {
        return 5;
    }
    word.copy_from_slice(&codeword(m, w, c, data));
    0
}

/// Check marks: 1 at every check place and 0 at every other: 0, or 1 to 4, 29, 5.
pub fn check_marks(m: u64, w: u64, c: u64, marks: &mut [u8]) -> u8 {
    let n = match describe(m, w, c) {
        Ok((n, _, _)) => n,
        Err(number) => return number,
    };
    if is_retired(c) {
        return 29;
    }
    if marks.len() as u64 != n {
        return 5;
    }
    for p in 0..n {
        marks[p as usize] = is_check_place(m, w, c, p) as u8;
    }
    0
}

/// The codeword that carries these k data bytes, of any good shape, a retired one too.
pub fn codeword(m: u64, w: u64, c: u64, data: &[u8]) -> Vec<u8> {
    let n = m * w;
    let unknown: Vec<bool> = (0..n).map(|p| is_check_place(m, w, c, p)).collect();
    let mut known = vec![0; n as usize];
    let mut next = 0;
    for p in 0..n as usize {
        if !unknown[p] {
            known[p] = data[next];
            next += 1;
        }
    }
    match solve(&equations(m, w, c), &known, &unknown) {
        Solution::Unique(found) => fill(&mut known, &unknown, &found),
        _ => panic!("the check places are always determined"),
    }
    known
}

/// Extract the k data bytes of any word of n bytes: 0, or 1 to 5.
pub fn extract(m: u64, w: u64, c: u64, word: &[u8], data: &mut [u8]) -> u8 {
    let (n, k, _) = match describe(m, w, c) {
        Ok(figures) => figures,
        Err(number) => return number,
    };
    if word.len() as u64 != n || data.len() as u64 != k {
        return 5;
    }
    let mut next = 0;
    for p in 0..n {
        if !is_check_place(m, w, c, p) {
            data[next] = word[p as usize];
            next += 1;
        }
    }
    0
}

/// Check: whether every equation gives zero, or 1 to 5.
pub fn check(m: u64, w: u64, c: u64, word: &[u8]) -> Result<Checked, u8> {
    let (n, _, _) = describe(m, w, c)?;
    if word.len() as u64 != n {
        return Err(5);
    }
    for row in equations(m, w, c) {
        let mut sum = 0;
        for p in 0..word.len() {
            sum ^= mul(row[p], word[p]);
        }
        if sum != 0 {
            return Ok(Checked::No(contradicting_group(m, w, c, word, &vec![false; word.len()])));
        }
    }
    Ok(Checked::Yes)
}

/// Edit: the data taken out, one byte changed, and all encoded afresh: 0, or 1 to 4, 29, 5, 30, 9 with its group.
pub fn edit(m: u64, w: u64, c: u64, word: &mut [u8], number: u64, byte: u8) -> Mended {
    let (n, k, _) = match describe(m, w, c) {
        Ok(figures) => figures,
        Err(number) => return (number, 0),
    };
    if is_retired(c) {
        return (29, 0);
    }
    if word.len() as u64 != n {
        return (5, 0);
    }
    if number >= k {
        return (30, 0);
    }
    if let Ok(Checked::No(group)) = check(m, w, c, word) {
        return (9, group);
    }
    let mut data = vec![0; k as usize];
    extract(m, w, c, word, &mut data);
    data[number as usize] = byte;
    word.copy_from_slice(&codeword(m, w, c, &data));
    (0, 0)
}

/// The lost places as flags.
fn flags(marks: &[u8]) -> Vec<bool> {
    marks.iter().map(|&mark| mark == 1).collect()
}

/// Judge: 0 if the columns of the lost places are independent, else 8;
/// or 1 to 6.
pub fn judge(m: u64, w: u64, c: u64, marks: &[u8]) -> u8 {
    let (n, _, _) = match describe(m, w, c) {
        Ok(figures) => figures,
        Err(number) => return number,
    };
    if marks.len() as u64 != n {
        return 5;
    }
    if marks.iter().any(|&mark| mark > 1) {
        return 6;
    }
    let lost = flags(marks);
    let unknowns = lost.iter().filter(|&&x| x).count();
    let zero = vec![0; n as usize];
    let mut matrix = system(&equations(m, w, c), &zero, &lost);
    if reduce(&mut matrix, unknowns) < unknowns {
        8
    } else {
        0
    }
}

/// The judge of the profile, by trying all sets of place numbers, one bit
/// for each number: of those that leave at most two lost places outside, the
/// one with fewest numbers, then the smallest list; or 1 to 6, or 28.
pub fn profile(m: u64, w: u64, c: u64, marks: &[u8]) -> Result<Vec<u8>, u8> {
    let number = judge(m, w, c, marks);
    if number != 0 && number != 8 {
        return Err(number);
    }
    let numbers = |set: u32| -> Vec<u8> { (0..w as u8).filter(|&j| set >> j & 1 == 1).collect() };
    let outside = |set: u32| {
        let places = marks.iter().enumerate();
        places.filter(|&(p, &mark)| mark == 1 && set >> (p as u64 % w) & 1 == 0).count()
    };
    (0..1u32 << w)
        .filter(|&set| set.count_ones() as u64 <= c && outside(set) <= 2)
        .map(|set| (set.count_ones(), numbers(set)))
        .min()
        .map(|(_, set)| set)
        .ok_or(28)
}

/// The refusals 1 to 6 shared by repair and recover; 0 if none.
fn lent_fault(m: u64, w: u64, c: u64, word: &[u8], marks: &[u8]) -> u8 {
    let (n, _, _) = match describe(m, w, c) {
        Ok(figures) => figures,
        Err(number) => return number,
    };
    if word.len() as u64 != n || marks.len() as u64 != n {
        return 5;
    }
    if marks.iter().any(|&mark| mark > 1) {
        return 6;
    }
    0
}

/// Repair group g by its own c equations: 0, or 1 to 9; 9 with g.
pub fn repair(m: u64, w: u64, c: u64, g: u64, word: &mut [u8], marks: &mut [u8]) -> Mended {
    let fault = lent_fault(m, w, c, word, marks);
    if fault != 0 {
        return (fault, 0);
    }
    if g >= m {
        return (7, 0);
    }
    let (start, end) = ((g * w) as usize, (g * w + w) as usize);
    let mut lost = flags(marks);
    for p in 0..lost.len() {
        if p < start || p >= end {
            lost[p] = false;
        }
    }
    if lost.iter().filter(|&&x| x).count() as u64 > c {
        return (8, 0);
    }
    let own = &equations(m, w, c)[(g * c) as usize..(g * c + c) as usize];
    match solve(own, word, &lost) {
        Solution::Undetermined => panic!("at most c losses are always determined"),
        Solution::Contradictory => (9, g),
        Solution::Unique(found) => {
            fill(word, &lost, &found);
            marks[start..end].fill(0);
            (0, 0)
        }
    }
}

/// Recover the whole word by all equations: 0, or 1 to 6, 8, 9.
pub fn recover(m: u64, w: u64, c: u64, word: &mut [u8], marks: &mut [u8]) -> Mended {
    let fault = lent_fault(m, w, c, word, marks);
    if fault != 0 {
        return (fault, 0);
    }
    let lost = flags(marks);
    match solve(&equations(m, w, c), word, &lost) {
        Solution::Undetermined => (8, 0),
        Solution::Contradictory => (9, contradicting_group(m, w, c, word, &lost)),
        Solution::Unique(found) => {
            fill(word, &lost, &found);
            marks.fill(0);
            (0, 0)
        }
    }
}

/// The excess of n marks of a good shape: per group the lost count less c,
/// not below 0, summed over the groups.
pub fn excess(m: u64, w: u64, c: u64, marks: &[u8]) -> u64 {
    let mut sum = 0;
    for g in 0..m {
        let stretch = &marks[(g * w) as usize..(g * w + w) as usize];
        let lost = stretch.iter().filter(|&&mark| mark == 1).count() as u64;
        if lost > c {
            sum += lost - c;
        }
    }
    sum
}

// --------------------------------------------------------------- the gather

/// A gather: shape, finished (0 or 1), and for each of 240 places the byte
/// that came and 0, or any byte and 1 if none came.
#[derive(Clone, Copy, Debug, PartialEq, Eq)]
pub struct Gather {
    pub m: u64,
    pub w: u64,
    pub c: u64,
    pub finished: u64,
    pub bytes: [u8; 240],
    pub marks: [u8; 240],
}

/// Begin: 0, or 1 to 4; nothing came yet.
pub fn begin(gather: &mut Gather, m: u64, w: u64, c: u64) -> u8 {
    if let Err(number) = describe(m, w, c) {
        return number;
    }
    *gather = Gather { m, w, c, finished: 0, bytes: [0; 240], marks: [1; 240] };
    0
}

/// n, or 1 to 4, 6 for a bad record, 22 for a finished one.
fn gathering(gather: &Gather) -> Result<u64, u8> {
    let (n, _, _) = describe(gather.m, gather.w, gather.c)?;
    let bad_mark = gather.marks[..n as usize].iter().any(|mark| ![0, 1].contains(mark));
    match gather.finished {
        _ if bad_mark => Err(6),
        0 => Ok(n),
        1 => Err(22),
        _ => Err(6),
    }
}

/// Take a stretch: 0, or 1 to 4, 6, 22, 23, 24. Each place is a number of
/// any size.
pub fn take(gather: &mut Gather, first: u64, bytes: &[u8]) -> u8 {
    let n = match gathering(gather) {
        Ok(n) => n,
        Err(number) => return number,
    };
    let end = first as u128 + bytes.len() as u128;
    if end > n as u128 {
        return 23;
    }
    let pairs: Vec<(usize, u8)> = (first as usize..).zip(bytes.iter().copied()).collect();
    if pairs.iter().any(|&(p, _)| gather.marks[p] == 0) {
        return 24;
    }
    for (p, byte) in pairs {
        gather.bytes[p] = byte;
        gather.marks[p] = 0;
    }
    0
}

/// Finish: recover what came, with the rest lost; 0, or 1 to 4, 6, 22, 5,
/// 8, 9. The last two finish the gather as 0 does, and write no word.
pub fn finish(gather: &mut Gather, word: &mut [u8]) -> Mended {
    let n = match gathering(gather) {
        Ok(n) => n as usize,
        Err(number) => return (number, 0),
    };
    if word.len() != n {
        return (5, 0);
    }
    gather.finished = 1;
    let (mut mended, mut marks) = (gather.bytes[..n].to_vec(), gather.marks[..n].to_vec());
    let answer = recover(gather.m, gather.w, gather.c, &mut mended, &mut marks);
    if answer.0 == 0 {
        word.copy_from_slice(&mended);
    }
    answer
}

// ----------------------------------------------------------------- the desk

pub const LAST_T: u64 = 65_535;
pub const LAST_SERVED: u64 = 4_294_967_295;

/// One slot of the desk; `taken` is 0 for free and 1 for taken.
#[derive(Clone, Copy, Debug, PartialEq, Eq)]
pub struct Job {
    pub taken: u64,
    pub m: u64,
    pub w: u64,
    pub c: u64,
    pub handle: u64,
    pub served: u64,
    pub marks: [u8; 240],
    pub lost: [u64; 15],
    pub excess: u64,
}

/// The desk: the count t of handles issued and eight slots.
#[derive(Clone, Copy, Debug, PartialEq, Eq)]
pub struct Desk {
    pub t: u64,
    pub jobs: [Job; 8],
}

/// A free slot with every field zero.
pub const FREE: Job = Job {
    taken: 0,
    m: 0,
    w: 0,
    c: 0,
    handle: 0,
    served: 0,
    marks: [0; 240],
    lost: [0; 15],
    excess: 0,
};

/// The desk with t 0 and all slots free.
pub fn fresh() -> Desk {
    Desk { t: 0, jobs: [FREE; 8] }
}

/// The figures worked from n marks, place by place: each group's lost
/// count, 0 past the last group, and the excess.
pub fn worked(w: u64, c: u64, marks: &[u8]) -> ([u64; 15], u64) {
    let mut lost = [0; 15];
    let mut excess = 0;
    for (p, &mark) in marks.iter().enumerate() {
        let count = &mut lost[p / w as usize];
        if mark == 1 {
            *count += 1;
            if *count > c {
                excess += 1;
            }
        }
    }
    (lost, excess)
}

/// Whether a taken job is sound in slot s of a desk with count t.
fn sound_job(job: &Job, s: u64, t: u64) -> bool {
    let (n, _, _) = match describe(job.m, job.w, job.c) {
        Ok(figures) => figures,
        Err(_) => return false,
    };
    let marks = &job.marks[..n as usize];
    if marks.iter().any(|&mark| mark > 1) {
        return false;
    }
    if excess(job.m, job.w, job.c, marks) > 2 {
        return false;
    }
    if (job.lost, job.excess) != worked(job.w, job.c, marks) {
        return false;
    }
    let u = job.handle / 8;
    job.handle % 8 == s && u >= 1 && u <= t
}

/// Whether the desk is sound. Free slots and marks past n do not matter.
pub fn sound(desk: &Desk) -> bool {
    if desk.t > LAST_T {
        return false;
    }
    let mut issues: Vec<u64> = Vec::new();
    for s in 0..8 {
        let job = &desk.jobs[s];
        if job.taken == 0 {
            continue;
        }
        if job.taken != 1 || !sound_job(job, s as u64, desk.t) {
            return false;
        }
        if issues.contains(&(job.handle / 8)) {
            return false;
        }
        issues.push(job.handle / 8);
    }
    true
}

/// The taken slot that holds the handle.
fn slot_of(desk: &Desk, handle: u64) -> Option<usize> {
    (0..8).find(|&s| desk.jobs[s].taken == 1 && desk.jobs[s].handle == handle)
}

/// Open: the handle, or 31, then 1 to 6, 8, 10, 11.
pub fn open(desk: &mut Desk, m: u64, w: u64, c: u64, marks: &[u8]) -> Result<u64, u8> {
    if !sound(desk) {
        return Err(31);
    }
    let number = judge(m, w, c, marks);
    if number != 0 {
        return Err(number);
    }
    if desk.t == LAST_T {
        return Err(10);
    }
    let Some(s) = (0..8).find(|&s| desk.jobs[s].taken == 0) else {
        return Err(11);
    };
    desk.t += 1;
    let handle = 8 * desk.t + s as u64;
    let mut job = Job { taken: 1, m, w, c, handle, ..FREE };
    job.marks[..marks.len()].copy_from_slice(marks);
    (job.lost, job.excess) = worked(w, c, marks);
    desk.jobs[s] = job;
    Ok(handle)
}

/// Serve: recover the word by the job's marks, which stay; 0, or 31, 12, 5,
/// 13, 9.
pub fn serve(desk: &mut Desk, handle: u64, word: &mut [u8]) -> Mended {
    if !sound(desk) {
        return (31, 0);
    }
    let Some(s) = slot_of(desk, handle) else {
        return (12, 0);
    };
    let job = &mut desk.jobs[s];
    let n = job.m * job.w;
    if word.len() as u64 != n {
        return (5, 0);
    }
    if job.served >= LAST_SERVED {
        return (13, 0);
    }
    let mut marks = job.marks[..n as usize].to_vec();
    let mended = recover(job.m, job.w, job.c, word, &mut marks);
    if mended.0 == 0 {
        job.served += 1;
    }
    mended
}

/// Read the served count, or 31, 12.
pub fn read(desk: &Desk, handle: u64) -> Result<u64, u8> {
    if !sound(desk) {
        return Err(31);
    }
    match slot_of(desk, handle) {
        Some(s) => Ok(desk.jobs[s].served),
        None => Err(12),
    }
}

/// Close: free the slot and zero its fields; 0, or 31, 12.
pub fn close(desk: &mut Desk, handle: u64) -> u8 {
    if !sound(desk) {
        return 31;
    }
    match slot_of(desk, handle) {
        Some(s) => {
            desk.jobs[s] = FREE;
            0
        }
        None => 12,
    }
}

/// One place of an open job gets another mark, if what is then present
/// still settles a word; 0, or 31, 12, 25, 8.
fn change(desk: &mut Desk, handle: u64, place: u64, mark: u8) -> u8 {
    if !sound(desk) {
        return 31;
    }
    let Some(s) = slot_of(desk, handle) else {
        return 12;
    };
    let mut job = desk.jobs[s];
    let n = job.m * job.w;
    if place >= n {
        return 25;
    }
    job.marks[place as usize] = mark;
    let marks = &job.marks[..n as usize];
    let number = judge(job.m, job.w, job.c, marks);
    if number != 0 {
        return number;
    }
    (job.lost, job.excess) = worked(job.w, job.c, marks);
    desk.jobs[s] = job;
    0
}

/// Lose: the place is lost from now on.
pub fn lose(desk: &mut Desk, handle: u64, place: u64) -> u8 {
    change(desk, handle, place, 1)
}

/// Find: the place is present from now on.
pub fn find(desk: &mut Desk, handle: u64, place: u64) -> u8 {
    change(desk, handle, place, 0)
}

// --------------------------------------------------------------- text lines

/// Most bytes of a line before its line feed.
pub const LONGEST: usize = 1024;

/// The shape in force, as m, w, c.
pub type Shape = (u64, u64, u64);

/// A number from 0 to 255 without sign or leading zero.
fn number(field: &[u8]) -> Option<u8> {
    if field.is_empty() || field.len() > 3 {
        return None;
    }
    if field.len() > 1 && field[0] == b'0' {
        return None;
    }
    let mut value: u32 = 0;
    for &digit in field {
        if !digit.is_ascii_digit() {
            return None;
        }
        value = 10 * value + (digit - b'0') as u32;
    }
    if value <= 255 {
        Some(value as u8)
    } else {
        None
    }
}

/// All fields as numbers, or None if one is bad.
fn numbers(fields: &[&[u8]]) -> Option<Vec<u8>> {
    fields.iter().map(|field| number(field)).collect()
}

/// All fields as bytes and marks, where - is a lost place.
fn bytes_and_marks(fields: &[&[u8]]) -> Option<(Vec<u8>, Vec<u8>)> {
    let (mut bytes, mut marks) = (Vec::new(), Vec::new());
    for &field in fields {
        if field == b"-" {
            bytes.push(0);
            marks.push(1);
        } else {
            bytes.push(number(field)?);
            marks.push(0);
        }
    }
    Some((bytes, marks))
}

fn refused(number: u8) -> Vec<u8> {
    format!("refused\t{number}").into_bytes()
}

fn word_line(word: &[u8]) -> Vec<u8> {
    let mut text = String::from("word");
    for byte in word {
        text.push_str(&format!("\t{byte}"));
    }
    text.into_bytes()
}

/// Answer to a shape record and the shape then in force.
fn shape_record(state: Option<Shape>, fields: &[&[u8]]) -> (Vec<u8>, Option<Shape>) {
    let Some(values) = numbers(fields) else {
        return (refused(14), state);
    };
    if values.len() != 3 {
        return (refused(14), state);
    }
    let (m, w, c) = (values[0] as u64, values[1] as u64, values[2] as u64);
    match describe(m, w, c) {
        Ok((n, k, _)) => (format!("ok\t{n}\t{k}").into_bytes(), Some((m, w, c))),
        Err(number) => (refused(number), state),
    }
}

/// Answer to a data record.
fn data_record(state: Option<Shape>, fields: &[&[u8]]) -> Vec<u8> {
    let Some(data) = numbers(fields) else {
        return refused(14);
    };
    let Some((m, w, c)) = state else {
        return refused(15);
    };
    let n = match describe(m, w, c) {
        Ok((n, _, _)) => n,
        Err(number) => return refused(number),
    };
    let mut word = vec![0; n as usize];
    match encode(m, w, c, &data, &mut word) {
        0 => word_line(&word),
        number => refused(number),
    }
}

/// Answer to a word record.
fn word_record(state: Option<Shape>, fields: &[&[u8]]) -> Vec<u8> {
    let Some((mut word, mut marks)) = bytes_and_marks(fields) else {
        return refused(14);
    };
    let Some((m, w, c)) = state else {
        return refused(15);
    };
    match recover(m, w, c, &mut word, &mut marks) {
        (0, _) => word_line(&word),
        (9, group) => format!("refused\t9\t{group}").into_bytes(),
        (number, _) => refused(number),
    }
}

/// One input line (without its line feed) to one output line (without its
/// line feed) and the shape then in force.
pub fn line(state: Option<Shape>, line: &[u8]) -> (Vec<u8>, Option<Shape>) {
    if line.is_empty() || line.len() > LONGEST {
        return (refused(14), state);
    }
    let fields: Vec<&[u8]> = line.split(|&byte| byte == b'\t').collect();
    match fields[0] {
        b"shape" => shape_record(state, &fields[1..]),
        b"data" => (data_record(state, &fields[1..]), state),
        b"word" => (word_record(state, &fields[1..]), state),
        _ => (refused(14), state),
    }
}

/// Answer one kept line with a line feed.
fn answer(output: &mut impl Write, state: &mut Option<Shape>, kept: &[u8]) -> io::Result<()> {
    let (mut text, next) = line(*state, kept);
    *state = next;
    text.push(b'\n');
    output.write_all(&text)
}

/// A whole session. Of a line no more than 1,025 bytes are kept, which is
/// enough to see that it is too long.
pub fn session(mut input: impl Read, mut output: impl Write) -> io::Result<()> {
    let mut state: Option<Shape> = None;
    let mut kept: Vec<u8> = Vec::with_capacity(LONGEST + 1);
    let mut chunk = [0u8; 4096];
    loop {
        let count = match input.read(&mut chunk) {
            Ok(count) => count,
            Err(error) if error.kind() == ErrorKind::Interrupted => continue,
            Err(error) => return Err(error),
        };
        if count == 0 {
            break;
        }
        for &byte in &chunk[..count] {
            if byte == b'\n' {
                answer(&mut output, &mut state, &kept)?;
                kept.clear();
            } else if kept.len() <= LONGEST {
                kept.push(byte);
            }
        }
        output.flush()?;
    }
    if !kept.is_empty() {
        answer(&mut output, &mut state, &kept)?;
    }
    output.flush()
}

// ------------------------------------------------------------- named shapes

/// What a name stands for: its revision, m, w and c.
pub type Named = (u64, u64, u64, u64);

/// What a line says of its name: the revision, and m, w, c unless it is gone.
pub type Line = (u64, Option<(u64, u64, u64)>);

/// The lines as a map, which sorts by the bytes of the names.
pub type Lines = std::collections::BTreeMap<Vec<u8>, Line>;

/// A catalogue: the version of its text, the floor (0 in version 1) and lines.
#[derive(Clone, Debug, PartialEq)]
pub struct Catalogue {
    pub version: u64,
    pub floor: u64,
    pub lines: Lines,
}

/// The longest text.
pub const LONGEST_CATALOGUE: usize = 4096;

/// The last revision, and the highest floor.
pub const LAST_REVISION: u64 = 65535;

pub fn is_good_name(name: &[u8]) -> bool {
    let allowed = b"abcdefghijklmnopqrstuvwxyz0123456789-";
    (1..=16).contains(&name.len()) && name.iter().all(|byte| allowed.contains(byte))
}

/// The text of a catalogue, made with the formatter of the language.
pub fn catalogue_text(catalogue: &Catalogue) -> Vec<u8> {
    let mut text = match catalogue.version {
        1 => b"shapes\t1\n".to_vec(),
        version => format!("shapes\t{version}\t{}\n", catalogue.floor).into_bytes(),
    };
    for (name, (revision, shape)) in &catalogue.lines {
        text.extend_from_slice(name);
        let rest = match shape {
            Some((m, w, c)) => format!("\t{revision}\t{m}\t{w}\t{c}\n"),
            None => format!("\t{revision}\tgone\n"),
        };
        text.extend_from_slice(rest.as_bytes());
    }
    text
}

/// What a line after the first may mean, and whether that is good in a text of
/// this version: in version 1 no line is gone.
fn catalogue_line(version: u64, line: &[u8]) -> Option<(Vec<u8>, Line)> {
    let fields: Vec<&[u8]> = line.split(|&byte| byte == b'\t').collect();
    let figure = |i: usize| -> Option<u64> { std::str::from_utf8(fields.get(i)?).ok()?.parse().ok() };
    let revision = figure(1)?;
    if !is_good_name(fields[0]) || !(1..=LAST_REVISION).contains(&revision) {
        return None;
    }
    if version > 1 && fields.get(2)? == b"gone" {
        return Some((fields[0].to_vec(), (revision, None)));
    }
    let (m, w, c) = (figure(2)?, figure(3)?, figure(4)?);
    describe(m, w, c).ok()?;
    Some((fields[0].to_vec(), (revision, Some((m, w, c)))))
}

/// The catalogue of a text: whatever its lines may mean is read into a map,
/// and the map's own text must then be the text that was read.
pub fn catalogue(text: &[u8]) -> Option<Catalogue> {
    let mut lines = text.split(|&byte| byte == b'\n');
    let first: Vec<&str> = std::str::from_utf8(lines.next()?).ok()?.split('\t').collect();
    let version: u64 = first.get(1)?.parse().ok()?;
    let floor: u64 = if version == 1 { 0 } else { first.get(2)?.parse().ok()? };
    if !(1..=2).contains(&version) || floor > LAST_REVISION {
        return None;
    }
    let mut read = Catalogue { version, floor, lines: Lines::new() };
    for line in lines.filter(|line| !line.is_empty()) {
        read.lines.extend([catalogue_line(version, line)?]);
    }
    (catalogue_text(&read) == text).then_some(read)
}

/// The catalogue in a lent buffer with its length, or 16.
fn lent_catalogue(buffer: &[u8], size: usize) -> Result<Catalogue, u8> {
    let text = buffer.get(..size).filter(|text| text.len() <= LONGEST_CATALOGUE).ok_or(16)?;
    catalogue(text).ok_or(16)
}

/// 17 of a bad name.
fn good_name(name: &[u8]) -> Result<(), u8> {
    if is_good_name(name) { Ok(()) } else { Err(17) }
}

/// The revision after this one, or 20.
fn next_revision(revision: u64) -> Result<u64, u8> {
    if revision < LAST_REVISION { Ok(revision + 1) } else { Err(20) }
}

/// Writes the text of a changed catalogue, or 21. It is of version 2.
fn write_catalogue(mut changed: Catalogue, buffer: &mut [u8]) -> Result<usize, u8> {
    changed.version = 2;
    let text = catalogue_text(&changed);
    if text.len() > LONGEST_CATALOGUE {
        return Err(21);
    }
    buffer.get_mut(..text.len()).ok_or(21)?.copy_from_slice(&text);
    Ok(text.len())
}

/// Lookup: revision and shape, or 16, 17, 18. A name that is gone isn't found.
pub fn lookup(buffer: &[u8], size: usize, name: &[u8]) -> Result<Named, u8> {
    let read = lent_catalogue(buffer, size)?;
    good_name(name)?;
    match read.lines.get(name) {
        Some(&(revision, Some((m, w, c)))) => Ok((revision, m, w, c)),
        _ => Err(18),
    }
}

/// Put: the new length and revision, or 1 to 4, 29, 16, 17, 19, 20, 21. A name
/// that is gone or was never there expects 0; the first goes on from its line's
/// revision, the second from the floor.
pub fn put(shape: (u64, u64, u64), name: &[u8], expected: u64, buffer: &mut [u8], size: usize) -> Result<(usize, u64), u8> {
    let (m, w, c) = shape;
    describe(m, w, c)?;
    if is_retired(c) {
        return Err(29);
    }
    let mut read = lent_catalogue(buffer, size)?;
    good_name(name)?;
    let (stored, last) = match read.lines.get(name) {
        Some(&(revision, Some(_))) => (revision, revision),
        Some(&(revision, None)) => (0, revision),
        None => (0, read.floor),
    };
    if stored != expected {
        return Err(19);
    }
    let revision = next_revision(last)?;
    read.lines.insert(name.to_vec(), (revision, Some(shape)));
    Ok((write_catalogue(read, buffer)?, revision))
}

/// Remove: the new length and the revision on the gone line, or 16 to 21.
pub fn remove(name: &[u8], expected: u64, buffer: &mut [u8], size: usize) -> Result<(usize, u64), u8> {
    let mut read = lent_catalogue(buffer, size)?;
    good_name(name)?;
    let Some(&(stored, Some(_))) = read.lines.get(name) else { return Err(18) };
    if stored != expected {
        return Err(19);
    }
    let revision = next_revision(stored)?;
    read.lines.insert(name.to_vec(), (revision, None));
    Ok((write_catalogue(read, buffer)?, revision))
}

/// Compaction: the new length, or 16. The gone lines are dropped, and the floor
/// is the largest revision ever dropped.
pub fn compact(buffer: &mut [u8], size: usize) -> Result<usize, u8> {
    let mut read = lent_catalogue(buffer, size)?;
    let (gone, stay): (Vec<_>, Vec<_>) = read.lines.into_iter().partition(|(_, (_, shape))| shape.is_none());
    let Some(highest) = gone.iter().map(|(_, (revision, _))| *revision).max() else { return Ok(size) };
    read.floor = read.floor.max(highest);
    read.lines = stay.into_iter().collect();
    Ok(write_catalogue(read, buffer).expect("a text with fewer lines is shorter"))
}

// ------------------------------------------------------------- block rebuild

/// The number given back, and the word and the group that a 9 carries; 0 with
/// any other.
pub type Rebuilt = (u8, u64, u64);

/// Rebuild n blocks of equal length: 0, or 1 to 6, 27, 8, 9. One elimination
/// for all words, the sums over the present places of each word being a
/// further column.
pub fn rebuild(m: u64, w: u64, c: u64, length: u64, blocks: &mut [u8], marks: &mut [u8]) -> Rebuilt {
    let n = match describe(m, w, c) {
        Ok((n, _, _)) => n,
        Err(number) => return (number, 0, 0),
    };
    if marks.len() as u64 != n {
        return (5, 0, 0);
    }
    if marks.iter().any(|&mark| mark > 1) {
        return (6, 0, 0);
    }
    let all = n as u128 * length as u128;
    if length == 0 || all > 65536 || blocks.len() as u128 != all {
        return (27, 0, 0);
    }
    let length = length as usize;
    let lost = flags(marks);
    let unknowns = lost.iter().filter(|&&x| x).count();
    let mut matrix = Vec::new();
    for row in equations(m, w, c) {
        let mut line: Vec<u8> = (0..lost.len()).filter(|&p| lost[p]).map(|p| row[p]).collect();
        let mut sums = vec![0; length];
        for p in (0..lost.len()).filter(|&p| !lost[p] && row[p] != 0) {
            for (sum, &byte) in sums.iter_mut().zip(&blocks[p * length..(p + 1) * length]) {
                *sum ^= mul(row[p], byte);
            }
        }
        line.extend(sums);
        matrix.push(line);
    }
    let rank = reduce(&mut matrix, unknowns);
    if rank < unknowns {
        return (8, 0, 0);
    }
    let wrong = |x: &usize| matrix[rank..].iter().any(|line| line[unknowns + x] != 0);
    if let Some(x) = (0..length).find(wrong) {
        let word: Vec<u8> = (0..lost.len()).map(|p| blocks[p * length + x]).collect();
        return (9, x as u64, contradicting_group(m, w, c, &word, &lost));
    }
    for (line, p) in matrix.iter().zip((0..lost.len()).filter(|&p| lost[p])) {
        blocks[p * length..(p + 1) * length].copy_from_slice(&line[unknowns..]);
    }
    marks.fill(0);
    (0, 0, 0)
}

/// The line up to its line feed, or to the end, and what comes after it.
fn split_line(input: &[u8]) -> (&[u8], &[u8]) {
    match input.iter().position(|&byte| byte == b'\n') {
        Some(end) => (&input[..end], &input[end + 1..]),
        None => (input, &[]),
    }
}

/// The fields after the name of a line, or None if it has another name or is
/// too long.
fn fields_of<'a>(line: &'a [u8], name: &[u8]) -> Option<Vec<&'a [u8]>> {
    let fields: Vec<&[u8]> = line.split(|&byte| byte == b'\t').collect();
    (line.len() <= LONGEST && fields[0] == name).then(|| fields[1..].to_vec())
}

/// A length: decimal to 65,536 without sign or leading zero.
fn long_number(field: &[u8]) -> Option<u64> {
    let text = std::str::from_utf8(field).ok()?;
    let value: u64 = text.parse().ok()?;
    (value <= 65536 && value.to_string() == text).then_some(value)
}

/// The blocks, mended, or the fields of the one refused line and which input
/// line can't be read, 0 if all can.
fn rebuild_input(input: &[u8]) -> Result<Vec<u8>, (String, u8)> {
    let refuse = |number: u8| (number.to_string(), 0);
    let unreadable = |line: u8| (14.to_string(), line);
    let (first, rest) = split_line(input);
    let shape = fields_of(first, b"shape").and_then(|fields| numbers(&fields)).filter(|values| values.len() == 3).ok_or(unreadable(1))?;
    let (m, w, c) = (shape[0] as u64, shape[1] as u64, shape[2] as u64);
    let (n, _, _) = describe(m, w, c).map_err(refuse)?;
    let (second, rest) = split_line(rest);
    let mut marks = fields_of(second, b"marks").and_then(|fields| numbers(&fields)).ok_or(unreadable(2))?;
    if marks.len() as u64 != n {
        return Err(refuse(5));
    }
    if marks.iter().any(|&mark| mark > 1) {
        return Err(refuse(6));
    }
    let (third, rest) = split_line(rest);
    let fields = fields_of(third, b"length").filter(|fields| fields.len() == 1).ok_or(unreadable(3))?;
    let length = long_number(fields[0]).ok_or(unreadable(3))?;
    let mut blocks = rest.to_vec();
    match rebuild(m, w, c, length, &mut blocks, &mut marks) {
        (0, _, _) => Ok(blocks),
        (9, word, group) => Err((format!("9\t{word}\t{group}"), 0)),
        (number, _, _) => Err(refuse(number)),
    }
}

/// A whole run of the program that rebuilds: what it writes and, if that is a
/// refused line, which input line can't be read, 0 if all can.
pub fn rebuild_run(input: &[u8]) -> (Vec<u8>, Option<u8>) {
    match rebuild_input(input) {
        Ok(blocks) => (blocks, None),
        Err((fields, line)) => (format!("refused\t{fields}\n").into_bytes(), Some(line)),
    }
}
