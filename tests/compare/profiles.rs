//! The judge of the profile, on the marks of a case, and on marks with whole places lost that its data choose.

use crate::library::{self, Shape};
use crate::random::{figures, wide};
use crate::second;

/// Up to c+1 places lost in all groups or in all but one, and up to four places elsewhere, as the bytes of data say.
fn disks(s: Shape, data: &[u8]) -> Vec<u8> {
    let (m, w, c) = s;
    let mut marks = vec![0; m * w];
    let mut bytes = data.iter().cycle().map(|&byte| byte as usize);
    let mut below = |bound: usize| bytes.next().unwrap_or(0) % bound;
    for _ in 0..below(c + 2) {
        let (j, spared) = (below(w), below(2 * m));
        (0..m).filter(|&g| g != spared).for_each(|g| marks[g * w + j] = 1);
    }
    for _ in 0..below(5) {
        let p = below(m * w);
        marks[p] = 1;
    }
    marks
}

/// The number and the set that both give are alike; after a yes Judge gives 0, and no number but 28 differs from Judge's.
fn alike(s: Shape, marks: &[u8], seen: &mut Vec<u8>) -> Result<(), String> {
    let (m, w, c) = wide(s);
    let (ours, theirs) = (library::profile(s, marks), second::profile(m, w, c, marks));
    if ours != theirs {
        return Err(format!("profile of {marks:?}\n  library        {ours:?}\n  second program {theirs:?}"));
    }
    let number = ours.err().unwrap_or(0);
    let judged = library::judge(s, marks);
    if judged != number && number != 28 {
        return Err(format!("profile of {marks:?} gives {number}, Judge {judged}"));
    }
    seen.push(number);
    Ok(())
}

pub fn compare(s: Shape, marks: &[u8], data: &[u8], seen: &mut Vec<u8>) -> Result<(), String> {
    alike(s, marks, seen)?;
    if figures(s).is_some() {
        alike(s, &disks(s, data), seen)?;
    }
    Ok(())
}
