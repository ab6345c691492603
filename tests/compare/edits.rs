//! Edits of a case's word, and of the codeword of its data, at numbers that its data choose.

use crate::library::{self, Shape};
use crate::random::{codeword, figures, wide};
use crate::second;

/// Both give the same number, group and word; this is the word.
fn alike(s: Shape, word: &[u8], number: usize, byte: u8, seen: &mut Vec<u8>) -> Result<Vec<u8>, String> {
    let (m, w, c) = wide(s);
    let (mut x, mut y) = (word.to_vec(), word.to_vec());
    let ours = (library::edit(s, &mut x, number, byte), x);
    let theirs = (second::edit(m, w, c, &mut y, number as u64, byte), y);
    if ours != theirs {
        return Err(format!("edit of number {number} to {byte}\n  library        {ours:?}\n  second program {theirs:?}"));
    }
    seen.push(ours.0 .0);
    Ok(ours.1)
}

/// Edits of two numbers of a codeword, in either order.
fn two(s: Shape, data: &[u8], numbers: (usize, usize), seen: &mut Vec<u8>) -> Result<(), String> {
    let word = codeword(s, data);
    let ((i, j), (a, b)) = (numbers, (data[0].wrapping_mul(7), data[data.len() - 1] ^ 85));
    let there = alike(s, &word, i, a, seen)?;
    let there = alike(s, &there, j, b, seen)?;
    let back = alike(s, &word, j, b, seen)?;
    let back = alike(s, &back, i, a, seen)?;
    if i != j && there != back {
        return Err(format!("edits of {i} and {j} of {word:?}\n  in this order {there:?}\n  in the other  {back:?}"));
    }
    Ok(())
}

pub fn compare(s: Shape, word: &[u8], data: &[u8], seen: &mut Vec<u8>) -> Result<(), String> {
    let sum: usize = data.iter().map(|&byte| byte as usize).sum();
    let k = figures(s).map_or(1, |(_, k)| k);
    // mostly a number below k, now and then k or the largest
    let number = if sum % 16 == 0 { usize::MAX } else { sum % (k + 1) };
    alike(s, word, number, sum as u8, seen)?;
    if figures(s).is_some() && data.len() == k {
        two(s, data, (sum % k, sum / k % k), seen)?;
    }
    Ok(())
}
