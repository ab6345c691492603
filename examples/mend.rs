//! Axlebloom from Rust: a safe wrapper around the functions of `axlebloom.h`, and the steps of `mend.c`.
//! Build: rustc -O examples/mend.rs -L target/library -l static=axlebloom

mod c {
    #[repr(C)]
    pub struct Answer {
        pub number: u8,
        pub group: u8,
    }
    extern "C" {
        pub fn axlebloom_places(m: usize, w: usize, c: usize) -> usize;
        pub fn axlebloom_data(m: usize, w: usize, c: usize) -> usize;
        pub fn axlebloom_encode(m: usize, w: usize, c: usize, data: *const u8, k: usize, word: *mut u8, n: usize) -> u8;
        pub fn axlebloom_extract(m: usize, w: usize, c: usize, word: *const u8, n: usize, data: *mut u8, k: usize) -> u8;
        pub fn axlebloom_repair(m: usize, w: usize, c: usize, g: usize, word: *mut u8, n: usize, marks: *mut u8, marks_n: usize) -> Answer;
        pub fn axlebloom_recover(m: usize, w: usize, c: usize, word: *mut u8, n: usize, marks: *mut u8, marks_n: usize) -> Answer;
    }
}

/// A shape: m groups of w places with c local checks in each.
#[derive(Clone, Copy)]
pub struct Shape {
    pub m: usize,
    pub w: usize,
    pub c: usize,
}

/// Why a call was refused: the present bytes fit no codeword (the group is the one named, or m if only the checks across fail), or another refusal number.
#[derive(Debug, PartialEq)]
pub enum Refusal {
    Contradictory { group: u8 },
    Number(u8),
}

fn answer(number: u8) -> Result<(), Refusal> {
    if number == 0 { Ok(()) } else { Err(Refusal::Number(number)) }
}

fn mended(answer: c::Answer) -> Result<(), Refusal> {
    match answer.number {
        0 => Ok(()),
        9 => Err(Refusal::Contradictory { group: answer.group }),
        number => Err(Refusal::Number(number)),
    }
}

impl Shape {
    /// The bytes in a word and the data bytes in it; both are 0 for a bad shape.
    pub fn sizes(self) -> (usize, usize) {
        unsafe { (c::axlebloom_places(self.m, self.w, self.c), c::axlebloom_data(self.m, self.w, self.c)) }
    }
    pub fn encode(self, data: &[u8], word: &mut [u8]) -> Result<(), Refusal> {
        answer(unsafe { c::axlebloom_encode(self.m, self.w, self.c, data.as_ptr(), data.len(), word.as_mut_ptr(), word.len()) })
    }
    pub fn extract(self, word: &[u8], data: &mut [u8]) -> Result<(), Refusal> {
        answer(unsafe { c::axlebloom_extract(self.m, self.w, self.c, word.as_ptr(), word.len(), data.as_mut_ptr(), data.len()) })
    }
    pub fn repair(self, g: usize, word: &mut [u8], marks: &mut [u8]) -> Result<(), Refusal> {
        mended(unsafe { c::axlebloom_repair(self.m, self.w, self.c, g, word.as_mut_ptr(), word.len(), marks.as_mut_ptr(), marks.len()) })
    }
    pub fn recover(self, word: &mut [u8], marks: &mut [u8]) -> Result<(), Refusal> {
        mended(unsafe { c::axlebloom_recover(self.m, self.w, self.c, word.as_mut_ptr(), word.len(), marks.as_mut_ptr(), marks.len()) })
    }
}

fn main() -> Result<(), Refusal> {
    let shape = Shape { m: 4, w: 8, c: 2 };
    let data = *b"twenty-two bytes: text";
    let (n, k) = shape.sizes();
    assert_eq!(k, data.len());
    let (mut word, mut marks, mut back) = (vec![0; n], vec![0; n], vec![0; k]);
    shape.encode(&data, &mut word)?;
    for p in [1, 6, 16, 17, 18, 20] {
        marks[p] = 1;
        word[p] = b'?';
    }
    shape.repair(0, &mut word, &mut marks)?;
    println!("repair of group 2 alone: {:?}", shape.repair(2, &mut word, &mut marks));
    shape.recover(&mut word, &mut marks)?;
    shape.extract(&word, &mut back)?;
    println!("{}", String::from_utf8_lossy(&back));
    assert_eq!(back, data);
    word[21] ^= 1;
    println!("a wrong byte: {:?}", shape.recover(&mut word, &mut marks));
    Ok(())
}
