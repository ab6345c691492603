//! The library and the program beside the second program, on cases of these kinds, all random but the first and the last:
//!   patterns  every loss pattern of some small shapes, through every service; asked for by name, of every shape of at most 14 places
//!   services  every service, with shapes, words, marks and lists of groups good and bad
//!   desks     long lists of calls on a desk, with every byte of it compared after every call
//!   sessions  lines of text, through the program as a process
//!   gathers   words cut and brought in any order, with odd calls and changed records between, every byte compared; and beside Recover
//!   catalogues  lists of calls on a text, near its longest and damaged, with saved copies lent again, every byte of the buffer compared; and what
//!             holds of a list of calls, asked of the library's own texts
//!   namings   every list of five puts, removes and compactions on two names, on a few texts, in the same way
//!
//! Arguments: SEED COUNT [KIND [INDEX]]: all patterns, all namings and so many cases of each other kind, or so many of one kind, from that index on.
//! The argument patterns alone prints how many patterns there are.
//! A case depends on nothing but the seed, its kind and its index. For millions: tests/many, which builds all that is
//! needed and runs this program.
//! A mismatch prints the smallest case that was found to show it, and the command that repeats the case it was found from.

mod calls;
mod catalogue_calls;
mod catalogues;
mod desks;
mod edits;
mod gathers;
mod library;
mod lines;
mod listed;
mod profiles;
mod random;
#[path = "../second/second.rs"]
#[allow(dead_code)]
mod second;
mod services;
mod sessions;
mod shrink;

use catalogues::Catalogues;
use desks::History;
use gathers::Gathering;
use listed::SITUATIONS;
use random::Random;
use services::Services;
use sessions::Session;
use shrink::{smallest, verdict, Case};

/// What the arguments ask for.
#[derive(Clone)]
struct Wanted {
    seed: u64,
    count: u64,
    kind: Option<String>,
    from: u64,
}

/// How many cases were compared, and how often each number came; and from 32 on, each situation of a catalogue.
struct Tally {
    cases: u64,
    numbers: [u64; CODES],
}

const CODES: usize = listed::Situation::FIRST_CODE as usize + SITUATIONS.len();

fn wanted() -> Option<Wanted> {
    let arguments: Vec<String> = std::env::args().skip(1).collect();
    let number = |i: usize| arguments.get(i).map(|argument| argument.parse().ok());
    let kind = arguments.get(2).cloned();
    if arguments == ["patterns"] {
        println!("{}", services::pattern_counts().1);
        std::process::exit(0);
    }
    if arguments.len() > 4 || kind.as_ref().is_some_and(|kind| !KINDS.contains(&kind.as_str())) {
        return None;
    }
    Some(Wanted { seed: number(0)??, count: number(1)??, kind, from: number(3).unwrap_or(Some(0))? })
}

const KINDS: [&str; 7] = ["patterns", "services", "desks", "sessions", "gathers", "catalogues", "namings"];

/// Shows the smallest case and ends.
fn mismatch<C: Case>(kind: &str, wanted: &Wanted, index: u64, case: C) -> ! {
    println!("MISMATCH in case {index} of {kind}; looking for a smaller one");
    let case = smallest(case);
    if let Err(difference) = verdict(&case) {
        println!("{difference}\nin the case:\n{}", case.show());
    }
    println!("to repeat: target/tests/compare {} 1 {kind} {index}", wanted.seed);
    std::process::exit(1)
}

/// Compares the cases of one kind, as long as there are any.
fn compare<C: Case>(kind: &str, wanted: &Wanted, draw: impl Fn(u64) -> Option<C>) -> Tally {
    let mut tally = Tally { cases: 0, numbers: [0; CODES] };
    if wanted.kind.as_ref().is_some_and(|only| only != kind) {
        return tally;
    }
    for index in wanted.from..wanted.from + wanted.count {
        let Some(case) = draw(index) else { break };
        match verdict(&case) {
            Ok(numbers) => numbers.iter().for_each(|&number| tally.numbers[number as usize] += 1),
            Err(_) => mismatch(kind, wanted, index, case),
        }
        tally.cases += 1;
    }
    tally
}

fn random_cases<C: Case>(kind: &str, wanted: &Wanted) -> Tally {
    compare(kind, wanted, |index| Some(C::random(&mut Random::of_case(wanted.seed, kind, index))))
}

/// Every case of a kind that has only so many, unless the arguments ask for some of them; of patterns, those of the small shapes.
fn every_case<C: Case>(kind: &str, wanted: &Wanted, draw: impl Fn(u64) -> Option<C>) -> Tally {
    let all = if kind == "patterns" { services::pattern_counts().0 } else { u64::MAX };
    let count = if wanted.kind.is_none() { all } else { wanted.count };
    compare(kind, &Wanted { count, ..wanted.clone() }, draw)
}

/// How often the catalogues met a situation.
fn situations(tallies: &[Tally; 7]) -> impl Iterator<Item = (&'static str, u64)> + '_ {
    let times = |i: usize| tallies.iter().map(|tally| tally.numbers[CODES - SITUATIONS.len() + i]).sum();
    SITUATIONS.iter().enumerate().map(move |(i, name)| (*name, times(i)))
}

/// One line for each number: how often each kind of case met it.
fn print_table(tallies: &[Tally; 7]) {
    println!("number {}", KINDS.map(|kind| format!("{kind:>11}")).concat());
    for number in (0..=25).chain([28, 29, 30, 31]) {
        println!("{number:>6} {}", tallies.each_ref().map(|tally| format!("{:>11}", tally.numbers[number])).concat());
    }
    let met: Vec<String> = situations(tallies).filter(|(_, times)| *times > 0).map(|(name, times)| format!("{times} {name}")).collect();
    println!("calls on catalogues: {}", met.join("; "));
}

/// Numbers that calls and lines can give and that never came.
fn never_met(tallies: &[Tally; 7]) -> Vec<String> {
    let calls = |number: usize| tallies[..3].iter().map(|tally| tally.numbers[number]).sum::<u64>();
    let by_calls = (0..=13).chain([25, 28, 29, 30, 31]).filter(|&number| calls(number) == 0).map(|number| format!("{number} by a call"));
    let by_lines = [0, 1, 2, 3, 4, 5, 8, 9, 14, 15, 29].into_iter().filter(|&number| tallies[3].numbers[number] == 0);
    let gathered = [0, 1, 2, 3, 4, 5, 6, 8, 9, 22, 23, 24].into_iter().filter(|&number| tallies[4].numbers[number] == 0);
    let by_gathers = gathered.map(|number| format!("{number} by a gather"));
    let by_catalogues = (0..=4).chain(16..=21).chain([29]).filter(|&number| tallies[5].numbers[number] == 0);
    let by_catalogues = by_catalogues.map(|number| format!("{number} by a catalogue"));
    let situations = situations(tallies).filter(|(_, times)| *times == 0).map(|(name, _)| format!("\"{name}\""));
    by_calls.chain(by_gathers).chain(by_lines.map(|number| format!("{number} by a line"))).chain(by_catalogues).chain(situations).collect()
}

/// Fewer cases need not meet every number.
const ENOUGH: u64 = 1000;

fn main() {
    let Some(wanted) = wanted() else {
        println!("arguments: SEED COUNT [KIND [INDEX]], where KIND is one of {}", KINDS.join(", "));
        std::process::exit(2);
    };
    std::panic::set_hook(Box::new(|_| ()));
    let tallies = [
        every_case("patterns", &wanted, services::pattern),
        random_cases::<Services>("services", &wanted),
        random_cases::<History>("desks", &wanted),
        random_cases::<Session>("sessions", &wanted),
        random_cases::<Gathering>("gathers", &wanted),
        random_cases::<Catalogues>("catalogues", &wanted),
        every_case("namings", &wanted, catalogue_calls::short_history),
    ];
    let cases: Vec<String> = KINDS.iter().zip(&tallies).map(|(kind, tally)| format!("{kind} {}", tally.cases)).collect();
    println!("compared from seed {}, all alike: {}; how often each number was answered:", wanted.seed, cases.join(", "));
    print_table(&tallies);
    let missing = never_met(&tallies);
    if wanted.kind.is_none() && wanted.count >= ENOUGH && !missing.is_empty() {
        println!("FAILED: never answered: {}", missing.join(", "));
        std::process::exit(1);
    }
}
