//! What holds over a list of calls on a catalogue, whatever the calls are (request 13): a name with a revision never stands for two shapes, a name's
//! revisions only rise, dropped ones are at most the floor, and the floor never falls. It is asked of the texts that the library leaves. Beside it,
//! the situations that a list of calls has met.

use crate::catalogues::{Call, Outcome};
use crate::second::{self, Catalogue, LAST_REVISION, LONGEST_CATALOGUE};
use std::collections::BTreeMap;

/// What a catalogue's calls have to meet in a long run, apart from each number.
pub const SITUATIONS: [&str; 32] = [
    "put, a new name in version 1",
    "put, a new name in version 2",
    "put, again in version 1",
    "put, again in version 2",
    "put, a gone name",
    "put, a name that was dropped",
    "put, 19: a gone name with its line's revision",
    "put, 20: the name's own revision",
    "put, 20: a gone name's revision",
    "put, 20: the floor",
    "put, 21: more than 4096 bytes",
    "put, 21: more than the buffer",
    "put, 21: for the first line of version 2 alone",
    "remove, in version 1",
    "remove, in version 2",
    "remove, to the last revision",
    "remove, 18: not there",
    "remove, 18: gone",
    "remove, 19",
    "remove, 20",
    "remove, 21: more than 4096 bytes",
    "remove, 21: more than the buffer",
    "compact, the floor rises",
    "compact, the floor stays",
    "compact, the floor is at its end",
    "compact, no gone line in version 1",
    "compact, no gone line in version 2",
    "compact, 16",
    "lookup, found",
    "lookup, 18: not there",
    "lookup, 18: gone",
    "a text of 4096 bytes written",
];

/// One of them, by its place.
pub struct Situation(usize);

impl Situation {
    /// Numbers are below this.
    pub const FIRST_CODE: u8 = 32;

    pub fn code(&self) -> u8 {
        Situation::FIRST_CODE + self.0 as u8
    }

    fn named(name: &str) -> Situation {
        Situation(SITUATIONS.iter().position(|&other| other == name).expect("a situation of the list"))
    }
}

/// What the texts so far have said, from the last one that another hand made.
#[derive(Clone, Default)]
pub struct Listed {
    text: Vec<u8>,
    floor: u64,
    /// by name and revision: a shape, or None for a gone line
    said: BTreeMap<Vec<u8>, BTreeMap<u64, Option<(u64, u64, u64)>>>,
}

impl Listed {
    /// A name that has had a line so far, counted round.
    pub fn name(&self, i: usize) -> Option<&[u8]> {
        self.said.keys().nth(i % self.said.len().max(1)).map(Vec::as_slice)
    }

    /// Takes the list of a text, and says where it goes against an earlier one.
    fn take(&mut self, text: &[u8], list: &Catalogue) -> Result<(), String> {
        if list.floor < self.floor {
            return Err(format!("the floor falls from {} to {}", self.floor, list.floor));
        }
        for (name, (revision, shape)) in &list.lines {
            let said = self.said.entry(name.clone()).or_default();
            let shown = name.escape_ascii();
            if said.last_key_value().is_some_and(|(highest, _)| highest > revision) {
                return Err(format!("the revision of \"{shown}\" falls to {revision}"));
            }
            if said.get(revision).is_some_and(|other| other != shape) {
                return Err(format!("\"{shown}\" with revision {revision} stands for {:?} and for {shape:?}", said[revision]));
            }
            said.insert(*revision, *shape);
        }
        let dropped = self.said.iter().filter(|(name, _)| !list.lines.contains_key(*name));
        for (name, said) in dropped {
            if said.last_key_value().is_some_and(|(highest, _)| *highest > list.floor) {
                return Err(format!("\"{}\" was dropped above the floor", name.escape_ascii()));
            }
        }
        (self.text, self.floor) = (text.to_vec(), list.floor);
        Ok(())
    }

    /// After a call on the text lent, which left this text: what is wrong, or which situations it was.
    pub fn after(&mut self, call: &Call, name: &[u8], lent: &[u8], answer: &Outcome, left: &[u8], room: usize) -> Result<Vec<Situation>, String> {
        let Some(before) = second::catalogue(lent).filter(|_| lent.len() <= LONGEST_CATALOGUE) else {
            let compact = matches!(call, Call::Compact).then(|| Situation::named("compact, 16"));
            return if answer.is_ok() { Err(String::from("done on a text that is not of the form")) } else { Ok(compact.into_iter().collect()) };
        };
        if self.text != lent {
            *self = Listed::default();
            self.take(lent, &before)?;
        }
        if before.version == 2 && matches!(call, Call::Remove(..)) && *answer == Err(21) {
            return Err(String::from("a remove in version 2 found no room"));
        }
        if matches!(call, Call::Compact) && left.len() > lent.len() {
            return Err(String::from("a compaction made the text longer"));
        }
        let was_dropped = self.said.contains_key(name) && !before.lines.contains_key(name);
        let Ok(figures) = answer else { return Ok(refused(call, name, &before, answer, room)) };
        let after = second::catalogue(left).ok_or("the text that the call left is not of the form")?;
        self.done(call, name, figures, &before, &after)?;
        self.take(left, &after)?;
        let mut met = met(call, name, &before, &after, was_dropped);
        if left.len() == LONGEST_CATALOGUE && left != lent {
            met.push("a text of 4096 bytes written");
        }
        Ok(met.into_iter().map(Situation::named).collect())
    }

    /// What a call that is done has to leave.
    fn done(&self, call: &Call, name: &[u8], figures: &[u64], before: &Catalogue, after: &Catalogue) -> Result<(), String> {
        let said = self.said.get(name);
        let holds = match call {
            Call::Lookup(_) => said.and_then(|said| said.get(&figures[0])) == Some(&Some((figures[1], figures[2], figures[3]))) && before == after,
            Call::Compact => {
                let gone = before.lines.values().filter(|line| line.1.is_none()).map(|line| line.0);
                let floor = gone.fold(before.floor, u64::max);
                let stay = before.lines.iter().filter(|(_, line)| line.1.is_some());
                after.floor == floor && after.lines.iter().eq(stay) && after.version == before.version
            }
            _ => {
                let others = |list: &Catalogue| -> second::Lines { list.lines.clone().into_iter().filter(|(other, _)| other != name).collect() };
                let shape = if let Call::Put(s, _, _) = call { Some((s.0 as u64, s.1 as u64, s.2 as u64)) } else { None };
                let above = said.and_then(|said| said.last_key_value()).is_none_or(|(highest, _)| figures[1] > *highest);
                let line = after.lines.get(name) == Some(&(figures[1], shape));
                line && above && others(before) == others(after) && after.floor == before.floor && after.version == 2
            }
        };
        if holds { Ok(()) } else { Err(format!("the call left {after:?}, and before it there was {before:?}")) }
    }
}

/// The situation of a call that was done.
fn met(call: &Call, name: &[u8], before: &Catalogue, after: &Catalogue, was_dropped: bool) -> Vec<&'static str> {
    let first = before.version == 1;
    let either = |one: &'static str, other: &'static str, which: bool| if which { one } else { other };
    match call {
        Call::Put(..) => vec![match before.lines.get(name) {
            Some((_, Some(_))) => either("put, again in version 1", "put, again in version 2", first),
            Some(_) => "put, a gone name",
            None if was_dropped => "put, a name that was dropped",
            None => either("put, a new name in version 1", "put, a new name in version 2", first),
        }],
        Call::Remove(..) => {
            let last = (after.lines[name].0 == LAST_REVISION).then_some("remove, to the last revision");
            [either("remove, in version 1", "remove, in version 2", first)].into_iter().chain(last).collect()
        }
        Call::Compact if before.lines.len() == after.lines.len() => {
            vec![either("compact, no gone line in version 1", "compact, no gone line in version 2", first)]
        }
        Call::Compact => {
            let end = (after.floor == LAST_REVISION && before.floor < LAST_REVISION).then_some("compact, the floor is at its end");
            [either("compact, the floor rises", "compact, the floor stays", after.floor > before.floor)].into_iter().chain(end).collect()
        }
        _ => vec!["lookup, found"],
    }
}

/// The situation of a call that was refused on a text of the form, where it is one of the list.
fn refused(call: &Call, name: &[u8], before: &Catalogue, answer: &Outcome, room: usize) -> Vec<Situation> {
    let line = before.lines.get(name);
    let gone = line.is_some_and(|line| line.1.is_none());
    let room = room.min(LONGEST_CATALOGUE);
    let full = room == LONGEST_CATALOGUE;
    let Err(number) = answer else { return Vec::new() };
    let met = match (call, number) {
        (Call::Put(_, _, crate::catalogues::Expected::OnLine(0)), 19) if gone => "put, 19: a gone name with its line's revision",
        (Call::Put(..), 20) if gone => "put, 20: a gone name's revision",
        (Call::Put(..), 20) if line.is_some() => "put, 20: the name's own revision",
        (Call::Put(..), 20) => "put, 20: the floor",
        (Call::Put(s, _, _), 21) if before.version == 1 && fits_but_for_two(*s, name, before, room) => "put, 21: for the first line of version 2 alone",
        (Call::Put(..), 21) if full => "put, 21: more than 4096 bytes",
        (Call::Put(..), 21) => "put, 21: more than the buffer",
        (Call::Remove(..), 18) if gone => "remove, 18: gone",
        (Call::Remove(..), 18) => "remove, 18: not there",
        (Call::Remove(..), 19) => "remove, 19",
        (Call::Remove(..), 20) => "remove, 20",
        (Call::Remove(..), 21) if full => "remove, 21: more than 4096 bytes",
        (Call::Remove(..), 21) => "remove, 21: more than the buffer",
        (Call::Lookup(_), 18) if gone => "lookup, 18: gone",
        (Call::Lookup(_), 18) => "lookup, 18: not there",
        _ => return Vec::new(),
    };
    vec![Situation::named(met)]
}

/// Whether the text after a put on a text of version 1 would fit if it stayed in version 1.
fn fits_but_for_two((m, w, c): (usize, usize, usize), name: &[u8], before: &Catalogue, room: usize) -> bool {
    let mut list = before.clone();
    let revision = list.lines.get(name).map_or(1, |line| line.0 + 1);
    list.lines.insert(name.to_vec(), (revision, Some((m as u64, w as u64, c as u64))));
    second::catalogue_text(&list).len() <= room
}
