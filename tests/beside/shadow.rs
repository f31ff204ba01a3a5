//! A shadow: beside a panel one of the old make, in the second implementation, that is given the
//! same calls with the same bytes. The panel is of the new make, or is brought from one make to the
//! other. It has to do the same in all but its barrier, and its frames are never longer.

use crate::calls::Call;
use crate::kept::Kept;
use crate::random::Random;
use crate::room::Room;
use crate::second::{self, Answer, Make, Message, LOG_RECORD};
use crate::side::call_second;

/// What each barrier entry of the panel has to be beside the shadow's.
#[derive(Clone, Copy, PartialEq, Eq)]
pub enum Rule {
    /// At most that: so it is whatever frames come.
    AtMost,
    /// The same, or removed: so it is in lists of demand 3.
    SameOrRemoved,
}

impl Rule {
    fn allows(self, entry: u64, of_shadow: u64) -> bool {
        match self {
            Rule::AtMost => entry <= of_shadow,
            Rule::SameOrRemoved => entry == of_shadow || entry == 0,
        }
    }
}

/// What a call of the panel came to.
pub struct Came<'call> {
    pub answer: Answer,
    pub output: &'call [u8],
    pub frame: &'call [u8],
    pub record: Kept,
}

/// What was seen at a call beside a shadow.
pub struct Seen {
    pub rule: Rule,
    /// The panel was brought from one make to the other.
    pub brought: bool,
    /// By how many bytes the frame is shorter than the shadow's, if one was sent.
    pub shorter: Option<usize>,
    /// A barrier entry is neither the shadow's nor removed.
    pub lower: bool,
}

pub struct Shadow {
    panel: second::Panel,
    room: Room,
    random: Random,
    rule: Rule,
    /// The panel beside it was brought from one make to the other.
    pub brought: bool,
}

impl Shadow {
    /// The shadow of a fresh panel.
    pub fn new(number: u8, rule: Rule) -> Shadow {
        Shadow {
            panel: second::fresh(number, Make::Old).0,
            room: Room::default(),
            random: Random::new(u64::from(number), 2),
            rule,
            brought: false,
        }
    }

    /// Makes the call of the panel too, and compares.
    pub fn follow(&mut self, call: &Call, came: &Came) -> Result<Seen, String> {
        self.room.lend(call, &mut self.random);
        let answer = call_second(&mut self.panel, call, &mut self.room);
        if (answer.number, answer.count) != (came.answer.number, came.answer.count) {
            return Err(format!("{}, the shadow {answer}", came.answer));
        }
        let written = answer.count * LOG_RECORD;
        if came.output[..written] != self.room.output()[..written] {
            return Err("another log".to_string());
        }
        let lower = self.compare(&came.record)?;
        let shorter = match answer.length {
            0 => None,
            length => Some(self.shorter(&came.frame[..came.answer.length], length)?),
        };
        Ok(Seen {
            rule: self.rule,
            brought: self.brought,
            shorter,
            lower,
        })
    }

    /// Compares the panel's record. Whether a barrier entry is neither the shadow's nor removed.
    fn compare(&self, record: &Kept) -> Result<bool, String> {
        let shadow = Kept::of(&self.panel);
        let with_its_barrier = Kept {
            barrier: record.barrier,
            ..shadow.clone()
        };
        if *record != with_its_barrier {
            return Err(format!("{record}\nthe shadow {shadow}"));
        }
        let entries = || record.barrier.into_iter().zip(shadow.barrier);
        match entries().position(|(entry, of_shadow)| !self.rule.allows(entry, of_shadow)) {
            None => Ok(entries().any(|(entry, of_shadow)| entry != 0 && entry != of_shadow)),
            Some(panel) => {
                let (entry, of_shadow) = (record.barrier[panel], shadow.barrier[panel]);
                Err(format!(
                    "barrier entry {panel}: {entry}, the shadow {of_shadow}"
                ))
            }
        }
    }

    /// By how many bytes a frame is shorter than the shadow's, of this length. They carry the same
    /// message, but for the entries.
    fn shorter(&self, frame: &[u8], length: usize) -> Result<usize, String> {
        let of_shadow = Message::read(&self.room.frame()[..length]);
        let (Ok(sent), Ok(of_shadow)) = (Message::read(frame), of_shadow) else {
            return Err("a frame that does not read".to_string());
        };
        let mut entries = sent.predecessors.iter().map(|(panel, entry)| {
            let of_shadow = of_shadow.predecessors.get(panel).copied();
            self.rule.allows(*entry, of_shadow.unwrap_or(0))
        });
        let known = (sent.source, sent.deadline) == (of_shadow.source, of_shadow.deadline);
        match known && sent.payload == of_shadow.payload && entries.all(|allowed| allowed) {
            true => length
                .checked_sub(frame.len())
                .ok_or("a longer frame".to_string()),
            false => Err("a frame with another message or other entries".to_string()),
        }
    }
}
