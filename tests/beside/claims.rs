//! The claims of demand 3, in the words of documents 01 and 02, on a list of calls. All is computed
//! from the calls, their answers and what they wrote: nothing here looks into a record.

use crate::bits::Bits;
use crate::calls::Call;
use crate::compose;
use crate::second::{Answer, LOG_RECORD};
use crate::words::{At, Floors, Message};
use std::collections::HashMap;

/// How many messages at panels the claims spoke of, and how many of them wait rightly.
#[derive(Clone, Copy, Default)]
pub struct Spoken {
    pub messages: u64,
    pub waiting: u64,
}

impl Spoken {
    pub fn add(&mut self, more: Spoken) {
        self.messages += more.messages;
        self.waiting += more.waiting;
    }
}

pub struct Claims {
    /// The messages, numbered in the order in which they came up.
    messages: Vec<Message>,
    known: HashMap<(u8, u64), usize>,
    /// The messages of the frames that were sent, by their bytes in both versions.
    frames: HashMap<Vec<u8>, usize>,
    panels: Vec<At>,
    /// A frame was taken that nobody had sent: demand 3 says nothing of this list.
    pub void: bool,
}

impl Claims {
    pub fn new(panels: usize) -> Claims {
        Claims {
            messages: Vec::new(),
            known: HashMap::new(),
            frames: HashMap::new(),
            panels: vec![At::default(); panels],
            void: false,
        }
    }

    /// The number of the message with this source and deadline.
    fn message(&mut self, source: u8, deadline: u64) -> usize {
        let next = self.messages.len();
        let number = *self.known.entry((source, deadline)).or_insert(next);
        if number == next {
            self.messages.push(Message {
                source,
                deadline,
                ..Message::default()
            });
        }
        number
    }

    /// Takes a call down that has just been made, with what it wrote.
    pub fn after(
        &mut self,
        panel: usize,
        call: &Call,
        answer: Answer,
        output: &[u8],
        frame: &[u8],
    ) {
        let at = &mut self.panels[panel];
        let floor = at.floor;
        match (call, answer.number) {
            (Call::Receive { bytes, .. }, 21) => return at.refused(compose::name_of(bytes)),
            (_, 1..) => return,
            (Call::Send { .. } | Call::Beacon { .. }, 0) => {
                self.sent(panel, &frame[..answer.length.min(frame.len())])
            }
            (Call::Receive { bytes, .. }, 0) => match self.frames.get(bytes) {
                Some(message) => at.take(*message),
                None => self.void = true,
            },
            (Call::Clock { reading, .. }, 0) => at.clock(*reading, &self.messages),
            (Call::SetBack { reading }, 0) => at.set_back(*reading),
            (Call::Trace { .. }, 0) => {}
        }
        for record in output.chunks_exact(LOG_RECORD).take(answer.count) {
            let (source, deadline) = compose::name_logged(record);
            let message = self.message(source, deadline);
            self.panels[panel].hand(message, &self.messages[message]);
        }
        let at = &mut self.panels[panel];
        match call {
            Call::Receive { .. } => at.floors.risen_in_receive += u64::from(at.floor > floor),
            Call::Clock { .. } => at.floors.risen_in_clock += u64::from(at.floor > floor),
            _ => {}
        }
    }

    /// A message was sent: before it in cause are those of the sender's log just before the call,
    /// and all before them.
    fn sent(&mut self, panel: usize, frame: &[u8]) {
        let (source, deadline) = compose::name_of(frame);
        let message = self.message(source, deadline);
        self.messages[message].before.join(&self.panels[panel].past);
        self.messages[message].entries = compose::entries_of(frame);
        self.panels[panel].sent.insert(message);
        for bytes in compose::versions(frame) {
            self.frames.insert(bytes, message);
        }
    }

    /// Whether a message of this source and deadline stands in the log of a panel.
    pub fn stands(&self, panel: usize, source: u8, deadline: u64) -> bool {
        let known = self.known.get(&(source, deadline));
        known.is_some_and(|message| self.panels[panel].logged.has(*message))
    }

    /// Whether a set back lowered the time of a panel.
    pub fn was_set_back(&self, panel: usize) -> bool {
        self.panels[panel].floors.lowered > 0
    }

    /// The floor of a panel.
    pub fn floor(&self, panel: usize) -> u64 {
        self.panels[panel].floor
    }

    /// How often set backs and floors made a difference.
    pub fn floors(&self) -> Floors {
        let mut floors = Floors::default();
        for at in &self.panels {
            floors.add(at.floors);
        }
        floors
    }

    /// Checks the claims for the whole list so far. The error has the words of one that does not
    /// hold, and the place of the panel.
    pub fn check(&self) -> Result<Spoken, (String, usize)> {
        let mut spoken = Spoken::default();
        for (place, at) in self.panels.iter().enumerate() {
            let checked = self.check_order(at).and_then(|()| self.check_standing(at));
            spoken.add(checked.map_err(|what| (what, place))?);
        }
        Ok(spoken)
    }

    /// No message stands twice in the log, and none ahead of one before it in cause.
    fn check_order(&self, at: &At) -> Result<(), String> {
        let (mut earlier, mut before_earlier) = (Bits::default(), Bits::default());
        for message in &at.log {
            if earlier.has(*message) {
                return Err(format!("{} stands in the log twice", self.name(*message)));
            }
            if before_earlier.has(*message) {
                let mut log = at.log.iter();
                let ahead = log.find(|ahead| self.messages[**ahead].before.has(*message));
                let (ahead, name) = (self.name(*ahead.unwrap_or(message)), self.name(*message));
                return Err(format!(
                    "{ahead} stands ahead of {name}, which is before it in cause"
                ));
            }
            earlier.insert(*message);
            before_earlier.join(&self.messages[*message].before);
        }
        Ok(())
    }

    /// A message sent or taken there and not lapsed there stands in the log exactly when every
    /// message before it in cause stands in that log or has lapsed there.
    fn check_standing(&self, at: &At) -> Result<Spoken, String> {
        let mut lapsed = Bits::default();
        for (number, message) in self.messages.iter().enumerate() {
            if at.lapsed(message.deadline) {
                lapsed.insert(number);
            }
        }
        let mut spoken = Spoken::default();
        for (number, message) in self.messages.iter().enumerate() {
            let there = at.sent.has(number) || at.taken.has(number);
            if !there || lapsed.has(number) {
                continue;
            }
            spoken.messages += 1;
            spoken.waiting += u64::from(!at.logged.has(number));
            let missing = message.before.first_outside(&at.logged, &lapsed);
            if at.logged.has(number) != missing.is_none() {
                return Err(self.wrong_standing(number, missing));
            }
        }
        Ok(spoken)
    }

    /// The words for a message that stands in the log though one before it is missing, or that does
    /// not stand there though none is.
    fn wrong_standing(&self, number: usize, missing: Option<usize>) -> String {
        let name = self.name(number);
        match missing.map(|missing| self.name(missing)) {
            Some(missing) => format!(
                "{name} stands in the log, but {missing}, before it in cause, neither does nor has \
                 lapsed"
            ),
            None => format!(
                "{name} does not stand in the log, but all before it in cause do or have lapsed"
            ),
        }
    }

    fn name(&self, number: usize) -> String {
        let message = &self.messages[number];
        format!("message {} of panel {}", message.deadline, message.source)
    }
}
