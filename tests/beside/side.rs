//! What stands for the panels of a list: both implementations (mixed.rs), or the second alone, to
//! see what the claims say of its planted faults.

use crate::calls::Call;
use crate::kept::Kept;
use crate::random::Random;
use crate::room::Room;
use crate::script::Script;
use crate::second::{self, Answer, Make};
use crate::shadow::Rule;
use std::fmt;

/// What a run ends with that found something: the difference or the claim that does not hold, where
/// it came up, and the calls on that panel that lead to it.
pub struct Found {
    pub what: String,
    pub place: String,
    pub script: Option<Script>,
}

impl Found {
    pub fn new(what: impl Into<String>) -> Found {
        Found {
            what: what.into(),
            place: String::new(),
            script: None,
        }
    }

    /// The same, with these calls.
    pub fn with(mut self, script: Option<Script>) -> Found {
        self.script = script;
        self
    }

    /// The same, with a line in front of where it came up.
    pub fn within(mut self, line: impl fmt::Display) -> Found {
        self.place = format!("{line}\n{}", self.place);
        self
    }
}

/// What a panel of a list is: its make, whether it keeps a floor, and what is checked beside its
/// shadow, if it has one. One that keeps no floor is as in versions 0.5 and 0.6: its clock can't be
/// set back, and it has no shadow.
#[derive(Clone, Copy)]
pub struct Kind {
    pub make: Make,
    pub keeps_floor: bool,
    pub shadow: Option<Rule>,
}

pub trait Side {
    type Panel;

    fn fresh(&mut self, number: u8, kind: Kind) -> Result<Self::Panel, Found>;

    /// Brings a panel to this make, as other firmware does: its record stays.
    fn bring(&mut self, panel: &mut Self::Panel, make: Make);

    /// Makes a call. What it left in the lent buffers is then in `output` and `frame`.
    fn call(&mut self, panel: &mut Self::Panel, call: &Call) -> Result<Answer, Found>;

    fn output(&self) -> &[u8];

    fn frame(&self) -> &[u8];

    /// The floor in the record of a panel, if it is to be held against the counted one.
    fn floor(&self, panel: &Self::Panel) -> Option<u64>;

    /// A panel that starts with the record of this one, in all else as it is, but has no shadow.
    fn copy(&mut self, panel: &Self::Panel) -> Self::Panel;

    /// The record of a panel in plain form.
    fn record(&self, panel: &Self::Panel) -> Kept;

    /// The calls on a panel so far, if they are kept.
    fn script(&self, panel: &Self::Panel) -> Option<Script>;
}

/// Makes a call on the second implementation.
pub fn call_second(panel: &mut second::Panel, call: &Call, room: &mut Room) -> Answer {
    let [input, output, frame] = room.lent();
    match call {
        Call::Send { lifetime, .. } => panel.send(input, *lifetime, output, frame),
        Call::Beacon { .. } => panel.beacon(input, output, frame),
        Call::Receive { .. } => panel.receive(input, output),
        Call::Trace { .. } => panel.trace(input),
        Call::Clock { reading, .. } => panel.clock(*reading, output),
        Call::SetBack { reading } => panel.set_back(*reading),
    }
}

/// The second implementation alone, which has no shadows.
pub struct Alone {
    random: Random,
    room: Room,
    pub calls: u64,
}

impl Alone {
    pub fn new(random: Random) -> Alone {
        Alone {
            random,
            room: Room::default(),
            calls: 0,
        }
    }
}

impl Side for Alone {
    type Panel = second::Panel;

    fn fresh(&mut self, number: u8, kind: Kind) -> Result<second::Panel, Found> {
        let mut panel = second::fresh(number, kind.make).0;
        panel.keeps_floor = kind.keeps_floor;
        Ok(panel)
    }

    fn bring(&mut self, panel: &mut second::Panel, make: Make) {
        panel.make = make;
    }

    fn call(&mut self, panel: &mut second::Panel, call: &Call) -> Result<Answer, Found> {
        self.room.lend(call, &mut self.random);
        self.calls += 1;
        Ok(call_second(panel, call, &mut self.room))
    }

    fn output(&self) -> &[u8] {
        self.room.output()
    }

    fn frame(&self) -> &[u8] {
        self.room.frame()
    }

    fn floor(&self, _: &second::Panel) -> Option<u64> {
        None
    }

    fn copy(&mut self, panel: &second::Panel) -> second::Panel {
        panel.clone()
    }

    fn record(&self, panel: &second::Panel) -> Kept {
        Kept::of(panel)
    }

    fn script(&self, _: &second::Panel) -> Option<Script> {
        None
    }
}
