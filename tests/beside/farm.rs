//! A farm: the panels of one list, the frames that they hold, and what can be done with them.

use crate::calls::Call;
use crate::claims::{Claims, Spoken};
use crate::compose::{self, BORDER};
use crate::lists::Done;
use crate::member::Member;
use crate::plan::Plan;
use crate::random::Random;
use crate::second::{Answer, Make, FRAME, OUTPUT};
use crate::side::{Found, Side};

/// Whether version 1 has no room for the deadline of a frame, and has room for one of its entries.
fn across_border(frame: &[u8]) -> bool {
    let below = |(_, entry): &(u8, u64)| *entry <= BORDER;
    compose::deadline_of(frame) > BORDER && compose::entries_of(frame).iter().any(below)
}

pub struct Farm<'side, S: Side> {
    pub side: &'side mut S,
    pub random: Random,
    pub plan: Plan,
    pub members: Vec<Member<S::Panel>>,
    /// The frames that the list sent, in that order.
    pub frames: Vec<Vec<u8>>,
    /// For each of these frames the make of its panel as it was sent.
    pub makes: Vec<Make>,
    pub claims: Claims,
    pub done: Done,
}

impl<'side, S: Side> Farm<'side, S> {
    /// Fresh panels, no two of the same number: in a third of the lists they have the lowest ones.
    pub fn new(side: &'side mut S, plan: Plan, mut random: Random) -> Result<Self, Found> {
        let mut numbers: Vec<u8> = (0..64).collect();
        let of_these = random.pick(&[64, 64, plan.panels]);
        random.shuffle(&mut numbers[..of_these]);
        let mut members = Vec::new();
        for (number, kind) in numbers.into_iter().zip(plan.kinds(&mut random)) {
            let panel = side.fresh(number, kind)?;
            let clock = plan.clocks.first_reading(&mut random);
            members.push(Member::new(panel, number, kind, clock));
        }
        let claims = Claims::new(members.len());
        Ok(Farm {
            side,
            random,
            plan,
            members,
            frames: Vec::new(),
            makes: Vec::new(),
            claims,
            done: Done {
                lists: 1,
                ..Done::default()
            },
        })
    }

    /// Makes a call at a panel, and keeps what came of it.
    pub fn call(&mut self, place: usize, call: &Call) -> Result<Answer, Found> {
        let member = &mut self.members[place];
        let answer = self.side.call(&mut member.panel, call)?;
        self.done.calls += 1;
        self.done.old_calls += u64::from(member.make == Make::Old);
        self.done.no_floor_calls += u64::from(!member.keeps_floor);
        if self.plan.lawful {
            let (output, frame) = (self.side.output(), self.side.frame());
            self.claims.after(place, call, answer, output, frame);
            self.check_floor(place)?;
        }
        let member = &mut self.members[place];
        if answer.number == 0 {
            match call {
                Call::Send { .. } | Call::Beacon { .. } => {
                    let frame = self.side.frame();
                    let bytes = frame[..answer.length.min(frame.len())].to_vec();
                    let far = member.far_ahead(compose::deadline_of(&bytes));
                    self.done.sent_far_ahead += u64::from(far);
                    self.done.across_border += u64::from(across_border(&bytes));
                    member.hold(self.frames.len());
                    self.frames.push(bytes);
                    self.makes.push(member.make);
                }
                Call::Clock { reading, .. } => member.time = *reading,
                Call::SetBack { reading } => member.time = member.time.min(*reading),
                Call::Receive { .. } | Call::Trace { .. } => {}
            }
        }
        if self.done.calls <= 40 || self.random.chance(2) {
            self.check_claims()?;
        }
        self.arrive(place)?;
        Ok(answer)
    }

    /// A panel is brought to the other make.
    pub fn bring(&mut self, place: usize) {
        let member = &mut self.members[place];
        member.make = member.make.other();
        self.side.bring(&mut member.panel, member.make);
        self.done.brought += 1;
    }

    /// Checks the claims of demand 3 for the list so far, if the list keeps to its condition.
    pub fn check_claims(&mut self) -> Result<Spoken, Found> {
        if !self.plan.claims || self.claims.void {
            return Ok(Spoken::default());
        }
        self.done.claim_checks += 1;
        let checked = self.claims.check();
        checked.map_err(|(what, place)| self.against_demand_3(place, &what))
    }

    /// The floor in a panel's record is that which the claims count.
    fn check_floor(&self, place: usize) -> Result<(), Found> {
        let counted = self.claims.floor(place);
        match self.side.floor(&self.members[place].panel) {
            Some(floor) if floor != counted && !self.claims.void => {
                let what = format!("floor {floor} in the record, {counted} counted");
                Err(self.against_demand_3(place, &what))
            }
            _ => Ok(()),
        }
    }

    /// The number and the make of a panel.
    pub fn name(&self, place: usize) -> String {
        let member = &self.members[place];
        let (number, make) = (member.number, member.make);
        let floor = match member.keeps_floor {
            true => "",
            false => ", without a floor",
        };
        format!("panel {number} of the make {make:?}{floor}")
    }

    /// What was found at a panel that is not as demand 3 has it.
    fn against_demand_3(&self, place: usize, what: &str) -> Found {
        let what = format!("demand 3, {}: {what}", self.name(place));
        Found::new(what).with(self.side.script(&self.members[place].panel))
    }

    /// Buffers that are long enough.
    pub fn lent(&mut self, call: Call) -> Call {
        let longer = |random: &mut Random| match random.below(4) {
            0 => random.below(200),
            1 => 1,
            _ => 0,
        };
        let output = OUTPUT + longer(&mut self.random);
        call.lent(output, FRAME + longer(&mut self.random))
    }

    /// A send, or in its place a beacon.
    pub fn send(&mut self, place: usize) -> Result<(), Found> {
        let payload = compose::payload(&mut self.random);
        let lifetime = self.plan.lifetimes.any(&mut self.random);
        let call = match self.random.chance(self.plan.beacons) {
            true => Call::beacon(&payload),
            false => Call::send(&payload, lifetime),
        };
        let call = self.lent(call);
        self.call(place, &call).map(|_| ())
    }

    /// A panel's clock goes on and is read. At times it jumps, or shows the very second at which
    /// something changes for a message.
    pub fn clock(&mut self, place: usize) -> Result<(), Found> {
        let step = self.random.below(self.plan.clock_step + 1) as u64;
        let member = &mut self.members[place];
        let mut reading = member.clock.max(member.time).saturating_add(step);
        if self.random.chance(self.plan.jumps) {
            reading = reading.saturating_add(self.random.any_size());
        }
        if self.random.chance(30) && !self.frames.is_empty() {
            let last = self.frames.len().min(12);
            let recent = self.frames.len() - 1 - self.random.below(last);
            let deadline = compose::deadline_of(&self.frames[recent]);
            let edge = self.plan.clocks.edge(deadline, &mut self.random);
            let near = edge >= member.time && edge - member.time <= self.plan.clocks.near();
            reading = if near { edge } else { reading };
        }
        member.clock = reading;
        let call = self.lent(Call::clock(reading));
        self.call(place, &call).map(|_| ())
    }
}
