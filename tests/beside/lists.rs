//! Random lists of calls over 2 to 64 panels.

use crate::arrivals::Arrivals;
use crate::calls::Call;
use crate::claims::Spoken;
use crate::compose;
use crate::farm::Farm;
use crate::plan::Plan;
use crate::random::Random;
use crate::second::{FARTHEST_AHEAD, FRAME, OUTPUT};
use crate::side::{Found, Side};
use crate::words::Floors;

/// What was done in a list, or in several.
#[derive(Clone, Copy, Default)]
pub struct Done {
    pub lists: u64,
    pub calls: u64,
    /// Lists in which a frame was taken that nobody had sent, against their plan.
    pub void: u64,
    pub claim_checks: u64,
    /// What the claims spoke of at the ends of the lists.
    pub spoken: Spoken,
    /// What set backs and floors came to in lists of demand 3.
    pub floors: Floors,
    /// Messages sent that were far ahead at their panel.
    pub sent_far_ahead: u64,
    /// Messages taken that had been refused there as far ahead.
    pub taken_later: u64,
    /// Calls on panels of the old make, and on those that keep no floor.
    pub old_calls: u64,
    pub no_floor_calls: u64,
    /// How often a panel was brought to the other make.
    pub brought: u64,
    /// Messages of panels of the old make that one of the new make took.
    pub new_took_old: u64,
    /// Messages of panels of the new make that one of the old make took.
    pub old_took_new: u64,
    /// Messages sent with a deadline that version 1 has no room for, and an entry that it has room
    /// for.
    pub across_border: u64,
    /// Messages taken in version 1.
    pub version_1_taken: u64,
    /// Copies refused as had already, which came in another version than the message had: of one
    /// that waits, and of one that stands in the log.
    pub other_version_waiting: u64,
    pub other_version_logged: u64,
    /// What was seen of frames that were received in two orders.
    pub arrivals: Arrivals,
}

impl Done {
    fn add(&mut self, more: &Done) {
        self.lists += more.lists;
        self.calls += more.calls;
        self.void += more.void;
        self.claim_checks += more.claim_checks;
        self.spoken.add(more.spoken);
        self.floors.add(more.floors);
        self.sent_far_ahead += more.sent_far_ahead;
        self.taken_later += more.taken_later;
        self.old_calls += more.old_calls;
        self.no_floor_calls += more.no_floor_calls;
        self.brought += more.brought;
        self.new_took_old += more.new_took_old;
        self.old_took_new += more.old_took_new;
        self.across_border += more.across_border;
        self.version_1_taken += more.version_1_taken;
        self.other_version_waiting += more.other_version_waiting;
        self.other_version_logged += more.other_version_logged;
        self.arrivals.add(&more.arrivals);
    }
}

/// Which lists are made.
#[derive(Clone, Copy)]
pub enum Lists {
    /// Every third one does not keep to the condition of demand 3.
    Any,
    /// Each keeps to it.
    Lawful,
    /// Each keeps to it, and in place of the claims two orders of arrivals are checked.
    WithArrivals,
}

impl Lists {
    /// The plan of a list of this number.
    fn plan(self, list: u64, random: &mut Random) -> Plan {
        match self {
            Lists::Any => Plan::any(random, list % 3 != 2),
            Lists::Lawful => Plan::any(random, true),
            Lists::WithArrivals => Plan::with_arrivals(random),
        }
    }
}

/// Makes lists until so many calls are made.
pub fn run<S: Side>(side: &mut S, seed: u64, calls: u64, lists: Lists) -> Result<Done, Found> {
    let mut done = Done::default();
    while done.calls < calls {
        let mut random = Random::new(seed, done.lists);
        let mut plan = lists.plan(done.lists, &mut random);
        plan.calls = plan.calls.min(calls - done.calls);
        let mut farm = Farm::new(side, plan, random)?;
        let ended = farm.run();
        done.add(&farm.done);
        ended.map_err(|found| {
            let list = format!("list {} (of {} panels)", done.lists, plan.panels);
            let calls = format!("call {} of it, {} of all", farm.done.calls, done.calls);
            found.within(format!("{list}, {calls}"))
        })?;
    }
    Ok(done)
}

/// A send or a beacon of a payload that may be too long.
fn odd_send(random: &mut Random) -> Call {
    let length = random.pick(&[0, 32, 33, 34, 64, 255, 256, 300, 65_536]);
    let payload = random.bytes(length);
    match random.chance(40) {
        true => Call::beacon(&payload),
        false => Call::send(&payload, random.pick(&[0, 1, 1000, u16::MAX])),
    }
}

impl<S: Side> Farm<'_, S> {
    /// Makes the calls of the list, and checks the claims at its end.
    fn run(&mut self) -> Result<(), Found> {
        while self.done.calls < self.plan.calls && !self.claims.void {
            let place = self.random.below(self.members.len());
            let other = self.random.below(self.members.len());
            if self.random.chance(self.plan.brought) {
                self.bring(place);
            }
            let all: usize = self.plan.often.iter().sum();
            let mut choice = self.random.below(all);
            let mut kind = 0;
            while choice >= self.plan.often[kind] {
                choice -= self.plan.often[kind];
                kind += 1;
            }
            match kind {
                0 => self.send(place)?,
                1 if other != place => self.contact(other, place)?,
                2 if self.random.chance(self.plan.wrong_years) => self.wrong_year(place, other)?,
                2 if self.random.chance(30) => self.clock_and_pass(place)?,
                2 => self.clock(place)?,
                3 => self.odd(place)?,
                4 if self.random.chance(5) => self.later_one_first(place)?,
                4 => self.forged(place)?,
                _ => {}
            }
        }
        self.done.void = u64::from(self.claims.void);
        self.done.floors = self.claims.floors();
        self.done.spoken = self.check_claims()?;
        Ok(())
    }

    /// A call that is refused for one reason or several, or not at all.
    fn odd(&mut self, place: usize) -> Result<(), Found> {
        let random = &mut self.random;
        let (number, time) = (self.members[place].number, self.members[place].time);
        let call = match random.below(5) {
            0 => odd_send(random),
            1 => {
                let back = random.any_size().min(time);
                Call::clock(time - back.min(random.pick(&[0, 1, u64::MAX])))
            }
            2 => self.members[place].set_back(self.plan.odd_set_back(time, random)),
            _ if self.frames.is_empty() => {
                let length = random.below(40);
                Call::receive(&random.bytes(length))
            }
            3 => {
                let any = 0..self.frames.len();
                let own = any.clone().filter(|frame| self.frames[*frame][5] == number);
                let own: Vec<usize> = own.collect();
                let frame = match own.is_empty() {
                    true => random.below(any.end),
                    false => random.pick(&own),
                };
                Call::receive(&self.coming(frame))
            }
            _ => {
                let frame = random.below(self.frames.len());
                let frame = self.coming(frame);
                let way = self.random.between(1, 9) as u8;
                Call::receive(&compose::damaged(&frame, way, &mut self.random))
            }
        };
        let random = &mut self.random;
        let output = compose::buffer_length(OUTPUT, random);
        let call = call.lent(output, compose::buffer_length(FRAME, random));
        self.call(place, &call).map(|_| ())
    }

    /// A frame that nobody sent, with numbers of this farm in it.
    fn forged(&mut self, place: usize) -> Result<(), Found> {
        let random = &mut self.random;
        let time = self.members[place].time;
        let mut numbers = vec![time, random.any_size()];
        if random.chance(20) {
            numbers.push(time.saturating_add(FARTHEST_AHEAD));
        }
        for _ in 0..6.min(self.frames.len()) {
            let frame = &self.frames[random.below(self.frames.len())];
            numbers.push(compose::deadline_of(frame));
        }
        let source = match random.chance(80) {
            true => self.members[random.below(self.members.len())].number,
            false => random.below(64) as u8,
        };
        let bytes = compose::readable(source, &numbers, random);
        let bytes = compose::in_any_version(bytes, random);
        let mut call = Call::receive(&bytes);
        if random.chance(10) && !self.frames.is_empty() {
            let frame = random.below(self.frames.len());
            let mut bytes = self.coming(frame);
            let byte = self.random.below(bytes.len());
            bytes[byte] ^= 1 << self.random.below(8);
            call = Call::receive(&bytes);
        }
        self.call(place, &call).map(|_| ())
    }

    /// Frames that nobody sent: a message waits, a later one of its panel does not and is named by
    /// a third, and then comes what the first one waits for.
    fn later_one_first(&mut self, place: usize) -> Result<(), Found> {
        let mut panels: Vec<u8> = (0..64).collect();
        self.random.shuffle(&mut panels);
        let more = self.random.between(1, 100) as u64;
        let start = self.members[place].time.saturating_add(more);
        let deadline = |later| start.saturating_add(later);
        let frames: [(u8, u64, &[(u8, u64)]); 4] = [
            (panels[0], deadline(1), &[(panels[1], start)]),
            (panels[0], deadline(2), &[]),
            (panels[2], deadline(3), &[(panels[0], deadline(2))]),
            (panels[1], start, &[]),
        ];
        for (source, deadline, entries) in frames {
            let bytes = compose::frame(source, deadline, entries, b"");
            self.call(place, &Call::receive(&bytes))?;
        }
        Ok(())
    }
}
