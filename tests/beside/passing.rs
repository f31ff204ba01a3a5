//! What the panels of a farm pass on to each other: which frames, in which order and version.

use crate::calls::Call;
use crate::compose;
use crate::farm::Farm;
use crate::second::{Make, FARTHEST_AHEAD};
use crate::side::{Found, Side};

impl<S: Side> Farm<'_, S> {
    /// Whether a frame is not passed on to this panel yet.
    fn held_back(&self, frame: usize, taker: usize) -> bool {
        self.plan.held_back
            && self.done.calls < self.plan.calls / 2
            && taker == self.members.len() - 1
            && self.frames[frame][5] == self.members[0].number
    }

    /// The bytes in which a frame comes: as it was sent or, where the plan has it so, in version 1.
    pub fn coming(&mut self, frame: usize) -> Vec<u8> {
        let bytes = &self.frames[frame];
        let of_version_1 = match self.random.chance(self.plan.version_1) {
            true => compose::in_version_1(bytes),
            false => None,
        };
        of_version_1.unwrap_or_else(|| bytes.clone())
    }

    /// Two panels meet: one passes frames on that it holds, own and carried. Some are lost.
    pub fn contact(&mut self, giver: usize, taker: usize) -> Result<(), Found> {
        let copies = self.random.pick(&[0, 0, 5, 25]);
        let member = &self.members[taker];
        let mut passed = Vec::new();
        for frame in &self.members[giver].held {
            if self.held_back(*frame, taker) {
                continue;
            }
            let deadline = compose::deadline_of(&self.frames[*frame]);
            let refused = deadline < member.time || member.far_ahead(deadline);
            let new = !member.holds(*frame) && (!refused || self.random.chance(20));
            if new || self.random.chance(copies) {
                passed.push(*frame);
            }
        }
        self.plan.order.arrange(&mut passed, &mut self.random);
        passed.truncate(self.random.between(1, self.plan.most_passed));
        for frame in passed {
            if self.random.chance(self.plan.lost) {
                continue;
            }
            self.pass(taker, frame)?;
            if self.random.chance(self.plan.twice) {
                self.pass(taker, frame)?;
            }
        }
        Ok(())
    }

    /// A frame is passed on. Refused for lack of places, or as far ahead, it may be so again.
    pub fn pass(&mut self, taker: usize, frame: usize) -> Result<(), Found> {
        let bytes = self.coming(frame);
        let call = self.lent(Call::receive(&bytes));
        let answer = self.call(taker, &call)?;
        let member = &mut self.members[taker];
        match answer.number {
            23 => {}
            32 => member.refused.push(frame),
            _ => member.hold(frame),
        }
        match answer.number {
            0 => self.taken(taker, frame, compose::version_of(&bytes)),
            22 => self.copied(taker, frame, compose::version_of(&bytes)),
            _ => {}
        }
        Ok(())
    }

    /// Counts a copy that was refused, and came in another version than the message was taken in.
    fn copied(&mut self, taker: usize, frame: usize, version: u16) {
        let taken_in = self.members[taker].taken_in.get(&frame);
        if !self.plan.lawful || taken_in.is_none_or(|taken_in| *taken_in == version) {
            return;
        }
        let (source, deadline) = compose::name_of(&self.frames[frame]);
        match self.claims.stands(taker, source, deadline) {
            true => self.done.other_version_logged += 1,
            false => self.done.other_version_waiting += 1,
        }
    }

    /// Counts a message that was taken in this version.
    fn taken(&mut self, taker: usize, frame: usize, version: u16) {
        let member = &mut self.members[taker];
        member.taken_in.insert(frame, version);
        let done = &mut self.done;
        done.version_1_taken += u64::from(version == 1);
        done.taken_later += u64::from(member.refused.contains(&frame));
        match (member.make, self.makes[frame]) {
            (Make::New, Make::Old) => done.new_took_old += 1,
            (Make::Old, Make::New) => done.old_took_new += 1,
            _ => {}
        }
    }

    /// A clock call, after which a frame comes again that was refused as far ahead: in the last
    /// second in which it is that, or in the next.
    pub fn clock_and_pass(&mut self, place: usize) -> Result<(), Found> {
        let member = &self.members[place];
        if member.refused.is_empty() {
            return self.clock(place);
        }
        let frame = self.random.pick(&member.refused);
        let deadline = compose::deadline_of(&self.frames[frame]);
        let before = FARTHEST_AHEAD + self.random.below(2) as u64;
        let reading = deadline.saturating_sub(before);
        if reading < member.time || reading - member.time > self.plan.clocks.near() {
            return self.clock(place);
        }
        let call = self.lent(Call::clock(reading));
        self.call(place, &call)?;
        self.pass(place, frame)
    }
}
