//! Clocks of a farm that are set to a wrong year, and are set back.

use crate::calls::Call;
use crate::compose;
use crate::farm::Farm;
use crate::plan::Order;
use crate::side::{Found, Side};

impl<S: Side> Farm<'_, S> {
    /// A clock that shows a wrong year is put right. Any other is set to a wrong year, and another
    /// panel is met meanwhile; in most cases the clock is then put right at once.
    pub fn wrong_year(&mut self, place: usize, other: usize) -> Result<(), Found> {
        if let Some(right) = self.members[place].right {
            return self.put_right(place, right);
        }
        let right = self.members[place].clock.max(self.members[place].time);
        let reading = self.wrong_reading(place, right);
        (self.members[place].right, self.members[place].clock) = (Some(right), reading);
        let call = self.lent(Call::clock(reading));
        self.call(place, &call)?;
        if other != place {
            self.contact(other, place)?;
        }
        if self.random.chance(15) {
            self.send(place)?;
        }
        match self.random.chance(70) {
            true => self.put_right(place, right),
            false => Ok(()),
        }
    }

    /// A recent deadline or the second after it, some seconds more than the right reading, or any
    /// time to come, but at a panel that keeps no floor, which would stay deaf.
    fn wrong_reading(&mut self, place: usize, right: u64) -> u64 {
        let more = match self.random.below(8) {
            0 if self.members[place].keeps_floor => self.random.any_size(),
            1 | 2 => self.random.between(1, 40) as u64,
            _ => self.recent_edge().saturating_sub(right),
        };
        right.saturating_add(more)
    }

    /// The deadline of a frame that was sent not long ago, or the second after it; 0 if there is
    /// none.
    fn recent_edge(&mut self) -> u64 {
        let recent = self.frames.len().min(30);
        if recent == 0 {
            return 0;
        }
        let frame = self.frames.len() - 1 - self.random.below(recent);
        let deadline = compose::deadline_of(&self.frames[frame]);
        deadline.saturating_add(self.random.below(2) as u64)
    }

    /// A clock is set back to about what it should show, if its panel keeps a floor. Then frames
    /// come that are alive now, those again too that were refused or dropped meanwhile.
    fn put_right(&mut self, place: usize, right: u64) -> Result<(), Found> {
        let reading = match self.random.below(20) {
            0 => 0,
            1 => u64::MAX,
            2..=4 => self.recent_edge(),
            _ => right.saturating_add(self.random.below(3) as u64),
        };
        let call = self.members[place].set_back(reading);
        self.call(place, &call)?;
        let member = &mut self.members[place];
        (member.right, member.clock) = (None, member.time);
        self.come_again(place)?;
        self.check_claims().map(|_| ())
    }

    /// Frames come to a panel that may have heard them already.
    fn come_again(&mut self, place: usize) -> Result<(), Found> {
        let member = &self.members[place];
        let alive = |frame: &usize| {
            let (source, deadline) = compose::name_of(&self.frames[*frame]);
            let refused = deadline < member.time || member.far_ahead(deadline);
            source != member.number && !refused
        };
        let mut frames: Vec<usize> = (0..self.frames.len()).filter(alive).collect();
        self.random.shuffle(&mut frames);
        frames.truncate(self.random.between(1, self.plan.most_passed));
        if let Order::OldestFirst = self.plan.order {
            frames.sort_unstable();
        }
        frames
            .into_iter()
            .try_for_each(|frame| self.pass(place, frame))
    }
}
