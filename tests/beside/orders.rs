//! Which frames of a list are received at one of its panels, and in which two orders.

use crate::calls::Call;
use crate::compose;
use crate::farm::Farm;
use crate::plan::Order::{Any, NewestFirst, OldestFirst};
use crate::random::Random;
use crate::side::Side;

/// Two orders of calls on one record.
pub type Orders = [Vec<Call>; 2];

/// How many frames are drawn at most: each is as likely as the others.
const MOST: [usize; 8] = [2, 3, 4, 6, 10, 16, 30, 60];

/// The frames twice, with copies of some: the same copies both times, or others.
fn with_copies(frames: &[usize], random: &mut Random) -> [Vec<usize>; 2] {
    let copies = random.pick(&[0, 0, 10, 60]);
    let copied = |random: &mut Random| {
        let again = frames.iter().filter(|_| random.chance(copies));
        frames.iter().chain(again).copied().collect::<Vec<usize>>()
    };
    let one = copied(random);
    match random.chance(50) {
        true => [one.clone(), one],
        false => [one, copied(random)],
    }
}

/// Two orders of these frames: as they were sent and the reverse, or any.
fn two_orders(frames: &[usize], random: &mut Random) -> [Vec<usize>; 2] {
    let mut orders = with_copies(frames, random);
    let two = random.pick(&[
        [OldestFirst, NewestFirst],
        [OldestFirst, NewestFirst],
        [OldestFirst, Any],
        [NewestFirst, Any],
        [Any, Any],
    ]);
    for (frames, order) in orders.iter_mut().zip(two) {
        order.arrange(frames, random);
    }
    orders
}

impl<S: Side> Farm<'_, S> {
    /// Whether a frame has another panel's message that is alive here, not far ahead, and not in
    /// the log.
    fn lacks(&self, place: usize, frame: usize) -> bool {
        let member = &self.members[place];
        let (source, deadline) = compose::name_of(&self.frames[frame]);
        let alive = deadline >= member.time && !member.far_ahead(deadline);
        alive && source != member.number && !self.claims.stands(place, source, deadline)
    }

    /// Frames to be received at a panel: a run of those that it lacks, of all that were sent or of
    /// those that another panel holds, which has what is before them in cause too; and a few of
    /// any kind.
    fn drawn(&mut self, place: usize) -> Vec<usize> {
        let giver = self.random.below(self.members.len());
        let mut frames = match self.random.chance(50) {
            true => self.members[giver].held.clone(),
            false => (0..self.frames.len()).collect(),
        };
        frames.retain(|frame| self.lacks(place, *frame));
        frames.sort_unstable();
        let random = &mut self.random;
        let most = random.pick(&MOST);
        let start = random.below(frames.len().saturating_sub(most) + 1);
        frames.drain(..random.pick(&[0, start]));
        let left_out = random.pick(&[0, 0, 10, 50]);
        frames.retain(|_| !random.chance(left_out));
        frames.truncate(most);
        for _ in 0..random.pick(&[0, 0, 1, 3]) {
            frames.push(random.below(self.frames.len()));
        }
        frames.sort_unstable();
        frames.dedup();
        frames
    }

    /// Two orders of receiving the same frames at a panel, if there are two frames or more.
    pub fn orders(&mut self, place: usize) -> Option<Orders> {
        if self.frames.is_empty() {
            return None;
        }
        let frames = self.drawn(place);
        if frames.len() < 2 {
            return None;
        }
        let orders = two_orders(&frames, &mut self.random);
        let mut receive = |frame: usize| Call::receive(&self.coming(frame));
        Some(orders.map(|order| order.into_iter().map(&mut receive).collect()))
    }
}
