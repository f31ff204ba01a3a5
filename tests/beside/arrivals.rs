//! W-206, "Arrival order makes no difference": beside lists of demand 3, on copies of the records
//! that they reach, frames that the list sent are received in two orders. Clock untouched, every
//! output long enough and 23 never answered, both have to end with equal time, high, marks, barrier
//! and floor, the same set of log records and the same set waiting. Where one condition is dropped,
//! pairs that end differently have to come up.

use crate::calls::Call;
use crate::compose;
use crate::ends::{End, Ends};
use crate::farm::Farm;
use crate::orders::Orders;
use crate::rows::Rows;
use crate::script::{Script, Start};
use crate::second::Make;
use crate::side::{Found, Side};
use std::collections::BTreeSet;

/// Declares the counts, each with its words.
macro_rules! counted {
    ($($name:ident: $words:literal,)*) => {
        /// What was seen of pairs of orders.
        #[derive(Clone, Copy, Default)]
        pub struct Arrivals {
            $($name: u64,)*
        }

        impl Arrivals {
            pub fn add(&mut self, more: &Arrivals) {
                $(self.$name += more.$name;)*
            }

            pub fn rows(&self) -> Rows {
                vec![$((self.$name, $words, true),)*]
            }
        }
    };
}

counted! {
    pairs: "pairs of orders of receiving the same frames",
    receives: "receives in them",
    refused_with_20: "receives refused with 20",
    refused_with_21: "receives refused with 21",
    refused_with_22: "receives refused with 22",
    refused_with_23: "receives refused with 23",
    refused_with_32: "receives refused with 32",
    full: "pairs in which 23 was answered, which are not compared",
    module: "pairs at panels of the module",
    old: "pairs at panels of the old make",
    no_floor: "pairs at panels that keep no floor",
    set_back: "pairs at panels whose time a set back had lowered",
    copies: "pairs with a copy",
    unequal_copies: "pairs with more copies in one order than in the other",
    both_versions: "pairs with a message that comes in both versions",
    another_order: "pairs whose logs stand in another order",
    waiting: "pairs that end with messages waiting",
    floor: "pairs that end with a floor above 0",
    floor_rose: "pairs that raised the floor",
    full_apart: "pairs that end differently, where 23 was answered",
    clock_apart: "pairs that end differently, with a clock call between the receives",
    forged_apart: "pairs that end differently, with a frame that nobody sent",
}

impl Arrivals {
    /// Counts a pair from a record with this floor.
    fn pair(&mut self, floor: u64, orders: &Orders, ends: &Ends) {
        let [one, other] = &ends.0;
        self.pairs += 1;
        for number in one.numbers.iter().chain(&other.numbers) {
            self.receives += 1;
            match number {
                20 => self.refused_with_20 += 1,
                21 => self.refused_with_21 += 1,
                22 => self.refused_with_22 += 1,
                23 => self.refused_with_23 += 1,
                32 => self.refused_with_32 += 1,
                _ => {}
            }
        }
        let [copies, other_copies] = orders.each_ref().map(|order| copies(order));
        self.copies += u64::from(copies + other_copies > 0);
        self.unequal_copies += u64::from(copies != other_copies);
        self.both_versions += u64::from(both_versions(orders));
        self.full += u64::from(ends.full());
        self.full_apart += u64::from(ends.full() && ends.alike().is_err());
        if !ends.full() {
            self.another_order += u64::from(one.log != other.log);
            self.waiting += u64::from(one.record.count > 0);
            self.floor += u64::from(one.record.floor > 0);
            self.floor_rose += u64::from(one.record.floor > floor);
        }
    }
}

/// How many calls of an order have the message of another.
fn copies(order: &[Call]) -> usize {
    let frames = order.iter().map(Call::input);
    let names: BTreeSet<_> = frames.map(compose::name_of).collect();
    order.len() - names.len()
}

/// Whether a message comes in both versions.
fn both_versions(orders: &Orders) -> bool {
    let frames: BTreeSet<&[u8]> = orders.iter().flatten().map(Call::input).collect();
    let names: BTreeSet<_> = frames.iter().map(|frame| compose::name_of(frame)).collect();
    names.len() < frames.len()
}

impl<S: Side> Farm<'_, S> {
    /// Now and then, in a list that is planned so: receives frames in two orders, at the panel that
    /// was called or at any.
    pub fn arrive(&mut self, called: usize) -> Result<(), Found> {
        let now = self.plan.arrivals > 0 && self.random.chance(self.plan.arrivals);
        if !now || self.claims.void {
            return Ok(());
        }
        let any = self.random.below(self.members.len());
        let place = self.random.pick(&[called, any]);
        let Some(orders) = self.orders(place) else {
            return Ok(());
        };
        self.pair(place, &orders)?;
        if self.random.chance(30) {
            self.with_a_clock_call(place, orders.clone())?;
            self.with_a_forged_frame(place, orders)?;
        }
        Ok(())
    }

    /// What two orders end with, each on a copy of a panel: the list goes on without them.
    fn ends(&mut self, place: usize, [one, other]: &Orders) -> Result<Ends, Found> {
        let panel = &self.members[place].panel;
        let one = End::of(self.side, panel, one)?;
        Ok(Ends([one, End::of(self.side, panel, other)?]))
    }

    /// Receives frames in two orders, and compares.
    fn pair(&mut self, place: usize, orders: &Orders) -> Result<(), Found> {
        let ends = self.ends(place, orders)?;
        let (member, arrivals) = (&self.members[place], &mut self.done.arrivals);
        let old = member.make == Make::Old;
        arrivals.module += u64::from(!old && member.keeps_floor);
        arrivals.old += u64::from(old);
        arrivals.no_floor += u64::from(!member.keeps_floor);
        arrivals.set_back += u64::from(self.claims.was_set_back(place));
        arrivals.pair(self.side.record(&member.panel).floor, orders, &ends);
        let logged = |source, deadline| self.claims.stands(place, source, deadline);
        let possible = ends.0.iter().try_for_each(|end| end.possible(logged));
        let alike = match ends.full() {
            true => Ok(()),
            false => ends.alike(),
        };
        possible
            .and(alike)
            .map_err(|what| self.against_w_206(place, orders, &what))
    }

    /// The same with a clock call between the receives, at the same place of both orders. The
    /// reading is that at which one of the messages has just lapsed.
    fn with_a_clock_call(&mut self, place: usize, mut orders: Orders) -> Result<(), Found> {
        let shorter = orders[0].len().min(orders[1].len());
        let between = self.random.between(1, shorter - 1);
        let deadline = compose::deadline_of(orders[0][self.random.below(shorter)].input());
        let reading = deadline.saturating_add(1).max(self.members[place].time);
        for order in &mut orders {
            order.insert(between, Call::clock(reading));
        }
        let apart = self.ends(place, &orders)?.apart();
        self.done.arrivals.clock_apart += u64::from(apart);
        Ok(())
    }

    /// The same with a frame that nobody sent: a later one of a panel whose frame is received, with
    /// no entries.
    fn with_a_forged_frame(&mut self, place: usize, mut orders: Orders) -> Result<(), Found> {
        let real = orders[0][self.random.below(orders[0].len())].input();
        let later = self.random.between(1, 3) as u64;
        let (source, deadline) = compose::name_of(real);
        let forged = compose::frame(source, deadline.saturating_add(later), &[], b"forged");
        if self.frames.contains(&forged) {
            return Ok(());
        }
        for order in &mut orders {
            let at = self.random.below(order.len() + 1);
            order.insert(at, Call::receive(&forged));
        }
        let apart = self.ends(place, &orders)?.apart();
        self.done.arrivals.forged_apart += u64::from(apart);
        Ok(())
    }

    /// What was found that is not as W-206 has it.
    fn against_w_206(&self, place: usize, orders: &Orders, what: &str) -> Found {
        let panel = &self.members[place].panel;
        let record = self.side.record(panel);
        let mut text = format!("W-206, {}: {what}\n", self.name(place));
        text += "its record, and one order after the other, as --replay reads them:\n";
        for calls in orders.clone() {
            let start = Start::Kept(Box::new(record.clone()));
            text += &Script { start, calls }.to_string();
        }
        Found::new(text.trim_end()).with(self.side.script(panel))
    }
}
