//! What was done with one panel, as text that can be run again: how its record starts, a line, and
//! then its calls, a line each.

use crate::beacons;
use crate::calls::Call;
use crate::compare::{Both, Pair};
use crate::kept::Kept;
use crate::random::Random;
use crate::side::Found;
use std::fmt;

/// Calls that are made at most to find out which ones can be left out.
const SHORTENING_CALLS: usize = 500_000;

/// How a record starts.
#[derive(Clone)]
pub enum Start {
    Fresh(u8),
    Kept(Box<Kept>),
}

#[derive(Clone)]
pub struct Script {
    pub start: Start,
    pub calls: Vec<Call>,
}

impl fmt::Display for Script {
    fn fmt(&self, text: &mut fmt::Formatter) -> fmt::Result {
        match &self.start {
            Start::Fresh(number) => writeln!(text, "fresh {number}")?,
            Start::Kept(kept) => writeln!(text, "{kept}")?,
        }
        self.calls
            .iter()
            .try_for_each(|call| writeln!(text, "{call}"))
    }
}

fn read_start(line: &str) -> Option<Start> {
    match line.strip_prefix("fresh ") {
        Some(number) => Some(Start::Fresh(number.trim().parse().ok()?)),
        None => Some(Start::Kept(Box::new(Kept::read(line)?))),
    }
}

/// Reads scripts. The error is a line that is none of a script.
pub fn read(text: &str) -> Result<Vec<Script>, String> {
    let mut scripts: Vec<Script> = Vec::new();
    for line in text.lines().filter(|line| !line.trim().is_empty()) {
        let (start, call) = (read_start(line), Call::read(line));
        match (start, call, scripts.last_mut()) {
            (Some(start), _, _) => scripts.push(Script::new(start)),
            (None, Some(call), Some(script)) => script.calls.push(call),
            _ => return Err(line.to_string()),
        }
    }
    Ok(scripts)
}

impl Script {
    /// No calls yet.
    pub fn new(start: Start) -> Script {
        let calls = Vec::new();
        Script { start, calls }
    }

    /// The panel that it starts with, in both implementations.
    fn first(&self, both: &mut Both) -> Result<Pair, Found> {
        match &self.start {
            Start::Fresh(number) => both.fresh(*number),
            Start::Kept(kept) => Ok(both.kept(kept)),
        }
    }

    /// Makes the calls on both implementations. `told` is given each call and its answer.
    pub fn run(&self, both: &mut Both, told: impl Fn(&Call, String)) -> Result<(), Found> {
        let mut pair = self.first(both)?;
        for call in &self.calls {
            let answer = beacons::call(both, &mut pair, call)?;
            told(call, answer.to_string());
        }
        Ok(())
    }

    /// The difference that it shows, on its own.
    fn difference(&self) -> Option<Found> {
        let mut both = Both::new(Random::new(0, 0));
        self.run(&mut both, |_, _| {}).err()
    }

    /// The same with fewer calls, and the difference that these show. Parts of the calls are left
    /// out for good where a difference stays, first long parts and then shorter ones.
    pub fn shortened(mut self) -> (Script, Option<Found>) {
        let mut calls_left = SHORTENING_CALLS;
        let mut part = self.calls.len();
        while part > 0 && calls_left > 0 {
            let mut place = 0;
            while place < self.calls.len() && calls_left > 0 {
                let mut shorter = self.clone();
                let behind = self.calls.len().min(place + part);
                shorter.calls.drain(place..behind);
                calls_left = calls_left.saturating_sub(shorter.calls.len());
                match shorter.difference().is_some() {
                    true => self = shorter,
                    false => place += part,
                }
            }
            part /= 2;
        }
        let difference = self.difference();
        (self, difference)
    }
}
