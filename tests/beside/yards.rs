//! How long frames are in a yard whose panels are all of the old make, half of them, or none: the
//! table of docs/BARRIERS.md, which says what is done in a yard. The module has no part in it.

use crate::compose;
use crate::member::Member;
use crate::random::Random;
use crate::second::{self, Answer, Make, DEFAULT_LIFETIME, FRAME, LOG_RECORD, OUTPUT};
use crate::side::{Found, Kind};
use std::fmt::Write;
use std::thread;

/// How many panels the yards have.
const YARDS: [u8; 3] = [8, 16, 64];
/// The loads, with how many contacts there are for each send.
const LOADS: [(&str, usize); 2] = [("quiet", 60), ("busy", 3)];
/// The makes of the panels of a yard, by their numbers.
const MAKES: [(&str, fn(u8) -> Make); 3] = [
    ("all old", |_| Make::Old),
    ("half new", |number| match number % 2 {
        0 => Make::Old,
        _ => Make::New,
    }),
    ("all new", |_| Make::New),
];
/// Frames that are sent in a yard, for each of its panels.
const SENDS: usize = 100;
/// One of so many frames that are given is lost.
const LOST: usize = 4;
const PAYLOAD: [u8; 8] = *b"corn 18%";
const SEED: u64 = 204;

/// What is done in a yard, by the places of its panels. Which frames of a contact are lost follows
/// from its number.
enum Event {
    Send(usize),
    Contact { giver: usize, taker: usize },
}

/// The random events of a yard: sends, and so many contacts after each.
fn events(panels: u8, contacts: usize) -> Vec<Event> {
    let mut random = Random::new(SEED, u64::from(panels) * 100 + contacts as u64);
    let panels = usize::from(panels);
    let mut events = Vec::new();
    for _ in 0..SENDS * panels {
        events.push(Event::Send(random.below(panels)));
        for _ in 0..contacts {
            let giver = random.below(panels);
            let taker = (giver + random.between(1, panels - 1)) % panels;
            events.push(Event::Contact { giver, taker });
        }
    }
    events
}

/// The panels of a yard with their logs, and the frames that they sent.
struct Yard {
    members: Vec<Member<second::Panel>>,
    logs: Vec<Vec<u8>>,
    frames: Vec<Vec<u8>>,
    /// How many of the frames were sent before a message can have lapsed.
    early: usize,
    /// The contacts so far, and the messages that had to wait.
    contacts: u64,
    waited: usize,
    output: [u8; OUTPUT],
}

impl Yard {
    /// A yard in which all this has been done.
    fn run(makes: fn(u8) -> Make, panels: u8, events: &[Event]) -> Result<Yard, Found> {
        let member = |number| {
            let kind = Kind {
                make: makes(number),
                keeps_floor: true,
                shadow: None,
            };
            Member::new(second::fresh(number, kind.make).0, number, kind, 0)
        };
        let mut yard = Yard {
            members: (0..panels).map(member).collect(),
            logs: vec![Vec::new(); usize::from(panels)],
            frames: Vec::new(),
            early: 0,
            contacts: 0,
            waited: 0,
            output: [0; OUTPUT],
        };
        for event in events {
            let time = yard.time();
            match event {
                Event::Send(place) => yard.send(*place, time)?,
                Event::Contact { giver, taker } => yard.contact(*giver, *taker, time)?,
            }
        }
        Ok(yard)
    }

    /// How many seconds have gone by: each panel is given frames once a minute, on an average.
    fn time(&self) -> u64 {
        self.contacts * 60 / self.members.len() as u64
    }

    /// Takes down what a call wrote. A call is refused here only where the waiting list is full.
    fn after(&mut self, place: usize, answer: Answer) -> Result<(), Found> {
        let written = &self.output[..answer.count * LOG_RECORD];
        self.logs[place].extend(written);
        match answer.number {
            0 | 23 => Ok(()),
            number => Err(Found::new(format!(
                "a call in a yard was refused: {number}"
            ))),
        }
    }

    fn clock(&mut self, place: usize, time: u64) -> Result<(), Found> {
        let panel = &mut self.members[place].panel;
        let answer = panel.clock(time, &mut self.output);
        self.after(place, answer)
    }

    fn send(&mut self, place: usize, time: u64) -> Result<(), Found> {
        self.clock(place, time)?;
        let (member, mut frame) = (&mut self.members[place], [0; FRAME]);
        let answer = member.panel.send(&PAYLOAD, 0, &mut self.output, &mut frame);
        member.hold(self.frames.len());
        self.frames.push(frame[..answer.length].to_vec());
        self.early += usize::from(time < u64::from(DEFAULT_LIFETIME));
        self.after(place, answer)
    }

    /// One panel gives another all live frames that it holds and the other lacks. Some are lost.
    fn contact(&mut self, giver: usize, taker: usize, time: u64) -> Result<(), Found> {
        self.contacts += 1;
        let mut random = Random::new(SEED, u64::from(self.contacts));
        let frames = &self.frames;
        let live = |frame: &usize| compose::deadline_of(&frames[*frame]) >= time;
        self.members[giver].held.retain(live);
        let mut given = self.members[giver].held.clone();
        given.retain(|frame| !self.members[taker].holds(*frame) && random.below(LOST) != 0);
        if !given.is_empty() {
            self.clock(taker, time)?;
        }
        for frame in given {
            let member = &mut self.members[taker];
            let answer = member.panel.receive(&self.frames[frame], &mut self.output);
            if answer.number == 0 {
                member.hold(frame);
                self.waited += usize::from(answer.count == 0);
            }
            self.after(taker, answer)?;
        }
        Ok(())
    }

    /// The frames that the table counts.
    fn counted(&self) -> &[Vec<u8>] {
        &self.frames[self.early..]
    }

    fn bytes(&self) -> usize {
        self.counted().iter().map(Vec::len).sum()
    }

    /// The logs are those of the yard with old panels, and no frame is longer than there. Some
    /// messages had to wait.
    fn compare(&self, old: &Yard) -> Result<(), Found> {
        if self.waited == 0 {
            return Err(Found::new("nothing had to wait in a yard"));
        }
        if self.logs != old.logs {
            return Err(Found::new("other logs in a yard with new panels"));
        }
        let mut frames = self.frames.iter().zip(&old.frames);
        match frames.all(|(frame, old)| frame.len() <= old.len()) {
            true => Ok(()),
            false => Err(Found::new("a longer frame in a yard with new panels")),
        }
    }

    /// What the table says of the frames, beside the yard with old panels.
    fn columns(&self, old: &Yard) -> String {
        let counted = self.counted();
        let frames = counted.len();
        let mean = |sum: usize| sum as f64 / frames as f64;
        let entries = mean(counted.iter().map(|frame| compose::entries(frame)).sum());
        let longest = counted.iter().map(Vec::len).max().unwrap_or(0);
        let less = 100.0 - 100.0 * self.bytes() as f64 / old.bytes() as f64;
        let (hours, bytes) = (self.time() / 3600, mean(self.bytes()));
        format!("{hours} | {frames} | {entries:.2} | {bytes:.2} | {longest} | {less:.1} %")
    }
}

/// The same is done in a yard of each of the makes, on a thread each.
fn yards(panels: u8, events: &[Event]) -> Result<Vec<Yard>, Found> {
    thread::scope(|scope| {
        let run = |(_, makes)| scope.spawn(move || Yard::run(makes, panels, events));
        let yards = MAKES.map(run).into_iter();
        yards
            .map(|yard| match yard.join() {
                Ok(yard) => yard,
                Err(_) => Err(Found::new("a yard was not run to its end")),
            })
            .collect()
    })
}

/// The rows of a yard with this load. The first is that of panels of the old make alone.
fn rows(panels: u8, (load, contacts): (&str, usize)) -> Result<String, Found> {
    let yards = yards(panels, &events(panels, contacts))?;
    let mut text = String::new();
    for ((name, _), yard) in MAKES.iter().zip(&yards) {
        yard.compare(&yards[0])?;
        let columns = yard.columns(&yards[0]);
        _ = writeln!(text, "| {panels} | {load} | {name} | {columns} |");
    }
    Ok(text)
}

/// The table, as Markdown.
pub fn table() -> Result<String, Found> {
    let columns =
        "panels | load | makes | hours | frames | entries a frame | bytes a frame | longest frame";
    let mut text = format!("| {columns} | bytes less |\n|---|---|---|---|---|---|---|---|---|\n");
    for panels in YARDS {
        for load in LOADS {
            text += &rows(panels, load)?;
        }
    }
    Ok(text)
}
