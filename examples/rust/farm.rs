//! The example of examples/farm.c in Rust: the same story, and the same text.
#![forbid(unsafe_code)]

use panel::{frame_check, log_records, Bundle, Frame, Log, Panel, Refusal, FRAME_MASK_AT, PANELS};
use std::process::ExitCode;

/// In seconds.
const YEAR: u64 = 365 * 24 * 60 * 60;

/// A panel, and its log so far.
struct Member {
    panel: Panel,
    log: Vec<u8>,
}

/// A frame on its way from panel to panel, and the text and the deadline of its message.
struct Parcel {
    frame: Frame,
    text: &'static str,
    deadline: u64,
}

impl Member {
    /// A panel comes to life.
    fn start(own: u8, time: u64) -> Result<Member, Refusal> {
        let mut member = Member {
            panel: Panel::fresh(own)?,
            log: Vec::new(),
        };
        member.set_clock(time)?;
        Ok(member)
    }

    /// Puts the log records of a call at the end of the log.
    fn keep(&mut self, log: &Log) {
        self.log.extend_from_slice(log.bytes());
    }

    /// The clock of the panel shows a time.
    fn set_clock(&mut self, time: u64) -> Result<(), Refusal> {
        let waiting = self.panel.waiting();
        let log = self.panel.clock(time)?;
        self.keep(&log);
        println!(
            "panel {} sets its time to {time}: {} handed, {} dropped",
            self.panel.own(),
            log.len(),
            waiting - log.len() - self.panel.waiting()
        );
        Ok(())
    }

    /// A technician sets the clock of the panel back.
    fn set_back(&mut self, time: u64) -> Result<(), Refusal> {
        self.panel.set_back(time)?;
        println!(
            "panel {} is set back to {}: its floor is {}",
            self.panel.own(),
            self.panel.time(),
            self.panel.floor()
        );
        Ok(())
    }

    /// What a panel does when it has sent a message or a beacon: the first log record is its own.
    fn sent(&mut self, (frame, log): (Frame, Log), text: &'static str) -> Parcel {
        self.keep(&log);
        let deadline = log.records().next().map_or(0, |record| record.deadline);
        println!("\"{text}\" with deadline {deadline}");
        Parcel {
            frame,
            text,
            deadline,
        }
    }

    /// Sends a note for operators, with the lifetime that 0 stands for.
    fn send(&mut self, text: &'static str) -> Result<Parcel, Refusal> {
        let given = self.panel.send(text.as_bytes(), 0)?;
        print!("panel {} sends ", self.panel.own());
        Ok(self.sent(given, text))
    }

    /// Sends its status, which nobody needs when it is old: a beacon lapses soon.
    fn beacon(&mut self, text: &'static str) -> Result<Parcel, Refusal> {
        let given = self.panel.beacon(text.as_bytes())?;
        print!("panel {} sends the beacon ", self.panel.own());
        Ok(self.sent(given, text))
    }

    /// A frame comes in. Here a refusal is no mistake: copies and late frames are usual.
    fn receive_frame(&mut self, frame: &[u8]) {
        match self.panel.receive(frame) {
            Ok(log) => {
                self.keep(&log);
                println!("{} handed, {} waiting", log.len(), self.panel.waiting());
            }
            Err(refusal) => println!("refused with {}", refusal.number()),
        }
    }

    fn receive(&mut self, parcel: &Parcel) {
        print!("panel {} receives \"{}\": ", self.panel.own(), parcel.text);
        self.receive_frame(&parcel.frame);
    }

    /// A technician asks what the panel would do with a frame, and which message it lacks.
    fn trace(&self, parcel: &Parcel) {
        let answer = self.panel.trace(&parcel.frame);
        print!(
            "a trace of \"{}\" at panel {}: number {}, {} entries visited, ",
            parcel.text,
            self.panel.own(),
            answer.refusal.map_or(0, Refusal::number),
            answer.visited
        );
        if answer.ready {
            println!("ready");
        } else {
            let panel = last_visited(&parcel.frame, answer.visited);
            println!("that of panel {panel} not met");
        }
    }

    /// A technician asks why the panel refuses a frame.
    fn say_why(&self, parcel: &Parcel) {
        let (own, text) = (self.panel.own(), parcel.text);
        if let Some(refusal) = self.panel.trace(&parcel.frame).refusal {
            println!("why panel {own} refuses \"{text}\": {refusal}");
        }
    }

    /// A cab meets the panel and passes its bundle.
    fn receive_bundle(&mut self, bundle: &[u8]) {
        let own = self.panel.own();
        println!(
            "a cab passes panel {own} a bundle of {} bytes",
            bundle.len()
        );
        for (i, step) in Bundle::new(bundle).enumerate() {
            let Ok(frame) = step else {
                println!("the bundle is broken");
                return;
            };
            print!("panel {own} receives frame {} of the bundle: ", i + 1);
            self.receive_frame(frame);
        }
        println!("the bundle ends");
    }

    /// Source, deadline and text of each log record.
    fn print_log(&self) {
        println!("\nlog of panel {}", self.panel.own());
        for record in log_records(&self.log) {
            let text = String::from_utf8_lossy(record.payload);
            println!("  {} {} {text}", record.source, record.deadline);
        }
    }
}

/// The panel of the last entry visited: the visited-th set bit of the mask. The frame is of version
/// 2, as it was sent by one of these panels.
fn last_visited(frame: &[u8], visited: usize) -> usize {
    let mask = &frame[FRAME_MASK_AT..FRAME_MASK_AT + 8];
    let set = |panel: &usize| mask[7 - panel / 8] >> (panel % 8) & 1 == 1;
    let entries = (0..PANELS).filter(set);
    entries.take(visited).last().unwrap_or(PANELS)
}

/// The radio looks at a frame that was damaged on its way, here in the first byte of its mark.
fn check_damaged(parcel: &Parcel) {
    let mut bytes = parcel.frame.to_vec();
    bytes[0] ^= 1;
    let number = frame_check(&bytes).map_or_else(Refusal::number, |()| 0);
    let text = parcel.text;
    println!("a damaged copy of \"{text}\": the frame check answers {number}");
}

/// A cab takes a frame along: it puts it into its bundle, behind its length in 16 bits.
fn take_along(bundle: &mut Vec<u8>, parcel: &Parcel) {
    // a frame has at most FRAME_MAX bytes, which 16 bits can say
    bundle.extend_from_slice(&(parcel.frame.len() as u16).to_be_bytes());
    bundle.extend_from_slice(&parcel.frame);
}

/// Two panels send each other a chain of messages: each has the one before it as its cause.
fn send_chain(one: &mut Member, other: &mut Member) -> Result<[Parcel; 3], Refusal> {
    let hold = one.send("hold batch 6")?;
    other.receive(&hold);
    let moisture = other.send("moisture 19")?;
    one.receive(&moisture);
    one.set_clock(200)?;
    let lifted = one.send("hold lifted")?;
    Ok([hold, moisture, lifted])
}

/// A panel gets them in the wrong order, and the first once more by another route.
fn wrong_order(member: &mut Member, [hold, moisture, lifted]: &[Parcel; 3]) {
    member.receive(lifted);
    member.receive(moisture);
    check_damaged(hold);
    member.receive(hold);
    member.receive(hold);
}

/// A panel gets them in order, and sends a note. The barrier entry of each was removed when the
/// next one was handed, which names it. So the frame has one entry, that of the last: 31 bytes and
/// the text, however long the chain is.
fn short_frame(member: &mut Member, chain: &[Parcel; 3]) -> Result<(), Refusal> {
    for parcel in chain {
        member.receive(parcel);
    }
    let note = member.send("load batch 6")?;
    let (bytes, text) = (note.frame.len(), note.text.len());
    println!("its frame has {bytes} bytes, {text} of them text");
    Ok(())
}

/// A tractor cab brings two messages of a panel to another, the later one first, and drives on with
/// its bundle.
fn by_cab(from: &mut Member, to: &mut Member) -> Result<Vec<u8>, Refusal> {
    let full = from.send("bin 4 full")?;
    let emptied = from.send("bin 4 emptied")?;
    let mut bundle = Vec::new();
    take_along(&mut bundle, &emptied);
    take_along(&mut bundle, &full);
    to.receive_bundle(&bundle);
    Ok(bundle)
}

/// Two messages lapse: one while it waits for the other, which then comes too late.
fn too_late(from: &mut Member, to: &mut Member) -> Result<(), Refusal> {
    let fan_on = from.send("fan 2 on")?;
    let fan_off = from.send("fan 2 off")?;
    to.receive(&fan_off);
    to.set_clock(fan_off.deadline + 1)?;
    to.receive(&fan_on);
    Ok(())
}

/// A panel that lacks a beacon holds back the note that was sent after it until the beacon lapses.
/// That is soon: sent with lifetime 0, it would hold the note back to the last second of its life.
fn beacon_lapses(from: &mut Member, to: &mut Member) -> Result<(Parcel, Parcel), Refusal> {
    let beacon = from.beacon("dryer 9 runs")?;
    let note = from.send("hold batch 7")?;
    to.receive(&note);
    to.set_clock(beacon.deadline + 1)?;
    to.receive(&beacon);
    Ok((beacon, note))
}

/// A panel would keep a beacon waiting, as it lacks one of the two messages that come before it in
/// cause. The cab brings that one, and the beacon would be handed.
fn look_for_cause(member: &mut Member, beacon: &Parcel, bundle: &[u8]) {
    member.trace(beacon);
    member.receive_bundle(bundle);
    member.trace(beacon);
}

/// The clock of a panel is set to a wrong year, so the note that it sends is far ahead. The others
/// refuse it, and go on as before.
fn wrong_year(wrong: &mut Member, one: &mut Member, other: &mut Member) -> Result<Parcel, Refusal> {
    wrong.set_clock(wrong.panel.time() + YEAR)?;
    let far_ahead = wrong.send("bin 5 full")?;
    one.receive(&far_ahead);
    other.receive(&far_ahead);
    other.say_why(&far_ahead);
    let moisture = one.send("moisture 17")?;
    other.receive(&moisture);
    Ok(moisture)
}

/// The clock of a panel is ahead, so that a note is handed without the beacon that it names, and
/// without the two messages that come before the beacon in cause. Then it is set to a wrong year:
/// what waits is dropped, and the panel is deaf. Set back, it still refuses these two, by the
/// floor, as they would stand behind the note. Later messages it takes, also the one that it
/// dropped, and hands them in order.
fn deaf_panel(
    deaf: &mut Member,
    from: &mut Member,
    beacon: &Parcel,
    note: &Parcel,
    moisture: &Parcel,
    bundle: &[u8],
) -> Result<(), Refusal> {
    let right = deaf.panel.time();
    deaf.receive(note);
    deaf.set_clock(beacon.deadline + 1)?;
    let load = from.send("load batch 7")?;
    deaf.receive(&load);
    deaf.set_clock(right + YEAR)?;
    deaf.receive(moisture);
    deaf.set_back(right)?;
    deaf.receive_bundle(bundle);
    deaf.receive(&load);
    deaf.receive(moisture);
    Ok(())
}

fn story() -> Result<(), Refusal> {
    // no common clock
    let mut three = Member::start(3, 100)?;
    let mut five = Member::start(5, 90)?;
    let mut nine = Member::start(9, 110)?;
    let mut twelve = Member::start(12, 120)?;

    let chain = send_chain(&mut three, &mut five)?;
    wrong_order(&mut nine, &chain);
    short_frame(&mut twelve, &chain)?;

    let bundle = by_cab(&mut five, &mut nine)?;
    too_late(&mut three, &mut nine)?;

    // the deadlines in the log of panel 9 have passed, so its beacon lapses as soon as one can
    let (beacon, note) = beacon_lapses(&mut nine, &mut five)?;

    // panel 3 has not had it; at panel 5 it has lapsed, and so have the entries that it carries
    look_for_cause(&mut three, &beacon, &bundle);
    five.trace(&beacon);

    let moisture = wrong_year(&mut three, &mut five, &mut nine)?;
    deaf_panel(&mut twelve, &mut five, &beacon, &note, &moisture, &bundle)?;

    three.print_log();
    five.print_log();
    nine.print_log();
    twelve.print_log();
    Ok(())
}

fn main() -> ExitCode {
    match story() {
        Ok(()) => ExitCode::SUCCESS,
        // a call was refused that is not refused in this story
        Err(refusal) => {
            eprintln!(
                "farm: a call was refused with {}: {refusal}",
                refusal.number()
            );
            ExitCode::FAILURE
        }
    }
}
