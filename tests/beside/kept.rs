//! A record that was kept, whole or broken, in plain form: both sides can start from it. Its text
//! is a line that `--replay` reads.

use crate::hexadecimal;
use crate::second::Panel;
use std::fmt;

#[derive(Clone, Debug, PartialEq, Eq)]
pub struct Kept {
    pub own: u8,
    pub time: u64,
    pub high: u64,
    pub marks: [u64; 64],
    pub barrier: [u64; 64],
    pub floor: u64,
    /// How many messages the record says are waiting.
    pub count: usize,
    /// The frames of the first 32 of them. A slot has room for 567 bytes: of a longer frame the
    /// length is kept, and so many bytes.
    pub frames: Vec<Vec<u8>>,
}

/// The entries that are not 0, as `panel:entry` with commas between.
fn entries(numbers: &[u64; 64]) -> String {
    let present = numbers.iter().enumerate().filter(|(_, entry)| **entry != 0);
    let texts: Vec<String> = present
        .map(|(panel, entry)| format!("{panel}:{entry}"))
        .collect();
    match texts.is_empty() {
        true => "-".to_string(),
        false => texts.join(","),
    }
}

fn read_entries(text: &str) -> Option<[u64; 64]> {
    let mut numbers = [0; 64];
    for entry in text.split(',').filter(|_| text != "-") {
        let (panel, entry) = entry.split_once(':')?;
        *numbers.get_mut(panel.parse::<usize>().ok()?)? = entry.parse().ok()?;
    }
    Some(numbers)
}

impl Kept {
    /// A panel at this time, in all else as a fresh one.
    pub fn at(own: u8, time: u64) -> Kept {
        Kept {
            own,
            time,
            high: 0,
            marks: [0; 64],
            barrier: [0; 64],
            floor: 0,
            count: 0,
            frames: Vec::new(),
        }
    }

    /// The record of a panel of the second implementation, whole.
    pub fn of(panel: &Panel) -> Kept {
        let count = panel.count();
        Kept {
            own: panel.own,
            time: panel.time,
            high: panel.high,
            marks: panel.marks(),
            barrier: panel.barrier_entries(),
            floor: panel.floor,
            count,
            frames: (0..count)
                .map(|place| panel.waiting(place).into_owned())
                .collect(),
        }
    }

    /// Reads the text of a record.
    pub fn read(line: &str) -> Option<Kept> {
        let items: Vec<&str> = line.split_whitespace().collect();
        let ["record", own, time, high, marks, barrier, floor, count, ref frames @ ..] = items[..]
        else {
            return None;
        };
        Some(Kept {
            own: own.parse().ok()?,
            time: time.parse().ok()?,
            high: high.parse().ok()?,
            marks: read_entries(marks)?,
            barrier: read_entries(barrier)?,
            floor: floor.parse().ok()?,
            count: count.parse().ok()?,
            frames: frames
                .iter()
                .map(|frame| hexadecimal::read(frame))
                .collect::<Option<_>>()?,
        })
    }
}

impl fmt::Display for Kept {
    fn fmt(&self, text: &mut fmt::Formatter) -> fmt::Result {
        let (marks, barrier) = (entries(&self.marks), entries(&self.barrier));
        let (own, time, high) = (self.own, self.time, self.high);
        let (floor, count) = (self.floor, self.count);
        write!(
            text,
            "record {own} {time} {high} {marks} {barrier} {floor} {count}"
        )?;
        for frame in &self.frames {
            write!(text, " {}", hexadecimal::write(frame))?;
        }
        Ok(())
    }
}
