//! Whether numbers and records are the same, or in what words they differ.

use crate::calls::Call;
use crate::compose;
use crate::hexadecimal;
use crate::module::Record;
use crate::second::{self, Answer, LOG_RECORD, OUTPUT};

pub fn same_number(name: &str, module: u64, second: u64) -> Result<(), String> {
    match module == second {
        true => Ok(()),
        false => Err(format!("{name}: module {module}, second {second}")),
    }
}

pub fn same_answer(module: Answer, second: Answer) -> Result<(), String> {
    same_number("number", u64::from(module.number), u64::from(second.number))?;
    same_number("count", module.count as u64, second.count as u64)?;
    same_number("length", module.length as u64, second.length as u64)?;
    let (Some(module), Some(second)) = (module.test, second.test) else {
        return Ok(());
    };
    same_number("ready", u64::from(module.ready), u64::from(second.ready))?;
    same_number("visited", module.visited as u64, second.visited as u64)
}

/// Whether a receive did what a trace of its frame had said: its number is the same, but for 10,
/// and a message that is taken is the first in the log exactly if it was ready.
pub fn foretold(trace: Answer, call: &Call, answer: Answer, output: &[u8]) -> Result<(), String> {
    let number = match trace.number {
        26 => 26,
        _ if call.output() < OUTPUT => 10,
        number => number,
    };
    if answer.number != number {
        return Err(format!("the receive should have answered {number}"));
    }
    if number != 0 {
        return Ok(());
    }
    let name = compose::name_of(call.input());
    let mut log = output.chunks_exact(LOG_RECORD).take(answer.count);
    let first = log
        .next()
        .is_some_and(|record| compose::name_logged(record) == name);
    match (trace.test.is_some_and(|test| test.ready), first) {
        (true, false) => Err("the message should be the first in the log".to_string()),
        (false, true) => Err("the message should not be the first in the log".to_string()),
        _ => Ok(()),
    }
}

/// What a byte of the record is that is not as it was, if there is one.
fn changed(before: &Record, after: &Record) -> Option<String> {
    if before.bytes() == after.bytes() {
        return None;
    }
    let mut pairs = before.bytes().iter().zip(after.bytes());
    let place = pairs.position(|(before, after)| before != after);
    Some(Record::name_of(place.unwrap_or(0)))
}

/// After a refusal or a trace the module's record has every byte that it had.
pub fn unchanged(before: &Record, after: &Record) -> Result<(), String> {
    match changed(before, after) {
        None => Ok(()),
        Some(name) => Err(format!(
            "the module refused or traced, and changed its record: {name}"
        )),
    }
}

/// A set back changes no byte of the module's record but the time.
pub fn only_time_changed(before: &Record, after: &Record) -> Result<(), String> {
    let mut with_its_time = before.clone();
    with_its_time.time = after.time;
    match changed(&with_its_time, after) {
        None => Ok(()),
        Some(name) => Err(format!(
            "a set back of the module changed more than the time: {name}"
        )),
    }
}

/// No call touches a byte that belongs to no field.
pub fn untouched(before: &Record, after: &Record) -> Result<(), String> {
    match before.outside() == after.outside() {
        true => Ok(()),
        false => Err("the module changed bytes that are none of its record".to_string()),
    }
}

/// In the record of a fresh panel what is no part of it is 0 too.
pub fn all_zero(fresh: &Record) -> Result<(), String> {
    match fresh.slots.iter().position(|byte| *byte != 0) {
        None => Ok(()),
        Some(place) => Err(format!("byte {place} of a fresh panel's slots is not 0")),
    }
}

/// Compares 64 marks, or 64 barrier entries.
fn same_entries(name: &str, module: &[u64; 64], second: &[u64; 64]) -> Result<(), String> {
    if module == second {
        return Ok(());
    }
    let mut entries = module.iter().zip(second).enumerate();
    entries.try_for_each(|(panel, (module, second))| {
        same_number(&format!("{name} {panel}"), *module, *second)
    })
}

/// Compares the records by their meaning.
pub fn same_records(module: &Record, second: &second::Panel) -> Result<(), String> {
    same_number("own", u64::from(module.own), u64::from(second.own))?;
    same_number("time", module.time, second.time)?;
    same_number("high", module.high, second.high)?;
    same_number("floor", module.floor, second.floor)?;
    same_number("waiting", module.count as u64, second.count() as u64)?;
    same_entries("mark", &module.marks, &second.marks())?;
    same_entries("barrier entry", &module.barrier, &second.barrier_entries())?;
    for place in 0..module.count {
        let (module, second) = (module.waiting(place), second.waiting(place));
        if *module != *second {
            let (module, second) = (hexadecimal::write(module), hexadecimal::write(&second));
            return Err(format!(
                "waiting message {place}: module {module}, second {second}"
            ));
        }
    }
    Ok(())
}
