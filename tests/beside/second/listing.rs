//! What the program `list` prints.

use super::bundle::{step, Kind};
use super::faults::{planted, Fault};
use super::log::{fields, PAYLOAD_AT};
use super::{fresh, Make, LOG_RECORD, OUTPUT};
use std::fmt::Write;

/// Bytes of the longest bundle that is read.
const LONGEST: usize = 65_535;

/// The text for this input.
pub fn listing(input: &[u8]) -> String {
    let longest = LONGEST - usize::from(planted(Fault::LongOneByteEarly));
    if input.len() > longest {
        return "long\n".to_string();
    }
    let number = u8::from(planted(Fault::ListFeedsPanelOne));
    let mut panel = fresh(number, Make::New).0;
    panel.time = u64::from(planted(Fault::ListFeedsAtTimeOne));
    let mut text = String::new();
    let mut place = 0;
    for number in u32::from(!planted(Fault::ListCountsFromZero)).. {
        let step = step(input, place);
        match step.kind {
            Kind::End => return text + "end\n",
            Kind::Broken => return text + "broken\n",
            Kind::Frame => place = step.next,
        }
        let mut output = [0; OUTPUT];
        let answer = panel.receive(&input[step.start..step.next], &mut output);
        let refused = answer.number != 0 && !planted(Fault::ListSaysTaken);
        let outcome = match refused {
            true => answer.number.to_string(),
            false => "taken".to_string(),
        };
        _ = writeln!(text, "frame {number} {outcome}");
        for index in 0..answer.count {
            text += &handed(&output, index);
        }
        if planted(Fault::ListEndsAtRefusal) && refused {
            return text + "end\n";
        }
    }
    text
}

/// The line of a log record.
fn handed(output: &[u8], index: usize) -> String {
    let record = fields(output, index);
    let start = index * LOG_RECORD + PAYLOAD_AT;
    let payload = output
        .get(start..start + usize::from(record.length))
        .unwrap_or(&[]);
    let mut hexadecimal: String = payload.iter().map(|byte| format!("{byte:02x}")).collect();
    if planted(Fault::UpperCaseHexadecimal) {
        hexadecimal = hexadecimal.to_uppercase();
    }
    if hexadecimal.is_empty() && !planted(Fault::EmptyPayloadAsBlank) {
        hexadecimal = "-".to_string();
    }
    format!("hand {} {} {hexadecimal}\n", record.source, record.deadline)
}
