//! Log records: written to an output one after another, and read by their index.

use super::faults::{planted, Fault};
use super::message::number;
use super::version::cut;
use super::{Message, LOG_RECORD, PAYLOAD};

/// Where the length of the payload stands in a log record, and the payload: behind the source, 1
/// byte, and the deadline, 8 bytes.
pub const LENGTH_AT: usize = 9;
pub const PAYLOAD_AT: usize = 10;

/// An output, and how many log records stand in it.
pub struct Log<'output> {
    output: &'output mut [u8],
    count: usize,
}

impl<'output> Log<'output> {
    pub fn new(output: &'output mut [u8]) -> Log<'output> {
        Log { output, count: 0 }
    }

    /// Writes the record of a message behind those before it.
    pub fn write(&mut self, message: &Message) {
        let mut record = vec![message.source];
        let deadline = cut(message.deadline, Fault::LogDeadlineCut);
        match planted(Fault::LogDeadlineInFour) {
            true => record.extend((deadline as u32).to_be_bytes()),
            false => record.extend(deadline.to_be_bytes()),
        }
        record.push(message.payload.len() as u8);
        record.extend(&message.payload);
        if !planted(Fault::LogZerosMissing) {
            record.resize(LOG_RECORD, 0);
        }
        record.truncate(LOG_RECORD);
        let start = self.count * LOG_RECORD;
        if let Some(part) = self.output.get_mut(start..start + record.len()) {
            part.copy_from_slice(&record);
        }
        self.count += 1;
    }

    /// How many records were written, when the call ends.
    pub fn count(self) -> usize {
        let start = self.count * LOG_RECORD;
        if let (true, Some(behind)) = (planted(Fault::OutputCleared), self.output.get_mut(start..))
        {
            behind.fill(0);
        }
        self.count + usize::from(planted(Fault::CountOneTooHigh) && self.count > 0)
    }
}

/// The numbers of a log record; all are 0 where there is none.
#[derive(Clone, Copy, Debug, Default, PartialEq, Eq)]
pub struct Fields {
    pub source: u8,
    pub deadline: u64,
    pub length: u8,
}

/// The log record of this index, from 0. There is none where its bytes are not whole, or none that
/// a call wrote: deadline 0, or a length above 32.
pub fn fields(log: &[u8], index: usize) -> Fields {
    let mut records = log.chunks(LOG_RECORD);
    let Some(record) = records.nth(index) else {
        return Fields::default();
    };
    let least = match planted(Fault::LogRecordCutOffRead) {
        true => LOG_RECORD - 1,
        false => LOG_RECORD,
    };
    if record.len() < least {
        return Fields::default();
    }
    let (source, length) = (record[0], record[LENGTH_AT]);
    let deadline = cut(number(&record[1..LENGTH_AT]), Fault::LogDeadlineReadCut);
    let long = usize::from(length) > PAYLOAD && !planted(Fault::LogLengthUnchecked);
    match deadline == 0 || long {
        true => Fields::default(),
        false => Fields {
            source,
            deadline,
            length,
        },
    }
}
