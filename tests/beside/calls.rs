//! A call with its arguments, as it is made on the module and on the second implementation, and
//! its text: a line that `--replay` reads.

use crate::hexadecimal;
use crate::second::{FRAME, OUTPUT};
use std::fmt;

/// A call on a record. `output` and `frame` (of a send or beacon) are the lengths of the lent
/// buffers.
#[derive(Clone, Debug)]
pub enum Call {
    Send {
        payload: Vec<u8>,
        lifetime: u16,
        output: usize,
        frame: usize,
    },
    Beacon {
        payload: Vec<u8>,
        output: usize,
        frame: usize,
    },
    Receive {
        bytes: Vec<u8>,
        output: usize,
    },
    Trace {
        bytes: Vec<u8>,
    },
    Clock {
        reading: u64,
        output: usize,
    },
    SetBack {
        reading: u64,
    },
}

impl Call {
    /// A send whose buffers are exactly long enough.
    pub fn send(payload: &[u8], lifetime: u16) -> Call {
        Call::Send {
            payload: payload.to_vec(),
            lifetime,
            output: OUTPUT,
            frame: FRAME,
        }
    }

    /// A beacon whose buffers are exactly long enough.
    pub fn beacon(payload: &[u8]) -> Call {
        Call::Beacon {
            payload: payload.to_vec(),
            output: OUTPUT,
            frame: FRAME,
        }
    }

    /// A receive whose output is exactly long enough.
    pub fn receive(bytes: &[u8]) -> Call {
        Call::Receive {
            bytes: bytes.to_vec(),
            output: OUTPUT,
        }
    }

    /// A trace.
    pub fn trace(bytes: &[u8]) -> Call {
        Call::Trace {
            bytes: bytes.to_vec(),
        }
    }

    /// A clock call whose output is exactly long enough.
    pub fn clock(reading: u64) -> Call {
        Call::Clock {
            reading,
            output: OUTPUT,
        }
    }

    /// A set back.
    pub fn set_back(reading: u64) -> Call {
        Call::SetBack { reading }
    }

    /// The same call with buffers of these lengths.
    pub fn lent(mut self, length: usize, frame_length: usize) -> Call {
        match &mut self {
            Call::Send { output, frame, .. } | Call::Beacon { output, frame, .. } => {
                (*output, *frame) = (length, frame_length)
            }
            Call::Receive { output, .. } | Call::Clock { output, .. } => *output = length,
            Call::Trace { .. } | Call::SetBack { .. } => {}
        }
        self
    }

    /// The length of the output, 0 for a trace or a set back.
    pub fn output(&self) -> usize {
        match self {
            Call::Send { output, .. }
            | Call::Beacon { output, .. }
            | Call::Receive { output, .. }
            | Call::Clock { output, .. } => *output,
            Call::Trace { .. } | Call::SetBack { .. } => 0,
        }
    }

    /// The length of the frame buffer, 0 but for a send or beacon.
    pub fn frame(&self) -> usize {
        match self {
            Call::Send { frame, .. } | Call::Beacon { frame, .. } => *frame,
            _ => 0,
        }
    }

    /// The bytes that are given to the call.
    pub fn input(&self) -> &[u8] {
        match self {
            Call::Send { payload, .. } | Call::Beacon { payload, .. } => payload,
            Call::Receive { bytes, .. } | Call::Trace { bytes } => bytes,
            Call::Clock { .. } | Call::SetBack { .. } => &[],
        }
    }

    /// Reads the text of a call.
    pub fn read(line: &str) -> Option<Call> {
        let items: Vec<&str> = line.split_whitespace().collect();
        match items[..] {
            ["send", payload, lifetime, output, frame] => Some(Call::Send {
                payload: hexadecimal::read(payload)?,
                lifetime: lifetime.parse().ok()?,
                output: output.parse().ok()?,
                frame: frame.parse().ok()?,
            }),
            ["beacon", payload, output, frame] => Some(Call::Beacon {
                payload: hexadecimal::read(payload)?,
                output: output.parse().ok()?,
                frame: frame.parse().ok()?,
            }),
            ["receive", bytes, output] => Some(Call::Receive {
                bytes: hexadecimal::read(bytes)?,
                output: output.parse().ok()?,
            }),
            ["trace", bytes] => Some(Call::trace(&hexadecimal::read(bytes)?)),
            ["clock", reading, output] => Some(Call::Clock {
                reading: reading.parse().ok()?,
                output: output.parse().ok()?,
            }),
            ["set", "back", reading] => Some(Call::set_back(reading.parse().ok()?)),
            _ => None,
        }
    }
}

impl fmt::Display for Call {
    fn fmt(&self, text: &mut fmt::Formatter) -> fmt::Result {
        let input = hexadecimal::write(self.input());
        match self {
            Call::Send {
                lifetime,
                output,
                frame,
                ..
            } => {
                write!(text, "send {input} {lifetime} {output} {frame}")
            }
            Call::Beacon { output, frame, .. } => write!(text, "beacon {input} {output} {frame}"),
            Call::Receive { output, .. } => write!(text, "receive {input} {output}"),
            Call::Trace { .. } => write!(text, "trace {input}"),
            Call::Clock { reading, output } => write!(text, "clock {reading} {output}"),
            Call::SetBack { reading } => write!(text, "set back {reading}"),
        }
    }
}
