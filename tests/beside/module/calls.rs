//! The calls of the module on a record. Bytes that a call only reads are lent to be changed too, so
//! that the compiler does not take for granted that they stay.

use super::archive::*;
use super::Record;
use crate::second::{Answer, Test};

fn answer(parts: PartsAnswer) -> Answer {
    Answer {
        number: parts.number,
        count: parts.count,
        length: parts.length,
        test: None,
    }
}

impl Record {
    /// Makes the record a fresh panel.
    pub fn fresh(&mut self, number: u8) -> u8 {
        // Each pointer is that of a field of the right size, here and below.
        unsafe {
            panel_fresh_parts(
                number,
                &mut self.own,
                &mut self.time,
                &mut self.high,
                &mut self.count,
                self.marks.as_mut_ptr(),
                self.barrier.as_mut_ptr(),
                self.slots.as_mut_ptr(),
                &mut self.floor,
            )
        }
    }

    pub fn send(
        &mut self,
        payload: &mut [u8],
        lifetime: u16,
        output: &mut [u8],
        frame: &mut [u8],
    ) -> Answer {
        answer(unsafe {
            panel_send_parts(
                self.own,
                self.time,
                &mut self.high,
                &mut self.count,
                self.marks.as_mut_ptr(),
                self.barrier.as_mut_ptr(),
                self.slots.as_mut_ptr(),
                &mut self.floor,
                payload.as_ptr(),
                payload.len(),
                lifetime,
                output.as_mut_ptr(),
                output.len(),
                frame.as_mut_ptr(),
                frame.len(),
            )
        })
    }

    pub fn beacon(&mut self, payload: &mut [u8], output: &mut [u8], frame: &mut [u8]) -> Answer {
        answer(unsafe {
            panel_beacon_parts(
                self.own,
                self.time,
                &mut self.high,
                &mut self.count,
                self.marks.as_mut_ptr(),
                self.barrier.as_mut_ptr(),
                self.slots.as_mut_ptr(),
                &mut self.floor,
                payload.as_ptr(),
                payload.len(),
                output.as_mut_ptr(),
                output.len(),
                frame.as_mut_ptr(),
                frame.len(),
            )
        })
    }

    pub fn receive(&mut self, frame: &mut [u8], output: &mut [u8]) -> Answer {
        answer(unsafe {
            panel_receive_parts(
                self.own,
                self.time,
                &mut self.high,
                &mut self.count,
                self.marks.as_mut_ptr(),
                self.barrier.as_mut_ptr(),
                self.slots.as_mut_ptr(),
                &mut self.floor,
                frame.as_ptr(),
                frame.len(),
                output.as_mut_ptr(),
                output.len(),
            )
        })
    }

    pub fn trace(&mut self, frame: &mut [u8]) -> Answer {
        let trace = unsafe {
            panel_trace_parts(
                self.own,
                self.time,
                self.high,
                self.count,
                self.marks.as_mut_ptr(),
                self.barrier.as_mut_ptr(),
                self.slots.as_mut_ptr(),
                self.floor,
                frame.as_mut_ptr(),
                frame.len(),
            )
        };
        let (ready, visited) = (trace.ready, trace.visited);
        Answer {
            number: trace.number,
            count: 0,
            length: 0,
            test: Some(Test { ready, visited }),
        }
    }

    pub fn clock(&mut self, reading: u64, output: &mut [u8]) -> Answer {
        answer(unsafe {
            panel_clock_parts(
                self.own,
                &mut self.time,
                &mut self.high,
                &mut self.count,
                self.marks.as_mut_ptr(),
                self.barrier.as_mut_ptr(),
                self.slots.as_mut_ptr(),
                &mut self.floor,
                reading,
                output.as_mut_ptr(),
                output.len(),
            )
        })
    }

    pub fn set_back(&mut self, reading: u64) -> Answer {
        let number = unsafe {
            panel_set_back_parts(
                self.own,
                &mut self.time,
                self.high,
                self.count,
                self.marks.as_mut_ptr(),
                self.barrier.as_mut_ptr(),
                self.slots.as_mut_ptr(),
                self.floor,
                reading,
            )
        };
        answer(PartsAnswer {
            number,
            count: 0,
            length: 0,
        })
    }
}
