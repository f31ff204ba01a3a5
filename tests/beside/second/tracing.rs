//! Trace: what a receive of a frame would answer, and how far its test for ready goes. Document 02,
//! W-202: the test is to "also answer how many it visited".

use super::calls::Checks;
use super::delivery::raise;
use super::faults::{planted, which, Fault};
use super::floor::Of;
use super::log::Log;
use super::{first, refused, Answer, Message, Panel, Test, OUTPUT, PANELS, WAITING};

/// What is traced: a message, or the number that the reading turns the bytes down with.
type Reading = Result<Message, u8>;

impl Panel {
    /// Traces a frame: the number that a receive of it answers with an output long enough, and the
    /// test for ready of its message. Nothing is changed, but by planted faults.
    pub fn trace(&mut self, frame: &[u8]) -> Answer {
        let reading = Message::read(frame);
        let test = self.traced_test(&reading);
        let number = self.traced_number(&reading, test.ready);
        self.change_by_trace(&reading, frame);
        Answer {
            test: Some(answered(number, test)),
            ..refused(number)
        }
    }

    /// The number that a trace answers. The output, and 10 with it, is none of its business.
    fn traced_number(&self, reading: &Reading, ready: bool) -> u8 {
        let of_record = first([
            (26, self.broken() && !planted(Fault::TraceForgetsBroken)),
            (10, planted(Fault::TraceAsksForAnOutput)),
        ]);
        let of_frame = reading.as_ref().err().copied();
        let of_state = match reading {
            Ok(message) => first(self.traced_checks(message, ready)),
            Err(_) => None,
        };
        let number = match planted(Fault::TraceFrameBeforeBroken) {
            true => of_frame.or(of_record).or(of_state),
            false => of_record.or(of_frame).or(of_state),
        };
        number.unwrap_or(0)
    }

    /// The checks of the state: those of a receive, but for planted faults.
    fn traced_checks(&self, message: &Message, ready: bool) -> Checks {
        let ready = ready && !planted(Fault::TraceFullBeforeReady);
        let mut checks = self.state_checks(message, ready);
        match which() {
            Some(Fault::TraceLapsedBeforeOwnSource) => checks.swap(0, 1),
            Some(Fault::TraceFarAheadBeforeOwnSource) => checks[..3].rotate_right(1),
            Some(Fault::TraceHadBeforeLapsed) => checks.swap(1, 3),
            Some(Fault::TraceHadBeforeFarAhead) => checks.swap(2, 3),
            Some(Fault::TraceFullBeforeFarAhead) => checks[2].1 &= !checks[4].1,
            Some(Fault::TraceFullBeforeHad) => checks.swap(3, 4),
            Some(Fault::TraceForgetsOwnSource) => checks[0].1 = false,
            Some(Fault::TraceForgetsLapsed) => checks[1].1 = false,
            Some(Fault::TraceLapsedAtEqualTime) => checks[1].1 |= message.deadline == self.time,
            Some(Fault::TraceFloorNotAsked) => checks[1].1 = message.deadline < self.time,
            Some(Fault::TraceForgetsFarAhead) => checks[2].1 = false,
            Some(Fault::TraceFarthestAheadRefused) => {
                checks[2].1 = self.far_ahead(message.deadline.saturating_add(1))
            }
            Some(Fault::TraceForgetsMark) => checks[3].1 = self.waits(message),
            Some(Fault::TraceForgetsWaiting) => checks[3].1 = self.logged(message),
            Some(Fault::TraceForgetsFull) => checks[4].1 = false,
            Some(Fault::TraceFullWithThirtyOne) => {
                checks[4].1 = !ready && self.pending.len() + 1 >= WAITING
            }
            _ => {}
        }
        checks
    }

    /// The test for ready that a trace answers; bytes that read as no message have none to visit.
    fn traced_test(&self, reading: &Reading) -> Test {
        let Ok(message) = reading else {
            return Test {
                ready: planted(Fault::UnreadableTracedAsReady),
                visited: 0,
            };
        };
        let test = match self.mistaken() {
            Some(other) => other.test(message),
            None => self.test(message),
        };
        Test {
            visited: self.visits(message, test),
            ..test
        }
    }

    /// The record by which a planted fault has a trace's test done, in place of this one.
    fn mistaken(&self) -> Option<Panel> {
        let fault = which()?;
        let mut other = self.clone();
        match fault {
            Fault::TraceByTheBarrier => other.delivered.clone_from(&self.barrier),
            Fault::TraceByTheMarksAlone => (other.time, other.floor) = (0, 0),
            Fault::TraceFloorNotAskedOfEntries => other.floor = 0,
            Fault::TraceByTheTimeAlone => other.delivered.clear(),
            Fault::TraceEntryMetAtEqualTime => other.time = self.time.saturating_add(1),
            Fault::TraceEntryAtItsMarkNotMet => {
                other.delivered.values_mut().for_each(|mark| *mark -= 1)
            }
            Fault::TraceOwnEntryMet => _ = other.delivered.insert(self.own, u64::MAX),
            Fault::TraceAfterSettling => other.check_pending_messages(&mut Log::new(&mut [])),
            _ => return None,
        }
        Some(other)
    }

    /// How many entries a trace says were visited: those of the test, but for planted faults.
    fn visits(&self, message: &Message, test: Test) -> usize {
        let entries = &message.predecessors;
        let visited = || entries.iter().take(test.visited);
        let panel = |visit: Option<(&u8, &u64)>| visit.map_or(0, |(panel, _)| usize::from(*panel));
        match which() {
            Some(Fault::EmptyBitsVisited) if test.ready => usize::from(PANELS),
            Some(Fault::EmptyBitsVisited) => panel(visited().last()) + 1,
            Some(Fault::EmptyBitsBetweenVisited) if test.visited > 0 => {
                panel(visited().last()) - panel(visited().next()) + 1
            }
            Some(Fault::LastEntryNotVisited) => test.visited - usize::from(!test.ready),
            Some(Fault::VisitsGoOn) => entries.len(),
            Some(Fault::HighestPanelVisitedFirst) => {
                let left = self.predecessors_left(message);
                let mut panels = entries.keys().rev();
                let last = panels.position(|panel| left.contains_key(panel));
                last.map_or(entries.len(), |place| place + 1)
            }
            Some(Fault::LapsedEntryNotVisited) => {
                visited().filter(|(_, entry)| !self.lapsed(**entry)).count()
            }
            Some(Fault::OnlyLeftVisited) => self.predecessors_left(message).len(),
            Some(Fault::FirstWaitingVisited) => {
                let waiting = self.pending.first();
                waiting
                    .map_or(test, |pending| self.test(&pending.message))
                    .visited
            }
            Some(Fault::WaitingVisitedToo) => {
                let waiting = self.pending.iter();
                let of_waiting = waiting.map(|pending| self.test(&pending.message).visited);
                test.visited + of_waiting.sum::<usize>()
            }
            _ => test.visited,
        }
    }

    /// What planted faults change by a trace.
    fn change_by_trace(&mut self, reading: &Reading, frame: &[u8]) {
        match (which(), reading) {
            (Some(Fault::TraceTakesTheMessage), _) => _ = self.receive(frame, &mut [0; OUTPUT]),
            (Some(Fault::TraceRaisesTheMark), Ok(message)) => {
                raise(&mut self.delivered, message.source, message.deadline)
            }
            (Some(Fault::TraceRemoves), Ok(message)) => self.remove_carried(message),
            (Some(Fault::TraceRaisesFloor), Ok(message)) => self.raise_floor(message),
            (Some(Fault::TraceDropsTheLapsed), _) => {
                let limits = self.limits();
                self.pending
                    .retain(|pending| !limits.lapsed(Of::Waiting, pending.message.deadline));
            }
            _ => {}
        }
    }
}

/// What is answered of the test beside this number: all of it, but for planted faults.
fn answered(number: u8, test: Test) -> Test {
    let Test { ready, visited } = test;
    let nothing = Test {
        ready: false,
        visited: 0,
    };
    match which() {
        Some(Fault::ReadyOnlyWhereTaken) if number != 0 => Test { visited, ..nothing },
        Some(Fault::VisitsOnlyWhereTaken) if number != 0 => Test { ready, ..nothing },
        Some(Fault::BrokenTracedWithoutTest) if number == 26 => nothing,
        Some(Fault::FarAheadTracedNotReady) if number == 32 => Test { visited, ..nothing },
        Some(Fault::FarAheadTracedWithoutVisits) if number == 32 => Test { ready, ..nothing },
        _ => test,
    }
}
