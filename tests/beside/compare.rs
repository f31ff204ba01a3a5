//! The module and the second implementation side by side: each call is made on both, and their
//! answers, their records and all bytes of the lent buffers are compared.

use crate::calls::Call;
use crate::counts::Counts;
use crate::kept::Kept;
use crate::module::Record;
use crate::random::Random;
use crate::room::Room;
use crate::same::{all_zero, foretold, same_answer, same_number, same_records};
use crate::same::{only_time_changed, unchanged, untouched};
use crate::script::{Script, Start};
use crate::second::{self, Answer, Make};
use crate::side::{call_second, Found};

/// A panel of the new make in both implementations, and what was done with it.
#[derive(Clone)]
pub struct Pair {
    pub module: Box<Record>,
    second: second::Panel,
    script: Script,
    /// The record is broken, and only the module keeps what it was.
    broken: bool,
}

impl Pair {
    /// The record in plain form.
    pub fn kept(&self) -> Kept {
        Kept::of(&self.second)
    }
}

/// Both implementations. The rooms are those of the last call.
pub struct Both {
    random: Random,
    pub counts: Counts,
    before: Box<Record>,
    room: Room,
    second_room: Room,
}

impl Both {
    pub fn new(mut random: Random) -> Both {
        let before = Record::random(&mut random);
        Both {
            random,
            counts: Counts::default(),
            before,
            room: Room::default(),
            second_room: Room::default(),
        }
    }

    /// A panel that starts with a kept record.
    pub fn kept(&mut self, kept: &Kept) -> Pair {
        let second = second::Panel::kept(kept, Make::New);
        Pair {
            module: Record::kept(kept, &mut self.random),
            broken: second.broken(),
            second,
            script: Script::new(Start::Kept(Box::new(kept.clone()))),
        }
    }

    /// Makes a call, before it another on an equal panel with the same bytes lent, and compares the
    /// two: answers, all bytes lent, and every byte of the records.
    pub fn call_as(&mut self, pair: &mut Pair, call: &Call, other: &Call) -> Result<Answer, Found> {
        let (mut equal, random) = (pair.clone(), self.random.clone());
        let by_other = self.call(&mut equal, other)?;
        let other_room = self.room.clone();
        self.random = random;
        let answer = self.call(pair, call)?;
        let same_record = equal.module.bytes() == pair.module.bytes();
        let same_room = self.room.difference(&other_room).is_none();
        match answer == by_other && same_record && same_room {
            true => Ok(answer),
            false => {
                let what = format!("{answer}, but another result of\n{other}\n{by_other}");
                Err(Found::new(what).with(self.script(pair)))
            }
        }
    }

    /// Makes a receive, before it a trace of its frame in the same room, and compares the two.
    fn receive(&mut self, pair: &mut Pair, call: &Call) -> Result<Answer, Found> {
        let trace = self.make(pair, &Call::trace(call.input()))?;
        let answer = self.make(pair, call)?;
        foretold(trace, call, answer, self.output()).map_err(|what| {
            let answers = format!("{trace}\nreceive: {answer}\n");
            Found::new(answers + &what).with(self.script(pair))
        })?;
        Ok(answer)
    }

    /// Makes a call on both in the rooms as they are, and compares what comes of it.
    fn make(&mut self, pair: &mut Pair, call: &Call) -> Result<Answer, Found> {
        let by_module = self.call_module(&mut pair.module, call);
        let by_second = call_second(&mut pair.second, call, &mut self.second_room);
        let compared = self.compare(pair, call, by_module, by_second);
        compared.map_err(|what| {
            let answers = format!("module: {by_module}\nsecond: {by_second}\n");
            Found::new(answers + &what).with(self.script(pair))
        })?;
        let (before, after) = (&self.before, &pair.module);
        self.counts.call(call, by_module, before, after);
        Ok(by_module)
    }

    /// Makes the call on the module.
    fn call_module(&mut self, record: &mut Record, call: &Call) -> Answer {
        let [input, output, frame] = self.room.lent();
        match call {
            Call::Send { lifetime, .. } => record.send(input, *lifetime, output, frame),
            Call::Beacon { .. } => record.beacon(input, output, frame),
            Call::Receive { .. } => record.receive(input, output),
            Call::Trace { .. } => record.trace(input),
            Call::Clock { reading, .. } => record.clock(*reading, output),
            Call::SetBack { reading } => record.set_back(*reading),
        }
    }

    /// Compares answers, buffers and records after a call.
    fn compare(
        &self,
        pair: &Pair,
        call: &Call,
        module: Answer,
        second: Answer,
    ) -> Result<(), String> {
        same_answer(module, second)?;
        if let Some(what) = self.room.difference(&self.second_room) {
            return Err(what);
        }
        let traced = module.test.is_some();
        if module.number != 0 || traced {
            unchanged(&self.before, &pair.module)?;
        }
        if let Call::SetBack { .. } = call {
            only_time_changed(&self.before, &pair.module)?;
        }
        untouched(&self.before, &pair.module)?;
        match pair.broken || traced {
            true => Ok(()),
            false => same_records(&pair.module, &pair.second),
        }
    }

    /// Asks both for a fresh panel, and compares number and record. The module makes it of a record
    /// of random bytes.
    pub fn fresh(&mut self, number: u8) -> Result<Pair, Found> {
        let mut module = Record::random(&mut self.random);
        self.before.copy_from(&module);
        let by_module = module.fresh(number);
        let (second, by_second) = second::fresh(number, Make::New);
        self.counts.fresh(by_module);
        let same = same_number("number", u64::from(by_module), u64::from(by_second))
            .and_then(|()| untouched(&self.before, &module))
            .and_then(|()| same_records(&module, &second))
            .and_then(|()| all_zero(&module));
        let pair = Pair {
            module,
            second,
            script: Script::new(Start::Fresh(number)),
            broken: false,
        };
        match same {
            Ok(()) => Ok(pair),
            Err(what) => Err(Found::new(what).with(Some(pair.script))),
        }
    }

    /// Makes a call, and a trace before each receive. The trace needs no line in the script, as it
    /// is made again with the receive. What the call left in the lent buffers is then in `output`
    /// and `frame`.
    pub fn call(&mut self, pair: &mut Pair, call: &Call) -> Result<Answer, Found> {
        pair.script.calls.push(call.clone());
        self.before.copy_from(&pair.module);
        self.room.lend(call, &mut self.random);
        self.second_room.lend_as(&self.room);
        match call {
            Call::Receive { .. } => self.receive(pair, call),
            _ => self.make(pair, call),
        }
    }

    pub fn output(&self) -> &[u8] {
        self.room.output()
    }

    pub fn frame(&self) -> &[u8] {
        self.room.frame()
    }

    /// The calls on a panel so far.
    pub fn script(&self, pair: &Pair) -> Option<Script> {
        Some(pair.script.clone())
    }
}
