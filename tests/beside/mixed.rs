//! Panels of both makes: those of the new make in both implementations, which are compared, and
//! those of the old make in the second alone. Those that keep no floor are in the second alone too.

use crate::calls::Call;
use crate::compare::{Both, Pair};
use crate::kept::Kept;
use crate::random::Random;
use crate::script::Script;
use crate::second::{self, Answer, Make};
use crate::shadow::{Came, Shadow};
use crate::side::{Alone, Found, Kind, Side};

/// A panel as it is now.
enum Now {
    Alone(second::Panel),
    Both(Pair),
}

impl Now {
    /// The record in plain form.
    fn record(&self) -> Kept {
        match self {
            Now::Alone(panel) => Kept::of(panel),
            Now::Both(pair) => pair.kept(),
        }
    }
}

pub struct Panel {
    now: Now,
    shadow: Option<Shadow>,
}

impl Panel {
    /// The 64 barrier entries.
    pub fn barrier(&self) -> [u64; 64] {
        match &self.now {
            Now::Alone(panel) => panel.barrier_entries(),
            Now::Both(pair) => pair.module.barrier,
        }
    }
}

pub struct Mixed<'both> {
    both: &'both mut Both,
    alone: Alone,
    /// The last call was made on the second implementation alone.
    last_alone: bool,
    /// Whether all but the claims is left out: shadows, and the floors of the records.
    claims_alone: bool,
}

impl<'both> Mixed<'both> {
    pub fn new(both: &'both mut Both, seed: u64) -> Mixed<'both> {
        Mixed {
            both,
            alone: Alone::new(Random::new(seed, 1)),
            last_alone: false,
            claims_alone: false,
        }
    }

    /// The same without shadows, and without the floors of the records.
    pub fn claims_alone(mut self) -> Mixed<'both> {
        self.claims_alone = true;
        self
    }

    /// The calls that were made.
    pub fn calls(&self) -> u64 {
        self.both.counts.calls() + self.alone.calls
    }

    /// A panel of this make with a kept record.
    fn now(&mut self, kept: &Kept, make: Make) -> Now {
        match make {
            Make::Old => Now::Alone(second::Panel::kept(kept, make)),
            Make::New => Now::Both(self.both.kept(kept)),
        }
    }

    /// A panel of this make that starts with a kept record, and has no shadow.
    pub fn kept(&mut self, kept: &Kept, make: Make) -> Panel {
        Panel {
            now: self.now(kept, make),
            shadow: None,
        }
    }

    /// Makes a call of a panel on its shadow too, if it has one.
    fn follow(&mut self, panel: &mut Panel, call: &Call, answer: Answer) -> Result<(), Found> {
        let Some(shadow) = &mut panel.shadow else {
            return Ok(());
        };
        let came = Came {
            answer,
            output: self.output(),
            frame: self.frame(),
            record: panel.now.record(),
        };
        match shadow.follow(call, &came) {
            Ok(seen) => {
                self.both.counts.shadow(&seen);
                Ok(())
            }
            Err(what) => {
                let what = format!("beside a shadow of the old make: {what}");
                Err(Found::new(what).with(self.script(panel)))
            }
        }
    }
}

impl Side for Mixed<'_> {
    type Panel = Panel;

    fn fresh(&mut self, number: u8, kind: Kind) -> Result<Panel, Found> {
        let now = match kind.make {
            Make::New if kind.keeps_floor => Now::Both(self.both.fresh(number)?),
            _ => Now::Alone(self.alone.fresh(number, kind)?),
        };
        let rule = kind.shadow.filter(|_| !self.claims_alone);
        let shadow = rule.map(|rule| Shadow::new(number, rule));
        Ok(Panel { now, shadow })
    }

    /// The panel keeps its shadow. One that keeps no floor goes on without.
    fn bring(&mut self, panel: &mut Panel, make: Make) {
        match &mut panel.now {
            Now::Alone(alone) if !alone.keeps_floor => self.alone.bring(alone, make),
            now => *now = self.now(&now.record(), make),
        }
        if let Some(shadow) = &mut panel.shadow {
            shadow.brought = true;
        }
    }

    fn call(&mut self, panel: &mut Panel, call: &Call) -> Result<Answer, Found> {
        self.last_alone = matches!(panel.now, Now::Alone(_));
        let answer = match &mut panel.now {
            Now::Alone(panel) => self.alone.call(panel, call)?,
            Now::Both(pair) => self.both.call(pair, call)?,
        };
        self.follow(panel, call, answer)?;
        Ok(answer)
    }

    fn output(&self) -> &[u8] {
        match self.last_alone {
            true => self.alone.output(),
            false => self.both.output(),
        }
    }

    fn frame(&self) -> &[u8] {
        match self.last_alone {
            true => self.alone.frame(),
            false => self.both.frame(),
        }
    }

    fn floor(&self, panel: &Panel) -> Option<u64> {
        match &panel.now {
            _ if self.claims_alone => None,
            Now::Alone(panel) => panel.keeps_floor.then_some(panel.floor),
            Now::Both(pair) => Some(pair.module.floor),
        }
    }

    fn copy(&mut self, panel: &Panel) -> Panel {
        let now = match &panel.now {
            Now::Alone(panel) => Now::Alone(panel.clone()),
            Now::Both(pair) => Now::Both(self.both.kept(&pair.kept())),
        };
        Panel { now, shadow: None }
    }

    fn record(&self, panel: &Panel) -> Kept {
        panel.now.record()
    }

    /// Those of a panel that is in the second implementation alone are not kept.
    fn script(&self, panel: &Panel) -> Option<Script> {
        match &panel.now {
            Now::Alone(_) => None,
            Now::Both(pair) => self.both.script(pair),
        }
    }
}
