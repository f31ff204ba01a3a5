//! What kind of list is made: how many panels and calls, how the clocks go, who passes what on.

use crate::compose::BORDER;
use crate::random::Random;
use crate::second::{Make, BEACON_LIFETIME, DEFAULT_LIFETIME, FARTHEST_AHEAD};
use crate::shadow::Rule;
use crate::side::Kind;

/// How far the clocks of the panels are apart.
#[derive(Clone, Copy)]
pub enum Clocks {
    /// A few seconds.
    Near,
    /// Minutes.
    Apart,
    /// Up to the whole range of 64 bits.
    Wide,
    /// Near the last second.
    Last,
    /// On both sides of the last deadline that version 1 has room for.
    Border,
    /// About 14 days, or twice that.
    Weeks,
    /// The same, up to the last second.
    LastWeeks,
}

/// No seconds, those of 14 days or twice as many, and some more.
fn weeks(random: &mut Random) -> u64 {
    let more = random.pick(&[40, 4_000, 24_000]);
    random.below(3) as u64 * FARTHEST_AHEAD + random.below(more) as u64
}

impl Clocks {
    /// What a panel's clock shows at first.
    pub fn first_reading(self, random: &mut Random) -> u64 {
        match self {
            Clocks::Near => 100 + random.below(4) as u64,
            Clocks::Apart => random.below(500) as u64,
            Clocks::Wide => random.any_size(),
            Clocks::Last => {
                let before = random.pick(&[40, 4_000, 24_000]);
                u64::MAX - random.below(before) as u64
            }
            Clocks::Border => {
                let apart = random.pick(&[40, 4_000, 24_000]);
                BORDER + random.below(apart) as u64 - random.below(apart) as u64
            }
            Clocks::Weeks => weeks(random),
            Clocks::LastWeeks => u64::MAX - weeks(random),
        }
    }

    /// The last time at which a message of this deadline has not lapsed or, where clocks are so far
    /// apart, at which it is far ahead; or the second after it.
    pub fn edge(self, deadline: u64, random: &mut Random) -> u64 {
        let far = matches!(self, Clocks::Wide | Clocks::Weeks | Clocks::LastWeeks);
        let last = match far && random.chance(50) {
            true => deadline.saturating_sub(FARTHEST_AHEAD + 1),
            false => deadline,
        };
        last.saturating_add(random.below(2) as u64)
    }

    /// How far ahead an edge may be to be set as a time.
    pub fn near(self) -> u64 {
        match self {
            Clocks::Near => 20,
            Clocks::Apart => 7_500,
            Clocks::Wide => u64::MAX,
            Clocks::Last | Clocks::Border | Clocks::Weeks | Clocks::LastWeeks => 24_000,
        }
    }
}

/// How long messages live.
#[derive(Clone, Copy)]
pub enum Lifetimes {
    Short,
    Default,
    Any,
}

impl Lifetimes {
    pub fn any(self, random: &mut Random) -> u16 {
        match self {
            Lifetimes::Short => random.between(1, 25) as u16,
            Lifetimes::Default => 0,
            Lifetimes::Any => match random.below(8) {
                0 => 0,
                1 => 1,
                2 => random.next() as u16,
                3 => random.pick(&[BEACON_LIFETIME, DEFAULT_LIFETIME]),
                _ => random.below(300) as u16,
            },
        }
    }
}

/// Of which make the panels are.
#[derive(Clone, Copy)]
pub enum Makes {
    AllNew,
    OneNew,
    Half,
    Any,
}

/// In which order frames are passed on.
#[derive(Clone, Copy)]
pub enum Order {
    Any,
    OldestFirst,
    NewestFirst,
}

impl Order {
    /// Puts frames, which are numbered as they were sent, in this order.
    pub fn arrange(self, frames: &mut [usize], random: &mut Random) {
        match self {
            Order::Any => random.shuffle(frames),
            Order::OldestFirst => frames.sort_unstable(),
            Order::NewestFirst => frames.sort_unstable_by(|one, other| other.cmp(one)),
        }
    }
}

#[derive(Clone, Copy)]
pub struct Plan {
    pub panels: usize,
    pub makes: Makes,
    /// How many steps in a hundred begin with a panel that is brought to the other make.
    pub brought: usize,
    /// How many panels in a hundred keep no floor.
    pub no_floor: usize,
    /// The panels that are of the new make, or may come to be, have shadows.
    pub shadows: bool,
    pub calls: u64,
    /// The list keeps to the condition of demand 3: frames received were sent in the list, or are
    /// refused.
    pub lawful: bool,
    /// The claims are checked: in lawful lists, but for those with arrivals.
    pub claims: bool,
    /// After how many calls in a hundred frames are received in two orders, beside the list.
    pub arrivals: usize,
    pub clocks: Clocks,
    pub clock_step: usize,
    /// How many clock calls in a hundred jump ahead.
    pub jumps: usize,
    /// How many clocks in a hundred are set to a wrong year as they are read. If there are none, no
    /// set back of the list lowers a time.
    pub wrong_years: usize,
    pub lifetimes: Lifetimes,
    /// How many sends in a hundred are beacons.
    pub beacons: usize,
    /// How many frames in a hundred come in version 1, where that has room for them.
    pub version_1: usize,
    pub order: Order,
    /// How many frames in a hundred are lost at a contact.
    pub lost: usize,
    /// How many frames in a hundred come twice, one directly after the other.
    pub twice: usize,
    pub most_passed: usize,
    /// The last panel gets no frames of the first one in the first half of the list.
    pub held_back: bool,
    /// How often, one against the other: send, contact, clock, odd call, forged frame.
    pub often: [usize; 5],
}

/// How many panels a farm has.
fn panels(random: &mut Random) -> usize {
    match random.below(4) {
        0 => 2,
        1 => random.between(3, 5),
        2 => random.between(6, 16),
        _ => random.between(17, 64),
    }
}

/// How many calls a list has.
fn calls(random: &mut Random) -> u64 {
    let (least, most) = match random.below(8) {
        0 | 1 => (10, 60),
        2..=4 => (100, 500),
        5 | 6 => (600, 1500),
        _ => (2000, 4000),
    };
    random.between(least, most) as u64
}

/// The clocks of farms, each as likely as the others.
const CLOCKS: [Clocks; 10] = [
    Clocks::Near,
    Clocks::Near,
    Clocks::Apart,
    Clocks::Apart,
    Clocks::Wide,
    Clocks::Last,
    Clocks::Border,
    Clocks::Border,
    Clocks::Weeks,
    Clocks::LastWeeks,
];
/// The same of farms in which messages spread or fill the lists.
const TOGETHER: [Clocks; 5] = [
    Clocks::Near,
    Clocks::Apart,
    Clocks::Wide,
    Clocks::Border,
    Clocks::Weeks,
];

impl Plan {
    pub fn any(random: &mut Random, lawful: bool) -> Plan {
        use Makes::{AllNew, Half, OneNew};
        use Order::{Any, NewestFirst, OldestFirst};
        let mut plan = Plan {
            panels: panels(random),
            makes: random.pick(&[AllNew, AllNew, AllNew, OneNew, Half, Makes::Any]),
            brought: random.pick(&[0, 0, 3]),
            no_floor: random.pick(&[0, 0, 50]),
            shadows: random.chance(20),
            calls: calls(random),
            lawful,
            claims: lawful,
            arrivals: 0,
            clocks: random.pick(&CLOCKS),
            clock_step: random.pick(&[0, 1, 3, 30]),
            jumps: random.pick(&[0, 0, 0, 2]),
            wrong_years: random.pick(&[0, 0, 20, 60]),
            lifetimes: random.pick(&[Lifetimes::Short, Lifetimes::Default, Lifetimes::Any]),
            beacons: random.pick(&[0, 0, 10, 50]),
            version_1: random.pick(&[0, 30, 60, 100]),
            order: random.pick(&[Any, Any, OldestFirst, NewestFirst]),
            lost: random.pick(&[0, 5, 30]),
            twice: random.pick(&[0, 0, 10, 30]),
            most_passed: random.pick(&[2, 8, 50]),
            held_back: random.chance(25),
            often: [30, 30, 15, 10, 0],
        };
        match random.below(5) {
            0 => plan.fills_up(random),
            1 => plan.spreads(random),
            _ => {}
        }
        if !lawful {
            plan.forges(random);
        }
        if matches!(plan.makes, AllNew) {
            plan.brought = 0;
        }
        plan.shadows |= plan.brought > 0 && random.chance(50);
        plan
    }

    /// A list of demand 3 beside which frames are received in two orders, and that alone is checked.
    /// It is short, so that there are many.
    pub fn with_arrivals(random: &mut Random) -> Plan {
        let plan = Plan::any(random, true);
        Plan {
            calls: plan.calls.min(500),
            claims: false,
            shadows: false,
            arrivals: 10,
            ..plan
        }
    }

    /// What each of the panels is.
    pub fn kinds(&self, random: &mut Random) -> Vec<Kind> {
        let new = match self.makes {
            Makes::AllNew => self.panels,
            Makes::OneNew => 1,
            Makes::Half => self.panels / 2,
            Makes::Any => random.below(self.panels + 1),
        };
        let rule = match self.lawful {
            true => Rule::SameOrRemoved,
            false => Rule::AtMost,
        };
        let kind = |make, shadow: bool| Kind {
            make,
            keeps_floor: true,
            shadow: shadow.then_some(rule),
        };
        let mut kinds = vec![kind(Make::New, self.shadows); new];
        let old = kind(Make::Old, self.shadows && self.brought > 0);
        kinds.resize(self.panels, old);
        for kind in &mut kinds {
            if random.chance(self.no_floor) {
                (kind.keeps_floor, kind.shadow) = (false, None);
            }
        }
        random.shuffle(&mut kinds);
        kinds
    }

    /// A set back with a reading of any kind, at this time.
    pub fn odd_set_back(&self, time: u64, random: &mut Random) -> u64 {
        let change = random.any_size();
        match random.below(4) {
            0 => time,
            1 => random.pick(&[time.saturating_add(1), u64::MAX]),
            2 if self.wrong_years > 0 => time.saturating_sub(random.pick(&[1, 5, change])),
            _ => time.saturating_add(change),
        }
    }

    /// A list with forged frames. The claims are not checked there: panels of the old make have a
    /// part in it only as they are brought to the new make, beside their shadows, and panels that
    /// keep no floor have none.
    fn forges(&mut self, random: &mut Random) {
        self.no_floor = 0;
        (self.makes, self.brought) = match random.chance(25) {
            true => (Makes::Half, 3),
            false => (Makes::AllNew, 0),
        };
        self.shadows = self.brought > 0 || random.chance(30);
        self.often[4] = random.pick(&[20, 100]);
    }

    /// A list in which messages spread: panels meet often and send rarely, so that a message is
    /// handed at many panels before they send, and barriers grow long.
    fn spreads(&mut self, random: &mut Random) {
        self.panels = random.between(3, 12);
        self.shadows = random.chance(60);
        self.calls = self.calls.max(200);
        self.clocks = random.pick(&TOGETHER);
        self.clock_step = random.pick(&[1, 3]);
        self.wrong_years = random.pick(&[0, 40, 80]);
        self.lost = random.pick(&[0, 5, 30]);
        self.twice = random.pick(&[10, 30, 50]);
        self.most_passed = random.pick(&[8, 50]);
        self.often = [15, 60, 10, 5, 0];
    }

    /// A list in which many messages wait: few panels send much and meet rarely, and pass the
    /// newest frames on first.
    fn fills_up(&mut self, random: &mut Random) {
        self.panels = random.between(2, 6);
        self.calls = self.calls.max(200);
        self.clocks = random.pick(&TOGETHER);
        self.clock_step = 1;
        self.lifetimes = random.pick(&[Lifetimes::Default, Lifetimes::Any]);
        self.order = Order::NewestFirst;
        self.lost = random.pick(&[0, 10]);
        self.most_passed = 60;
        self.often = [80, 4, 4, 4, 0];
    }
}
