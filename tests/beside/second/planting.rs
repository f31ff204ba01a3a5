//! How faults are declared, and planted: a thread switches one on for itself; without that there is
//! none.

use super::faults::Fault;
use std::cell::Cell;

/// Declares the faults, each with its words.
macro_rules! declare {
    ($($name:ident: $words:literal,)*) => {
        #[derive(Clone, Copy, Debug, PartialEq, Eq)]
        pub enum Fault {
            $($name,)*
        }

        pub const FAULTS: &[Fault] = &[$(Fault::$name,)*];

        impl Fault {
            /// What the second implementation does wrong.
            pub fn words(self) -> &'static str {
                match self {
                    $(Fault::$name => $words,)*
                }
            }
        }
    };
}

pub(super) use declare;

thread_local! {
    static PLANTED: Cell<Option<Fault>> = const { Cell::new(None) };
}

/// Switches this fault on for the thread, and any other off.
pub fn plant(fault: Option<Fault>) {
    PLANTED.set(fault);
}

/// The fault that is switched on.
pub fn which() -> Option<Fault> {
    PLANTED.get()
}

/// Whether this fault is switched on.
pub fn planted(fault: Fault) -> bool {
    which() == Some(fault)
}

/// The two numbers that a planted fault has exchanged in the order of the checks. The second is
/// looked for behind the first.
pub fn exchanged() -> Option<(u8, u8)> {
    match which()? {
        Fault::ShortBeforeBroken => Some((26, 10)),
        Fault::LongPayloadBeforeShort => Some((10, 9)),
        Fault::TooHighBeforeLongPayload => Some((9, 24)),
        Fault::LapsedBeforeOwnSource => Some((20, 21)),
        Fault::HadBeforeLapsed => Some((21, 22)),
        Fault::FullBeforeHad => Some((22, 23)),
        Fault::ClockBackBeforeShort => Some((10, 25)),
        Fault::VersionBeforeMark => Some((2, 3)),
        Fault::ShortOfTwoBeforeVersion => Some((3, 1)),
        Fault::SourceBeforeVersion => Some((3, 4)),
        Fault::ShortOfTwoAfterSource => Some((1, 4)),
        Fault::DeadlineBeforeSource => Some((4, 5)),
        Fault::EntriesShortBeforeDeadline => Some((5, 1)),
        Fault::PayloadLengthBeforeEntries => Some((6, 7)),
        Fault::PayloadShortBeforeLength => Some((7, 1)),
        _ => None,
    }
}
