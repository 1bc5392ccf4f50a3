//! What a settling run tells.

use core::fmt::{self, Display, Formatter};

/// How a settling run ended. `Display` is the word that a sheet prints.
#[derive(Clone, Copy, Debug, PartialEq, Eq, Hash)]
pub enum Ending {
    /// At rest: no message waits, and no answer could be given.
    Rest,
    /// Held up: everything else.
    Held,
    /// [`MOST_STEPS`](crate::MOST_STEPS) were done, and a further step would be.
    Budget,
}

impl Ending {
    pub(crate) fn of_number(number: u16) -> Ending {
        match number {
            0 => Ending::Rest,
            1 => Ending::Held,
            _ => Ending::Budget,
        }
    }
}

impl Display for Ending {
    fn fmt(&self, f: &mut Formatter<'_>) -> fmt::Result {
        f.pad(match self {
            Ending::Rest => "rest",
            Ending::Held => "held",
            Ending::Budget => "budget",
        })
    }
}

/// What a settling run did ([`System::settle`](crate::System::settle)).
#[derive(Clone, Copy, Debug, PartialEq, Eq, Hash)]
pub struct Settling {
    /// How many steps were done.
    pub steps: u16,
    /// How it ended.
    pub ending: Ending,
}
