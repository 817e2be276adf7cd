//! A call of a service, and what a program tells of it: the same form for every program.
use std::hint::black_box;

/// The services, by the words of the command line.
pub const SERVICES: [&str; 9] = ["check", "steps", "name", "run", "thin", "merge", "quote", "sheet", "board"];

/// What is lent for a sheet or a quotation, and for steps. Both always suffice.
pub const SHEET: usize = 32_768;
pub const STEPS: usize = 1024;

/// A service, with what it is passed beside the text or the sheet.
pub enum Service {
    /// So many of the bytes that are lent for a sheet.
    Check(usize),
    Steps,
    Name(usize),
    Run(Vec<u8>),
    Thin,
    Merge,
    Quote,
    /// So many of the bytes that are lent for a sheet.
    Sheet(usize),
    /// Names, each ended by byte 10.
    Board(Vec<u8>),
}

impl Service {
    pub fn word(&self) -> &'static str {
        SERVICES[match self {
            Service::Check(_) => 0,
            Service::Steps => 1,
            Service::Name(_) => 2,
            Service::Run(_) => 3,
            Service::Thin => 4,
            Service::Merge => 5,
            Service::Quote => 6,
            Service::Sheet(_) => 7,
            Service::Board(_) => 8,
        }]
    }
}

/// On a text, or on a sheet.
pub struct Call {
    pub text: Vec<u8>,
    pub service: Service,
}

#[derive(PartialEq)]
pub enum Told {
    Refused([usize; 3]),
    /// A sheet or a quotation.
    Written(Vec<u8>),
    /// From-state, event, to-state of each.
    Steps(Vec<[u8; 3]>),
    Name(Vec<u8>),
    /// How many ran and the machine that blocked, if one did; the place of each machine.
    Ran(Option<(usize, usize)>, [u8; 16]),
    /// The machines that are kept, bit i for machine i, and how many they are.
    Kept(usize, usize),
}

/// One of those that are compared. What it lends for output it lends once, and does not clear between calls.
pub trait Program {
    /// None if it has no such service.
    fn tell(&mut self, call: &Call) -> Option<Told>;

    /// So many calls, one after another.
    fn repeat(&mut self, call: &Call, rounds: usize);
}

/// The proved library, the peer and the independent program, at these positions.
pub type Programs = [Box<dyn Program>; 3];
pub const PROVED: usize = 0;
pub const PEER: usize = 1;
pub const INDEPENDENT: usize = 2;

/// The service is told apart outside of this loop, so that a call is all that is in it.
pub fn again<T>(rounds: usize, mut call: impl FnMut() -> T) {
    for _ in 0..rounds {
        black_box(call());
    }
}
