//! The refusal numbers and their places.

pub const SHORT: u32 = 1;
pub const VERSION: u32 = 2;
pub const TYPE: u32 = 3;
pub const LENGTH: u32 = 4;
pub const CUT: u32 = 5;
pub const TIME: u32 = 6;
pub const OPTION: u32 = 7;
pub const FRAGMENT: u32 = 8;
pub const STANDARD: u32 = 9;
pub const PACKAGE: u32 = 10;
pub const ROW: u32 = 11;
pub const LARGE: u32 = 12;
pub const ROOM: u32 = 13;
pub const MARKER: u32 = 14;
pub const BLOCKS: u32 = 15;
pub const TEXT: u32 = 16;
/// In the order of checks it stands directly after PACKAGE.
pub const COUNT: u32 = 17;
pub const CAPTURE: u32 = 18;
pub const RADIO: u32 = 19;
/// It stands first of all for a state, and before ROOM for a 65th id.
pub const IDS: u32 = 20;
/// In joining it stands in the place of FRAGMENT.
pub const GAP: u32 = 21;
pub const HOLES: u32 = 22;

/// Every refusal number is below this; 0 is success.
pub const NUMBERS: usize = 23;

/// The refusal numbers and their names.
pub const NAMES: [(u32, &str); 22] = [
    (SHORT, "SHORT"),
    (VERSION, "VERSION"),
    (TYPE, "TYPE"),
    (LENGTH, "LENGTH"),
    (CUT, "CUT"),
    (TIME, "TIME"),
    (OPTION, "OPTION"),
    (FRAGMENT, "FRAGMENT"),
    (STANDARD, "STANDARD"),
    (PACKAGE, "PACKAGE"),
    (ROW, "ROW"),
    (LARGE, "LARGE"),
    (ROOM, "ROOM"),
    (MARKER, "MARKER"),
    (BLOCKS, "BLOCKS"),
    (TEXT, "TEXT"),
    (COUNT, "COUNT"),
    (CAPTURE, "CAPTURE"),
    (RADIO, "RADIO"),
    (IDS, "IDS"),
    (GAP, "GAP"),
    (HOLES, "HOLES"),
];

/// Every input, sheets apart, has at most so many bytes.
pub const MOST_BYTES: usize = 65_536;

/// A refusal: its number and its place.
#[derive(Clone, Copy, Debug, PartialEq, Eq)]
pub struct Refusal {
    pub number: u32,
    pub place: usize,
}

pub fn refuse<T>(number: u32, place: usize) -> Result<T, Refusal> {
    Err(Refusal { number, place })
}

/// Refuses with this number and place unless the rule holds.
pub fn ask(rule: bool, number: u32, place: usize) -> Result<(), Refusal> {
    if rule {
        Ok(())
    } else {
        refuse(number, place)
    }
}

pub fn ask_not_large(length: usize) -> Result<(), Refusal> {
    ask(length <= MOST_BYTES, LARGE, MOST_BYTES)
}
