//! What is timed: recordings, messages and sheets of which half is granted.

use second::dice::Dice;
use second::generate::{DirtyMessage, DirtyPackage};
use second::orders::pack_sheet;
use second::sheet::Row;

pub const SIZES: [usize; 3] = [4_096, 16_384, 65_536];

/// The package ids; a sheet grants the first alone.
pub const GRANTED: u32 = 1;
const WITHHELD: u32 = 2;

/// So many message ids has a recording of many.
pub const MANY_IDS: u32 = 16;

/// What a recording is made of.
#[derive(Clone, Copy)]
pub enum Shape {
    /// Messages of four packages with 40 to 120 data bytes.
    Typical,
    /// Messages of one package without data.
    Small,
}

pub const SHAPES: [Shape; 2] = [Shape::Typical, Shape::Small];

impl Shape {
    pub fn name(self) -> &'static str {
        match self {
            Shape::Typical => "typical",
            Shape::Small => "small",
        }
    }
}

/// How the copy's recording and sheet are made; half of the packages are granted.
#[derive(Clone, Copy)]
pub enum Kind {
    OneId,
    ManyIds,
    LastOf32Rows,
    NewIdEach,
}

pub const KINDS: [Kind; 4] = [Kind::OneId, Kind::ManyIds, Kind::LastOf32Rows, Kind::NewIdEach];

impl Kind {
    pub fn name(self) -> &'static str {
        match self {
            Kind::OneId => "one id",
            Kind::ManyIds => "16 ids",
            Kind::LastOf32Rows => "last of 32 rows",
            Kind::NewIdEach => "each message a new id",
        }
    }
}

fn package(dice: &mut Dice, shape: Shape, id: u32) -> DirtyPackage {
    let data = match shape {
        Shape::Typical => dice.some_bytes(40, 120),
        Shape::Small => Vec::new(),
    };
    let padding = [dice.byte(), dice.byte(), dice.byte()];
    DirtyPackage { id, status: dice.byte(), delta: 1_000, data, reserved: dice.byte(), padding }
}

fn message(dice: &mut Dice, message_id: u32, packages: Vec<DirtyPackage>) -> DirtyMessage {
    DirtyMessage {
        reserved_nibble: dice.byte() & 15,
        reserved_flags: dice.byte(),
        flags: dice.byte() & 0x4F,
        message_id,
        sequence: dice.word(),
        seconds: 100,
        nanoseconds: 0,
        options: Vec::new(),
        behind_options: Vec::new(),
        packages,
        tail: Vec::new(),
    }
}

/// A recording of at most `size` bytes; every second package is granted.
pub fn recording(shape: Shape, kind: Kind, size: usize) -> Vec<u8> {
    let dice = &mut Dice::new(7, size as u64);
    let mut bytes = Vec::new();
    for number in 0_u32.. {
        let message_id = match kind {
            Kind::OneId | Kind::LastOf32Rows => 7,
            Kind::ManyIds => number.wrapping_mul(5) % MANY_IDS,
            Kind::NewIdEach => number,
        };
        let ids = match shape {
            Shape::Typical => vec![GRANTED, WITHHELD, GRANTED, WITHHELD],
            Shape::Small => vec![if number.is_multiple_of(2) { GRANTED } else { WITHHELD }],
        };
        let packages = ids.into_iter().map(|id| package(dice, shape, id)).collect();
        let end = bytes.len();
        message(dice, message_id, packages).lay(&mut bytes);
        if bytes.len() > size {
            bytes.truncate(end);
            break;
        }
    }
    bytes
}

/// One message of nearly `size` bytes.
pub fn long_message(shape: Shape, size: usize) -> Vec<u8> {
    let dice = &mut Dice::new(8, size as u64);
    let mut packages = Vec::new();
    let mut length = 24;
    loop {
        let next = package(dice, shape, GRANTED);
        length += 12 + next.data.len().div_ceil(4) * 4;
        if length > size {
            return message(dice, 7, packages).laid();
        }
        packages.push(next);
    }
}

/// The row that grants the packages of an id, of every message.
pub fn row_for(id: u32) -> Row {
    Row {
        message_last: u32::MAX,
        package_first: id,
        package_last: id,
        end_seconds: 200,
        ..Row::default()
    }
}

/// A sheet that grants the packages of one id, of every message.
pub fn sheet(kind: Kind) -> Vec<u8> {
    let mut rows = Vec::new();
    if let Kind::LastOf32Rows = kind {
        rows.extend((100..131).map(row_for));
    }
    rows.push(row_for(GRANTED));
    pack_sheet(&rows)
}
