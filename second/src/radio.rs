//! RF network messages: read into records, written from records, and the rows
//! of doubles that a link metric becomes.
//!
//! Each TLV is a row of fields of so many bits, as its table in Chapter 24 has
//! them; one pair of functions cuts and joins the fields of all four.

use crate::refusal::*;

/// Length, destination, source and sequence number.
pub const RADIO_HEADER_BYTES: usize = 10;
/// The length field does not count itself.
pub const LENGTH_FIELD_BYTES: usize = 2;
pub const MOST_SUBSECONDS: u32 = 999_999;
pub const MOST_SECONDS: u8 = 63;
/// What the TxOp byte must be.
pub const TXOP_BYTE: u64 = 0x80;

pub const TXOP: u8 = 1;
pub const HEARTBEAT: u8 = 5;
pub const LINK_METRIC: u8 = 6;
pub const TE_QUEUES: u8 = 10;

/// A TLV's length in bytes, and the widths of its fields in bits, type and length included.
fn table(kind: u8) -> Option<(usize, &'static [usize])> {
    match kind {
        // Frequency, the TxOp byte, id, timeout, start, stop.
        TXOP => Some((13, &[8, 8, 16, 8, 16, 8, 20, 20])),
        // Timeout.
        HEARTBEAT => Some((4, &[8, 8, 16])),
        // Reserved, seconds, microseconds, frequency, RSSI, CINR, error rate.
        LINK_METRIC => Some((11, &[8, 8, 6, 6, 20, 16, 8, 8, 8])),
        // Reserved, seconds, reserved, sub-seconds, MSLPID, version, levels.
        TE_QUEUES => Some((27, &[8, 8, 2, 6, 4, 20, 32, 8, 16, 16, 16, 16, 16, 16, 16, 16])),
        _ => None,
    }
}

/// A TLV has at most so many fields.
const MOST_WIDTHS: usize = 16;

/// The fields of a TLV in the order of its table, and zeros behind them.
type Fields = [u64; MOST_WIDTHS];

/// The widths of the header's fields.
const HEADER_WIDTHS: [usize; 4] = [16, 16, 16, 32];

/// How many fields are told of a TLV at most.
pub const MOST_FIELDS: usize = 11;

/// The widths in bits of the fields that are told of a TLV, as they are handed over.
pub fn handed_widths(kind: u32) -> Option<&'static [usize]> {
    match u8::try_from(kind).ok()? {
        TXOP => Some(&[16, 16, 8, 32, 32]),
        HEARTBEAT => Some(&[16]),
        LINK_METRIC => Some(&[8, 32, 16, 8, 8, 8]),
        TE_QUEUES => Some(&[8, 32, 32, 16, 16, 16, 16, 16, 16, 16, 16]),
        _ => None,
    }
}

/// One TLV of an RF network message.
#[derive(Clone, Copy, Debug, PartialEq, Eq)]
pub enum Tlv {
    TxOp(TxOp),
    Heartbeat { timeout: u16 },
    LinkMetric(LinkMetric),
    TeQueues(TeQueues),
}

#[derive(Clone, Copy, Debug, PartialEq, Eq)]
pub struct TxOp {
    /// In units of 250 kHz.
    pub frequency: u16,
    pub id: u16,
    pub timeout: u8,
    pub start: u32,
    pub stop: u32,
}

#[derive(Clone, Copy, Debug, PartialEq, Eq)]
pub struct LinkMetric {
    pub seconds: u8,
    pub microseconds: u32,
    /// In units of 250 kHz.
    pub frequency: u16,
    pub rssi: i8,
    pub cinr: i8,
    /// In units of 1/256.
    pub error_rate: u8,
}

#[derive(Clone, Copy, Debug, PartialEq, Eq)]
pub struct TeQueues {
    pub seconds: u8,
    pub subseconds: u32,
    pub mslpid: u32,
    pub levels: [u16; 8],
}

/// An RF network message.
#[derive(Clone, Debug, PartialEq, Eq)]
pub struct RadioMessage {
    pub destination: u16,
    pub source: u16,
    pub sequence: u32,
    pub tlvs: Vec<Tlv>,
}

/// A reading of a link metric.
#[derive(Clone, Copy, Debug, PartialEq)]
pub enum Measured {
    Missing,
    Level(f64),
    Rate(f64),
}

/// What the plotting tool takes.
#[derive(Clone, Copy, Debug, PartialEq)]
pub struct PlotRow {
    pub megahertz: f64,
    pub rssi: Measured,
    pub cinr: Measured,
    pub error_rate: Measured,
}

/// The bytes of a run as fields of these widths, of at most 32 bits each; the first bit
/// is the highest.
fn cut_fields(bytes: &[u8], widths: &[usize]) -> Fields {
    let mut fields = [0; MOST_WIDTHS];
    let mut bytes = bytes.iter();
    // The lowest `left` bits are in no field yet.
    let (mut held, mut left) = (0_u64, 0);
    for (field, width) in fields.iter_mut().zip(widths) {
        while left < *width {
            held = held << 8 | u64::from(*bytes.next().unwrap());
            left += 8;
        }
        left -= width;
        *field = held >> left & ((1 << width) - 1);
    }
    fields
}

/// Puts good fields of these widths behind the bytes; together they are whole bytes.
fn join_fields(fields: &[u64], widths: &[usize], bytes: &mut Vec<u8>) {
    // The lowest `left` bits are in no byte yet.
    let (mut held, mut left) = (0_u64, 0);
    for (field, width) in fields.iter().zip(widths) {
        held = held << width | field;
        left += width;
        while left >= 8 {
            left -= 8;
            bytes.push((held >> left) as u8);
        }
    }
}

impl Tlv {
    pub fn kind(&self) -> u8 {
        match self {
            Tlv::TxOp(_) => TXOP,
            Tlv::Heartbeat { .. } => HEARTBEAT,
            Tlv::LinkMetric(_) => LINK_METRIC,
            Tlv::TeQueues(_) => TE_QUEUES,
        }
    }

    /// The length and the widths of the TLV's type.
    fn table(&self) -> (usize, &'static [usize]) {
        table(self.kind()).expect("every type has a table")
    }

    /// The TLV's length in bytes: that of all its fields.
    pub fn length(&self) -> usize {
        self.table().0
    }

    /// May these numbers stand in a TLV?
    pub fn is_good(&self) -> bool {
        match self {
            Tlv::TxOp(txop) => txop.start <= MOST_SUBSECONDS && txop.stop <= MOST_SUBSECONDS,
            Tlv::Heartbeat { .. } => true,
            Tlv::LinkMetric(metric) => is_time(metric.seconds, metric.microseconds),
            Tlv::TeQueues(queues) => is_time(queues.seconds, queues.subseconds),
        }
    }

    /// The fields that are told of a TLV, in the order of its table: all behind type and
    /// length but the reserved ones, the TxOp byte and the version. RSSI and CINR are
    /// told as their bytes.
    pub fn told(&self) -> Vec<u64> {
        match *self {
            Tlv::TxOp(TxOp { frequency, id, timeout, start, stop }) => {
                vec![frequency.into(), id.into(), timeout.into(), start.into(), stop.into()]
            }
            Tlv::Heartbeat { timeout } => vec![timeout.into()],
            Tlv::LinkMetric(metric) => vec![
                metric.seconds.into(),
                metric.microseconds.into(),
                metric.frequency.into(),
                (metric.rssi as u8).into(),
                (metric.cinr as u8).into(),
                metric.error_rate.into(),
            ],
            Tlv::TeQueues(TeQueues { seconds, subseconds, mslpid, levels }) => {
                let mut fields = vec![seconds.into(), subseconds.into(), mslpid.into()];
                fields.extend(levels.map(u64::from));
                fields
            }
        }
    }

    /// The TLV of which these fields are told, good or not, if each fits its width. Fields
    /// behind the type's own are not looked at.
    pub fn of(kind: u32, fields: &[u64; MOST_FIELDS]) -> Option<Tlv> {
        let widths = handed_widths(kind)?;
        if fields.iter().zip(widths).any(|(field, width)| field >> width != 0) {
            return None;
        }
        Some(match kind as u8 {
            TXOP => Tlv::TxOp(TxOp {
                frequency: fields[0] as u16,
                id: fields[1] as u16,
                timeout: fields[2] as u8,
                start: fields[3] as u32,
                stop: fields[4] as u32,
            }),
            HEARTBEAT => Tlv::Heartbeat { timeout: fields[0] as u16 },
            LINK_METRIC => Tlv::LinkMetric(LinkMetric {
                seconds: fields[0] as u8,
                microseconds: fields[1] as u32,
                frequency: fields[2] as u16,
                rssi: fields[3] as u8 as i8,
                cinr: fields[4] as u8 as i8,
                error_rate: fields[5] as u8,
            }),
            _ => Tlv::TeQueues(TeQueues {
                seconds: fields[0] as u8,
                subseconds: fields[1] as u32,
                mslpid: fields[2] as u32,
                levels: std::array::from_fn(|class| fields[3 + class] as u16),
            }),
        })
    }

    /// All fields. Reserved ones and the version of a TE report are zero.
    fn fields(&self) -> Fields {
        let mut fields = [0; MOST_WIDTHS];
        fields[0] = self.kind().into();
        fields[1] = self.length() as u64;
        match self {
            Tlv::TxOp(txop) => {
                fields[2] = txop.frequency.into();
                fields[3] = TXOP_BYTE;
                fields[4] = txop.id.into();
                fields[5] = txop.timeout.into();
                fields[6] = txop.start.into();
                fields[7] = txop.stop.into();
            }
            Tlv::Heartbeat { timeout } => fields[2] = (*timeout).into(),
            Tlv::LinkMetric(metric) => {
                fields[3] = metric.seconds.into();
                fields[4] = metric.microseconds.into();
                fields[5] = metric.frequency.into();
                fields[6] = (metric.rssi as u8).into();
                fields[7] = (metric.cinr as u8).into();
                fields[8] = metric.error_rate.into();
            }
            Tlv::TeQueues(queues) => {
                fields[3] = queues.seconds.into();
                fields[5] = queues.subseconds.into();
                fields[6] = queues.mslpid.into();
                fields[8..].copy_from_slice(&queues.levels.map(u64::from));
            }
        }
        fields
    }

    /// Puts the TLV, whose numbers are good, behind the bytes.
    fn lay(&self, bytes: &mut Vec<u8>) {
        join_fields(&self.fields(), self.table().1, bytes);
    }
}

fn is_time(seconds: u8, subseconds: u32) -> bool {
    seconds <= MOST_SECONDS && subseconds <= MOST_SUBSECONDS
}

/// The TLV at the start of these bytes, if it keeps the rules.
pub fn tlv_at(left: &[u8]) -> Option<Tlv> {
    let (length, widths) = table(*left.first()?)?;
    if usize::from(*left.get(1)?) != length {
        return None;
    }
    let fields = cut_fields(left.get(..length)?, widths);
    let tlv = match fields[0] as u8 {
        TXOP if fields[3] == TXOP_BYTE => Tlv::TxOp(TxOp {
            frequency: fields[2] as u16,
            id: fields[4] as u16,
            timeout: fields[5] as u8,
            start: fields[6] as u32,
            stop: fields[7] as u32,
        }),
        HEARTBEAT => Tlv::Heartbeat { timeout: fields[2] as u16 },
        LINK_METRIC => Tlv::LinkMetric(LinkMetric {
            seconds: fields[3] as u8,
            microseconds: fields[4] as u32,
            frequency: fields[5] as u16,
            rssi: fields[6] as u8 as i8,
            cinr: fields[7] as u8 as i8,
            error_rate: fields[8] as u8,
        }),
        // The version of a TE report is 0.
        TE_QUEUES if fields[7] == 0 => Tlv::TeQueues(TeQueues {
            seconds: fields[3] as u8,
            subseconds: fields[5] as u32,
            mslpid: fields[6] as u32,
            levels: std::array::from_fn(|class| fields[8 + class] as u16),
        }),
        _ => return None,
    };
    tlv.is_good().then_some(tlv)
}

/// All TLVs of a run; the error is the place of the first bad one.
pub fn tlvs_of(run: &[u8]) -> Result<Vec<Tlv>, usize> {
    let mut tlvs = Vec::new();
    let mut at = 0;
    while at < run.len() {
        let tlv = tlv_at(&run[at..]).ok_or(at)?;
        at += tlv.length();
        tlvs.push(tlv);
    }
    Ok(tlvs)
}

/// Reads an RF network message: LARGE, RADIO at the header, RADIO at the first
/// bad TLV.
pub fn read_radio(input: &[u8]) -> Result<RadioMessage, Refusal> {
    ask_not_large(input.len())?;
    ask(input.len() >= RADIO_HEADER_BYTES, RADIO, 0)?;
    let header = cut_fields(&input[..RADIO_HEADER_BYTES], &HEADER_WIDTHS);
    // The message ends where the input does, and it has a payload.
    ask(LENGTH_FIELD_BYTES + header[0] as usize == input.len(), RADIO, 0)?;
    ask(input.len() > RADIO_HEADER_BYTES, RADIO, 0)?;
    let tlvs = match tlvs_of(&input[RADIO_HEADER_BYTES..]) {
        Ok(tlvs) => tlvs,
        Err(bad) => return refuse(RADIO, RADIO_HEADER_BYTES + bad),
    };
    Ok(RadioMessage {
        destination: header[1] as u16,
        source: header[2] as u16,
        sequence: header[3] as u32,
        tlvs,
    })
}

/// One step over the TLVs of a message: a TLV, or nothing at the message's end.
pub fn tlv_step(message: &[u8], at: usize) -> Result<Option<Tlv>, Refusal> {
    ask_not_large(message.len())?;
    if at >= message.len() {
        return Ok(None);
    }
    match tlv_at(&message[at..]) {
        Some(tlv) => Ok(Some(tlv)),
        None => refuse(RADIO, at),
    }
}

/// Puts one TLV at this place of the buffer and reports its length: RADIO for a type or a
/// width, LARGE, RADIO for a number that may not stand in it, ROOM.
pub fn put_tlv(
    kind: u32,
    fields: &[u64; MOST_FIELDS],
    buffer: &mut [u8],
    at: usize,
) -> Result<usize, Refusal> {
    let Some(tlv) = Tlv::of(kind, fields) else {
        return refuse(RADIO, at);
    };
    let length = tlv.length();
    // A sum above every number is above 65,536.
    let end = at.saturating_add(length);
    ask_not_large(end)?;
    ask(tlv.is_good(), RADIO, at)?;
    ask(end <= buffer.len(), ROOM, end)?;
    let mut bytes = Vec::with_capacity(length);
    tlv.lay(&mut bytes);
    buffer[at..end].copy_from_slice(&bytes);
    Ok(length)
}

/// Writes an RF network message with this header from a run of TLVs: LARGE, RADIO at 0
/// for an empty run, RADIO at the place where the first bad TLV would stand, ROOM.
pub fn write_run(
    (destination, source, sequence): (u16, u16, u32),
    run: &[u8],
    buffer: &mut [u8],
) -> Result<usize, Refusal> {
    ask_not_large(run.len().saturating_add(RADIO_HEADER_BYTES))?;
    match tlvs_of(run) {
        Ok(tlvs) => write_radio(&RadioMessage { destination, source, sequence, tlvs }, buffer),
        Err(bad) => refuse(RADIO, RADIO_HEADER_BYTES + bad),
    }
}

/// Writes an RF network message: LARGE, RADIO at the place where the first bad
/// TLV would stand, ROOM. Reports the bytes written.
pub fn write_radio(message: &RadioMessage, buffer: &mut [u8]) -> Result<usize, Refusal> {
    let payload: usize = message.tlvs.iter().map(Tlv::length).sum();
    let length = RADIO_HEADER_BYTES + payload;
    ask_not_large(length)?;
    // A message without a payload is bad at its header.
    ask(payload > 0, RADIO, 0)?;
    let rest = (length - LENGTH_FIELD_BYTES) as u64;
    let header = [rest, message.destination.into(), message.source.into(), message.sequence.into()];
    let mut bytes = Vec::with_capacity(length);
    join_fields(&header, &HEADER_WIDTHS, &mut bytes);
    for tlv in &message.tlvs {
        ask(tlv.is_good(), RADIO, bytes.len())?;
        tlv.lay(&mut bytes);
    }
    ask(length <= buffer.len(), ROOM, length)?;
    buffer[..length].copy_from_slice(&bytes);
    Ok(length)
}

/// The row that a link metric becomes.
pub fn plot_row(metric: &LinkMetric) -> PlotRow {
    PlotRow {
        megahertz: f64::from(metric.frequency) / 4.0,
        rssi: level(metric.rssi),
        cinr: level(metric.cinr),
        error_rate: match metric.error_rate {
            0 => Measured::Missing,
            rate => Measured::Rate(f64::from(rate) / 256.0),
        },
    }
}

fn level(field: i8) -> Measured {
    match field {
        i8::MIN => Measured::Missing,
        level => Measured::Level(f64::from(level)),
    }
}
