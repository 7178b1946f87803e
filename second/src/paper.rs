//! The paper's message M and row R, and changed forms of M.

/// The bytes of a text in hex; everything that is no digit is passed over.
pub fn from_hex(text: &str) -> Vec<u8> {
    let digits: Vec<u32> = text.chars().filter_map(|digit| digit.to_digit(16)).collect();
    digits.chunks(2).map(|pair| (pair[0] << 4 | pair[1]) as u8).collect()
}

pub fn message_m() -> Vec<u8> {
    from_hex(
        "10000080 00000007 00000005 00000038 00000064 00000000 \
         00000001 000D0000 00000000 AA112233 00000002 00105500 0000000A DEADBEEF",
    )
}

pub fn row_r() -> Vec<u8> {
    from_hex("00000007 00000007 00000001 00000001 00000064 00000000 00000194 00000000")
}

/// M with these bytes at this place.
pub fn m_with(at: usize, bytes: &[u8]) -> Vec<u8> {
    let mut changed = message_m();
    changed[at..at + bytes.len()].copy_from_slice(bytes);
    changed
}

/// M with these option bytes, a multiple of 4 of them up to 60.
pub fn m_with_options(options: &[u8]) -> Vec<u8> {
    let mut changed = message_m();
    changed[0] = 0x10 + (options.len() / 4) as u8;
    changed[15] += options.len() as u8;
    changed.splice(24..24, options.iter().copied());
    changed
}
