//! The rows of a sheet with what is asked of each package made ready: their times are
//! worked out once, and the rows for a message are found once for all its packages. Some
//! of the rows are a number that has a bit for each of them.

use crate::refusal::*;
use crate::sheet::{read_row, Row, MOST_ROWS, ROW_BYTES};

/// So many rows are compared with an id at once.
const GROUP: usize = 8;
const GROUPS: usize = MOST_ROWS / GROUP;
/// So many rows are compared one by one.
const FEW_ROWS: usize = 4;

/// A range of ids for each row of a group: the first id, and how many more there are.
#[derive(Clone, Copy, Debug, Default)]
struct Ranges {
    first: [u32; GROUP],
    more: [u32; GROUP],
}

impl Ranges {
    #[inline(always)]
    fn has(&self, row: usize, id: u32) -> bool {
        id.wrapping_sub(self.first[row]) <= self.more[row]
    }

    /// The rows of the group whose ranges have this id.
    #[inline(always)]
    fn rows_with(&self, id: u32) -> u32 {
        let mut found = 0;
        for row in 0..GROUP {
            found |= u32::from(self.has(row, id)) << row;
        }
        found
    }
}

/// The ranges of all rows, group by group.
#[derive(Clone, Copy, Debug, Default)]
struct AllRanges([Ranges; GROUPS]);

impl AllRanges {
    fn put(&mut self, row: usize, first: u32, last: u32) {
        let group = &mut self.0[row / GROUP];
        (group.first[row % GROUP], group.more[row % GROUP]) = (first, last - first);
    }

    #[inline(always)]
    fn has(&self, row: usize, id: u32) -> bool {
        self.0[row / GROUP].has(row % GROUP, id)
    }

    /// The rows whose ranges have this id, if there are few rows.
    #[inline(always)]
    fn few_with(&self, id: u32, rows: usize) -> u32 {
        let mut found = 0;
        for row in 0..rows.min(FEW_ROWS) {
            found |= u32::from(self.0[0].has(row, id)) << row;
        }
        found
    }

    /// The rows whose ranges have this id, group by group; some behind the last row may be
    /// among them.
    #[inline(always)]
    fn many_with(&self, id: u32, rows: usize) -> u32 {
        let mut found = 0;
        for (at, group) in self.0.iter().take(rows.div_ceil(GROUP)).enumerate() {
            found |= group.rows_with(id) << (GROUP * at);
        }
        found
    }
}

/// The rows of a good sheet.
#[derive(Clone, Debug, Default)]
pub struct Grants {
    count: usize,
    messages: AllRanges,
    packages: AllRanges,
    /// Start and end of each row.
    windows: [(u64, u64); MOST_ROWS],
    /// The rows that grant in messages that are not simulated, and in those that are.
    granting: [u32; 2],
}

impl Grants {
    fn put(&mut self, row: &Row) {
        let at = self.count;
        self.count += 1;
        self.messages.put(at, row.message_first, row.message_last);
        self.packages.put(at, row.package_first, row.package_last);
        self.windows[at] = (row.start(), row.end());
        self.granting[0] |= 1 << at;
        self.granting[1] |= u32::from(!row.acquired_only) << at;
    }

    /// Makes rows ready, at most as many as a sheet has.
    pub fn of(rows: &[Row]) -> Grants {
        let mut grants = Grants::default();
        rows.iter().for_each(|row| grants.put(row));
        grants
    }

    /// Reads a sheet: first the size, then row after row.
    pub fn read(sheet: &[u8]) -> Result<Grants, Refusal> {
        let good_size =
            sheet.len() <= MOST_ROWS * ROW_BYTES && sheet.len().is_multiple_of(ROW_BYTES);
        ask(good_size, ROW, sheet.len())?;
        let mut grants = Grants::default();
        for bytes in sheet.chunks_exact(ROW_BYTES) {
            match read_row(bytes) {
                Some(row) => grants.put(&row),
                None => return refuse(ROW, grants.count * ROW_BYTES),
            }
        }
        Ok(grants)
    }

    /// The rows that are for a message.
    #[inline(always)]
    pub fn rows_for(&self, message_id: u32, simulated: bool) -> u32 {
        let rows = if self.count <= FEW_ROWS {
            self.messages.few_with(message_id, self.count)
        } else {
            self.many_rows_for(message_id)
        };
        // No branch, for flags are hard to foresee.
        rows & self.granting[usize::from(simulated)]
    }

    /// Does some of these rows grant this package? The first of them is asked alone, for
    /// often there is no other.
    #[inline(always)]
    pub fn have(&self, rows: u32, package_id: u32, time: u64) -> bool {
        if rows == 0 {
            return false;
        }
        let first = rows.trailing_zeros() as usize;
        if self.packages.has(first, package_id) && self.is_within(first, time) {
            return true;
        }
        let others = rows & (rows - 1);
        others != 0 && self.others_have(others, package_id, time)
    }

    #[inline(always)]
    fn is_within(&self, row: usize, time: u64) -> bool {
        let (start, end) = self.windows[row];
        (start..end).contains(&time)
    }

    // What follows stays a function of its own: inside a walk over packages the ranges of
    // all rows would be made ready for every message.

    #[inline(never)]
    fn many_rows_for(&self, message_id: u32) -> u32 {
        self.messages.many_with(message_id, self.count)
    }

    #[inline(never)]
    fn others_have(&self, rows: u32, package_id: u32, time: u64) -> bool {
        let with_id = if self.count <= FEW_ROWS {
            self.packages.few_with(package_id, self.count)
        } else {
            self.packages.many_with(package_id, self.count)
        };
        let mut left = rows & with_id;
        while left != 0 {
            if self.is_within(left.trailing_zeros() as usize, time) {
                return true;
            }
            left &= left - 1;
        }
        false
    }
}
