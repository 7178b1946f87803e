//! Lines of ids and lists of ranges at and beside each limit.

use super::Limits;
use crate::ids::{write_ids, IdRange, MOST_RANGES};
use crate::lines::{range, short_lines, Handed};
use crate::refusal::{MOST_BYTES, ROOM};
use crate::side_by_side;
use crate::typed_ids::{judged_by_the_grammar, typed_ids};

impl Limits<'_> {
    fn read_ids(&mut self, line: &[u8]) {
        self.next("read_ids");
        side_by_side::read_ids(self.judge, &mut self.dice, line);
    }

    fn write_ids(&mut self, handed: &Handed, room: usize) {
        self.next("write_ids");
        side_by_side::write_ids(self.judge, &mut self.dice, handed, room);
    }
}

pub fn ids(limits: &mut Limits) {
    form(limits);
    items(limits);
    lengths(limits);
    writing(limits);
    counts(limits);
    for line in short_lines(5) {
        limits.next("ids by the grammar");
        judged_by_the_grammar(limits.judge, &mut limits.dice, &line);
    }
    for _ in 0..50 {
        limits.next("ids as the desk types them");
        typed_ids(limits.judge, &mut limits.dice);
    }
}

fn form(limits: &mut Limits) {
    // Every byte alone, in front of an id, behind one and in a list.
    for byte in 0..=255 {
        for line in [
            vec![byte],
            vec![byte, b'7'],
            vec![b'7', byte],
            vec![b'7', byte, b'8'],
            vec![b'7', b'-', byte],
            vec![b'7', b'-', b'8', byte],
            vec![b'7', b'-', b'8', byte, b'9'],
            vec![b'7', b',', byte],
        ] {
            limits.read_ids(&line);
        }
    }
    // Every start of a line, and ids of every number of digits.
    let line = b"7,0000000008-4294967295,9-9,10";
    for length in 0..=line.len() {
        limits.read_ids(&line[..length]);
    }
    for count in 0..=12 {
        for digit in ["0", "1", "4", "9"] {
            let id = digit.repeat(count);
            for line in [id.clone(), format!("{id}-9"), format!("0-{id}"), format!("5,{id},6")] {
                limits.read_ids(line.as_bytes());
            }
        }
    }
}

fn items(limits: &mut Limits) {
    let ids: [u64; 10] = [
        0,
        1,
        9,
        10,
        4_294_967_294,
        4_294_967_295,
        4_294_967_296,
        4_294_967_297,
        8_589_934_592,
        9_999_999_999,
    ];
    for first in ids {
        for last in ids {
            for line in [
                format!("{first}-{last}"),
                format!("{first:010}-{last:010}"),
                format!("5,3-{first},{last}"),
                format!("{first},{last}-x"),
            ] {
                limits.read_ids(line.as_bytes());
            }
        }
    }
    // From 1 to 35 items, alone, with one bad item, and with a bad form.
    for count in 1..=35 {
        let items: Vec<String> = (0..count).map(|item| item.to_string()).collect();
        limits.read_ids(items.join(",").as_bytes());
        limits.read_ids((items.join(",") + ",").as_bytes());
        for at in [0, 30, 31, 32, 33, 34].into_iter().filter(|&at| at < count) {
            for bad in ["2-1", "4294967296", "0-4294967296", "12345678901", ""] {
                let mut items = items.clone();
                items[at] = bad.to_string();
                limits.read_ids(items.join(",").as_bytes());
            }
        }
    }
}

fn lengths(limits: &mut Limits) {
    for length in [MOST_BYTES - 1, MOST_BYTES, MOST_BYTES + 1, MOST_BYTES + 2, 100_000] {
        for filling in [&b"7,"[..], b",7", b"0000000007,", b"2-1,", b"7", b"x"] {
            let mut line: Vec<u8> = filling.iter().copied().cycle().take(length).collect();
            limits.read_ids(&line);
            line[0] = b'7';
            line[length - 1] = b'7';
            limits.read_ids(&line);
        }
    }
    // The longest line of 32 items.
    let longest = ["4294967295-4294967295"; MOST_RANGES].join(",");
    limits.read_ids(longest.as_bytes());
    limits.read_ids((longest + "0").as_bytes());
}

fn writing(limits: &mut Limits) {
    let single = |id: u32| IdRange { first: id, last: id };
    let longest = IdRange { first: u32::MAX - 1, last: u32::MAX };
    let mut lists = vec![Vec::new(), vec![single(0)], vec![longest; MOST_RANGES]];
    for power in 0..10 {
        // The numbers of digits change here.
        let ten = 10_u32.pow(power);
        lists.push(vec![single(ten - 1), single(ten), IdRange { first: ten - 1, last: ten }]);
    }
    let ids = [0, 1, u32::MAX - 1, u32::MAX];
    for first in ids {
        for last in ids {
            lists.push(vec![IdRange { first, last }]);
        }
    }
    for count in 31..=35 {
        let good: Vec<IdRange> = (0..count).map(|_| range(&mut limits.dice)).collect();
        for at in [0, 1, 30, 31, 32, 33, 34].into_iter().filter(|&at| at < count) {
            let mut bad = good.clone();
            bad[at] = IdRange { first: 5, last: 4 };
            lists.push(bad);
        }
        lists.push(good);
    }
    for list in lists {
        let needed = match write_ids(&list, &mut []) {
            Err(refusal) if refusal.number == ROOM => refusal.place,
            _ => 64,
        };
        for room in [0, needed / 2, needed - 1, needed, needed + 1, needed + 40, 66_000] {
            let handed = Handed::new(&mut limits.dice, &list);
            limits.write_ids(&handed, room);
        }
    }
}

/// Every number of ranges that can be said of good ones and of an inverted one.
fn counts(limits: &mut Limits) {
    let good: Vec<IdRange> = (0..MOST_RANGES).map(|_| range(&mut limits.dice)).collect();
    let mut handed = Handed::new(&mut limits.dice, &good);
    let far = [1 << 31, 1 << 32, (1 << 32) + 1, 1 << 63, usize::MAX - 31, usize::MAX];
    for inverted in [None, Some(0), Some(7), Some(31)] {
        if let Some(at) = inverted {
            handed.ranges[at] = IdRange { first: u32::MAX, last: 0 };
        }
        for count in (0..=40).chain([63, 64, 65, 255, 256, 65_536]).chain(far) {
            handed.count = count;
            limits.write_ids(&handed, 703);
            limits.write_ids(&handed, 0);
        }
        if let Some(at) = inverted {
            handed.ranges[at] = good[at];
        }
    }
}
