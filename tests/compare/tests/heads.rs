//! The order of refusals within a field (document 02, job 3): every head of
//! every field, and every place where short inputs may end; since job 7 there
//! may be a fifth one.

use compare::both::{self, Answer, Lent};
use compare::tables::generous;
use reference::table::{earlier_form, earlier_read};
use reference::{Width, WidthTable};
use std::collections::BTreeSet;

fn number(answer: Answer) -> u8 {
    answer.err().map_or(0, |refusal| refusal.number)
}

/// A field that is due, after right fields.
struct Due {
    before: Vec<u8>,
    tag: u8,
    value: Vec<u8>,
}

impl Due {
    fn new(table: &WidthTable, tag: u8) -> Due {
        let bytes = table.bytes().unwrap();
        let levels = usize::from(table.levels);
        let start = [0, 4, 8, 17, 20 + 36 * levels][usize::from(tag) - 1];
        let size = [1, 1, 6, 36 * levels, 12 * levels][usize::from(tag) - 1];
        Due {
            before: bytes[..start].to_vec(),
            tag,
            value: bytes[start + 3..][..size].to_vec(),
        }
    }

    /// The bytes up to the field, a head, and `there` bytes after it: those of
    /// the value, then zeros.
    fn bytes(&self, tag: u8, length: u16, there: usize) -> Vec<u8> {
        let mut bytes = self.before.clone();
        bytes.push(tag);
        bytes.extend(length.to_be_bytes());
        bytes.extend(self.value.iter().chain(std::iter::repeat(&0)).take(there));
        bytes
    }

    /// What document 02 says of such a head: the answer before job 3, where
    /// it changed, and the answer. None where tag, length and value are right.
    /// After the fourth field every byte was 5, and every one but 5 is still.
    fn says(&self, tag: u8, length: u16, there: usize) -> Option<(u8, u8)> {
        let cut = there < usize::from(length);
        if self.tag == 5 {
            let now = match (tag, usize::from(length) == self.value.len()) {
                (5, true) if cut => 1,
                (5, true) => return None,
                (5, false) => 3,
                _ => 5,
            };
            Some((5, now))
        } else if tag != self.tag {
            Some((if cut { 1 } else { 2 }, 2))
        } else if usize::from(length) != self.value.len() {
            Some((if cut { 1 } else { 3 }, 3))
        } else if cut {
            Some((1, 1))
        } else {
            None
        }
    }
}

/// Every tag and every length, with no byte after the head, with one, with a
/// whole value and with one byte less and more than that.
fn every_head_of(tag: u8) {
    let due = Due::new(&generous(8, 1), tag);
    let size = due.value.len();
    for there in BTreeSet::from([0, 1, size - 1, size, size + 1]) {
        let mut changed = [0; 4];
        let mut bytes = due.bytes(0, 0, there);
        let head = due.before.len();
        for tag in 0..=255 {
            for length in 0..=65535u16 {
                let [high, low] = length.to_be_bytes();
                bytes[head..head + 3].copy_from_slice(&[tag, high, low]);
                let now = number(both::table_form(&bytes));
                let before = number(earlier_read(&bytes).map(|_| ()));
                match due.says(tag, length, there) {
                    Some(says) => assert_eq!((before, now), says, "{bytes:?}"),
                    None => assert_eq!(before, now, "{bytes:?}"),
                }
                if before != now {
                    changed[usize::from(now)] += 1;
                }
            }
        }
        // Every length above what is there, but for the tag that is due its
        // own.
        let too_long = 65535 - there;
        let own = usize::from(there < size);
        assert_eq!(changed, [0, 0, 255 * too_long, too_long - own]);
    }
}

#[test]
fn every_head_of_the_first_field() {
    every_head_of(1);
}

#[test]
fn every_head_of_the_second_field() {
    every_head_of(2);
}

#[test]
fn every_head_of_the_third_field() {
    every_head_of(3);
}

#[test]
fn every_head_of_the_fourth_field() {
    every_head_of(4);
}

/// The fifth field of every tag, with every length of a byte and some more; of
/// tag 5 with every length.
#[test]
fn every_head_of_the_fifth_field() {
    let due = Due::new(&generous(8, 1).with_products(30), 5);
    let size = due.value.len();
    let mut answers = [0; 6];
    for there in [0, 1, size - 1, size, size + 1] {
        for tag in 0..=255 {
            let more = [256, 256 + size as u16, (size as u16) << 8, 65535];
            let some: Vec<u16> = (0..=255).chain(more).collect();
            let every: Vec<u16> = (0..=65535).collect();
            for &length in if tag == 5 { &every } else { &some } {
                let bytes = due.bytes(tag, length, there);
                let now = number(both::table_form(&bytes));
                let before = number(earlier_form(&bytes).map(|_| ()));
                match due.says(tag, length, there) {
                    Some(says) => assert_eq!((before, now), says, "{bytes:?}"),
                    // The value, and after it nothing or something.
                    None => assert_eq!((before, now), (5, 5 * (there - size) as u8)),
                }
                answers[usize::from(now)] += 1;
            }
        }
    }
    assert_eq!(answers, [1, 3, 0, 5 * 65535, 0, 5 * 255 * 260 + 1]);
}

/// A head of fewer than three bytes is 1, whatever they are. After the fourth
/// field there may be none, and one begins with 5.
#[test]
fn every_head_that_is_cut_short() {
    let four = generous(8, 1).bytes().unwrap();
    assert_eq!(both::table_form(&four), Ok(()));
    for first in 0..=255 {
        let due = if first == 5 { 1 } else { 5 };
        let bytes = [&four[..], &[first]].concat();
        assert_eq!(number(both::table_form(&bytes)), due);
        for second in 0..=255 {
            let bytes = [&four[..], &[first, second]].concat();
            assert_eq!(number(both::table_form(&bytes)), due);
        }
    }
    for tag in 1..=4 {
        let before = Due::new(&generous(8, 1), tag).before;
        let read = |more: &[u8]| {
            let bytes = [&before, more].concat();
            assert_eq!(number(both::table_form(&bytes)), 1);
            assert_eq!(number(earlier_read(&bytes).map(|_| ())), 1);
        };
        read(&[]);
        for first in 0..=255 {
            read(&[first]);
            for second in 0..=255 {
                read(&[first, second]);
            }
        }
    }
}

/// The answer of every call that takes a table's bytes; each is compared with
/// the reference, and so is all lent memory.
fn every_call(bytes: &[u8]) -> Vec<Answer> {
    let out = [0xA5; 300];
    let pixels = [3u16; 4];
    let plane = [7i32; 4];
    let forward = Lent {
        input: &pixels[..],
        output: &plane[..],
        work: &[9i32; 4][..],
    };
    let view = Lent {
        input: &plane[..],
        output: &pixels[..],
        work: &[9i64; 4][..],
    };
    vec![
        both::table_form(bytes),
        both::table_check(bytes),
        both::table_value(bytes, 1),
        both::table_value(bytes, 4),
        both::table_bound(bytes, [1, 1, 1], (5, 6)).0,
        both::table_change(bytes, [1, 1, 1], Width::new(12, 20), &out),
        both::table_change_constant(bytes, 1, 24, &out),
        both::table_change_product(bytes, [1, 1, 1], 44, &out),
        both::table_value(bytes, 5),
        both::table_view(bytes),
        both::view_distance(bytes, 5).0,
        both::forward97(bytes, 2, 2, forward).answer,
        both::view97(bytes, 2, 2, view).answer,
    ]
}

/// Heads of all tags that a field may have and some more, of all lengths about
/// the right one, with every number of bytes after them.
#[test]
fn every_cut_of_every_field() {
    let mut seen = [[0usize; 6]; 6];
    for levels in [1, 2] {
        for field in 1..=5 {
            let due = Due::new(&generous(8, levels).with_products(30), field);
            let size = due.value.len() as u16;
            let lengths = (0..=size + 2).chain([255, 256, 256 + size, size << 8, 65535]);
            for length in lengths {
                for tag in [0, 1, 2, 3, 4, 5, 255] {
                    for there in 0..=due.value.len() + 2 {
                        let bytes = due.bytes(tag, length, there);
                        let before = number(earlier_read(&bytes).map(|_| ()));
                        let Some(says) = due.says(tag, length, there) else {
                            let now = number(both::table_form(&bytes));
                            let whole = field == 5 && there == due.value.len();
                            assert_eq!(if whole { 0 } else { before }, now, "{bytes:?}");
                            continue;
                        };
                        for answer in every_call(&bytes) {
                            assert_eq!((before, number(answer)), says, "{bytes:?}");
                        }
                        // A wrong name is 2, whatever the bytes.
                        assert_eq!(number(both::table_value(&bytes, 6)), 2);
                        seen[usize::from(before)][usize::from(says.1)] += 1;
                    }
                }
            }
        }
    }
    for (before, now) in [
        (1, 1),
        (1, 2),
        (1, 3),
        (2, 2),
        (3, 3),
        (5, 1),
        (5, 3),
        (5, 5),
    ] {
        assert!(seen[before][now] > 30, "{seen:?}");
    }
}
