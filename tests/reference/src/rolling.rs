//! The rolling scan (document 02, job 5): a strip taken line by line, and its
//! one-level transform given out as soon as it is ready.
//!
//! What a call answers, how many lines it gives and the state that it leaves
//! follow from the state's bytes and what is lent ([`line_answer`],
//! [`end_answer`]). The values given follow from the lines that were taken
//! ([`Past`]); nothing is kept between the stages, each line given is worked
//! anew from the lines that it depends on.

use crate::calls::{depth_of_pixels, lengths};
use crate::fixed97;
use crate::places::{low_count, side_admitted};
use crate::precision::verdict;
use crate::refusal::Refusal;
use crate::table::WidthTable;

/// Bytes of a scan's state: a table, the width in two bytes, how many lines were
/// taken, and whether it has ended.
pub const STATE: usize = TABLE + 4;

/// Lines that a line or an end is lent to hold.
pub const HELD_LINES: usize = 7;

/// Lines that a line or an end is lent for output.
pub const OUT_LINES: usize = 4;

/// Levels of a scan's table.
const LEVELS: u8 = 1;

/// The first bytes of a state, as many as a table of one level has with tag 5.
/// Of a table without it they are zeros past its end.
pub const TABLE: usize = 71;

/// Bytes of a table of one level without tag 5.
const TABLE_WITHOUT_PRODUCTS: usize = 56;

/// The one-level transform of a strip, line by line.
#[derive(Clone, Debug, PartialEq, Eq)]
pub struct Strip {
    pub lows: Vec<Vec<i128>>,
    pub highs: Vec<Vec<i128>>,
}

impl Strip {
    /// By number, low n before high n.
    pub fn in_order(self) -> Vec<Vec<i128>> {
        let mut highs = self.highs.into_iter();
        let mut lines = Vec::new();
        for low in self.lows {
            lines.push(low);
            lines.extend(highs.next());
        }
        lines
    }
}

/// Works a strip of pixel lines, at least one of them and any number: each
/// line along its row, then every column. A single line leaves one sample to
/// each column, which is cut to the bits of the column pass's G1 (document 02,
/// job 6).
pub fn strip(table: &WidthTable, lines: &[Vec<u16>]) -> Strip {
    let rows: Vec<_> = lines.iter().map(|line| along_row(table, line)).collect();
    down_columns(table, &rows)
}

/// One line worked along its row, low values first.
fn along_row(table: &WidthTable, pixels: &[u16]) -> Vec<i128> {
    let middle = 1i128 << (table.depth - 1);
    let line: Vec<i128> = pixels.iter().map(|&p| i128::from(p) - middle).collect();
    let [.., low, high] = fixed97::pass(
        &line,
        table.depth,
        &table.constant_bits,
        &table.widths[0][0],
        table.products_of(LEVELS, 1),
    );
    [low, high].concat()
}

/// The columns of lines that were worked along their rows.
fn down_columns(table: &WidthTable, rows: &[Vec<i128>]) -> Strip {
    let (width, height) = (rows[0].len(), rows.len());
    let [along, of_low, of_high] = &table.widths[0];
    let mut strip = Strip {
        lows: vec![Vec::new(); low_count(height)],
        highs: vec![Vec::new(); height / 2],
    };
    for x in 0..width {
        let column: Vec<i128> = rows.iter().map(|row| row[x]).collect();
        let (entering, pass, widths) = match x < low_count(width) {
            true => (along[4], 2, of_low),
            false => (along[5], 3, of_high),
        };
        let [.., low, high] = fixed97::pass(
            &column,
            entering.fraction_bits,
            &table.constant_bits,
            widths,
            table.products_of(LEVELS, pass),
        );
        for (line, value) in strip.lows.iter_mut().zip(low) {
            line.push(value);
        }
        for (line, value) in strip.highs.iter_mut().zip(high) {
            line.push(value);
        }
    }
    strip
}

/// How many lines were taken: exactly up to four, above that odd or even.
#[derive(Clone, Copy, Debug, PartialEq, Eq)]
enum Taken {
    Exactly(u8),
    Odd,
    Even,
}

impl Taken {
    fn from_byte(byte: u8) -> Option<Taken> {
        match byte {
            0..=4 => Some(Taken::Exactly(byte)),
            5 => Some(Taken::Odd),
            6 => Some(Taken::Even),
            _ => None,
        }
    }

    fn byte(self) -> u8 {
        match self {
            Taken::Exactly(lines) => lines,
            Taken::Odd => 5,
            Taken::Even => 6,
        }
    }

    fn with_one_more(self) -> Taken {
        match self {
            Taken::Exactly(4) | Taken::Even => Taken::Odd,
            Taken::Exactly(lines) => Taken::Exactly(lines + 1),
            Taken::Odd => Taken::Even,
        }
    }

    /// How many lines the next line gives: line 2n + 4, from 0, gives low n
    /// and high n, the others none.
    fn given_by_a_line(self) -> usize {
        match self {
            Taken::Exactly(4) | Taken::Even => 2,
            _ => 0,
        }
    }

    /// How many lines an end gives; none where there can be no end. Job 6: one
    /// line is enough, and the end gives its low line.
    fn given_by_an_end(self) -> Option<usize> {
        match self {
            Taken::Exactly(0) => None,
            Taken::Exactly(1) => Some(1),
            Taken::Exactly(2) => Some(2),
            Taken::Exactly(3) | Taken::Odd => Some(3),
            Taken::Exactly(_) | Taken::Even => Some(4),
        }
    }
}

/// The state of a scan that began.
#[derive(Clone, Debug, PartialEq, Eq)]
pub struct State {
    pub table: WidthTable,
    /// That of the first line taken, 0 before it.
    pub width: usize,
    taken: Taken,
    ended: bool,
}

impl State {
    /// The state of a scan that begins with this table.
    fn begun(table: WidthTable) -> State {
        State {
            table,
            width: 0,
            taken: Taken::Exactly(0),
            ended: false,
        }
    }

    /// What the bytes say, where they are the state of a scan that began.
    pub fn read(bytes: &[u8]) -> Option<State> {
        let (table, rest) = bytes.split_at(TABLE);
        let table = table_at_start(table)?;
        if table.levels != LEVELS || verdict(&table).is_err() {
            return None;
        }
        let width = usize::from(u16::from_be_bytes([rest[0], rest[1]]));
        let taken = Taken::from_byte(rest[2])?;
        let right_width = match taken {
            Taken::Exactly(0) => width == 0,
            _ => side_admitted(width),
        };
        let ended = match rest[3] {
            0 => false,
            1 => true,
            _ => return None,
        };
        right_width.then_some(State {
            table,
            width,
            taken,
            ended,
        })
    }

    pub fn bytes(&self) -> Vec<u8> {
        let mut bytes = self.table.bytes().expect("it is accepted");
        bytes.resize(TABLE, 0);
        let width = u16::try_from(self.width).expect("an admitted side is small");
        bytes.extend(width.to_be_bytes());
        bytes.extend([self.taken.byte(), u8::from(self.ended)]);
        bytes
    }

    /// The state in lent bytes, of a scan that goes on: 9, 14.
    fn going_on(lent: &[u8]) -> Result<State, Refusal> {
        lengths(STATE, &[lent.len()])?;
        let state = State::read(&lent[..STATE]);
        let state = state.filter(|state| !state.ended);
        state.ok_or(Refusal::plain(14))
    }
}

/// The table in the first bytes of a state; one without tag 5 is followed by
/// zeros.
fn table_at_start(bytes: &[u8]) -> Option<WidthTable> {
    let (without, past) = bytes.split_at(TABLE_WITHOUT_PRODUCTS);
    let bytes = match past.iter().all(|&b| b == 0) {
        true => without,
        false => bytes,
    };
    WidthTable::read(bytes).ok()
}

/// What a line answers to a state: 9 of the state, 14, 8, 9, 10; where it is
/// taken, the state afterwards and how many lines are given. `held` and `out`
/// are lengths.
pub fn line_answer(
    state: &[u8],
    pixels: &[u16],
    width: usize,
    held: usize,
    out: usize,
) -> Result<(State, usize), Refusal> {
    let mut state = State::going_on(state)?;
    let first = state.taken == Taken::Exactly(0);
    if !first && width != state.width {
        return Err(Refusal::plain(14));
    }
    if !side_admitted(width) {
        return Err(Refusal::plain(8));
    }
    lengths(width, &[pixels.len()])?;
    lengths(HELD_LINES * width, &[held])?;
    lengths(OUT_LINES * width, &[out])?;
    depth_of_pixels(&pixels[..width], state.table.depth)?;
    let given = state.taken.given_by_a_line();
    state.taken = state.taken.with_one_more();
    state.width = width;
    Ok((state, given))
}

/// What an end answers to a state: 9 of the state, 14, 9; where it is done, the
/// state afterwards and how many lines are given.
pub fn end_answer(state: &[u8], held: usize, out: usize) -> Result<(State, usize), Refusal> {
    let mut state = State::going_on(state)?;
    let given = state.taken.given_by_an_end().ok_or(Refusal::plain(14))?;
    lengths(HELD_LINES * state.width, &[held])?;
    lengths(OUT_LINES * state.width, &[out])?;
    state.ended = true;
    Ok((state, given))
}

/// The lines that a scan has taken, worked along their rows, from the first
/// one that a line yet to be given depends on.
#[derive(Clone, Debug, Default)]
pub struct Past {
    rows: Vec<Vec<i128>>,
    /// Lines that were dropped, always an even number.
    dropped: usize,
    /// Lines that were given.
    given: usize,
}

impl Past {
    fn take(&mut self, table: &WidthTable, pixels: &[u16]) {
        self.rows.push(along_row(table, pixels));
    }

    /// The next lines of the transform of what was taken. Where the strip goes
    /// on these are low n and high n right after line 2n + 4, and no line past
    /// that one counts in them.
    fn give(&mut self, table: &WidthTable, count: usize) -> Vec<Vec<i128>> {
        let lines = down_columns(table, &self.rows).in_order();
        let before = self.given - self.dropped;
        let lines = lines[before..before + count].to_vec();
        self.given += count;
        // Low n and high n have no line before 2n - 4 in them.
        let needless = (2 * (self.given / 2)).saturating_sub(4) - self.dropped;
        self.rows.drain(..needless);
        self.dropped += needless;
        lines
    }
}

/// Begins a scan: 1 to 5 of the table, 14, 6 and 7, 9. A refused beginning
/// leaves the state as it was.
pub fn scan_begin(table: &[u8], state: &mut [u8]) -> Result<(), Refusal> {
    let table = WidthTable::read(table)?;
    if table.levels != LEVELS {
        return Err(Refusal::plain(14));
    }
    verdict(&table)?;
    lengths(STATE, &[state.len()])?;
    state[..STATE].copy_from_slice(&State::begun(table).bytes());
    Ok(())
}

/// Takes a line, as [`line_answer`] says; `held` is a length, since what the
/// lines are held for is in `past`.
pub fn scan_line(
    past: &mut Past,
    state: &mut [u8],
    pixels: &[u16],
    width: usize,
    held: usize,
    out: &mut [i32],
    given: &mut u32,
) -> Result<(), Refusal> {
    let (after, count) = line_answer(state, pixels, width, held, out.len())?;
    past.take(&after.table, &pixels[..width]);
    hand_over(past, &after, count, state, out, given);
    Ok(())
}

/// Ends a scan, as [`end_answer`] says.
pub fn scan_end(
    past: &mut Past,
    state: &mut [u8],
    held: usize,
    out: &mut [i32],
    given: &mut u32,
) -> Result<(), Refusal> {
    let (after, count) = end_answer(state, held, out.len())?;
    hand_over(past, &after, count, state, out, given);
    Ok(())
}

/// What a call that is done leaves.
fn hand_over(
    past: &mut Past,
    after: &State,
    count: usize,
    state: &mut [u8],
    out: &mut [i32],
    given: &mut u32,
) {
    state[..STATE].copy_from_slice(&after.bytes());
    if count > 0 {
        let lines = past.give(&after.table, count);
        for (place, value) in out.iter_mut().zip(lines.concat()) {
            *place = i32::try_from(value).expect("a kept width is at most 32 bits");
        }
    }
    *given = u32::try_from(count).expect("at most four lines");
}

#[cfg(test)]
mod tests {
    use super::*;
    use crate::refusal::Place;
    use crate::table::Width;

    fn table(depth: u8) -> WidthTable {
        WidthTable::kept_and_others(depth, 1, 24, Width::new(12, 2), Width::new(12, 20))
    }

    /// A table with other bits at every node, so that none is taken for another.
    fn uneven(depth: u8) -> WidthTable {
        let mut uneven = table(depth);
        for (place, bits) in uneven.places().into_iter().zip((9..=20).rev().cycle()) {
            let kept = uneven.is_kept(place);
            uneven.width_mut(place).fraction_bits = if kept { bits / 5 } else { bits };
        }
        uneven.constant_bits = [24, 23, 22, 21, 20, 19];
        verdict(&uneven).unwrap();
        uneven
    }

    /// The same with other bits for every product.
    fn uneven_products(depth: u8) -> WidthTable {
        let mut uneven = uneven(depth).with_products(0);
        for (place, bits) in uneven.product_places().into_iter().zip(16..) {
            *uneven.product_mut(place) = bits;
        }
        verdict(&uneven).unwrap();
        uneven
    }

    fn pictures(depth: u8, width: usize, height: usize) -> Vec<Vec<u16>> {
        let pixel = |i: usize| ((i * i * 7 + i / 3 + 11 * (i % 5)) % (1 << depth)) as u16;
        let line = |y: usize| (0..width).map(|x| pixel(y * width + x)).collect();
        (0..height).map(line).collect()
    }

    fn number<T>(result: Result<T, Refusal>) -> u8 {
        result.err().map_or(0, |refusal| refusal.number)
    }

    /// Scans a strip; the lines that each call gave, the end's last.
    fn scanned(table: &WidthTable, lines: &[Vec<u16>]) -> Vec<Vec<Vec<i32>>> {
        let width = lines[0].len();
        let mut state = vec![9; STATE];
        scan_begin(&table.bytes().unwrap(), &mut state).unwrap();
        let mut past = Past::default();
        let mut calls = Vec::new();
        for at in 0..=lines.len() {
            let (mut out, mut given) = (vec![77; OUT_LINES * width], 99);
            match lines.get(at) {
                Some(line) => scan_line(
                    &mut past,
                    &mut state,
                    line,
                    width,
                    HELD_LINES * width,
                    &mut out,
                    &mut given,
                ),
                None => scan_end(
                    &mut past,
                    &mut state,
                    HELD_LINES * width,
                    &mut out,
                    &mut given,
                ),
            }
            .unwrap();
            let (lines, past_them) = out.split_at(given as usize * width);
            assert!(past_them.iter().all(|&v| v == 77));
            calls.push(lines.chunks(width).map(<[i32]>::to_vec).collect());
            assert!(past.rows.len() <= 9);
        }
        calls
    }

    #[test]
    fn which_call_gives_how_many_lines() {
        for (height, due) in [
            (1, &[0, 1][..]),
            (2, &[0, 0, 2]),
            (3, &[0, 0, 0, 3]),
            (4, &[0, 0, 0, 0, 4]),
            (5, &[0, 0, 0, 0, 2, 3]),
            (6, &[0, 0, 0, 0, 2, 0, 4]),
            (7, &[0, 0, 0, 0, 2, 0, 2, 3]),
            (8, &[0, 0, 0, 0, 2, 0, 2, 0, 4]),
            (9, &[0, 0, 0, 0, 2, 0, 2, 0, 2, 3]),
        ] {
            for width in 1..=3 {
                let calls = scanned(&table(8), &pictures(8, width, height));
                let counts: Vec<usize> = calls.iter().map(Vec::len).collect();
                assert_eq!(counts, due);
            }
        }
    }

    /// Each column of a single line is one sample, cut to G1's bits of its own
    /// pass; lines of one pixel are cut to the row's before.
    #[test]
    fn one_line_and_one_column_by_hand() {
        let mut table = table(4);
        for (pass, bits) in [(1, 3), (2, 2), (3, 1)] {
            let place = Place {
                level: 1,
                pass,
                node: 5,
            };
            table.width_mut(place).fraction_bits = bits;
        }
        verdict(&table).unwrap();
        // -3/16 is cut to -2/8, and that is -1/4.
        assert_eq!(scanned(&table, &[vec![5]]).concat(), [[-1]]);
        // Two samples: row-low has 3 bits and then 2, row-high 20 and then 1.
        let row = along_row(&table, &[5, 14]);
        let due = [row[0] >> 1, row[1] >> 19].map(|v| v as i32);
        assert_eq!(scanned(&table, &[vec![5, 14]]).concat(), [due]);
        // Two lines of one pixel: -2/8 and 3/8 down the column of row-low.
        let [.., low, high] = fixed97::pass(&[-2, 3], 3, &[24; 6], &table.widths[0][1], None);
        let due = [low, high].map(|v| vec![v[0] as i32]);
        let given = scanned(&table, &[vec![5], vec![14]]);
        assert_eq!(given, [vec![], vec![], due.to_vec()]);
    }

    /// Lines given are those of the whole strip, and that is what the
    /// transform of a picture gives.
    #[test]
    fn the_strip_comes_out() {
        for table in [table(1), table(12), uneven(8), uneven_products(8)] {
            for (width, height) in (1..8).flat_map(|w| (1..14).map(move |h| (w, h))) {
                let lines = pictures(table.depth, width, height);
                let given: Vec<Vec<i32>> = scanned(&table, &lines).concat();
                let strip = strip(&table, &lines);
                let plane = [strip.lows.concat(), strip.highs.concat()].concat();
                let whole = fixed97::transform(&table, &lines.concat(), width, height);
                assert_eq!((whole.plane, whole.left), (plane, None));
                let due: Vec<Vec<i128>> = strip.in_order();
                assert_eq!(given.len(), height);
                for (given, due) in given.iter().zip(&due) {
                    let given: Vec<i128> = given.iter().map(|&v| v.into()).collect();
                    assert_eq!(given, *due);
                }
            }
        }
    }

    /// Past the largest side of a picture, and past what 16 bits count.
    #[test]
    fn long_strips_come_out() {
        for (width, height) in [(2, 4096), (1, 4097), (2, 66_000), (1, 66_001)] {
            let (table, lines) = (uneven(8), pictures(8, width, height));
            let given: Vec<Vec<i32>> = scanned(&table, &lines).concat();
            let due = strip(&table, &lines).in_order();
            assert_eq!((given.len(), due.len()), (height, height));
            let same = |(given, due): (&Vec<i32>, &Vec<i128>)| {
                given.iter().zip(due).all(|(&g, &d)| i128::from(g) == d)
            };
            assert!(given.iter().zip(&due).all(same));
        }
    }

    /// A hole in white paper of one bit, which is 0: a line of its own far from
    /// the ends gives what the filter has for it.
    #[test]
    fn a_line_shows_in_nine_lines_alone() {
        let mut lines = vec![vec![1u16; 4]; 41];
        lines[20] = vec![0; 4];
        let given = scanned(&table(1), &lines).concat();
        let shows = |line: &Vec<i32>| line.iter().any(|&v| v != 0);
        let shown: Vec<usize> = (0..41).filter(|&i| shows(&given[i])).collect();
        // Line 20 counts in low 8 to 12 and high 8 to 11, and cuts of small
        // values downwards do not hide it.
        assert_eq!(shown, (16..=24).collect::<Vec<_>>());
    }

    #[test]
    fn states_as_bytes() {
        let bytes = table(8).bytes().unwrap();
        let mut state = vec![9; STATE + 2];
        scan_begin(&bytes, &mut state).unwrap();
        let between = [0; TABLE - TABLE_WITHOUT_PRODUCTS];
        let due = [&bytes[..], &between, &[0, 0, 0, 0, 9, 9]].concat();
        assert_eq!(state, due);
        let (mut past, mut out, mut given) = (Past::default(), vec![0; 4 * 300], 0);
        let line = vec![1; 300];
        for due in [1, 2, 3, 4, 5, 6, 5, 6, 5] {
            let held = 7 * 300;
            scan_line(
                &mut past, &mut state, &line, 300, held, &mut out, &mut given,
            )
            .unwrap();
            assert_eq!(state[TABLE..], [1, 44, due, 0, 9, 9]);
        }
        scan_end(&mut past, &mut state, 7 * 300, &mut out, &mut given).unwrap();
        let due = [&bytes[..], &between, &[1, 44, 5, 1, 9, 9]].concat();
        assert_eq!(state, due);
        // A table with tag 5 has no zeros after it.
        let bytes = table(8).with_products(30).bytes().unwrap();
        scan_begin(&bytes, &mut state).unwrap();
        assert_eq!(state, [&bytes[..], &[0, 0, 0, 0, 9, 9]].concat());
    }

    #[test]
    fn bytes_that_are_no_state() {
        let mut bytes = table(8).bytes().unwrap();
        bytes.resize(TABLE, 0);
        let is_one = |end: [u8; 4]| State::read(&[&bytes[..], &end].concat()).is_some();
        for taken in 1..=6 {
            for ended in 0..=1 {
                assert!(is_one([0, 1, taken, ended]) && is_one([16, 0, taken, ended]));
                for width in [[0, 0], [16, 1], [255, 255]] {
                    assert!(!is_one([width[0], width[1], taken, ended]));
                }
            }
        }
        assert!(is_one([0, 0, 0, 0]) && is_one([0, 0, 0, 1]));
        assert!(!is_one([0, 1, 0, 0]) && !is_one([0, 1, 7, 0]) && !is_one([0, 1, 2, 2]));
        let mut refused = bytes.clone();
        refused[20] = 2;
        assert_eq!(State::read(&[&refused[..], &[0; 4]].concat()), None);
        assert_eq!(State::read(&[0; STATE]), None);
        // What stands between a table without tag 5 and the end is zero.
        for at in TABLE_WITHOUT_PRODUCTS..TABLE {
            for byte in [1, 5, 255] {
                let mut state = [&bytes[..], &[0; 4]].concat();
                state[at] = byte;
                assert_eq!(State::read(&state), None);
            }
        }
        let with_products = table(8).with_products(30).bytes().unwrap();
        assert!(State::read(&[&with_products[..], &[0; 4]].concat()).is_some());
        let mut above = with_products.clone();
        above[TABLE - 1] = 45;
        assert_eq!(State::read(&[&above[..], &[0; 4]].concat()), None);
    }

    #[test]
    fn order_of_a_beginning() {
        let begin = |table: &[u8], length: usize| {
            let mut state = vec![9; length + 1];
            let answer = number(scan_begin(table, &mut state[..length]));
            let (state, past) = state.split_at(length);
            assert_eq!(past, [9]);
            let mut left = vec![9; length];
            if answer == 0 {
                left[..STATE].fill(0);
                left[..table.len()].copy_from_slice(table);
            }
            assert_eq!(state, left);
            answer
        };
        let right = table(8).bytes().unwrap();
        let narrow = |levels: u8| {
            let uniform = WidthTable::uniform(8, levels, 24, Width::new(2, 20));
            uniform.bytes().unwrap()
        };
        let with_products = table(8).with_products(30).bytes().unwrap();
        for length in [0, 59, 60, 71, 74, 75, 76, 85] {
            let due = if length < STATE { 9 } else { 0 };
            assert_eq!(begin(&right, length), due);
            assert_eq!(begin(&with_products, length), due);
            assert_eq!(begin(&with_products[..70], length), 1);
            assert_eq!(begin(&with_products[..57], length), 1);
            assert_eq!(begin(&[&with_products[..], &[5]].concat(), length), 5);
            assert_eq!(begin(&right[..55], length), 1);
            assert_eq!(begin(&[&right[..], &[0]].concat(), length), 5);
            // 14 comes before 6.
            assert_eq!(begin(&narrow(2), length), 14);
            assert_eq!(begin(&narrow(1), length), 6);
            assert_eq!(begin(&narrow(2)[..91], length), 1);
        }
    }

    #[test]
    fn order_of_a_line_and_an_end() {
        let mut state = vec![0; STATE];
        scan_begin(&table(1).bytes().unwrap(), &mut state).unwrap();
        let fresh = state.clone();
        state[TABLE + 1] = 3;
        state[TABLE + 2] = 1;
        let one = state.clone();
        state[TABLE + 2] = 2;
        let two = state.clone();
        state[TABLE + 3] = 1;
        let ended = state;
        let line = |state: &[u8], pixels: &[u16], width, held, out| {
            number(line_answer(state, pixels, width, held, out))
        };
        let end = |state: &[u8], held, out| number(end_answer(state, held, out));
        for none in [&[0; STATE][..], &ended] {
            assert_eq!(line(&none[..STATE - 1], &[2], 0, 0, 0), 9);
            assert_eq!(line(none, &[2], 0, 0, 0), 14);
            assert_eq!(end(&none[..STATE - 1], 0, 0), 9);
            assert_eq!(end(none, 0, 0), 14);
        }
        for width in [0, 4097, usize::MAX] {
            assert_eq!(line(&fresh, &[2], width, 0, 0), 8);
            assert_eq!(line(&one, &[2], width, 0, 0), 14);
        }
        assert_eq!(line(&one, &[2], 1, 0, 0), 14);
        assert_eq!(line(&fresh, &[2], 1, 6, 4), 9);
        assert_eq!(line(&fresh, &[2], 1, 7, 3), 9);
        assert_eq!(line(&fresh, &[2], 1, 7, 4), 10);
        assert_eq!(line(&fresh, &[1], 1, 7, 4), 0);
        for state in [&fresh, &one, &two] {
            assert_eq!(line(state, &[2, 0], 3, 21, 12), 9);
            assert_eq!(line(state, &[2, 0, 0], 3, 20, 12), 9);
            assert_eq!(line(state, &[2, 0, 0], 3, 21, 11), 9);
            assert_eq!(line(state, &[0, 0, 2], 3, 21, 12), 10);
            assert_eq!(line(state, &[0, 0, 1, 2], 3, 21, 12), 0);
            assert_eq!(line(&state[..STATE - 1], &[2], 9, 0, 0), 9);
        }
        assert_eq!(line(&one, &[1; 9], 4, 99, 99), 14);
        assert_eq!(end(&fresh, 0, 0), 14);
        for state in [&one, &two] {
            assert_eq!((end(state, 20, 12), end(state, 21, 11)), (9, 9));
            assert_eq!(
                (end(state, 21, 12), end(&state[..STATE - 1], 21, 12)),
                (0, 9)
            );
        }
    }
}
