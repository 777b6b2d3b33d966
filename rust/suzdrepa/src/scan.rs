//! The rolling scan: a strip taken line by line, with memory for a few lines.

use crate::{Refusal, MAX_SIDE};
use std::slice::ChunksExact;
use suzdrepa_sys as sys;

/// The 9/7 transform of one level, of a strip that comes line by line.
///
/// The strip may have any number of lines from 1, more than
/// [`MAX_SIDE`](crate::MAX_SIDE) too; a line has 1 to `MAX_SIDE` pixels, all of
/// them as many. Lines of coefficients are given as soon as they are ready: with
/// lines counted from 0, line 2n + 4 gives low n and high n, every other line
/// gives none, and the end gives the one to four that are left. They are the
/// rows of the plane of the whole strip, as [`forward97`](crate::forward97)
/// gives it ([`GivenLine::row`] tells which).
///
/// A scan has memory of its own, eleven lines of coefficients, from the first
/// line that it takes on. A refused call changes nothing; a refused line counts
/// as not there, and the scan goes on.
///
/// ```
/// use suzdrepa::{GivenLine, Refusal, Scan, Width, WidthTable};
///
/// let (kept, others) = (Width::new(12, 10), Width::new(12, 20));
/// let table = WidthTable::kept_and_others(3, 1, 24, kept, others)?;
/// let strip = [[5u16, 7, 4, 4], [5, 6, 4, 3], [1, 0, 2, 2], [7, 7, 1, 0], [6, 5, 2, 1]];
///
/// let mut plane = vec![0; 5 * 4];
/// let mut put = |line: GivenLine| {
///     let row = line.row(5) as usize;
///     plane[4 * row..][..4].copy_from_slice(line.values);
/// };
/// let mut scan = Scan::begin(table.as_bytes())?;
/// for pixels in &strip {
///     scan.line(pixels)?.for_each(&mut put);
/// }
/// // A line of another width comes back, and so does a pixel of four bits.
/// assert_eq!(scan.line(&[5, 7]).unwrap_err(), Refusal::OutOfTurn);
/// assert_eq!(scan.line(&[5, 7, 8, 0]).unwrap_err(), Refusal::PixelTooLarge);
/// scan.end()?.for_each(&mut put);
///
/// let whole = suzdrepa::forward97_to_vec(table.as_bytes(), &strip.concat(), 4, 5)?;
/// assert_eq!(plane, whole);
/// # Ok::<(), Refusal>(())
/// ```
#[derive(Clone, Debug)]
pub struct Scan {
    state: [u8; sys::SUZ_SCAN_LENGTH],
    /// Empty before the first line.
    memory: Memory,
    taken: u64,
    given: u64,
}

/// What is lent to the calls of a scan.
#[derive(Clone, Debug, Default)]
struct Memory {
    width: usize,
    held: Vec<i32>,
    out: Vec<i32>,
}

impl Memory {
    /// For lines of this width. Nothing is allocated for one that no call
    /// admits: such a line is refused before its memory is looked at.
    fn of_width(width: usize) -> Memory {
        let admitted = if width <= MAX_SIDE { width } else { 0 };
        Memory {
            width,
            held: vec![0; sys::SUZ_SCAN_HELD_LINES * admitted],
            out: vec![0; sys::SUZ_SCAN_OUT_LINES * admitted],
        }
    }
}

impl Scan {
    /// Begins a scan under a width table of one level, and keeps the table.
    ///
    /// Refused 1 to 5 by the table's bytes, then 14 where it has more levels
    /// than one, then 6 and 7.
    pub fn begin(table: &[u8]) -> Result<Scan, Refusal> {
        let mut state = [0; sys::SUZ_SCAN_LENGTH];
        // SAFETY: pointers and lengths are those of slices; `state` is
        // exclusive.
        Refusal::from_answer(unsafe {
            sys::suz_scan_begin(table.as_ptr(), table.len(), state.as_mut_ptr(), state.len())
        })?;
        Ok(Scan {
            state,
            memory: Memory::default(),
            taken: 0,
            given: 0,
        })
    }

    /// Takes the next line, all of `pixels`; gives the lines that are ready.
    ///
    /// Refused 14 after the end and where the line is not as wide as the first
    /// one, 8 where a first line is not 1 to [`MAX_SIDE`](crate::MAX_SIDE)
    /// pixels wide, 10 (a pixel too large).
    pub fn line(&mut self, pixels: &[u16]) -> Result<Given<'_>, Refusal> {
        // A first line that is refused leaves no memory behind.
        let mut first = (self.taken == 0).then(|| Memory::of_width(pixels.len()));
        let memory = first.as_mut().unwrap_or(&mut self.memory);
        let mut given = 0;
        // SAFETY: pointers and lengths are those of slices; `state`, `held`,
        // `out` and `given` are exclusive.
        Refusal::from_answer(unsafe {
            sys::suz_scan_line(
                self.state.as_mut_ptr(),
                self.state.len(),
                pixels.as_ptr(),
                pixels.len(),
                pixels.len(),
                memory.held.as_mut_ptr(),
                memory.held.len(),
                memory.out.as_mut_ptr(),
                memory.out.len(),
                &mut given,
            )
        })?;
        if let Some(memory) = first {
            self.memory = memory;
        }
        self.taken += 1;
        Ok(self.give(given))
    }

    /// Ends the scan: there are no more lines. Gives those that are left.
    ///
    /// Refused 14 where no line was taken, and after the end.
    pub fn end(&mut self) -> Result<Given<'_>, Refusal> {
        let memory = &mut self.memory;
        let mut given = 0;
        // SAFETY: pointers and lengths are those of slices; `state`, `held`,
        // `out` and `given` are exclusive.
        Refusal::from_answer(unsafe {
            sys::suz_scan_end(
                self.state.as_mut_ptr(),
                self.state.len(),
                memory.held.as_mut_ptr(),
                memory.held.len(),
                memory.out.as_mut_ptr(),
                memory.out.len(),
                &mut given,
            )
        })?;
        Ok(self.give(given))
    }

    /// Scans a whole strip and hands each line that is given to `take`. Gives
    /// the number of lines that were taken.
    ///
    /// Refused as [`begin`](Scan::begin), [`line`](Scan::line) and
    /// [`end`](Scan::end) are.
    ///
    /// ```
    /// use suzdrepa::{Scan, Width, WidthTable};
    ///
    /// let table = WidthTable::kept_and_others(8, 1, 24, Width::new(12, 2), Width::new(12, 20))?;
    /// // White paper of 10,000 lines.
    /// let paper = (0..10_000).map(|_| [255u16; 16]);
    /// let mut given = 0;
    /// let height = Scan::over(table.as_bytes(), paper, |line| {
    ///     assert_eq!(line.values.len(), 16);
    ///     given += 1;
    /// })?;
    /// assert_eq!((height, given), (10_000, 10_000));
    /// # Ok::<(), suzdrepa::Refusal>(())
    /// ```
    pub fn over<Line: AsRef<[u16]>>(
        table: &[u8],
        lines: impl IntoIterator<Item = Line>,
        mut take: impl FnMut(GivenLine),
    ) -> Result<u64, Refusal> {
        let mut scan = Scan::begin(table)?;
        for pixels in lines {
            scan.line(pixels.as_ref())?.for_each(&mut take);
        }
        scan.end()?.for_each(&mut take);
        Ok(scan.taken)
    }

    /// The pixels of a line; `None` before the first.
    pub fn width(&self) -> Option<usize> {
        (self.taken > 0).then_some(self.memory.width)
    }

    /// How many lines were taken.
    pub fn lines(&self) -> u64 {
        self.taken
    }

    /// The lines that stand first in `out`; lows and highs come in turn.
    fn give(&mut self, count: u32) -> Given<'_> {
        let next = self.given;
        self.given += u64::from(count);
        let values = &self.memory.out[..count as usize * self.memory.width];
        Given {
            lines: values.chunks_exact(self.memory.width),
            next,
        }
    }
}

/// Which values of its columns a line has.
#[derive(Clone, Copy, Debug, PartialEq, Eq, Hash)]
pub enum LineKind {
    /// The low ones, in the upper half of the plane.
    Low,
    /// The high ones, in the lower half.
    High,
}

/// A line of coefficients that a scan gives.
#[derive(Clone, Copy, Debug, PartialEq, Eq)]
pub struct GivenLine<'a> {
    pub kind: LineKind,
    /// From 0, for low and high lines each.
    pub number: u64,
    /// As many as a line has pixels, low values of the row first.
    pub values: &'a [i32],
}

impl GivenLine<'_> {
    /// The row of the plane of a strip with so many lines.
    pub fn row(&self, height: u64) -> u64 {
        match self.kind {
            LineKind::Low => self.number,
            LineKind::High => height.div_ceil(2) + self.number,
        }
    }
}

/// The lines that a call of a scan gives: by number, low n before high n.
#[derive(Clone, Debug)]
#[must_use = "the next call writes over lines that were given"]
pub struct Given<'a> {
    lines: ChunksExact<'a, i32>,
    /// How many came before.
    next: u64,
}

impl<'a> Iterator for Given<'a> {
    type Item = GivenLine<'a>;

    fn next(&mut self) -> Option<GivenLine<'a>> {
        let values = self.lines.next()?;
        let kind = match self.next % 2 {
            0 => LineKind::Low,
            _ => LineKind::High,
        };
        let number = self.next / 2;
        self.next += 1;
        Some(GivenLine {
            kind,
            number,
            values,
        })
    }

    fn size_hint(&self) -> (usize, Option<usize>) {
        self.lines.size_hint()
    }
}

impl ExactSizeIterator for Given<'_> {}

#[cfg(test)]
mod tests {
    use super::*;
    use crate::{Width, WidthTable};

    fn table(levels: u8) -> WidthTable {
        let (kept, others) = (Width::new(12, 2), Width::new(12, 20));
        WidthTable::kept_and_others(4, levels, 24, kept, others).unwrap()
    }

    fn strip(width: usize, height: usize) -> Vec<Vec<u16>> {
        let pixel = |i: usize| (i * i * 7 % 16) as u16;
        let line = |y: usize| (0..width).map(|x| pixel(y * width + x)).collect();
        (0..height).map(line).collect()
    }

    /// Where each line stands, and what it has, as the plane of the strip.
    fn makes_up_the_plane(table: &WidthTable, width: usize, height: usize) -> Vec<i32> {
        let strip = strip(width, height);
        let mut plane = vec![i32::MIN; width * height];
        let mut order = Vec::new();
        let taken = Scan::over(table.as_bytes(), &strip, |line| {
            let row = line.row(height as u64) as usize;
            plane[row * width..][..width].copy_from_slice(line.values);
            order.push((line.number, line.kind == LineKind::High));
        });
        assert_eq!(taken, Ok(height as u64));
        let whole = crate::forward97_to_vec(table.as_bytes(), &strip.concat(), width, height);
        assert_eq!(whole.as_ref(), Ok(&plane));
        let due: Vec<_> = (0..height as u64).map(|i| (i / 2, i % 2 == 1)).collect();
        assert_eq!(order, due);
        plane
    }

    #[test]
    fn lines_make_up_the_plane() {
        // The second table cuts every product before the sum.
        let (plain, cut) = (table(1), table(1).with_products(|_| 7).unwrap());
        let mut differ = 0;
        for (width, height) in (1..7).flat_map(|w| (1..12).map(move |h| (w, h))) {
            let [one, other] = [&plain, &cut].map(|t| makes_up_the_plane(t, width, height));
            differ += usize::from(one != other);
        }
        assert!(differ > 30, "{differ}");
    }

    #[test]
    fn how_many_lines_each_call_gives() {
        for (width, due) in [
            (3, &[0, 0, 0, 0, 2, 0, 2, 0, 4][..]),
            (1, &[0, 0, 0, 0, 2, 3]),
            (1, &[0, 0, 2]),
            (1, &[0, 1]),
        ] {
            let mut scan = Scan::begin(table(1).as_bytes()).unwrap();
            let mut counts = Vec::new();
            let height = due.len() - 1;
            for line in strip(width, height) {
                counts.push(scan.line(&line).unwrap().len());
            }
            counts.push(scan.end().unwrap().len());
            assert_eq!(counts, due);
            assert_eq!((scan.width(), scan.lines()), (Some(width), height as u64));
        }
    }

    /// The end gives its low line and no other.
    #[test]
    fn a_strip_of_one_line() {
        let mut scan = Scan::begin(table(1).as_bytes()).unwrap();
        assert_eq!(scan.line(&[5]).unwrap().len(), 0);
        let given: Vec<_> = scan.end().unwrap().collect();
        // 5 of 4 bits is -3/16, cut to -1/4 by two fractional bits.
        let due = GivenLine {
            kind: LineKind::Low,
            number: 0,
            values: &[-1],
        };
        assert_eq!((given, due.row(1)), (vec![due], 0));
    }

    #[test]
    fn tables_that_are_refused() {
        let begin = |table: &[u8]| Scan::begin(table).map(|_| ()).unwrap_err();
        assert_eq!(begin(&[]), Refusal::CutShort);
        assert_eq!(begin(table(2).as_bytes()), Refusal::OutOfTurn);
        assert_eq!(begin(&table(1).as_bytes()[..55]), Refusal::CutShort);
        let cut = |levels, bits| table(levels).with_products(|_| bits).unwrap();
        assert_eq!(begin(&cut(1, 9).as_bytes()[..57]), Refusal::CutShort);
        assert_eq!(begin(cut(2, 9).as_bytes()), Refusal::OutOfTurn);
        // Products so rough leave too large an error.
        assert_eq!(begin(cut(1, 0).as_bytes()).number(), 7);
        let narrow = WidthTable::uniform(4, 1, 24, Width::new(2, 20)).unwrap();
        assert_eq!(begin(narrow.as_bytes()).number(), 6);
        let narrow = WidthTable::uniform(4, 2, 24, Width::new(2, 20)).unwrap();
        assert_eq!(begin(narrow.as_bytes()), Refusal::OutOfTurn);
    }

    /// State, held lines, sizes and counts are as they were.
    #[test]
    fn refused_calls_change_nothing() {
        let mut scan = Scan::begin(table(1).as_bytes()).unwrap();
        let mut again = scan.clone();
        let strip = strip(3, 7);
        let wrong: [&[u16]; 7] = [
            &[],
            &[1],
            &[16, 0, 0],
            &[0, 0, 16],
            &[0; 4],
            &[0; 4096],
            &[0; 4097],
        ];
        let look = |scan: &Scan| format!("{scan:?}");
        for at in 0..=strip.len() {
            for pixels in wrong {
                // The width is settled by the first line that is taken.
                let due = match pixels.len() {
                    3 => 10,
                    0 | 4097 if at == 0 => 8,
                    _ if at == 0 => continue,
                    _ => 14,
                };
                let before = look(&scan);
                assert_eq!(scan.line(pixels).unwrap_err().number(), due);
                assert_eq!(look(&scan), before);
            }
            if at == 0 {
                let before = look(&scan);
                assert_eq!(scan.end().unwrap_err(), Refusal::OutOfTurn);
                assert_eq!(look(&scan), before);
            }
            if let Some(line) = strip.get(at) {
                assert!(scan.line(line).unwrap().eq(again.line(line).unwrap()));
            }
        }
        assert_eq!(scan.memory.held.len(), 21);
        assert!(scan.end().unwrap().eq(again.end().unwrap()));
        let before = look(&scan);
        assert_eq!(scan.end().unwrap_err(), Refusal::OutOfTurn);
        assert_eq!(scan.line(&strip[0]).unwrap_err(), Refusal::OutOfTurn);
        assert_eq!(look(&scan), before);
    }

    #[test]
    fn memory_of_a_line() {
        let lengths = |width| {
            let memory = Memory::of_width(width);
            (memory.held.len(), memory.out.len())
        };
        assert_eq!(lengths(4096), (7 * 4096, 4 * 4096));
        assert_eq!(lengths(4097), (0, 0));
        assert_eq!(lengths(usize::MAX), (0, 0));
    }
}
