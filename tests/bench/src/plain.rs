//! A plain Rust program of the same transforms: what one would write for
//! speed without proofs. It takes its arguments to be right and its sides so
//! large that no pass has a single sample, but answers as the engine does for
//! the pixels and planes in them, and zeroes the work area as the engine does.
//!
//! Rows and columns are worked alike. A *line buffer* is a number of lines of
//! `n` values each, the lines of the lows first, then those of the highs: a row
//! is one with one value a line, a strip of columns one with up to `STRIP`.
//! Every stage is then a flat loop over slices, which the compiler vectorises.
//! Going forward, the 5/3 takes the columns of the pixels line by line instead.

/// The most columns that are worked side by side.
const STRIP: usize = 64;

/// A loop over a line buffer that changes each value by two neighbours.
trait Sweep<T> {
    fn run(self, op: impl Fn(T, T, T) -> T);
}

/// Changes every high value by the lows on its two sides.
struct HighsByLows<'a, T> {
    lows: &'a [T],
    highs: &'a mut [T],
    n: usize,
}

impl<T: Copy> Sweep<T> for HighsByLows<'_, T> {
    #[inline(always)]
    fn run(self, op: impl Fn(T, T, T) -> T) {
        let (lows, n) = (self.lows, self.n);
        let (inner, last) = self.highs.split_at_mut(lows.len() - n);
        for ((high, &a), &b) in inner.iter_mut().zip(lows).zip(&lows[n..]) {
            *high = op(*high, a, b);
        }
        for (high, &a) in last.iter_mut().zip(&lows[lows.len() - n..]) {
            *high = op(*high, a, a);
        }
    }
}

/// Changes every low value by the highs on its two sides.
struct LowsByHighs<'a, T> {
    lows: &'a mut [T],
    highs: &'a [T],
    n: usize,
}

impl<T: Copy> Sweep<T> for LowsByHighs<'_, T> {
    #[inline(always)]
    fn run(self, op: impl Fn(T, T, T) -> T) {
        let (highs, n) = (self.highs, self.n);
        let (first, rest) = self.lows.split_at_mut(n);
        for (low, &a) in first.iter_mut().zip(highs) {
            *low = op(*low, a, a);
        }
        let (inner, last) = rest.split_at_mut(highs.len() - n);
        for ((low, &a), &b) in inner.iter_mut().zip(highs).zip(&highs[n..]) {
            *low = op(*low, a, b);
        }
        for (low, &a) in last.iter_mut().zip(&highs[highs.len() - n..]) {
            *low = op(*low, a, a);
        }
    }
}

/// What a pass does with the lows and highs of a line buffer.
trait Pass {
    fn run(&self, lows: &mut [i32], highs: &mut [i32], n: usize);
}

/// Parts a line into lows and highs, each value by `enter`.
#[inline(always)]
fn part<T: Copy>(line: &[T], out: &mut [i32], enter: impl Fn(T) -> i32) {
    let (lows, highs) = out.split_at_mut(line.len().div_ceil(2));
    let pairs = line.chunks_exact(2);
    if let [last] = pairs.remainder() {
        lows[lows.len() - 1] = enter(*last);
    }
    for ((pair, low), high) in pairs.zip(lows).zip(highs) {
        (*low, *high) = (enter(pair[0]), enter(pair[1]));
    }
}

/// The reverse of [`part`], each value by `leave`.
#[inline(always)]
fn join<T: Copy, U>(parted: &[T], out: &mut [U], leave: impl Fn(T) -> U) {
    let (lows, highs) = parted.split_at(parted.len().div_ceil(2));
    let mut pairs = out.chunks_exact_mut(2);
    for ((pair, &low), &high) in pairs.by_ref().zip(lows).zip(highs) {
        (pair[0], pair[1]) = (leave(low), leave(high));
    }
    if let [last] = pairs.into_remainder() {
        *last = leave(lows[lows.len() - 1]);
    }
}

/// Where line `y` of `h` stands once the lows are first.
fn parted(y: usize, h: usize) -> usize {
    match y % 2 {
        0 => y / 2,
        _ => h.div_ceil(2) + y / 2,
    }
}

/// The sides of the part that each level works, from the first level on.
fn parts((width, height): (usize, usize), levels: u8) -> Vec<(usize, usize)> {
    let half = |&(w, h): &(usize, usize)| Some((w.div_ceil(2), h.div_ceil(2)));
    std::iter::successors(Some((width, height)), half)
        .take(levels.into())
        .collect()
}

/// Whether every pixel is below 2^depth.
fn pixels_right(depth: u8, pixels: &[u16]) -> bool {
    pixels.iter().fold(0, |all, &pixel| all | pixel) >> depth == 0
}

/// Works the rows of the whole picture forward, from its pixels.
fn first_rows(depth: u8, pixels: &[u16], width: usize, plane: &mut [i32], pass: &impl Pass) {
    let middle = 1 << (depth - 1);
    for (pixels, row) in pixels
        .chunks_exact(width)
        .zip(plane.chunks_exact_mut(width))
    {
        part(pixels, row, |pixel| i32::from(pixel) - middle);
        let (lows, highs) = row.split_at_mut(width.div_ceil(2));
        pass.run(lows, highs, 1);
    }
}

/// Works the rows of a part of the plane forward.
fn rows(
    plane: &mut [i32],
    width: usize,
    (w, h): (usize, usize),
    line: &mut [i32],
    pass: &impl Pass,
) {
    let line = &mut line[..w];
    for row in plane.chunks_exact_mut(width).take(h) {
        line.copy_from_slice(&row[..w]);
        part(line, &mut row[..w], |value| value);
        let (lows, highs) = row[..w].split_at_mut(w.div_ceil(2));
        pass.run(lows, highs, 1);
    }
}

/// Works the columns of the whole picture by the 5/3 forward, from its pixels:
/// line `i` of the highs, then line `i` of the lows, so that every pixel and
/// every coefficient is passed once, in order.
fn first_columns(depth: u8, pixels: &[u16], (width, height): (usize, usize), plane: &mut [i32]) {
    let middle = 1 << (depth - 1);
    let enter = |pixel: u16| i32::from(pixel) - middle;
    let line = |y: usize| &pixels[y * width..][..width];
    let (lows, highs) = plane.split_at_mut(height.div_ceil(2) * width);
    let (last_low, last_high) = (height.div_ceil(2) - 1, height / 2 - 1);
    for (i, low) in lows.chunks_exact_mut(width).enumerate() {
        let even = line(2 * i);
        if i <= last_high {
            let (odd, next) = (line(2 * i + 1), line(2 * (i + 1).min(last_low)));
            let high = &mut highs[i * width..][..width];
            for (((high, &own), &a), &b) in high.iter_mut().zip(odd).zip(even).zip(next) {
                *high = enter(own) - ((enter(a) + enter(b)) >> 1);
            }
        }
        let high = |i: usize| &highs[i * width..][..width];
        let (before, after) = (high(i.saturating_sub(1)), high(i.min(last_high)));
        for (((low, &own), &a), &b) in low.iter_mut().zip(even).zip(before).zip(after) {
            *low = enter(own) + ((a + b + 2) >> 2);
        }
    }
}

/// Works columns `from` to `to` of a part of the plane forward.
fn columns(
    plane: &mut [i32],
    width: usize,
    (from, to): (usize, usize),
    h: usize,
    buffer: &mut [i32],
    pass: &impl Pass,
) {
    for x in (from..to).step_by(STRIP) {
        let n = STRIP.min(to - x);
        let buffer = &mut buffer[..h * n];
        for (y, row) in plane.chunks_exact(width).take(h).enumerate() {
            buffer[parted(y, h) * n..][..n].copy_from_slice(&row[x..x + n]);
        }
        let (lows, highs) = buffer.split_at_mut(h.div_ceil(2) * n);
        pass.run(lows, highs, n);
        for (row, line) in plane.chunks_exact_mut(width).zip(buffer.chunks_exact(n)) {
            row[x..x + n].copy_from_slice(line);
        }
    }
}

/// What each level of the 5/3 works first, going forward.
#[derive(Clone, Copy, PartialEq, Eq)]
pub enum Order {
    /// As copies are made now.
    ColumnsFirst,
    /// As they were made earlier.
    RowsFirst,
}

struct Reversible;

impl Pass for Reversible {
    fn run(&self, lows: &mut [i32], highs: &mut [i32], n: usize) {
        HighsByLows { lows, highs, n }.run(|own, a, b| own - ((a + b) >> 1));
        LowsByHighs { lows, highs, n }.run(|own, a, b| own + ((a + b + 2) >> 2));
    }
}

struct ReversibleBack;

impl Pass for ReversibleBack {
    fn run(&self, lows: &mut [i32], highs: &mut [i32], n: usize) {
        LowsByHighs { lows, highs, n }.run(|own, a, b| own - ((a + b + 2) >> 2));
        HighsByLows { lows, highs, n }.run(|own, a, b| own + ((a + b) >> 1));
    }
}

/// 5/3 forward; false where a pixel is too large.
pub fn forward53(
    order: Order,
    depth: u8,
    levels: u8,
    pixels: &[u16],
    size: (usize, usize),
    plane: &mut [i32],
    work: &mut [i32],
) -> bool {
    if !pixels_right(depth, pixels) {
        return false;
    }
    let width = size.0;
    for (level, (w, h)) in parts(size, levels).into_iter().enumerate() {
        match order {
            Order::ColumnsFirst => {
                match level {
                    0 => first_columns(depth, pixels, size, plane),
                    _ => columns(plane, width, (0, w), h, work, &Reversible),
                }
                rows(plane, width, (w, h), work, &Reversible);
            }
            Order::RowsFirst => {
                match level {
                    0 => first_rows(depth, pixels, width, plane, &Reversible),
                    _ => rows(plane, width, (w, h), work, &Reversible),
                }
                columns(plane, width, (0, w), h, work, &Reversible);
            }
        }
    }
    work.fill(0);
    true
}

/// The bits of all values together, each moved up by `middle`: those above
/// some place are 0 where no value lies that far from 0.
#[inline(always)]
fn together(values: &[i32], middle: i32) -> u32 {
    let moved = |value: i32| value.wrapping_add(middle) as u32;
    values.iter().fold(0, |bits, &value| bits | moved(value))
}

/// No picture's plane has values that do not lie within 2^22; from those that
/// do no sum of a level leaves 32 bits.
const SMALL: u32 = 22;

/// What a pass back looks at: of the two of a level's inverse, the first one at
/// what enters it, the second one at what it leaves.
#[derive(Clone, Copy)]
enum Look {
    /// Whether every value is small.
    Entering,
    /// The bits of all values together, each moved up by so much.
    Leaving(i32),
}

impl Look {
    /// Whether values that enter are small, where they are looked at.
    #[inline(always)]
    fn entering(self, values: &[i32]) -> bool {
        match self {
            Look::Entering => together(values, 1 << SMALL) >> (SMALL + 1) == 0,
            Look::Leaving(_) => true,
        }
    }

    /// The bits of values that leave, where they are looked at.
    #[inline(always)]
    fn leaving(self, values: &[i32]) -> u32 {
        match self {
            Look::Entering => 0,
            Look::Leaving(middle) => together(values, middle),
        }
    }
}

/// Undoes the columns of a part of the plane. Gives the bits of what leaves,
/// and nothing where a value that enters is too large.
fn columns_back(
    plane: &mut [i32],
    width: usize,
    (w, h): (usize, usize),
    buffer: &mut [i32],
    look: Look,
) -> Option<u32> {
    let mut bits = 0;
    for x in (0..w).step_by(STRIP) {
        let n = STRIP.min(w - x);
        let buffer = &mut buffer[..h * n];
        let mut small = true;
        for (row, line) in plane.chunks_exact(width).zip(buffer.chunks_exact_mut(n)) {
            line.copy_from_slice(&row[x..x + n]);
            small &= look.entering(line);
        }
        if !small {
            return None;
        }
        let (lows, highs) = buffer.split_at_mut(h.div_ceil(2) * n);
        ReversibleBack.run(lows, highs, n);
        for (y, row) in plane.chunks_exact_mut(width).take(h).enumerate() {
            let line = &buffer[parted(y, h) * n..][..n];
            bits |= look.leaving(line);
            row[x..x + n].copy_from_slice(line);
        }
    }
    Some(bits)
}

/// The same for the rows.
fn rows_back(
    plane: &mut [i32],
    width: usize,
    (w, h): (usize, usize),
    line: &mut [i32],
    look: Look,
) -> Option<u32> {
    let line = &mut line[..w];
    let mut bits = 0;
    for row in plane.chunks_exact_mut(width).take(h) {
        line.copy_from_slice(&row[..w]);
        if !look.entering(line) {
            return None;
        }
        let (lows, highs) = line.split_at_mut(w.div_ceil(2));
        ReversibleBack.run(lows, highs, 1);
        bits |= look.leaving(line);
        join(line, &mut row[..w], |value| value);
    }
    Some(bits)
}

/// Undoes a level, what was worked last first. Gives the bits of what leaves,
/// each value moved up by `middle`, and nothing where one that enters is too
/// large.
fn level_back(
    order: Order,
    plane: &mut [i32],
    width: usize,
    part: (usize, usize),
    buffer: &mut [i32],
    middle: i32,
) -> Option<u32> {
    match order {
        Order::ColumnsFirst => {
            rows_back(plane, width, part, buffer, Look::Entering)?;
            columns_back(plane, width, part, buffer, Look::Leaving(middle))
        }
        Order::RowsFirst => {
            columns_back(plane, width, part, buffer, Look::Entering)?;
            rows_back(plane, width, part, buffer, Look::Leaving(middle))
        }
    }
}

/// 5/3 back; false where no picture has the plane.
pub fn inverse53(
    order: Order,
    depth: u8,
    levels: u8,
    plane: &[i32],
    size: (usize, usize),
    pixels: &mut [u16],
    work: &mut [i32],
) -> bool {
    let width = size.0;
    let middle = 1 << (depth - 1);
    work.copy_from_slice(plane);
    let mut buffer = vec![0; size.1.max(width) * STRIP];
    let mut parts = parts(size, levels).into_iter().rev();
    let left = parts.try_fold(0, |_, part| {
        level_back(order, work, width, part, &mut buffer, middle)
    });
    if left.is_none_or(|bits| bits >> depth != 0) {
        work.fill(0);
        return false;
    }
    for (pixel, value) in pixels.iter_mut().zip(work) {
        *pixel = (*value + middle) as u16;
        *value = 0;
    }
    true
}

/// Numerators and denominators of the constants, and 1 over the last one.
const CONSTANTS: [(i128, i128); 6] = [
    (-1_586_134_342, 1_000_000_000),
    (-5_298_011_854, 100_000_000_000),
    (8_829_110_762, 10_000_000_000),
    (4_435_068_522, 10_000_000_000),
    (1_149_604_398, 1_000_000_000),
    (1_000_000_000, 1_149_604_398),
];

/// Bits that a value has: integer and fractional.
#[derive(Clone, Copy)]
struct Bits {
    integer: u8,
    fraction: u8,
}

/// A stage: the own value, shifted, and a constant times the sum of two
/// neighbours are added and cut once. Where the node has more bits than the
/// product, or the own value more than both, the constant is shifted too; where
/// the product is cut before the sum, the product.
#[derive(Clone, Copy)]
struct Stage {
    constant: i64,
    own_shift: u32,
    cut: u32,
    /// Whether the sum of two neighbours fits 31 bits.
    short: bool,
    /// Bits that the product loses before the sum, and then gets back as zeros.
    product_cut: u32,
    product_shift: u32,
}

/// As many bits as no product has.
const UNCUT: u8 = 44;

impl Stage {
    /// `own`, `f` and `fp` are the fractional bits of the own value, of the node
    /// and of the product where it is cut.
    fn new(node: usize, constant_bits: u8, own: u8, multiplied: Bits, f: u8, fp: u8) -> Stage {
        let (numerator, denominator) = CONSTANTS[node];
        let twice = (numerator << (constant_bits + 1)) + denominator;
        let nearest = twice.div_euclid(2 * denominator) as i64;
        let product = constant_bits + multiplied.fraction;
        let left = product.min(fp);
        let full = left.max(own).max(f);
        let rise = full - left;
        let (constant, product_shift) = match left == product {
            true => (nearest << rise, 0),
            false => (nearest, rise),
        };
        Stage {
            constant,
            own_shift: u32::from(full - own),
            cut: u32::from(full - f),
            short: multiplied.integer + multiplied.fraction <= 30,
            product_cut: u32::from(product - left),
            product_shift: u32::from(product_shift),
        }
    }

    /// Runs the stage with the product that is fastest for its numbers: the
    /// plainest x86-64 multiplies unsigned 32-bit numbers alone, so values are
    /// biased by 2^31 before it, and the product is too large by a multiple
    /// of 2^31. Neighbours are added before it where their sum fits.
    fn run(self, sweep: impl Sweep<i32>) {
        let c = self.constant.unsigned_abs() as u32;
        let one = u64::from(c) << 31;
        match (self.short, self.constant < 0) {
            _ if self.cut > 31 || self.own_shift > 31 => self.run_any(sweep),
            _ if self.product_cut > 0 => self.run_cut(sweep, c, one),
            (true, false) => self.run_biased(sweep, one, |a, b| times(c, biased(a + b))),
            (true, true) => self.run_biased(sweep, one, |a, b| times(c, biased(-(a + b)))),
            (false, false) => {
                let product = |a, b| times(c, biased(a)) + times(c, biased(b));
                self.run_biased(sweep, 2 * one, product);
            }
            (false, true) => {
                let product = |a, b| 4 * one - times(c, biased(a)) - times(c, biased(b));
                self.run_biased(sweep, 2 * one, product);
            }
        }
    }

    /// The same with a product that is cut before the sum.
    fn run_cut(self, sweep: impl Sweep<i32>, c: u32, one: u64) {
        match (self.short, self.constant < 0) {
            (true, false) => self.run_cut_biased(sweep, one, |a, b| times(c, biased(a + b))),
            (true, true) => self.run_cut_biased(sweep, one, |a, b| times(c, biased(-(a + b)))),
            (false, false) => {
                let product = |a, b| times(c, biased(a)) + times(c, biased(b));
                self.run_cut_biased(sweep, 2 * one, product);
            }
            (false, true) => {
                let product = |a, b| 4 * one - times(c, biased(a)) - times(c, biased(b));
                self.run_cut_biased(sweep, 2 * one, product);
            }
        }
    }

    /// `product` is too large by `more`, which is made a multiple of all that
    /// the two cuts take away.
    #[inline(always)]
    fn run_cut_biased(self, sweep: impl Sweep<i32>, more: u64, product: impl Fn(i32, i32) -> u64) {
        let (cut, shift) = (self.product_cut, self.product_shift);
        let level = more.next_multiple_of(1 << (cut + self.cut.saturating_sub(shift)));
        let pad = level - more;
        self.run_biased(sweep, level >> cut << shift, |a, b| {
            (product(a, b) + pad) >> cut << shift
        });
    }

    /// `product` is too large by `more`. An own value with no bit below the
    /// cut is added after it.
    #[inline(always)]
    fn run_biased(self, sweep: impl Sweep<i32>, more: u64, product: impl Fn(i32, i32) -> u64) {
        let (own_shift, cut) = (self.own_shift, self.cut);
        let base = (more >> cut) as i32;
        let moved = |a, b| ((product(a, b) >> cut) as i32).wrapping_sub(base);
        if own_shift == cut {
            sweep.run(|own, a, b| own.wrapping_add(moved(a, b)));
        } else if own_shift > cut {
            sweep.run(|own, a, b| (own << (own_shift - cut)).wrapping_add(moved(a, b)));
        } else {
            let base = ((more + (1 << (31 + own_shift))) >> cut) as i32;
            sweep.run(|own, a, b| {
                let total = product(a, b) + (u64::from(biased(own)) << own_shift);
                ((total >> cut) as i32).wrapping_sub(base)
            });
        }
    }

    fn run_any(self, sweep: impl Sweep<i32>) {
        sweep.run(|own, a, b| {
            let sum = i64::from(a) + i64::from(b);
            let product = (self.constant * sum) >> self.product_cut << self.product_shift;
            let total = (i64::from(own) << self.own_shift) + product;
            (total >> self.cut) as i32
        });
    }
}

/// A value and 2^31 more.
#[inline(always)]
fn biased(value: i32) -> u32 {
    value as u32 ^ (1 << 31)
}

#[inline(always)]
fn times(c: u32, value: u32) -> u64 {
    u64::from(c) * u64::from(value)
}

/// A scaling at the end of a pass.
#[derive(Clone, Copy)]
struct Scale {
    c: u32,
    /// Makes what the product is too large by a multiple of what the cut takes
    /// away.
    pad: u64,
    base: i32,
    cut: u32,
}

impl Scale {
    /// Of a stage whose constant is above zero, without its own value.
    fn new(stage: Stage) -> Scale {
        let (c, cut) = (stage.constant as u32, stage.cut);
        let more = u64::from(c) << 31;
        let level = more.next_multiple_of(1 << cut);
        Scale {
            c,
            pad: level - more,
            base: (level >> cut) as i32,
            cut,
        }
    }

    #[inline(always)]
    fn of(self, value: i32) -> i32 {
        let total = times(self.c, biased(value)) + self.pad;
        ((total >> self.cut) as i32).wrapping_sub(self.base)
    }
}

/// A loop whose values are scaled once they are changed.
struct Scaled<S>(S, Scale);

impl<S: Sweep<i32>> Sweep<i32> for Scaled<S> {
    #[inline(always)]
    fn run(self, op: impl Fn(i32, i32, i32) -> i32) {
        let Scaled(sweep, scale) = self;
        sweep.run(|own, a, b| scale.of(op(own, a, b)));
    }
}

/// One pass of the 9/7 lifting: P1, U1, P2, U2, then G1 and G2.
struct Lifting([Stage; 4], [Scale; 2]);

impl Lifting {
    /// `nodes` are the pairs of bytes of a pass: integer and fractional bits;
    /// `products` the bits of its products.
    fn new(constant_bits: &[u8], input: Bits, nodes: &[u8], products: [u8; 4]) -> Lifting {
        let bits = |node: usize| Bits {
            integer: nodes[2 * node],
            fraction: nodes[2 * node + 1],
        };
        let stage = |node: usize, own: u8, multiplied: Bits| {
            Stage::new(
                node,
                constant_bits[node],
                own,
                multiplied,
                bits(node).fraction,
                products.get(node).copied().unwrap_or(UNCUT),
            )
        };
        let stages = [
            stage(0, input.fraction, input),
            stage(1, input.fraction, bits(0)),
            stage(2, bits(0).fraction, bits(1)),
            stage(3, bits(1).fraction, bits(2)),
        ];
        let scales = [stage(4, 0, bits(3)), stage(5, 0, bits(2))];
        Lifting(stages, scales.map(Scale::new))
    }
}

impl Pass for Lifting {
    fn run(&self, lows: &mut [i32], highs: &mut [i32], n: usize) {
        let Lifting([p1, u1, p2, u2], [g1, g2]) = *self;
        p1.run(HighsByLows { lows, highs, n });
        u1.run(LowsByHighs { lows, highs, n });
        p2.run(HighsByLows { lows, highs, n });
        u2.run(Scaled(LowsByHighs { lows, highs, n }, g1));
        for high in highs {
            *high = g2.of(*high);
        }
    }
}

/// 9/7 forward under an accepted table; false where a pixel is too large.
pub fn forward97(
    table: &[u8],
    pixels: &[u16],
    size: (usize, usize),
    plane: &mut [i32],
    work: &mut [i32],
) -> bool {
    let (depth, levels) = (table[3], table[7]);
    let constant_bits = &table[11..17];
    if !pixels_right(depth, pixels) {
        return false;
    }
    let width = size.0;
    let mut input = Bits {
        integer: 0,
        fraction: depth,
    };
    for (level, (w, h)) in parts(size, levels).into_iter().enumerate() {
        let nodes = &table[20 + 36 * level..][..36];
        let bits = |at: usize| Bits {
            integer: nodes[at],
            fraction: nodes[at + 1],
        };
        // Tag 5, where there is one.
        let first = 20 + 36 * usize::from(levels) + 3 + 12 * level;
        let products = |pass: usize| match table.get(first + 4 * pass..) {
            Some(&[p1, u1, p2, u2, ..]) => [p1, u1, p2, u2],
            _ => [UNCUT; 4],
        };
        let row_pass = Lifting::new(constant_bits, input, &nodes[..12], products(0));
        let low_pass = Lifting::new(constant_bits, bits(8), &nodes[12..24], products(1));
        let high_pass = Lifting::new(constant_bits, bits(10), &nodes[24..], products(2));
        match level {
            0 => first_rows(depth, pixels, width, plane, &row_pass),
            _ => rows(plane, width, (w, h), work, &row_pass),
        }
        let middle = w.div_ceil(2);
        columns(plane, width, (0, middle), h, work, &low_pass);
        columns(plane, width, (middle, w), h, work, &high_pass);
        input = bits(20);
    }
    work.fill(0);
    true
}

/// The nearest multiple of 2^-24 to a constant, in these units.
const fn nearest24((numerator, denominator): (i128, i128)) -> i64 {
    ((numerator << 25) + denominator).div_euclid(2 * denominator) as i64
}

const ALPHA: i64 = nearest24(CONSTANTS[0]);
const BETA: i64 = nearest24(CONSTANTS[1]);
const GAMMA: i64 = nearest24(CONSTANTS[2]);
const DELTA: i64 = nearest24(CONSTANTS[3]);
const ZETA: i64 = nearest24(CONSTANTS[4]);
const ONE_OVER_ZETA: i64 = nearest24(CONSTANTS[5]);

/// The most columns that are viewed side by side.
const VIEW_STRIP: usize = 16;

/// The inverse stages of a line buffer whose values have 20 fractional bits and
/// are scaled.
#[inline(always)]
fn inverse_lift(lows: &mut [i64], highs: &mut [i64], n: usize) {
    LowsByHighs { lows, highs, n }.run(|own, a, b| own + ((-DELTA * (a + b)) >> 24));
    HighsByLows { lows, highs, n }.run(|own, a, b| own + ((-GAMMA * (a + b)) >> 24));
    LowsByHighs { lows, highs, n }.run(|own, a, b| own + ((-BETA * (a + b)) >> 24));
    HighsByLows { lows, highs, n }.run(|own, a, b| own + ((-ALPHA * (a + b)) >> 24));
}

/// Scales values with `f` fractional bits into ones with 20.
#[inline(always)]
fn scaled<T: Copy + Into<i64>>(from: &[T], to: &mut [i64], constant: i64, f: u8) {
    for (to, &from) in to.iter_mut().zip(from) {
        *to = (constant * from.into()) >> (4 + f);
    }
}

/// What a level's columns read: bits of the lows, where they are stored, and
/// of the highs.
#[derive(Clone, Copy)]
struct Stored {
    lows: Option<u8>,
    highs: u8,
}

/// Undoes columns `from` to `to` of a part of `h` rows, from the plane and,
/// where a coarser level left the lows, from the work area, into it.
fn view_columns(
    plane: &[i32],
    work: &mut [i64],
    width: usize,
    (from, to): (usize, usize),
    h: usize,
    buffer: &mut [i64],
    stored: Stored,
) {
    let middle = h.div_ceil(2);
    for x in (from..to).step_by(VIEW_STRIP) {
        let n = VIEW_STRIP.min(to - x);
        let buffer = &mut buffer[..h * n];
        let (lows, highs) = buffer.split_at_mut(middle * n);
        let rows = plane.chunks_exact(width);
        match stored.lows {
            Some(f) => {
                for (row, line) in rows.clone().zip(lows.chunks_exact_mut(n)) {
                    scaled(&row[x..x + n], line, ONE_OVER_ZETA, f);
                }
            }
            None => {
                for (row, line) in work.chunks_exact(width).zip(lows.chunks_exact_mut(n)) {
                    scaled(&row[x..x + n], line, ONE_OVER_ZETA, 20);
                }
            }
        }
        for (row, line) in rows.skip(middle).zip(highs.chunks_exact_mut(n)) {
            scaled(&row[x..x + n], line, ZETA, stored.highs);
        }
        inverse_lift(lows, highs, n);
        for (y, row) in work.chunks_exact_mut(width).take(h).enumerate() {
            row[x..x + n].copy_from_slice(&buffer[parted(y, h) * n..][..n]);
        }
    }
}

/// Undoes a row into `line`, its lows first.
#[inline(always)]
fn view_row(row: &[i64], line: &mut [i64]) {
    let middle = row.len().div_ceil(2);
    let (lows, highs) = line.split_at_mut(middle);
    scaled(&row[..middle], lows, ONE_OVER_ZETA, 20);
    scaled(&row[middle..], highs, ZETA, 20);
    inverse_lift(lows, highs, 1);
}

/// Whether every value of a rectangle is held by a node of so many bits.
fn held(
    plane: &[i32],
    width: usize,
    (x0, x1): (usize, usize),
    (y0, y1): (usize, usize),
    node: &[u8],
) -> bool {
    let bits = u32::from(node[0] + node[1]);
    let middle = 1 << (bits - 1);
    let mut all = 0;
    for row in plane.chunks_exact(width).take(y1).skip(y0) {
        all |= together(&row[x0..x1], middle);
    }
    all.checked_shr(bits).unwrap_or(0) == 0
}

/// The pair of bytes of a node: level, pass and node from 0.
fn node(table: &[u8], level: usize, pass: usize, node: usize) -> &[u8] {
    &table[20 + 36 * level + 12 * pass + 2 * node..][..2]
}

/// Whether every coefficient is in the width of its node.
fn all_held(table: &[u8], plane: &[i32], width: usize, parts: &[(usize, usize)]) -> bool {
    let last = parts.len() - 1;
    parts.iter().enumerate().all(|(level, &(w, h))| {
        let (mw, mh) = (w.div_ceil(2), h.div_ceil(2));
        let node = |pass, at| node(table, level, pass, at);
        (level < last || held(plane, width, (0, mw), (0, mh), node(1, 4)))
            && held(plane, width, (0, mw), (mh, h), node(1, 5))
            && held(plane, width, (mw, w), (0, mh), node(2, 4))
            && held(plane, width, (mw, w), (mh, h), node(2, 5))
    })
}

/// A value as a pixel: 2^(B-1) greys and half a grey are added.
#[inline(always)]
fn shown(value: i64, depth: u8) -> u16 {
    let (cut, most) = (20 - depth, (1 << depth) - 1);
    (((value + (1i64 << (cut - 1))) >> cut) + (1 << (depth - 1))).clamp(0, most) as u16
}

/// Viewing under a table that allows it; false where a coefficient is outside
/// its width.
pub fn view97(
    table: &[u8],
    plane: &[i32],
    size: (usize, usize),
    pixels: &mut [u16],
    work: &mut [i64],
) -> bool {
    let (depth, levels) = (table[3], table[7]);
    let width = size.0;
    let last = usize::from(levels) - 1;
    let parts = parts(size, levels);
    if !all_held(table, plane, width, &parts) {
        return false;
    }
    let mut buffer = vec![0; (size.1 * VIEW_STRIP).max(width)];
    for (level, &(w, h)) in parts.iter().enumerate().rev() {
        let bits = |pass, at| node(table, level, pass, at)[1];
        let left = Stored {
            lows: Some(bits(1, 4)).filter(|_| level == last),
            highs: bits(1, 5),
        };
        let right = Stored {
            lows: Some(bits(2, 4)),
            highs: bits(2, 5),
        };
        let middle = w.div_ceil(2);
        view_columns(plane, work, width, (0, middle), h, &mut buffer, left);
        view_columns(plane, work, width, (middle, w), h, &mut buffer, right);
        let line = &mut buffer[..w];
        if level > 0 {
            for row in work.chunks_exact_mut(width).take(h) {
                view_row(&row[..w], line);
                join(line, &mut row[..w], |value| value);
            }
            continue;
        }
        // The last rows are shown.
        for (row, pixels) in work
            .chunks_exact_mut(width)
            .zip(pixels.chunks_exact_mut(width))
        {
            view_row(row, line);
            join(line, pixels, |value| shown(value, depth));
            row.fill(0);
        }
    }
    true
}

/// Undoes columns `from` to `to` of a part of `h` rows in place.
fn columns_in_place(
    work: &mut [i64],
    width: usize,
    (from, to): (usize, usize),
    h: usize,
    buffer: &mut [i64],
    (low_bits, high_bits): (u8, u8),
) {
    let middle = h.div_ceil(2);
    for x in (from..to).step_by(VIEW_STRIP) {
        let n = VIEW_STRIP.min(to - x);
        let buffer = &mut buffer[..h * n];
        let (lows, highs) = buffer.split_at_mut(middle * n);
        let rows = work.chunks_exact(width);
        for (row, line) in rows.clone().zip(lows.chunks_exact_mut(n)) {
            scaled(&row[x..x + n], line, ONE_OVER_ZETA, low_bits);
        }
        for (row, line) in rows.skip(middle).zip(highs.chunks_exact_mut(n)) {
            scaled(&row[x..x + n], line, ZETA, high_bits);
        }
        inverse_lift(lows, highs, n);
        for (y, row) in work.chunks_exact_mut(width).take(h).enumerate() {
            row[x..x + n].copy_from_slice(&buffer[parted(y, h) * n..][..n]);
        }
    }
}

/// The same by the passes of the engine: the coefficients go to the work area,
/// every level's inverse is worked there, and each of the last rows is shown from it.
pub fn view97_in_place(
    table: &[u8],
    plane: &[i32],
    size: (usize, usize),
    pixels: &mut [u16],
    work: &mut [i64],
) -> bool {
    let (depth, levels) = (table[3], table[7]);
    let width = size.0;
    let parts = parts(size, levels);
    if !all_held(table, plane, width, &parts) {
        return false;
    }
    for (to, &from) in work.iter_mut().zip(plane) {
        *to = from.into();
    }
    let mut buffer = vec![0; (size.1 * VIEW_STRIP).max(width)];
    for (level, &(w, h)) in parts.iter().enumerate().rev() {
        let bits = |pass, at| node(table, level, pass, at)[1];
        let last = level + 1 == parts.len();
        let left = (if last { bits(1, 4) } else { 20 }, bits(1, 5));
        let right = (bits(2, 4), bits(2, 5));
        let middle = w.div_ceil(2);
        columns_in_place(work, width, (0, middle), h, &mut buffer, left);
        columns_in_place(work, width, (middle, w), h, &mut buffer, right);
        let line = &mut buffer[..w];
        for (y, row) in work.chunks_exact_mut(width).take(h).enumerate() {
            view_row(&row[..w], line);
            join(line, &mut row[..w], |value| value);
            if level == 0 {
                for (to, &value) in pixels[y * width..].iter_mut().zip(row.iter()) {
                    *to = shown(value, depth);
                }
                row.fill(0);
            }
        }
    }
    true
}

/// The most columns that go through the pipeline side by side.
const PIPELINE_STRIP: usize = 512;

/// The inverse of a stage at one value.
#[inline(always)]
fn inverse_step(own: i64, a: i64, b: i64, constant: i64) -> i64 {
    own + ((-constant * (a + b)) >> 24)
}

/// What is held of a line in the pipeline. Step `i` takes low `i`
/// and high `i`, or the last ones, and gives places `2 (i - 2)` and
/// `2 (i - 2) + 1`.
#[derive(Clone, Copy, Default)]
struct Pipeline {
    g2: i64,
    u2: i64,
    p2: i64,
    u1: i64,
    even: i64,
    odd: i64,
}

impl Pipeline {
    /// A step away from the ends.
    #[inline(always)]
    fn inner(self, low: i64, high: i64) -> Pipeline {
        let u2 = inverse_step(low, self.g2, high, DELTA);
        let p2 = inverse_step(self.g2, self.u2, u2, GAMMA);
        let u1 = inverse_step(self.u2, self.p2, p2, BETA);
        let odd = inverse_step(self.p2, self.u1, u1, ALPHA);
        Pipeline {
            g2: high,
            u2,
            p2,
            u1,
            even: self.u1,
            odd,
        }
    }

    /// Step `i` of a line of so many lows and highs.
    fn any(self, low: i64, high: i64, i: usize, lows: usize, highs: usize) -> Pipeline {
        let on_low = |k: usize, kept, own, before, after, constant| match k {
            _ if k >= lows => kept,
            0 => inverse_step(own, after, after, constant),
            _ => inverse_step(own, before, after, constant),
        };
        let on_high = |k: usize, kept, own, before, after, constant| match k < highs {
            true => inverse_step(own, before, after, constant),
            false => kept,
        };
        let mut next = Pipeline {
            g2: high,
            even: self.u1,
            ..Pipeline::default()
        };
        next.u2 = on_low(i, self.u2, low, self.g2, high, DELTA);
        if i > 0 {
            next.p2 = on_high(i - 1, self.p2, self.g2, self.u2, next.u2, GAMMA);
            next.u1 = on_low(i - 1, self.u1, self.u2, self.p2, next.p2, BETA);
        }
        if i > 1 {
            next.odd = on_high(i - 2, 0, self.p2, self.u1, next.u1, ALPHA);
        }
        next
    }
}

/// A coefficient with `f` fractional bits, scaled into one with 20.
#[inline(always)]
fn scaled_one(value: i64, constant: i64, f: u8) -> i64 {
    (constant * value) >> (4 + f)
}

/// Undoes `n` columns from column `x` on, of `h` lines that go to rows of the
/// work area `stride` apart. The lows stand in the plane, or on the even rows
/// of the work area.
#[allow(clippy::too_many_arguments)]
fn pipeline_columns(
    plane: &[i32],
    work: &mut [i64],
    (width, stride): (usize, usize),
    x: usize,
    h: usize,
    held: &mut [Pipeline],
    fed: &mut [i64],
    stored: Stored,
) {
    let (lows, highs) = (h.div_ceil(2), h / 2);
    let n = held.len();
    let low_bits = stored.lows.unwrap_or(20);
    for i in 0..lows + 2 {
        if i < lows {
            match stored.lows {
                Some(_) => {
                    for (to, &from) in fed.iter_mut().zip(&plane[i * width + x..]) {
                        *to = from.into();
                    }
                }
                None => fed.copy_from_slice(&work[2 * i * stride + x..][..n]),
            }
        }
        let high = &plane[(lows + i.min(highs - 1)) * width + x..][..n];
        let scaled = |low: i64, high: i32| {
            (
                scaled_one(low, ONE_OVER_ZETA, low_bits),
                scaled_one(high.into(), ZETA, stored.highs),
            )
        };
        if (2..highs).contains(&i) {
            let to = 2 * (i - 2) * stride + x;
            let (even, odd) = work.split_at_mut(to + stride);
            let rows = even[to..][..n].iter_mut().zip(&mut odd[..n]);
            let next = fed.iter().zip(high);
            for ((held, (even, odd)), (&low, &high)) in held.iter_mut().zip(rows).zip(next) {
                let (low, high) = scaled(low, high);
                *held = held.inner(low, high);
                (*even, *odd) = (held.even, held.odd);
            }
        } else {
            for (held, (&low, &high)) in held.iter_mut().zip(fed.iter().zip(high)) {
                let (low, high) = scaled(low, high);
                *held = held.any(low, high, i, lows, highs);
            }
            for (row, odd) in [(2 * i, false), (2 * i + 1, true)] {
                if row >= 4 && row < h + 4 {
                    let to = &mut work[(row - 4) * stride + x..][..n];
                    for (to, held) in to.iter_mut().zip(held.iter()) {
                        *to = if odd { held.odd } else { held.even };
                    }
                }
            }
        }
    }
}

/// The inverse of a row into `line`, step by step.
fn pipeline_row(row: &[i64], line: &mut [i64]) {
    let (low, high) = row.split_at(row.len().div_ceil(2));
    let scaled = |low: i64, high: i64| {
        (
            scaled_one(low, ONE_OVER_ZETA, 20),
            scaled_one(high, ZETA, 20),
        )
    };
    let mut held = Pipeline::default();
    let end = |held: &mut Pipeline, i: usize, line: &mut [i64]| {
        let (a, b) = scaled(low[i.min(low.len() - 1)], high[i.min(high.len() - 1)]);
        *held = held.any(a, b, i, low.len(), high.len());
        for (k, value) in [(2 * i, held.even), (2 * i + 1, held.odd)] {
            if k >= 4 && k < row.len() + 4 {
                line[k - 4] = value;
            }
        }
    };
    let first = high.len().min(2);
    for i in 0..first {
        end(&mut held, i, line);
    }
    let inner = low.iter().zip(high).skip(2);
    for ((&low, &high), pair) in inner.zip(line.chunks_exact_mut(2)) {
        let (low, high) = scaled(low, high);
        held = held.inner(low, high);
        (pair[0], pair[1]) = (held.even, held.odd);
    }
    for i in high.len()..low.len() + 2 {
        end(&mut held, i, line);
    }
}

/// The same by the passes of the engine now: the four stages of a line are
/// as a pipeline, the coefficients straight from the plane.
pub fn view97_pipeline(
    table: &[u8],
    plane: &[i32],
    size: (usize, usize),
    pixels: &mut [u16],
    work: &mut [i64],
) -> bool {
    let (depth, levels) = (table[3], table[7]);
    let width = size.0;
    let last = usize::from(levels) - 1;
    let parts = parts(size, levels);
    if !all_held(table, plane, width, &parts) {
        return false;
    }
    let mut held = [Pipeline::default(); PIPELINE_STRIP];
    let mut fed = [0; PIPELINE_STRIP];
    let mut line = vec![0; width];
    for (level, &(w, h)) in parts.iter().enumerate().rev() {
        let stride = width << level;
        let bits = |pass, at| node(table, level, pass, at)[1];
        let left = Stored {
            lows: Some(bits(1, 4)).filter(|_| level == last),
            highs: bits(1, 5),
        };
        let right = Stored {
            lows: Some(bits(2, 4)),
            highs: bits(2, 5),
        };
        let middle = w.div_ceil(2);
        for (from, to, stored) in [(0, middle, left), (middle, w, right)] {
            for x in (from..to).step_by(PIPELINE_STRIP) {
                let n = PIPELINE_STRIP.min(to - x);
                let (held, fed) = (&mut held[..n], &mut fed[..n]);
                pipeline_columns(plane, work, (width, stride), x, h, held, fed, stored);
            }
        }
        let line = &mut line[..w];
        for y in 0..h {
            let row = &mut work[y * stride..][..w];
            pipeline_row(row, line);
            if level > 0 {
                row.copy_from_slice(line);
                continue;
            }
            for (to, &value) in pixels[y * width..].iter_mut().zip(line.iter()) {
                *to = shown(value, depth);
            }
            row.fill(0);
        }
    }
    true
}
