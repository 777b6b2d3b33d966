//! Chance from a fixed seed (xorshift64*).

use reference::places::kept_node;
use reference::WidthTable;

pub struct Chance(u64);

impl Chance {
    pub fn new(seed: u64) -> Chance {
        // Zero would stay zero.
        Chance(seed.wrapping_mul(0x9E37_79B9_7F4A_7C15) | 1)
    }

    pub fn bits(&mut self) -> u64 {
        self.0 ^= self.0 >> 12;
        self.0 ^= self.0 << 25;
        self.0 ^= self.0 >> 27;
        self.0.wrapping_mul(0x2545_F491_4F6C_DD1D)
    }

    /// A number from 0 to `count` - 1.
    pub fn below(&mut self, count: usize) -> usize {
        ((u128::from(self.bits()) * count as u128) >> 64) as usize
    }

    /// A number from `least` to `most`, both included.
    pub fn within(&mut self, least: usize, most: usize) -> usize {
        least + self.below(most - least + 1)
    }

    pub fn byte(&mut self) -> u8 {
        self.bits() as u8
    }

    /// True once in `count` times.
    pub fn one_in(&mut self, count: usize) -> bool {
        self.below(count) == 0
    }

    pub fn of<'a, T>(&mut self, choice: &'a [T]) -> &'a T {
        &choice[self.below(choice.len())]
    }

    pub fn shuffle<T>(&mut self, items: &mut [T]) {
        for i in (1..items.len()).rev() {
            items.swap(i, self.below(i + 1));
        }
    }

    /// Pixels of a depth.
    pub fn picture(&mut self, depth: u8, count: usize) -> Vec<u16> {
        (0..count).map(|_| self.below(1 << depth) as u16).collect()
    }

    /// A plane of coefficients within their widths: each at an end of it, near
    /// one, or anywhere.
    pub fn stored(&mut self, table: &WidthTable, width: usize, height: usize) -> Vec<i32> {
        let mut one = |i: usize| {
            let node = kept_node(width, height, table.levels, i % width, i / width);
            let (least, most) = table.width(node).ends();
            let off = self.below(4).min((most - least) as usize) as i128;
            let value = match self.below(8) {
                0 => least,
                1 => most,
                2 => least + off,
                3 => most - off,
                _ => least + self.below((most - least) as usize + 1) as i128,
            };
            value as i32
        };
        (0..width * height).map(&mut one).collect()
    }

    /// Anything, as lent memory may hold it.
    pub fn plane(&mut self, count: usize) -> Vec<i32> {
        (0..count).map(|_| self.bits() as i32).collect()
    }

    pub fn sixty_four_bits(&mut self, count: usize) -> Vec<i64> {
        (0..count).map(|_| self.bits() as i64).collect()
    }

    pub fn sixteen_bits(&mut self, count: usize) -> Vec<u16> {
        (0..count).map(|_| self.bits() as u16).collect()
    }
}
