//! The C interface of the proved engine, as `include/suzdrepa.h` declares it,
//! and the link to its static library `libengine.a`.
//!
//! The header says what each call does. Most programs want the safe crate
//! `suzdrepa`; this one is for those who hold raw memory, or who must pass
//! numbers that the safe types shut out.
//!
//! # Safety
//!
//! Every call is total in its numbers: no depth, level, side or tag does any
//! harm. Of the memory a call asks four things:
//!
//! * a pointer and the length after it name memory that is the caller's, in
//!   whole elements; where the length is 0 the pointer is not used and may be
//!   null,
//! * `start`, `length`, `range`, `error`, `distance` and `given` each point to
//!   one number, `constants`, `widths` and `products` to an array,
//! * every pointer is aligned as its type asks (null is aligned),
//! * what the call writes (`*mut`) overlaps nothing else that it is given.
//!
//! No call keeps a pointer, unwinds, or has any state between calls: that of a
//! rolling scan is memory of the caller.
//!
//! ```
//! let pixels = [5u16, 7, 4, 4];
//! let (mut plane, mut work) = ([0i32; 4], [0i32; 4]);
//! // SAFETY: pointers and lengths are those of arrays of their own.
//! let answer = unsafe {
//!     suzdrepa_sys::suz_forward53(
//!         3, 1,
//!         pixels.as_ptr(), pixels.len(),
//!         2, 2,
//!         plane.as_mut_ptr(), plane.len(),
//!         work.as_mut_ptr(), work.len(),
//!     )
//! };
//! assert_eq!((answer, plane), (0, [2, 1, -2, -2]));
//! ```

#![no_std]

// Limits.
pub const SUZ_MAX_DEPTH: u8 = 12;
pub const SUZ_MAX_LEVELS: u8 = 5;
pub const SUZ_MAX_SIDE: usize = 4096;
pub const SUZ_MAX_INTEGER_BITS: u8 = 12;
pub const SUZ_MAX_FRACTION_BITS: u8 = 20;
pub const SUZ_MAX_CONSTANT_BITS: u8 = 24;
pub const SUZ_MAX_PRODUCT_BITS: u8 = 44;

// The bytes of a width table before its widths, and the widths of a level.
pub const SUZ_TABLE_HEAD: usize = 20;
pub const SUZ_TABLE_LEVEL: usize = 36;

// The bytes of tag 5 before its numbers, and the numbers of a level.
pub const SUZ_TABLE_PRODUCT_HEAD: usize = 3;
pub const SUZ_TABLE_PRODUCT_LEVEL: usize = 12;

// How many numbers the constants, the widths and the product widths of a table
// have, all levels.
pub const SUZ_TABLE_CONSTANTS: usize = 6;
pub const SUZ_TABLE_WIDTHS: usize = SUZ_TABLE_LEVEL * SUZ_MAX_LEVELS as usize;
pub const SUZ_TABLE_PRODUCTS: usize = SUZ_TABLE_PRODUCT_LEVEL * SUZ_MAX_LEVELS as usize;

// The bytes of a scan's state, and the lines that a call is lent to hold and
// for output.
pub const SUZ_SCAN_LENGTH: usize = 75;
pub const SUZ_SCAN_HELD_LINES: usize = 7;
pub const SUZ_SCAN_OUT_LINES: usize = 4;

extern "C" {
    /// Reads a width table and judges it: 1 to 5, then 6 and 7.
    pub fn suz_table_check(table: *const u8, table_len: usize) -> u32;

    /// Reads a width table and does not judge it: 1 to 5.
    pub fn suz_table_form(table: *const u8, table_len: usize) -> u32;

    /// Where the value of a tag stands in the table's bytes: 2 for the tag,
    /// then 1 to 5, then 2 for tag 5 where the table has none.
    pub fn suz_table_value(
        table: *const u8,
        table_len: usize,
        tag: u8,
        start: *mut u32,
        length: *mut u32,
    ) -> u32;

    /// Range and error of a node, in units of 2^-32: 1 to 5, 4, then 6 or 7 of
    /// the nodes before it.
    pub fn suz_table_bound(
        table: *const u8,
        table_len: usize,
        level: u8,
        pass: u8,
        node: u8,
        range: *mut u64,
        error: *mut u64,
    ) -> u32;

    /// A new table with another width at one node: 1 to 5, 4, 9.
    pub fn suz_table_change(
        table: *const u8,
        table_len: usize,
        level: u8,
        pass: u8,
        node: u8,
        integer_bits: u8,
        fraction_bits: u8,
        out: *mut u8,
        out_len: usize,
    ) -> u32;

    /// A new table with other bits of one node's constant: 1 to 5, 4, 9.
    pub fn suz_table_change_constant(
        table: *const u8,
        table_len: usize,
        node: u8,
        bits: u8,
        out: *mut u8,
        out_len: usize,
    ) -> u32;

    /// A new table with other bits of one product: 1 to 5, 4, 9.
    pub fn suz_table_change_product(
        table: *const u8,
        table_len: usize,
        level: u8,
        pass: u8,
        product: u8,
        bits: u8,
        out: *mut u8,
        out_len: usize,
    ) -> u32;

    /// The table of these parts, without tag 5: 4, 9.
    pub fn suz_table_write(
        depth: u8,
        levels: u8,
        constants: *const [u8; SUZ_TABLE_CONSTANTS],
        widths: *const [u8; SUZ_TABLE_WIDTHS],
        out: *mut u8,
        out_len: usize,
    ) -> u32;

    /// The table of these parts, with tag 5 unless `has_products` is 0: 4, 9.
    pub fn suz_table_write_products(
        depth: u8,
        levels: u8,
        constants: *const [u8; SUZ_TABLE_CONSTANTS],
        widths: *const [u8; SUZ_TABLE_WIDTHS],
        has_products: u8,
        products: *const [u8; SUZ_TABLE_PRODUCTS],
        out: *mut u8,
        out_len: usize,
    ) -> u32;

    /// Would viewing refuse this table? 1 to 5, 6 and 7, 13.
    pub fn suz_table_view(table: *const u8, table_len: usize) -> u32;

    /// How far a viewed value may lie from the scanned one, in units of 2^-32:
    /// 1 to 5, 6 and 7, 13.
    pub fn suz_view_distance(table: *const u8, table_len: usize, distance: *mut u64) -> u32;

    /// 9/7 forward under a width table: 1 to 5, 6 and 7, 8, 9, 10.
    pub fn suz_forward97(
        table: *const u8,
        table_len: usize,
        pixels: *const u16,
        pixels_len: usize,
        width: usize,
        height: usize,
        plane: *mut i32,
        plane_len: usize,
        work: *mut i32,
        work_len: usize,
    ) -> u32;

    /// Viewing, the picture of a stored 9/7 plane: 1 to 5, 6 and 7, 13, 8, 9,
    /// 12.
    pub fn suz_view97(
        table: *const u8,
        table_len: usize,
        plane: *const i32,
        plane_len: usize,
        width: usize,
        height: usize,
        pixels: *mut u16,
        pixels_len: usize,
        work: *mut i64,
        work_len: usize,
    ) -> u32;

    /// Begins a rolling scan: 1 to 5, 14, 6 and 7, 9.
    pub fn suz_scan_begin(
        table: *const u8,
        table_len: usize,
        state: *mut u8,
        state_len: usize,
    ) -> u32;

    /// The next line of a rolling scan: 9 of the state, 14, 8, 9, 10.
    pub fn suz_scan_line(
        state: *mut u8,
        state_len: usize,
        pixels: *const u16,
        pixels_len: usize,
        width: usize,
        held: *mut i32,
        held_len: usize,
        out: *mut i32,
        out_len: usize,
        given: *mut u32,
    ) -> u32;

    /// The end of a rolling scan: 9 of the state, 14, 9.
    pub fn suz_scan_end(
        state: *mut u8,
        state_len: usize,
        held: *mut i32,
        held_len: usize,
        out: *mut i32,
        out_len: usize,
        given: *mut u32,
    ) -> u32;

    /// 5/3 forward, columns first: 4, 8, 9, 10.
    pub fn suz_forward53(
        depth: u8,
        levels: u8,
        pixels: *const u16,
        pixels_len: usize,
        width: usize,
        height: usize,
        plane: *mut i32,
        plane_len: usize,
        work: *mut i32,
        work_len: usize,
    ) -> u32;

    /// 5/3 back, of a copy worked columns first: 4, 8, 9, 11.
    pub fn suz_inverse53(
        depth: u8,
        levels: u8,
        plane: *const i32,
        plane_len: usize,
        width: usize,
        height: usize,
        pixels: *mut u16,
        pixels_len: usize,
        work: *mut i32,
        work_len: usize,
    ) -> u32;

    /// 5/3 back, of a copy made earlier, rows first: 4, 8, 9, 11.
    pub fn suz_inverse53_rows_first(
        depth: u8,
        levels: u8,
        plane: *const i32,
        plane_len: usize,
        width: usize,
        height: usize,
        pixels: *mut u16,
        pixels_len: usize,
        work: *mut i32,
        work_len: usize,
    ) -> u32;
}
