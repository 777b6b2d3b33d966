//! Two builds of the engine timed against each other.
//!
//! `pairs BEFORE.a AFTER.a [SIDE...]` prints, for each transform and side, the
//! time of AFTER over that of BEFORE: the median over many pairs of calls on
//! the same memory, and the quartiles. Which build is called first turns from
//! pair to pair. Both must leave the same. It needs a C compiler, which makes
//! a shared library of each archive.
//!
//! Exact copies alone may differ: builds without `suz_inverse53_rows_first` work
//! the 5/3 rows first, later ones columns first. The copy that a build makes
//! must be the plain program's of its order, and each build takes its own back.
//! A last row of the 5/3 restores a copy worked rows first by both.
//!
//! Tables with product widths are worked where both builds know them.

use bench::inputs::{
    far_cut, picture, tight_table, view_table, wide_table, with_products_of, DEPTH, LEVELS,
    MIN_SIDE, VIEW_LEVELS,
};
use bench::plain::{self, Order};
use bench::turns;
use std::ffi::{c_char, c_int, c_void, CStr, CString};
use std::path::Path;
use std::process::{Command, ExitCode};
use std::time::Instant;
use suzdrepa::{WidthTable, MAX_SIDE};

extern "C" {
    fn dlopen(file: *const c_char, how: c_int) -> *mut c_void;
    fn dlsym(library: *mut c_void, name: *const c_char) -> *mut c_void;
}

/// Symbols are bound at once, and seen by this library alone.
const RTLD_NOW: c_int = 2;

type Forward53 = unsafe extern "C" fn(
    u8,
    u8,
    *const u16,
    usize,
    usize,
    usize,
    *mut i32,
    usize,
    *mut i32,
    usize,
) -> u32;
type Inverse53 = unsafe extern "C" fn(
    u8,
    u8,
    *const i32,
    usize,
    usize,
    usize,
    *mut u16,
    usize,
    *mut i32,
    usize,
) -> u32;
type Forward97 = unsafe extern "C" fn(
    *const u8,
    usize,
    *const u16,
    usize,
    usize,
    usize,
    *mut i32,
    usize,
    *mut i32,
    usize,
) -> u32;
type View97 = unsafe extern "C" fn(
    *const u8,
    usize,
    *const i32,
    usize,
    usize,
    usize,
    *mut u16,
    usize,
    *mut i64,
    usize,
) -> u32;

/// The calls of one build.
struct Build {
    forward53: Forward53,
    inverse53: Inverse53,
    /// The way back of copies worked rows first, where it is another.
    inverse53_rows_first: Option<Inverse53>,
    forward97: Forward97,
    view97: View97,
    /// Whether it knows product widths.
    products: bool,
}

impl Build {
    /// Loads the calls of an archive, by way of a shared library.
    fn load(archive: &Path, name: &str) -> Result<Build, String> {
        let file = std::env::temp_dir().join(format!("suzdrepa-{}-{name}.so", std::process::id()));
        let made = Command::new("cc")
            .args(["-shared", "-Wl,--whole-archive"])
            .arg(archive)
            .args(["-Wl,--no-whole-archive", "-o"])
            .arg(&file)
            .status();
        if !made.is_ok_and(|status| status.success()) {
            return Err(format!("no shared library of {}", archive.display()));
        }
        let path = CString::new(file.as_os_str().as_encoded_bytes()).map_err(|e| e.to_string())?;
        // SAFETY: the path ends in 0; the library runs no code when it is
        // loaded, and stays loaded.
        let library = unsafe { dlopen(path.as_ptr(), RTLD_NOW) };
        let _ = std::fs::remove_file(&file);
        if library.is_null() {
            return Err(format!("{} cannot be loaded", archive.display()));
        }
        let found = |name: &CStr| {
            // SAFETY: the library is loaded and the name ends in 0.
            let found = unsafe { dlsym(library, name.as_ptr()) };
            Some(found).filter(|found| !found.is_null())
        };
        let symbol = |name: &CStr| {
            let missing = || format!("{} has no {name:?}", archive.display());
            found(name).ok_or_else(missing)
        };
        // SAFETY: these are the types of the header include/suzdrepa.h.
        unsafe {
            Ok(Build {
                forward53: std::mem::transmute::<*mut c_void, Forward53>(symbol(c"suz_forward53")?),
                inverse53: std::mem::transmute::<*mut c_void, Inverse53>(symbol(c"suz_inverse53")?),
                inverse53_rows_first: found(c"suz_inverse53_rows_first")
                    .map(|found| std::mem::transmute::<*mut c_void, Inverse53>(found)),
                forward97: std::mem::transmute::<*mut c_void, Forward97>(symbol(c"suz_forward97")?),
                view97: std::mem::transmute::<*mut c_void, View97>(symbol(c"suz_view97")?),
                products: found(c"suz_table_change_product").is_some(),
            })
        }
    }

    /// What `suz_forward53` works first.
    fn order(&self) -> Order {
        match self.inverse53_rows_first {
            Some(_) => Order::ColumnsFirst,
            None => Order::RowsFirst,
        }
    }

    /// Works a picture whose sides are alike into its exact copy; the answer.
    fn copy(&self, side: usize, pixels: &[u16], plane: &mut [i32], work: &mut [i32]) -> u32 {
        // SAFETY: pointers and lengths are those of slices; `plane` and `work`
        // are exclusive.
        unsafe {
            (self.forward53)(
                DEPTH,
                LEVELS,
                pixels.as_ptr(),
                pixels.len(),
                side,
                side,
                plane.as_mut_ptr(),
                plane.len(),
                work.as_mut_ptr(),
                work.len(),
            )
        }
    }

    /// Takes an exact copy of an order back to its picture; the answer. A build
    /// without a call for copies worked rows first takes all for such.
    fn picture(
        &self,
        order: Order,
        side: usize,
        plane: &[i32],
        pixels: &mut [u16],
        work: &mut [i32],
    ) -> u32 {
        let call = match (order, self.inverse53_rows_first) {
            (Order::RowsFirst, Some(call)) => call,
            _ => self.inverse53,
        };
        // SAFETY: pointers and lengths are those of slices; `pixels` and `work`
        // are exclusive.
        unsafe {
            call(
                DEPTH,
                LEVELS,
                plane.as_ptr(),
                plane.len(),
                side,
                side,
                pixels.as_mut_ptr(),
                pixels.len(),
                work.as_mut_ptr(),
                work.len(),
            )
        }
    }
}

/// Memory that is lent to both builds in turn.
struct Lent {
    side: usize,
    pixels: Vec<u16>,
    /// The exact copies of the picture that the two builds make.
    copies: [Vec<i32>; 2],
    /// The exact copy rows first.
    earlier: Vec<i32>,
    /// The coefficients of the picture under the table for viewing.
    stored: Vec<i32>,
    plane: Vec<i32>,
    back: Vec<u16>,
    work: Vec<i32>,
    view_work: Vec<i64>,
}

/// A call of one build, which has a number, on lent memory; its answer.
type Call<'a> = &'a dyn Fn(usize, &Build, &mut Lent) -> u32;

/// Times pairs of calls and prints what AFTER takes of BEFORE's time. What the
/// two leave must be the same, where it is said to be `alike`.
fn row(name: &str, alike: bool, builds: &[Build; 2], lent: &mut Lent, call: Call) {
    let side = lent.side;
    let mut left = [(Vec::new(), Vec::new()), (Vec::new(), Vec::new())];
    let pairs = turns::time(turns::pairs_for(side), |pair, which| {
        lent.plane.fill(-1);
        lent.back.fill(u16::MAX);
        lent.work.fill(1);
        lent.view_work.fill(1);
        let start = Instant::now();
        let answer = call(which, &builds[which], lent);
        let time = start.elapsed().as_secs_f64();
        assert_eq!(answer, 0);
        if pair == 0 {
            left[which] = (lent.plane.clone(), lent.back.clone());
        }
        time
    });
    assert!(!alike || left[0] == left[1], "the two builds differ");
    println!(
        "| {name} | {side} x {side} | {} | {} |",
        pairs.count(),
        pairs.in_words()
    );
}

fn measure(side: usize, builds: &[Build; 2]) {
    let n = side * side;
    let view_table = view_table();
    let pixels = picture(side);
    let mut work = vec![0; n];
    let mut by_plain = |order| {
        let mut plane = vec![0; n];
        let size = (side, side);
        let done = plain::forward53(order, DEPTH, LEVELS, &pixels, size, &mut plane, &mut work);
        assert!(done);
        plane
    };
    let copies = builds.each_ref().map(|build| {
        let (mut plane, mut work) = (vec![0; n], vec![0; n]);
        assert_eq!(build.copy(side, &pixels, &mut plane, &mut work), 0);
        assert!(plane == by_plain(build.order()), "not a copy of its order");
        plane
    });
    let mut lent = Lent {
        side,
        copies,
        earlier: by_plain(Order::RowsFirst),
        stored: suzdrepa::forward97_to_vec(view_table.as_bytes(), &pixels, side, side)
            .expect("the picture is admitted"),
        pixels,
        plane: vec![0; n],
        back: vec![0; n],
        work,
        view_work: vec![0; n],
    };
    let alike = builds[0].order() == builds[1].order();
    row("5/3 forward", alike, builds, &mut lent, &|_, build, m| {
        build.copy(side, &m.pixels, &mut m.plane, &mut m.work)
    });
    row("5/3 back", true, builds, &mut lent, &|which, build, m| {
        let copy = &m.copies[which];
        build.picture(build.order(), side, copy, &mut m.back, &mut m.work)
    });
    let name = "5/3 back, rows first";
    row(name, true, builds, &mut lent, &|_, build, m| {
        let order = Order::RowsFirst;
        build.picture(order, side, &m.earlier, &mut m.back, &mut m.work)
    });
    assert!(lent.back == lent.pixels, "the picture came back changed");
    // SAFETY, here and below: pointers and lengths are those of vectors of
    // their own, which hold n elements.
    let forward97 = |table: &WidthTable, build: &Build, m: &mut Lent| unsafe {
        let bytes = table.as_bytes();
        (build.forward97)(
            bytes.as_ptr(),
            bytes.len(),
            m.pixels.as_ptr(),
            n,
            side,
            side,
            m.plane.as_mut_ptr(),
            n,
            m.work.as_mut_ptr(),
            n,
        )
    };
    for (name, table) in [
        ("tight table", tight_table()),
        ("wide table", wide_table()),
        ("tight table, cut products", far_cut(&tight_table())),
        (
            "wide table, products of 15 bits",
            with_products_of(&wide_table(), 15),
        ),
    ] {
        if table.has_products() && !builds.iter().all(|build| build.products) {
            continue;
        }
        let name = format!("9/7 forward, {name}");
        row(&name, true, builds, &mut lent, &|_, build, m| {
            forward97(&table, build, m)
        });
    }
    let name = format!("9/7 view, {VIEW_LEVELS} levels");
    row(&name, true, builds, &mut lent, &|_, build, m| unsafe {
        let bytes = view_table.as_bytes();
        (build.view97)(
            bytes.as_ptr(),
            bytes.len(),
            m.stored.as_ptr(),
            n,
            side,
            side,
            m.back.as_mut_ptr(),
            n,
            m.view_work.as_mut_ptr(),
            n,
        )
    });
}

fn run() -> Result<(), String> {
    let usage =
        || format!("usage: pairs BEFORE.a AFTER.a [SIDE...]   sides from {MIN_SIDE} to {MAX_SIDE}");
    let arguments: Vec<String> = std::env::args().skip(1).collect();
    let [before, after, sides @ ..] = arguments.as_slice() else {
        return Err(usage());
    };
    let mut sides = sides
        .iter()
        .map(|side| side.parse().ok())
        .map(|side| side.filter(|side| (MIN_SIDE..=MAX_SIDE).contains(side)))
        .collect::<Option<Vec<usize>>>()
        .ok_or_else(usage)?;
    if sides.is_empty() {
        sides = vec![256, 512, 1024, 2048];
    }
    let builds = [
        Build::load(Path::new(before), "before")?,
        Build::load(Path::new(after), "after")?,
    ];
    println!("| transform | picture | pairs | after / before (quartiles) |");
    println!("|---|---|---:|---|");
    for side in sides {
        measure(side, &builds);
    }
    Ok(())
}

fn main() -> ExitCode {
    match run() {
        Ok(()) => ExitCode::SUCCESS,
        Err(why) => {
            eprintln!("{why}");
            ExitCode::from(2)
        }
    }
}
