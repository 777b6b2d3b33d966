//! One call to the engine and one to the reference, with equal lent memory;
//! answers and memory are compared in whole.

use reference::refusal::answer;
use reference::table::{PRODUCTS, WIDTHS};
use reference::{calls, Place, Width, WidthTable};
use suzdrepa_sys as sys;

/// The answer that both gave.
pub type Answer = Result<(), reference::Refusal>;

/// Asserts that the engine's result says what the reference's says.
pub fn same(ours: Result<(), suzdrepa::Refusal>, due: Answer) -> Answer {
    let ours_plain = ours.map_err(|refusal| {
        (
            refusal.number(),
            refusal.place().map(suzdrepa::Place::numbers),
        )
    });
    let due_plain = due.map_err(|refusal| {
        let place = refusal.place.map(|p| [p.level, p.pass, p.node]);
        (refusal.number, place)
    });
    assert_eq!(ours_plain, due_plain, "engine left, reference right");
    due
}

pub fn table_check(table: &[u8]) -> Answer {
    same(suzdrepa::check_table(table), calls::table_check(table))
}

pub fn table_form(table: &[u8]) -> Answer {
    same(suzdrepa::table_form(table), calls::table_form(table))
}

pub fn table_view(table: &[u8]) -> Answer {
    same(suzdrepa::table_view(table), calls::table_view(table))
}

/// `lent` is what the distance holds before the call. Gives the answer and
/// what it holds afterwards.
pub fn view_distance(table: &[u8], lent: u64) -> (Answer, u64) {
    let mut due_distance = lent;
    let due = calls::view_distance(table, &mut due_distance);
    let mut ours_distance = lent;
    // SAFETY: pointer and length are those of a slice; the distance is a
    // number of its own.
    let bare = unsafe { sys::suz_view_distance(table.as_ptr(), table.len(), &mut ours_distance) };
    assert_eq!(bare, answer(due), "engine left, reference right");
    assert_eq!(ours_distance, due_distance, "the distance");
    let ours = suzdrepa::view_distance(table);
    if let Ok(distance) = ours {
        assert_eq!(distance, due_distance);
    }
    assert_eq!(same(ours.map(|_| ()), due), due);
    (due, due_distance)
}

/// `place` is any numbers; `lent` is what range and error hold before the call.
/// Gives the answer and what they hold afterwards.
pub fn table_bound(table: &[u8], place: [u8; 3], lent: (u64, u64)) -> (Answer, (u64, u64)) {
    let [level, pass, node] = place;
    let mut due_bound = lent;
    let place = Place { level, pass, node };
    let due = calls::table_bound(table, place, &mut due_bound.0, &mut due_bound.1);
    let mut ours_bound = lent;
    // SAFETY: pointer and length are those of a slice; range and error are
    // numbers of their own.
    let bare = unsafe {
        sys::suz_table_bound(
            table.as_ptr(),
            table.len(),
            level,
            pass,
            node,
            &mut ours_bound.0,
            &mut ours_bound.1,
        )
    };
    assert_eq!(bare, answer(due), "engine left, reference right");
    assert_eq!(ours_bound, due_bound, "range and error");
    if let Some(place) = suzdrepa::Place::from_numbers(level, pass, node) {
        let ours = suzdrepa::table_bound(table, place);
        if let Ok(bound) = ours {
            assert_eq!((bound.range, bound.error), due_bound);
        }
        assert_eq!(same(ours.map(|_| ()), due), due);
    }
    (due, due_bound)
}

pub fn table_value(table: &[u8], tag: u8) -> Answer {
    let ours = suzdrepa::table_value(table, tag);
    let due = calls::table_value(table, tag);
    if let (Ok(value), Ok(stretch)) = (ours, &due) {
        assert_eq!(value.as_ptr_range(), table[stretch.clone()].as_ptr_range());
    }
    same(ours.map(|_| ()), due.map(|_| ()))
}

/// `place` is level, pass and node, any numbers: the bare call takes them all,
/// the wrapper those that its types have. `out` is lent memory before the
/// call.
pub fn table_change(table: &[u8], place: [u8; 3], width: Width, out: &[u8]) -> Answer {
    let [level, pass, node] = place;
    let Width {
        integer_bits,
        fraction_bits,
    } = width;
    let (due, due_out) = lend(out, |out| {
        calls::table_change(table, level, pass, node, width, out)
    });
    let (bare, ours_out) = lend(out, |out| {
        // SAFETY: pointers and lengths are those of slices.
        unsafe {
            sys::suz_table_change(
                table.as_ptr(),
                table.len(),
                level,
                pass,
                node,
                integer_bits,
                fraction_bits,
                out.as_mut_ptr(),
                out.len(),
            )
        }
    });
    assert_eq!(bare, answer(due), "engine left, reference right");
    assert_eq!(ours_out, due_out, "out after a change");
    if let Some(place) = suzdrepa::Place::from_numbers(level, pass, node) {
        let width = suzdrepa::Width::new(integer_bits, fraction_bits);
        let (ours, ours_out) = lend(out, |out| {
            suzdrepa::change_width_into(table, place, width, out)
        });
        assert_eq!(same(ours, due), due);
        assert_eq!(ours_out, due_out, "out after a change");
    }
    due
}

/// `node` and `bits` are any numbers. `out` is lent memory before the call.
pub fn table_change_constant(table: &[u8], node: u8, bits: u8, out: &[u8]) -> Answer {
    let before = table.to_vec();
    let (due, due_out) = lend(out, |out| {
        calls::table_change_constant(table, node, bits, out)
    });
    let (bare, ours_out) = lend(out, |out| {
        // SAFETY: pointers and lengths are those of slices.
        unsafe {
            sys::suz_table_change_constant(
                table.as_ptr(),
                table.len(),
                node,
                bits,
                out.as_mut_ptr(),
                out.len(),
            )
        }
    });
    assert_eq!(bare, answer(due), "engine left, reference right");
    assert_eq!(ours_out, due_out, "out after a change");
    assert_eq!(table, before, "the old table");
    if let Some(node) = suzdrepa::Node::from_number(node) {
        let (ours, ours_out) = lend(out, |out| {
            suzdrepa::change_constant_into(table, node, bits, out)
        });
        assert_eq!(same(ours, due), due);
        assert_eq!(ours_out, due_out, "out after a change");
    }
    due
}

/// `place` is level, pass and product, any numbers, and so are `bits`. `out` is
/// lent memory before the call.
pub fn table_change_product(table: &[u8], place: [u8; 3], bits: u8, out: &[u8]) -> Answer {
    let [level, pass, product] = place;
    let before = table.to_vec();
    let (due, due_out) = lend(out, |out| {
        calls::table_change_product(table, level, pass, product, bits, out)
    });
    let (bare, ours_out) = lend(out, |out| {
        // SAFETY: pointers and lengths are those of slices.
        unsafe {
            sys::suz_table_change_product(
                table.as_ptr(),
                table.len(),
                level,
                pass,
                product,
                bits,
                out.as_mut_ptr(),
                out.len(),
            )
        }
    });
    assert_eq!(bare, answer(due), "engine left, reference right");
    assert_eq!(ours_out, due_out, "out after a change");
    assert_eq!(table, before, "the old table");
    // The wrapper names a product by its node.
    if let Some(place) = suzdrepa::Place::from_numbers(level, pass, product) {
        let (ours, ours_out) = lend(out, |out| {
            suzdrepa::change_product_into(table, place, bits, out)
        });
        assert_eq!(same(ours, due), due);
        assert_eq!(ours_out, due_out, "out after a change");
    }
    due
}

/// The parts are any numbers. `out` is lent memory before the call.
pub fn table_write(
    depth: u8,
    levels: u8,
    constants: &[u8; 6],
    widths: &[u8; WIDTHS],
    out: &[u8],
) -> Answer {
    let before = (*constants, *widths);
    let (due, due_out) = lend(out, |out| {
        calls::table_write(depth, levels, constants, widths, out)
    });
    let (bare, ours_out) = lend(out, |out| {
        // SAFETY: the arrays have the counts that the call reads; pointer and
        // length are those of a slice.
        unsafe {
            sys::suz_table_write(
                depth,
                levels,
                constants,
                widths,
                out.as_mut_ptr(),
                out.len(),
            )
        }
    });
    assert_eq!(bare, answer(due), "engine left, reference right");
    assert_eq!(ours_out, due_out, "out after a table was written");
    assert_eq!((*constants, *widths), before, "the parts");
    let mut nodes = [suzdrepa::Width::new(0, 0); WIDTHS / 2];
    for (node, pair) in nodes.iter_mut().zip(widths.chunks(2)) {
        *node = suzdrepa::Width::new(pair[0], pair[1]);
    }
    let (ours, ours_out) = lend(out, |out| {
        suzdrepa::write_table(depth, levels, *constants, &nodes, out)
    });
    assert_eq!(same(ours, due), due);
    assert_eq!(ours_out, due_out, "out after a table was written");
    due
}

/// The parts of a table with or without tag 5, any numbers; where
/// `has_products` is 0 it has none.
#[derive(Clone, Copy)]
pub struct Parts {
    pub depth: u8,
    pub levels: u8,
    pub constants: [u8; 6],
    pub widths: [u8; WIDTHS],
    pub has_products: u8,
    pub products: [u8; PRODUCTS],
}

impl Parts {
    /// Those of a table, sound or not.
    pub fn of(table: &WidthTable) -> Parts {
        Parts {
            depth: table.depth,
            levels: table.levels,
            constants: table.constant_bits,
            widths: table.parts(),
            has_products: table.has_products.into(),
            products: table.product_parts(),
        }
    }
}

/// `out` is lent memory before the call. Gives the answer and what it holds
/// afterwards.
pub fn table_write_products(parts: &Parts, out: &[u8]) -> (Answer, Vec<u8>) {
    let Parts {
        depth,
        levels,
        constants,
        widths,
        has_products,
        products,
    } = *parts;
    let has = has_products != 0;
    let (due, due_out) = lend(out, |out| {
        calls::table_write_products(depth, levels, &constants, &widths, has, &products, out)
    });
    let lent = (constants, widths, products);
    let (bare, ours_out) = lend(out, |out| {
        // SAFETY: the arrays have the counts that the call reads; pointer and
        // length are those of a slice.
        unsafe {
            sys::suz_table_write_products(
                depth,
                levels,
                &lent.0,
                &lent.1,
                has_products,
                &lent.2,
                out.as_mut_ptr(),
                out.len(),
            )
        }
    });
    assert_eq!(bare, answer(due), "engine left, reference right");
    assert_eq!(ours_out, due_out, "out after a table was written");
    assert_eq!(lent, (constants, widths, products), "the parts");
    if has {
        let mut nodes = [suzdrepa::Width::new(0, 0); WIDTHS / 2];
        for (node, pair) in nodes.iter_mut().zip(widths.chunks(2)) {
            *node = suzdrepa::Width::new(pair[0], pair[1]);
        }
        let (ours, ours_out) = lend(out, |out| {
            suzdrepa::write_table_with_products(depth, levels, constants, &nodes, &products, out)
        });
        assert_eq!(same(ours, due), due);
        assert_eq!(ours_out, due_out, "out after a table was written");
    }
    (due, due_out)
}

/// Lends a copy of `out` to a call; gives the answer and what the call left.
/// Asserts that the memory on both sides of it is as it was.
pub(crate) fn lend<E, T>(out: &[E], call: impl FnOnce(&mut [E]) -> T) -> (T, Vec<E>)
where
    E: Copy + From<u8> + PartialEq + std::fmt::Debug,
{
    let beside = [E::from(0x5A); 16];
    let mut memory = [&beside, out, &beside].concat();
    let lent = beside.len()..beside.len() + out.len();
    let answer = call(&mut memory[lent.clone()]);
    assert_eq!(memory[..lent.start], beside, "memory before what was lent");
    assert_eq!(memory[lent.end..], beside, "memory after what was lent");
    (answer, memory[lent].to_vec())
}

/// What is lent to a transform: input, output and work area, as they stand
/// before the call.
pub struct Lent<'a, In, Out, Work = i32> {
    pub input: &'a [In],
    pub output: &'a [Out],
    pub work: &'a [Work],
}

/// What a transform answered, and the output afterwards.
pub struct Done<Out> {
    pub answer: Answer,
    pub output: Vec<Out>,
}

/// Calls both and compares answers, output, work area and input.
fn transform<In, Out, Work>(
    lent: Lent<In, Out, Work>,
    ours: impl FnOnce(&[In], &mut [Out], &mut [Work]) -> Result<(), suzdrepa::Refusal>,
    due: impl FnOnce(&[In], &mut [Out], &mut [Work]) -> Answer,
) -> Done<Out>
where
    In: Clone + PartialEq,
    Out: Clone + PartialEq + std::fmt::Debug,
    Work: Clone + PartialEq,
{
    let input = lent.input.to_vec();
    let (mut ours_out, mut ours_work) = (lent.output.to_vec(), lent.work.to_vec());
    let (mut due_out, mut due_work) = (lent.output.to_vec(), lent.work.to_vec());
    let ours = ours(&input, &mut ours_out, &mut ours_work);
    let due = due(lent.input, &mut due_out, &mut due_work);
    let answer = same(ours, due);
    assert!(ours_out == due_out, "output differs after {answer:?}");
    assert!(ours_work == due_work, "work area differs after {answer:?}");
    assert!(input == lent.input, "input changed");
    Done {
        answer,
        output: ours_out,
    }
}

pub fn forward97(table: &[u8], width: usize, height: usize, lent: Lent<u16, i32>) -> Done<i32> {
    transform(
        lent,
        |pixels, plane, work| suzdrepa::forward97(table, pixels, width, height, plane, work),
        |pixels, plane, work| calls::forward97(table, pixels, width, height, plane, work),
    )
}

pub fn view97(table: &[u8], width: usize, height: usize, lent: Lent<i32, u16, i64>) -> Done<u16> {
    transform(
        lent,
        |plane, pixels, work| suzdrepa::view97(table, plane, width, height, pixels, work),
        |plane, pixels, work| calls::view97(table, plane, width, height, pixels, work),
    )
}

pub fn forward53(
    depth: u8,
    levels: u8,
    width: usize,
    height: usize,
    lent: Lent<u16, i32>,
) -> Done<i32> {
    transform(
        lent,
        |pixels, plane, work| {
            suzdrepa::forward53(depth, levels, pixels, width, height, plane, work)
        },
        |pixels, plane, work| calls::forward53(depth, levels, pixels, width, height, plane, work),
    )
}

pub fn inverse53(
    depth: u8,
    levels: u8,
    width: usize,
    height: usize,
    lent: Lent<i32, u16>,
) -> Done<u16> {
    transform(
        lent,
        |plane, pixels, work| {
            suzdrepa::inverse53(depth, levels, plane, width, height, pixels, work)
        },
        |plane, pixels, work| calls::inverse53(depth, levels, plane, width, height, pixels, work),
    )
}

pub fn inverse53_rows_first(
    depth: u8,
    levels: u8,
    width: usize,
    height: usize,
    lent: Lent<i32, u16>,
) -> Done<u16> {
    transform(
        lent,
        |plane, pixels, work| {
            suzdrepa::inverse53_rows_first(depth, levels, plane, width, height, pixels, work)
        },
        |plane, pixels, work| {
            calls::inverse53_rows_first(depth, levels, plane, width, height, pixels, work)
        },
    )
}
