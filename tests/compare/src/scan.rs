//! Rolling scans in the engine and in the reference, call by call; answers,
//! counts, states and memory are compared in whole.

use crate::both::{lend, Answer};
use reference::refusal::answer;
use reference::rolling::{self, Past, HELD_LINES, TABLE};
use suzdrepa_sys as sys;

/// What the number of lines given holds before a call.
const NO_COUNT: u32 = 0xA5A5_A5A5;

/// `state` is lent memory before the call. Gives the answer and what the state
/// holds afterwards.
pub fn begin(table: &[u8], state: &[u8]) -> (Answer, Vec<u8>) {
    let mut due_state = state.to_vec();
    let due = rolling::scan_begin(table, &mut due_state);
    let before = table.to_vec();
    let (bare, ours_state) = lend(state, |state| {
        // SAFETY: pointers and lengths are those of slices.
        unsafe { sys::suz_scan_begin(table.as_ptr(), table.len(), state.as_mut_ptr(), state.len()) }
    });
    assert_eq!(bare, answer(due), "engine left, reference right");
    assert_eq!(ours_state, due_state, "the state");
    assert_eq!(table, before, "the table");
    (due, due_state)
}

/// A line that is lent to a scan, or its end.
#[derive(Clone, Copy)]
pub enum Next<'a> {
    Line { pixels: &'a [u16], width: usize },
    End,
}

/// What the engine answered and left.
struct Left {
    bare: u32,
    state: Vec<u8>,
    held: Vec<i32>,
    out: Vec<i32>,
    given: u32,
}

/// Calls the engine with copies of the memory.
fn engine(next: Next, state: &[u8], held: &[i32], out: &[i32]) -> Left {
    let mut given = NO_COUNT;
    let (((bare, out), held), state) = lend(state, |state| {
        lend(held, |held| {
            lend(out, |out| match next {
                // SAFETY: pointers and lengths are those of slices; `given` is
                // a number of its own.
                Next::Line { pixels, width } => unsafe {
                    sys::suz_scan_line(
                        state.as_mut_ptr(),
                        state.len(),
                        pixels.as_ptr(),
                        pixels.len(),
                        width,
                        held.as_mut_ptr(),
                        held.len(),
                        out.as_mut_ptr(),
                        out.len(),
                        &mut given,
                    )
                },
                // SAFETY: as above.
                Next::End => unsafe {
                    sys::suz_scan_end(
                        state.as_mut_ptr(),
                        state.len(),
                        held.as_mut_ptr(),
                        held.len(),
                        out.as_mut_ptr(),
                        out.len(),
                        &mut given,
                    )
                },
            })
        })
    });
    Left {
        bare,
        state,
        held,
        out,
        given,
    }
}

/// The width of the scan whose state this is, or what stands in its place.
pub fn width_in(state: &[u8]) -> usize {
    usize::from(u16::from_be_bytes([state[TABLE], state[TABLE + 1]]))
}

/// A scan that began, with its memory as it was left.
pub struct Scan {
    /// Something may stand past it.
    pub state: Vec<u8>,
    pub held: Vec<i32>,
    past: Past,
}

impl Scan {
    /// Begins a scan under a table that is accepted and of one level.
    pub fn begin(table: &[u8], state: &[u8]) -> Scan {
        let (answer, state) = begin(table, state);
        assert_eq!(answer, Ok(()));
        Scan {
            state,
            held: Vec::new(),
            past: Past::default(),
        }
    }

    /// Calls both and compares all that they leave. `out` is lent memory before
    /// the call. Gives the answer and the values of the lines given.
    pub fn call(&mut self, next: Next, out: &[i32]) -> (Answer, Vec<i32>) {
        let held = std::mem::take(&mut self.held);
        let (answer, given, held) = self.call_with(next, &held, out);
        self.held = held;
        (answer, given)
    }

    /// As [`Scan::call`], with other held memory; it must be refused.
    pub fn refused(&mut self, next: Next, held: &[i32], out: &[i32]) -> u8 {
        let (answer, given, _) = self.call_with(next, held, out);
        assert_eq!(given, []);
        answer.expect_err("it is refused").number
    }

    /// As [`Scan::call`], with the state cut short; it must be refused.
    pub fn refused_with_a_short_state(
        &mut self,
        length: usize,
        next: Next,
        held: &[i32],
        out: &[i32],
    ) -> u8 {
        let whole = self.state.clone();
        self.state.truncate(length);
        let number = self.refused(next, held, out);
        assert_eq!(self.state, whole[..length]);
        self.state = whole;
        number
    }

    fn call_with(&mut self, next: Next, held: &[i32], out: &[i32]) -> (Answer, Vec<i32>, Vec<i32>) {
        let ours = engine(next, &self.state, held, out);
        let (mut due_out, mut due_given) = (out.to_vec(), NO_COUNT);
        let (past, state) = (&mut self.past, &mut self.state);
        let before = state.clone();
        let due = match next {
            Next::Line { pixels, width } => rolling::scan_line(
                past,
                state,
                pixels,
                width,
                held.len(),
                &mut due_out,
                &mut due_given,
            ),
            Next::End => rolling::scan_end(past, state, held.len(), &mut due_out, &mut due_given),
        };
        assert_eq!(ours.bare, answer(due), "engine left, reference right");
        assert_eq!(ours.given, due_given, "the number of lines");
        assert_eq!(ours.state, *state, "the state");
        assert!(ours.out == due_out, "output differs after {due:?}");
        match due {
            Ok(()) => {
                let width = width_in(state);
                let past_them = HELD_LINES * width;
                assert!(
                    ours.held[past_them..] == held[past_them..],
                    "past seven lines"
                );
                let given = due_out[..due_given as usize * width].to_vec();
                (due, given, ours.held)
            }
            Err(_) => {
                assert_eq!(*state, before, "the state after {due:?}");
                assert!(ours.held == held, "held lines differ after {due:?}");
                assert!(ours.out == out && ours.given == NO_COUNT);
                (due, Vec::new(), ours.held)
            }
        }
    }
}

/// One call with a state or held lines that no scan need have left. Answer,
/// count and state are compared; the values given are free, all other memory
/// is not. Gives the answer and the number of lines.
pub fn foreign(next: Next, state: &[u8], held: &[i32], out: &[i32]) -> (Answer, usize) {
    let ours = engine(next, state, held, out);
    let due = match next {
        Next::Line { pixels, width } => {
            rolling::line_answer(state, pixels, width, held.len(), out.len())
        }
        Next::End => rolling::end_answer(state, held.len(), out.len()),
    };
    match due {
        Ok((after, count)) => {
            assert_eq!(ours.bare, 0, "the reference takes it");
            assert_eq!(ours.given as usize, count, "the number of lines");
            let (start, past) = ours.state.split_at(rolling::STATE);
            assert_eq!(
                (start, past),
                (&after.bytes()[..], &state[rolling::STATE..])
            );
            let written = count * after.width;
            assert!(
                ours.out[written..] == out[written..],
                "past the lines given"
            );
            let lines = HELD_LINES * after.width;
            assert!(ours.held[lines..] == held[lines..], "past seven lines");
            (Ok(()), count)
        }
        Err(refusal) => {
            assert_eq!(ours.bare, refusal.code(), "engine left, reference right");
            assert_eq!((&ours.state[..], ours.given), (state, NO_COUNT));
            assert!(ours.out == out && ours.held == held, "lent memory");
            (Err(refusal), 0)
        }
    }
}
