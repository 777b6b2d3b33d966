//! A second implementation of the engine, written from documents 01 and 02
//! alone.
//!
//! It is kept plain: every rule stands where it can be read beside the
//! documents, whole numbers have no limit that a picture could reach, and
//! fractions are exact. Nothing here is made for speed.
//!
//! * [`refusal`]: the numbers 1 to 14
//! * [`table`]: width tables (document 01: books), with a width for each product
//!   or without (document 02, job 7), and their bytes
//! * [`constants`], [`gains`], [`precision`]: the precision analysis and its
//!   verdict (document 01: the judge)
//! * [`fixed97`], [`exact97`]: the 9/7 transform in fixed point and in fractions
//! * [`fixed_inverse97`], [`exact_inverse97`], [`viewing`]: their inverse, and
//!   the bound between the two
//! * [`reversible53`]: the 5/3 transform forward and back, columns first as new
//!   copies have it and rows first as copies made earlier
//! * [`rolling`]: the rolling scan, line by line, and the one-level 9/7 transform
//!   of a strip of any height
//! * [`papers`]: a third reading, the passes as source documents 003 and 004
//!   print them, the ends of a line apart from its middle
//! * [`places`]: sides, low and high parts, kept nodes
//! * [`calls`]: every other call with its order of refusals and what it leaves in
//!   lent memory
//! * [`exact_copy`]: the exact-copy program, bytes to text
//! * [`tag_value`]: the tag program, bytes to bytes
//! * [`big`], [`fraction`]: the arithmetic underneath

pub mod big;
pub mod calls;
pub mod constants;
pub mod exact97;
pub mod exact_copy;
pub mod exact_inverse97;
pub mod fixed97;
pub mod fixed_inverse97;
pub mod fraction;
pub mod gains;
pub mod papers;
pub mod places;
pub mod precision;
pub mod refusal;
pub mod reversible53;
pub mod rolling;
pub mod table;
pub mod tag_value;
pub mod viewing;

pub use refusal::{Place, Refusal};
pub use table::{Width, WidthTable};
