//! The 8-bit Wiener restoration core of AV2, proved in Rattle, for programs in Rust.
//!
//! The four functions of tealdust that restore a unit stand here under their own names, with the same lists, offsets,
//! strides, edge bits and masks: numbers in [`Unit`] (and [`LumaUnit`]), lists in [`Borders`], [`Classes`] and [`Luma`].
//!
//! | tealdust | here |
//! |---|---|
//! | `ns_wiener_single_y_8bpc` | [`ns_wiener_single_y_8bpc`], or [`State::open_y`] and [`State::advance_y`] |
//! | `ns_wiener_multi_8bpc` | [`ns_wiener_multi_8bpc`], or [`State::open_n`] and [`State::advance_n`] |
//! | `pc_wiener_8bpc` | [`pc_wiener_8bpc`], or [`State::open_p`] and [`State::advance_p`] |
//! | `ns_wiener_single_uv_8bpc` | [`ns_wiener_single_uv_8bpc`], or [`State::open_c`] and [`State::advance_c`] |
//! | `get_class_lut_idx_8bpc` | [`get_class_lut_idx_8bpc`], with the parts of the index in [`ClassIndex`] |
//!
//! What is written over all four takes a [`Lent`], which says the [`Operation`] and holds what it alone is lent: [`restore`],
//! or [`State::open`] and [`State::advance`].
//!
//! A unit that is stopped between two rows can be put away as lines of text and taken back by another process:
//! [`State::to_text`] and [`State::from_text`].
//!
//! A whole luma plane, cut into units and restored in one call without borders: [`restore_plane`], with its numbers in
//! [`PlaneUnits`].
//!
//! Where tealdust would panic, or where a number is off its limit, a [`Refusal`] comes back and no byte is written. Nested
//! lists are handed over flat: `left.as_flattened()`, `ll_mask.as_flattened()`.
//!
//! ```
//! use gihvendu::{Borders, Refusal, Unit, edges, ns_wiener_single_y_8bpc};
//!
//! // A 4 by 4 luma unit at the end of rows of 8 samples: what lies left of it is lent.
//! let mut plane = [100; 8 * 4];
//! let unit = Unit { w: 4, h: 4, edges: edges::LEFT, stride: 8, off: 4, ..Unit::default() };
//! let borders = Borders { left: &[100; 6 * 4], ..Borders::default() };
//! assert_eq!(ns_wiener_single_y_8bpc(&mut plane, &unit, &borders, &[9; 16], &[0; 4]), Ok(4));
//! assert_eq!(plane, [100; 8 * 4]); // flat samples stay
//!
//! let none = ns_wiener_single_y_8bpc(&mut plane, &unit, &Borders::default(), &[9; 16], &[0; 4]);
//! assert_eq!(none, Err(Refusal::Left));
//! ```

#![deny(missing_docs)]

mod call;
mod class_index;
mod lent;
mod operation;
mod plane;
pub mod raw;
mod refusal;
mod state;
mod text;
mod whole;

pub use class_index::{ClassIndex, get_class_lut_idx_8bpc};
pub use lent::{Borders, Classes, Luma, LumaUnit, Unit, edges};
pub use operation::{Lent, Operation, restore};
pub use plane::{PlaneUnits, restore_plane};
pub use refusal::Refusal;
pub use state::State;
pub use text::STATE_TEXT_LIMIT;
pub use whole::{
    ns_wiener_multi_8bpc, ns_wiener_single_uv_8bpc, ns_wiener_single_y_8bpc, pc_wiener_8bpc,
};

/// How much a call restored, in pieces: four neighbouring samples of one row in one unmasked block.
pub type Pieces = usize;
