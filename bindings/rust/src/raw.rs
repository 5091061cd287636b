//! The functions of the static library, one for one: numbers, slices and structs.
//!
//! A status is 0, or the number of a refusal: [`Refusal::from_status`](crate::Refusal::from_status) names it. All functions
//! are safe: each takes every number, length and state, and its contract in `crates/gihvendu` says what comes of it.
//! [`crate::State`] and the functions beside it say the same with fewer arguments.
//!
//! ```
//! use gihvendu::{Operation, Refusal, raw};
//!
//! // A 4 by 4 luma unit without borders, then one that is 5 wide.
//! let open = |w| raw::gihvendu_open_y(&[9; 16], 0, 4, &[], &[], 0, &[], 0, w, 4, &[0; 16], 0, &[0; 4]);
//! let opened = open(4);
//! assert_eq!(Refusal::from_status(opened.status), None);
//! assert_eq!((opened.state.op, opened.state.given.w), (Operation::Luma.number(), 4));
//! assert_eq!(Refusal::from_status(open(5).status), Some(Refusal::Width));
//! ```
//!
//! All that is `unsafe` in this package stands in the one macro of this module.
#![allow(clippy::too_many_arguments)]

use std::convert::identity;

use crate::ClassIndex;

/// Declares functions of the library, each with a safe function of the same name. A slice goes over as its pointer and its
/// length, a reference to an array as a pointer, a struct as C passes it.
macro_rules! functions {
    ($(
        $(#[$note:meta])*
        fn $name:ident($( $arg:ident: $( &[$read:ty] )? $( &mut [$write:ty] )? $( $value:ident )? ),* $(,)?) -> $answer:ty;
    )*) => {$(
        $(#[$note])*
        pub fn $name($( $arg: $( &[$read] )? $( &mut [$write] )? $( $value )? ),*) -> $answer {
            unsafe extern "C" {
                fn $name($( $( $arg: *const $read, _: usize )? $( $arg: *mut $write, _: usize )? $( $arg: $value )? ),*) -> $answer;
            }
            // SAFETY: each pointer is of a live slice and stands with that slice's length; the types are those of the
            // library's function, whose contract requires nothing and which writes no byte but of the slices lent to
            // be written. It keeps no pointer.
            unsafe { $name($( $( $arg.as_ptr(), <[$read]>::len($arg) )? $( $arg.as_mut_ptr(), <[$write]>::len($arg) )? $( identity::<$value>($arg) )? ),*) }
        }
    )*};
}

/// Ten row indices, lent.
pub type Indices<'a> = &'a [usize; 10];
/// The filter of a luma run, lent.
pub type LumaTaps<'a> = &'a [i8; 16];
/// The filter of a pretrained run, lent.
pub type PretrainedTaps<'a> = &'a [i16; 13];
/// The filter of a chroma run, lent.
pub type ChromaTaps<'a> = &'a [i8; 18];

/// The numbers that a unit is opened with; what its operation does not use is 0. [`crate::Unit`] and [`crate::LumaUnit`]
/// have them by the same names.
#[repr(C)]
#[derive(Clone, Copy, Debug, Default, PartialEq, Eq)]
pub struct Given {
    /// samples in a row
    pub w: usize,
    /// rows
    pub h: usize,
    /// the sum of [`edges`](crate::edges) bits
    pub edges: usize,
    /// bytes from a row to the next
    pub stride: usize,
    /// bytes from a luma row to the next
    pub luma_stride: usize,
    /// the place of the first sample in the plane
    pub off: usize,
    /// the place of the first saved sample above
    pub top_off: usize,
    /// the place of the first saved sample below
    pub bottom_off: usize,
    /// the place of the first luma sample
    pub luma_off: usize,
    /// the place of the first saved luma sample above
    pub luma_top_off: usize,
    /// the place of the first saved luma sample below
    pub luma_bottom_off: usize,
    /// horizontal subsampling
    pub ss_hor: usize,
    /// vertical subsampling
    pub ss_ver: usize,
    /// how two luma rows become one
    pub kind: usize,
}

/// A unit between two advances.
#[repr(C)]
#[derive(Clone, Debug, PartialEq, Eq)]
pub struct State {
    /// the [number](crate::Operation::number) of the operation; 0 of no unit
    pub op: usize,
    /// what the unit was opened with
    pub given: Given,
    /// the rows that are done
    pub done: usize,
    /// the slot of `rows` that the next padded row goes to
    pub next: usize,
    /// the set of each block in the block row in progress, where blocks have classes
    pub classes: [u8; 16],
    /// the slots of the padded rows that the next row is restored from, the upper ones first; of a chroma unit five of its
    /// own and, behind them, five of luma
    pub indices: [usize; 10],
    /// ten padded rows of 76 bytes; of a chroma unit five of 76 and, behind them, five luma rows of 140
    pub rows: [u8; 1080],
}

/// The state of zeros, of no unit: a refused opening hands it out.
impl Default for State {
    fn default() -> State {
        State {
            op: 0,
            given: Given::default(),
            done: 0,
            next: 0,
            classes: [0; 16],
            indices: [0; 10],
            rows: [0; 1080],
        }
    }
}

// The answers have the status first, then what was done, then the state. `Opened` alone has the state before the status.

/// What an opening answers, and the reading of a state's text.
#[repr(C)]
#[derive(Clone, Debug, PartialEq, Eq)]
pub struct Opened {
    /// the state of the unit, or that of the text; of zeros where refused
    pub state: State,
    /// see [`Refusal::from_status`](crate::Refusal::from_status)
    pub status: u8,
}

/// What an advance answers.
#[repr(C)]
#[derive(Clone, Debug, PartialEq, Eq)]
pub struct Advanced {
    /// see [`Refusal::from_status`](crate::Refusal::from_status)
    pub status: u8,
    /// the [pieces](crate::Pieces) that were restored; 0 where refused
    pub pieces: usize,
    /// the state after it; where refused, as it came
    pub state: State,
}

/// What a whole unit or a plane answers.
#[repr(C)]
#[derive(Clone, Copy, Debug, PartialEq, Eq)]
pub struct Restored {
    /// see [`Refusal::from_status`](crate::Refusal::from_status)
    pub status: u8,
    /// the [pieces](crate::Pieces) that were restored; 0 where refused
    pub pieces: usize,
}

/// What writing a state's text answers.
#[repr(C)]
#[derive(Clone, Copy, Debug, PartialEq, Eq)]
pub struct Written {
    /// see [`Refusal::from_status`](crate::Refusal::from_status)
    pub status: u8,
    /// the bytes of the text; 0 where refused
    pub len: usize,
}

/// What the class index answers.
#[repr(C)]
#[derive(Clone, Copy, Debug, PartialEq, Eq)]
pub struct Indexed {
    /// see [`Refusal::from_status`](crate::Refusal::from_status)
    pub status: u8,
    /// the class index with its parts; zeros where refused
    pub class_index: ClassIndex,
}

/// What a quantizer term answers.
#[repr(C)]
#[derive(Clone, Copy, Debug, PartialEq, Eq)]
pub struct Qval {
    /// see [`Refusal::from_status`](crate::Refusal::from_status)
    pub status: u8,
    /// the term; 0 where refused
    pub value: i32,
}

functions! {
    /// `n` luma samples from column `col0` of the row with the fifth index.
    fn gihvendu_ns_wiener_fir_run(dst: &mut [u8], rows: &[u8], indices: Indices, col0: usize, filter: LumaTaps, n: usize) -> u8;

    /// `n` pretrained samples from column `col0` of the row with the fifth index.
    fn gihvendu_pc_wiener_fir_run(
        dst: &mut [u8], rows: &[u8], indices: Indices, col0: usize, filter: PretrainedTaps, n: usize,
    ) -> u8;

    /// `n` chroma samples, with luma from column `lcol0` in steps of `step`.
    fn gihvendu_ns_wiener_uv_fir_run(
        dst: &mut [u8], rows: &[u8], indices: Indices, col0: usize, lcol0: usize, step: usize, filter: ChromaTaps, n: usize,
    ) -> u8;

    /// Pads a row of the unit.
    fn gihvendu_backup_row_8bpc(
        dst: &mut [u8], o: usize, src: &[u8], src_o: usize, left: &[u8], left_off: usize, w: usize, edge_len: usize, edges: usize,
    ) -> u8;

    /// Pads a saved row.
    fn gihvendu_backup_row_lpf_8bpc(dst: &mut [u8], o: usize, src: &[u8], src_o: usize, w: usize, edge_len: usize, edges: usize) -> u8;

    /// Pads a luma row of a chroma unit, from the plane or from a saved border.
    fn gihvendu_backup_row_luma_8bpc(
        dst: &mut [u8], o: usize, plane: &[u8], saved: &[u8], from_saved: bool, src_o: usize, src_stride: usize, w: usize,
        edges: usize, ss_hor: usize, ss_ver: usize, kind: usize,
    ) -> u8;

    /// The quantizer term `i`.
    fn gihvendu_get_qval_given_tskip(qstep: i32, tskip: u8, i: usize) -> Qval;

    /// The class index of a block, with its parts.
    fn gihvendu_get_class_lut_idx_8bpc(
        rows: &[u8], indices: Indices, noskip: &[u16], base_q: i32, bx: usize, by: usize, bh: usize,
    ) -> Indexed;

    /// A whole luma unit.
    fn gihvendu_ns_wiener_single_y_8bpc(
        plane: &mut [u8], off: usize, stride: usize, left: &[u8], top: &[u8], top_off: usize, bottom: &[u8],
        bottom_off: usize, w: usize, h: usize, filter: &[i8], edges: usize, skip: &[u16],
    ) -> Restored;

    /// A whole unit with user sets.
    fn gihvendu_ns_wiener_multi_8bpc(
        plane: &mut [u8], off: usize, stride: usize, left: &[u8], top: &[u8], top_off: usize, bottom: &[u8],
        bottom_off: usize, w: usize, h: usize, filters: &[i8], map: &[u8], subclass: &[u8], noskip: &[u16], base_q: i32,
        edges: usize, skip: &[u16],
    ) -> Restored;

    /// A whole unit with pretrained sets.
    fn gihvendu_pc_wiener_8bpc(
        plane: &mut [u8], off: usize, stride: usize, left: &[u8], top: &[u8], top_off: usize, bottom: &[u8],
        bottom_off: usize, w: usize, h: usize, filters: &[i16], map: &[u8], subclass: &[u8], noskip: &[u16], base_q: i32,
        edges: usize, skip: &[u16],
    ) -> Restored;

    /// A whole chroma unit.
    fn gihvendu_ns_wiener_single_uv_8bpc(
        plane: &mut [u8], off: usize, stride: usize, left: &[u8], top: &[u8], top_off: usize, bottom: &[u8],
        bottom_off: usize, w: usize, h: usize, filter: &[i8], luma_plane: &[u8], luma_off: usize, luma_stride: usize,
        luma_top: &[u8], luma_top_off: usize, luma_bottom: &[u8], luma_bottom_off: usize, ss_hor: usize, ss_ver: usize,
        kind: usize, edges: usize, skip: &[u16],
    ) -> Restored;

    /// The first `count` units of a luma plane.
    fn gihvendu_restore_plane(
        plane: &mut [u8], w: usize, h: usize, unit: usize, count: usize, filter: &[i8], skip: &[u16], scratch: &mut [u8],
    ) -> Restored;

    /// Whether all rows of a unit are done.
    fn gihvendu_finished(state: State) -> bool;

    /// Opens a luma unit.
    fn gihvendu_open_y(
        plane: &[u8], off: usize, stride: usize, left: &[u8], top: &[u8], top_off: usize, bottom: &[u8],
        bottom_off: usize, w: usize, h: usize, filter: &[i8], edges: usize, skip: &[u16],
    ) -> Opened;

    /// Opens a unit with user sets.
    fn gihvendu_open_n(
        plane: &[u8], off: usize, stride: usize, left: &[u8], top: &[u8], top_off: usize, bottom: &[u8],
        bottom_off: usize, w: usize, h: usize, filters: &[i8], map: &[u8], subclass: &[u8], noskip: &[u16], base_q: i32,
        edges: usize, skip: &[u16],
    ) -> Opened;

    /// Opens a unit with pretrained sets.
    fn gihvendu_open_p(
        plane: &[u8], off: usize, stride: usize, left: &[u8], top: &[u8], top_off: usize, bottom: &[u8],
        bottom_off: usize, w: usize, h: usize, filters: &[i16], map: &[u8], subclass: &[u8], noskip: &[u16], base_q: i32,
        edges: usize, skip: &[u16],
    ) -> Opened;

    /// Opens a chroma unit.
    fn gihvendu_open_c(
        plane: &[u8], off: usize, stride: usize, left: &[u8], top: &[u8], top_off: usize, bottom: &[u8],
        bottom_off: usize, w: usize, h: usize, filter: &[i8], luma_plane: &[u8], luma_off: usize, luma_stride: usize,
        luma_top: &[u8], luma_top_off: usize, luma_bottom: &[u8], luma_bottom_off: usize, ss_hor: usize, ss_ver: usize,
        kind: usize, edges: usize, skip: &[u16],
    ) -> Opened;

    /// The next `count` rows of a luma unit.
    fn gihvendu_advance_y(
        state: State, count: usize, plane: &mut [u8], left: &[u8], top: &[u8], bottom: &[u8], filter: &[i8], skip: &[u16],
    ) -> Advanced;

    /// The next `count` rows of a unit with user sets.
    fn gihvendu_advance_n(
        state: State, count: usize, plane: &mut [u8], left: &[u8], top: &[u8], bottom: &[u8], filters: &[i8], map: &[u8],
        subclass: &[u8], noskip: &[u16], base_q: i32, skip: &[u16],
    ) -> Advanced;

    /// The next `count` rows of a unit with pretrained sets.
    fn gihvendu_advance_p(
        state: State, count: usize, plane: &mut [u8], left: &[u8], top: &[u8], bottom: &[u8], filters: &[i16], map: &[u8],
        subclass: &[u8], noskip: &[u16], base_q: i32, skip: &[u16],
    ) -> Advanced;

    /// The next `count` rows of a chroma unit.
    fn gihvendu_advance_c(
        state: State, count: usize, plane: &mut [u8], left: &[u8], top: &[u8], bottom: &[u8], filter: &[i8], luma_plane: &[u8],
        luma_top: &[u8], luma_bottom: &[u8], skip: &[u16],
    ) -> Advanced;

    /// Writes the text of a state.
    fn gihvendu_write_state(state: State, out: &mut [u8]) -> Written;

    /// Reads the text of a state.
    fn gihvendu_read_state(text: &[u8]) -> Opened;
}
