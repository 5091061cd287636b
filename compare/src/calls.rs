//! Units handed to the port, through the package that programs in Rust call it by.

use gihvendu::raw::{self, Given, Opened};
use gihvendu::{Borders, Classes, Lent, Luma, LumaUnit, Pieces, Refusal, State};

use crate::units::{Operation, Unit};
use crate::written::Written;

/// A unit's filters in the port's types.
#[derive(Clone, PartialEq, Eq)]
pub(crate) struct Filters {
    narrow: Vec<i8>,
    wide: Vec<i16>,
}

impl Filters {
    pub fn new(unit: &Unit) -> Filters {
        Filters {
            narrow: unit.narrow(),
            wide: unit.wide(),
        }
    }
}

/// A unit as the port takes it, all but its plane.
pub(crate) struct ForPort<'a> {
    unit: gihvendu::Unit,
    borders: Borders<'a>,
    lent: Lent<'a>,
    skip: &'a [u16],
}

/// What a run of the port answered and left.
pub(crate) struct Ran {
    /// the pieces, or the table's number
    pub answer: Result<usize, u8>,
    pub plane: Vec<u8>,
    /// whether nothing around the plane is written and all other lists are as before
    pub kept: bool,
}

fn number(refusal: Refusal) -> u8 {
    refusal.number()
}

/// Runs the port on a copy of a plane, lent what a unit lends.
fn run(
    unit: &Unit,
    plane: &[u8],
    call: impl FnOnce(&ForPort<'_>, &mut [u8]) -> Result<Pieces, Refusal>,
) -> Ran {
    let filters = Filters::new(unit);
    let before = (unit.clone(), filters.clone());
    let mut plane = Written::new(plane.to_vec());
    let answer = call(&ForPort::new(unit, &filters), plane.list()).map_err(number);
    Ran {
        answer,
        plane: plane.now().to_vec(),
        kept: plane.around_kept() && (unit, &filters) == (&before.0, &before.1),
    }
}

/// A whole unit on a copy of its plane.
pub(crate) fn whole(unit: &Unit) -> Ran {
    run(unit, &unit.plane, |lent, plane| lent.restore(plane))
}

/// An advance on a copy of a plane.
pub(crate) fn advance(unit: &Unit, state: &mut State, count: usize, plane: &[u8]) -> Ran {
    run(unit, plane, |lent, plane| lent.advance(state, count, plane))
}

/// What an opening hands out; the state is of zeros where it is refused.
pub(crate) struct Begun {
    pub answer: Result<State, u8>,
    pub state: raw::State,
    /// whether the plane and all other lists are as before
    pub kept: bool,
}

/// Opens a unit by the package and by the library's own function; the state must say what it is of.
pub(crate) fn open(unit: &Unit) -> Begun {
    let (before, filters) = (unit.clone(), Filters::new(unit));
    let port = ForPort::new(unit, &filters);
    let answer = port.open(&unit.plane).map_err(number);
    let Opened { status, state } = port.opened(&unit.plane);
    let same = match &answer {
        Ok(opened) => {
            status == 0
                && *opened == State::from(state.clone())
                && opened.operation() == Some(port.lent.operation())
                && (opened.w(), opened.h()) == (unit.w, unit.h)
        }
        Err(number) => status == *number,
    };
    Begun {
        answer,
        state,
        kept: same && *unit == before,
    }
}

/// The numbers that an opening keeps; what the operation does not use is 0.
pub(crate) fn given(u: &Unit) -> Given {
    let own = Given {
        w: u.w,
        h: u.h,
        edges: u.edges,
        stride: u.stride,
        off: u.off,
        top_off: u.top_off,
        bottom_off: u.bottom_off,
        ..Given::default()
    };
    if u.op != Operation::Chroma {
        return own;
    }
    Given {
        luma_stride: u.luma_stride,
        luma_off: u.luma_off,
        luma_top_off: u.luma_top_off,
        luma_bottom_off: u.luma_bottom_off,
        ss_hor: u.ss_hor,
        ss_ver: u.ss_ver,
        kind: u.kind,
        ..own
    }
}

/// What the unit's operation alone is lent, and by that its operation.
fn lent<'a>(u: &'a Unit, filters: &'a Filters) -> Lent<'a> {
    match u.op {
        Operation::Luma => Lent::Luma {
            filter: &filters.narrow,
        },
        Operation::User => Lent::User {
            classes: classes(u, &filters.narrow),
        },
        Operation::Pretrained => Lent::Pretrained {
            classes: classes(u, &filters.wide),
        },
        Operation::Chroma => Lent::Chroma {
            filter: &filters.narrow,
            luma_unit: LumaUnit {
                stride: u.luma_stride,
                off: u.luma_off,
                top_off: u.luma_top_off,
                bottom_off: u.luma_bottom_off,
                ss_hor: u.ss_hor,
                ss_ver: u.ss_ver,
                kind: u.kind,
            },
            luma: Luma {
                plane: &u.luma_plane,
                top: &u.luma_top,
                bottom: &u.luma_bottom,
            },
        },
    }
}

fn classes<'a, F>(u: &'a Unit, filters: &'a [F]) -> Classes<'a, F> {
    Classes {
        filters,
        map: &u.map,
        subclass: &u.subclass,
        noskip: &u.noskip,
        base_q: u.q,
    }
}

impl<'a> ForPort<'a> {
    pub fn new(u: &'a Unit, filters: &'a Filters) -> Self {
        ForPort {
            unit: gihvendu::Unit {
                w: u.w,
                h: u.h,
                edges: u.edges,
                stride: u.stride,
                off: u.off,
                top_off: u.top_off,
                bottom_off: u.bottom_off,
            },
            borders: Borders {
                left: &u.left,
                top: &u.top,
                bottom: &u.bottom,
            },
            lent: lent(u, filters),
            skip: &u.skip,
        }
    }

    /// Restores the unit in a plane.
    pub fn restore(&self, plane: &mut [u8]) -> Result<Pieces, Refusal> {
        gihvendu::restore(plane, &self.unit, &self.borders, &self.lent, self.skip)
    }

    /// Opens the unit over a plane.
    pub fn open(&self, plane: &[u8]) -> Result<State, Refusal> {
        State::open(plane, &self.unit, &self.borders, &self.lent, self.skip)
    }

    /// The next rows of a state, which need not be of this unit.
    pub fn advance(
        &self,
        state: &mut State,
        count: usize,
        plane: &mut [u8],
    ) -> Result<Pieces, Refusal> {
        state.advance(count, plane, &self.borders, &self.lent, self.skip)
    }

    /// The library's own answer to an opening, which the package's `open` is made of.
    fn opened(&self, plane: &[u8]) -> Opened {
        let (u, b) = (&self.unit, &self.borders);
        macro_rules! opened {
            ($open:ident, $($own:expr),*) => {
                raw::$open(
                    plane, u.off, u.stride, b.left, b.top, u.top_off, b.bottom, u.bottom_off, u.w, u.h, $($own,)* u.edges, self.skip,
                )
            };
        }
        match self.lent {
            Lent::Luma { filter } => opened!(gihvendu_open_y, filter),
            Lent::User { classes: c } => {
                opened!(
                    gihvendu_open_n,
                    c.filters,
                    c.map,
                    c.subclass,
                    c.noskip,
                    c.base_q
                )
            }
            Lent::Pretrained { classes: c } => {
                opened!(
                    gihvendu_open_p,
                    c.filters,
                    c.map,
                    c.subclass,
                    c.noskip,
                    c.base_q
                )
            }
            Lent::Chroma {
                filter,
                luma_unit: at,
                luma,
            } => opened!(
                gihvendu_open_c,
                filter,
                luma.plane,
                at.off,
                at.stride,
                luma.top,
                at.top_off,
                luma.bottom,
                at.bottom_off,
                at.ss_hor,
                at.ss_ver,
                at.kind
            ),
        }
    }
}
