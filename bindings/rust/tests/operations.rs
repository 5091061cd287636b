//! A unit of each operation by the call that takes any: it leaves what tealdust's function left of the same lists, and the
//! call by name does no other.

mod lists;

use gihvendu::{
    Borders, Classes, Lent, LumaUnit, Operation, Pieces, Refusal, State, Unit,
    ns_wiener_multi_8bpc, ns_wiener_single_uv_8bpc, ns_wiener_single_y_8bpc, pc_wiener_8bpc, raw,
    restore,
};
use lists::{LUMA_UNIT, Lists, SKIP, UNIT, plane};

const PIECES: Pieces = 3 * 4;

type Rows = [[u8; 8]; 8];

/// The plane with other samples in the unit's place.
fn with_rows(rows: &Rows) -> Vec<u8> {
    let mut plane = plane();
    for (y, row) in rows.iter().enumerate() {
        plane[UNIT.off + y * UNIT.stride..][..8].copy_from_slice(row);
    }
    plane
}

/// Both ways to a unit of one operation, whole and in advances; `expected` are tealdust's samples.
fn both_ways(
    operation: Operation,
    expected: &Rows,
    whole: impl Fn(&Lists, &mut [u8]) -> Result<Pieces, Refusal>,
    open: impl Fn(&Lists, &[u8]) -> Result<State, Refusal>,
    advance: impl Fn(&Lists, &mut State, usize, &mut [u8]) -> Result<Pieces, Refusal>,
) {
    let lists = &Lists::new();
    let (borders, lent) = (lists.borders(), lists.lent(operation));
    assert_eq!(lent.operation(), operation);
    let expected = with_rows(expected);

    let (mut any, mut named) = (plane(), plane());
    assert_eq!(restore(&mut any, &UNIT, &borders, &lent, &SKIP), Ok(PIECES));
    assert_eq!(whole(lists, &mut named), Ok(PIECES));
    assert_eq!((&any, &named), (&expected, &expected));

    let (mut any, mut named) = (plane(), plane());
    let mut state = State::open(&any, &UNIT, &borders, &lent, &SKIP).unwrap();
    let mut state_named = open(lists, &named).unwrap();
    assert_eq!(state, state_named);
    let mut done = 0;
    for count in [1, 0, 4, 2, usize::MAX] {
        let before = (any.clone(), state.clone());
        for other in Operation::ALL.into_iter().filter(|&o| o != operation) {
            let answer = state.advance(count, &mut any, &borders, &lists.lent(other), &SKIP);
            assert_eq!(answer, Err(Refusal::State));
            assert!((&any, &state) == (&before.0, &before.1));
        }
        let answer = state.advance(count, &mut any, &borders, &lent, &SKIP);
        assert_eq!(answer, advance(lists, &mut state_named, count, &mut named));
        assert_eq!((&any, &state), (&named, &state_named));
        done = count.saturating_add(done).min(8);
        assert_eq!(state.operation(), Some(operation));
        assert_eq!((state.w(), state.h(), state.rows_done()), (8, 8, done));
    }
    assert!(state.finished());
    assert_eq!(any, expected);
}

#[test]
fn luma() {
    const ROWS: Rows = [
        [102, 111, 117, 130, 144, 99, 117, 137],
        [105, 144, 124, 104, 91, 139, 128, 119],
        [129, 138, 90, 103, 123, 142, 102, 125],
        [115, 94, 147, 131, 118, 108, 100, 94],
        [133, 150, 95, 117, 135, 95, 123, 151],
        [104, 90, 141, 128, 120, 112, 109, 105],
        [102, 125, 142, 99, 124, 148, 116, 151],
        [132, 121, 109, 100, 94, 92, 158, 156],
    ];
    let filter = |l: &Lists| l.user[..16].to_vec();
    both_ways(
        Operation::Luma,
        &ROWS,
        |l, p| ns_wiener_single_y_8bpc(p, &UNIT, &l.borders(), &filter(l), &SKIP),
        |l, p| State::open_y(p, &UNIT, &l.borders(), &filter(l), &SKIP),
        |l, state, count, p| state.advance_y(count, p, &l.borders(), &filter(l), &SKIP),
    );
}

#[test]
fn user() {
    const ROWS: Rows = [
        [103, 106, 118, 134, 144, 99, 117, 137],
        [103, 142, 121, 107, 91, 139, 128, 119],
        [127, 145, 92, 104, 123, 142, 102, 125],
        [114, 100, 141, 128, 118, 108, 100, 94],
        [130, 137, 101, 120, 132, 101, 118, 146],
        [106, 95, 138, 126, 120, 110, 111, 112],
        [105, 122, 139, 106, 119, 142, 120, 144],
        [125, 122, 113, 101, 97, 96, 152, 151],
    ];
    both_ways(
        Operation::User,
        &ROWS,
        |l, p| ns_wiener_multi_8bpc(p, &UNIT, &l.borders(), &l.classes(&l.user), &SKIP),
        |l, p| State::open_n(p, &UNIT, &l.borders(), &l.classes(&l.user), &SKIP),
        |l, state, count, p| state.advance_n(count, p, &l.borders(), &l.classes(&l.user), &SKIP),
    );
}

#[test]
fn pretrained() {
    const ROWS: Rows = [
        [92, 97, 107, 119, 144, 99, 117, 137],
        [95, 130, 114, 95, 91, 139, 128, 119],
        [117, 127, 80, 94, 123, 142, 102, 125],
        [103, 85, 134, 119, 118, 108, 100, 94],
        [120, 135, 85, 106, 122, 89, 111, 138],
        [96, 80, 125, 117, 107, 99, 99, 93],
        [93, 114, 130, 94, 112, 134, 105, 133],
        [119, 109, 101, 92, 83, 82, 140, 140],
    ];
    both_ways(
        Operation::Pretrained,
        &ROWS,
        |l, p| pc_wiener_8bpc(p, &UNIT, &l.borders(), &l.classes(&l.pretrained), &SKIP),
        |l, p| State::open_p(p, &UNIT, &l.borders(), &l.classes(&l.pretrained), &SKIP),
        |l, state, count, p| {
            state.advance_p(count, p, &l.borders(), &l.classes(&l.pretrained), &SKIP)
        },
    );
}

#[test]
fn chroma() {
    const ROWS: Rows = [
        [99, 110, 118, 127, 144, 99, 117, 137],
        [106, 141, 122, 108, 91, 139, 128, 119],
        [128, 134, 93, 109, 123, 142, 102, 125],
        [119, 98, 148, 130, 118, 108, 100, 94],
        [128, 145, 96, 118, 137, 102, 123, 151],
        [106, 95, 137, 126, 120, 110, 106, 101],
        [106, 124, 139, 105, 129, 153, 119, 143],
        [132, 115, 107, 100, 93, 89, 147, 145],
    ];
    let filter = |l: &Lists| l.user[..18].to_vec();
    both_ways(
        Operation::Chroma,
        &ROWS,
        |l, p| {
            let (b, luma) = (l.borders(), l.luma());
            ns_wiener_single_uv_8bpc(p, &UNIT, &b, &filter(l), &LUMA_UNIT, &luma, &SKIP)
        },
        |l, p| {
            let (b, luma) = (l.borders(), l.luma());
            State::open_c(p, &UNIT, &b, &filter(l), &LUMA_UNIT, &luma, &SKIP)
        },
        |l, state, count, p| state.advance_c(count, p, &l.borders(), &filter(l), &l.luma(), &SKIP),
    );
}

/// A refusal comes back by the call for any as by the one by name.
#[test]
fn refused() {
    let lists = Lists::new();
    for operation in Operation::ALL {
        let (b, lent) = (lists.borders(), lists.lent(operation));
        let wider = Unit { w: 9, ..UNIT };
        let mut p = plane();
        assert_eq!(
            restore(&mut p, &wider, &b, &lent, &SKIP),
            Err(Refusal::Width)
        );
        assert_eq!(
            State::open(&p, &UNIT, &b, &lent, &SKIP[1..]),
            Err(Refusal::Masks)
        );
        let mut state = State::open(&p, &UNIT, &b, &lent, &SKIP).unwrap();
        let no_left = Borders { left: &[], ..b };
        assert_eq!(
            state.advance(1, &mut p, &no_left, &lent, &SKIP),
            Err(Refusal::Left)
        );
        assert_eq!(p, plane());
    }
}

/// The luma's place is taken from the state: an advance does not look at the one that is lent.
#[test]
fn luma_unit_of_an_advance() {
    let lists = Lists::new();
    let (b, luma) = (lists.borders(), lists.luma());
    let lent = |luma_unit| Lent::Chroma {
        filter: &lists.user[..18],
        luma_unit,
        luma,
    };
    let opened = State::open(&plane(), &UNIT, &b, &lent(LUMA_UNIT), &SKIP).unwrap();
    let run = |luma_unit| {
        let (mut state, mut p) = (opened.clone(), plane());
        let answer = state.advance(3, &mut p, &b, &lent(luma_unit), &SKIP);
        (answer, state, p)
    };
    assert_eq!(run(LumaUnit::default()), run(LUMA_UNIT));
}

/// The state of zeros and forged numbers are of no operation.
#[test]
fn no_operation() {
    for op in [0, 5, 1 << 8, (1 << 32) + 1, usize::MAX] {
        let forged = raw::State {
            op,
            ..raw::State::default()
        };
        assert_eq!(State::from(forged).operation(), None);
        assert_eq!(Operation::from_number(op), None);
    }
    let numbers = Operation::ALL.map(Operation::number);
    assert_eq!(numbers, [1, 2, 3, 4]);
}

/// Sets and lists of nothing: what is not lent is empty.
#[test]
fn default_classes() {
    let none: Classes<'_, i16> = Classes::default();
    let lengths = [none.map.len(), none.subclass.len(), none.noskip.len()];
    assert_eq!((none.filters, lengths, none.base_q), (&[][..], [0; 3], 0));
}
