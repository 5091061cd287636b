//! The state crosses over whole, and so do a plane's numbers and lists and the answers: each is found where it was put.

use gihvendu::{
    Borders, Luma, LumaUnit, PlaneUnits, STATE_TEXT_LIMIT, State, Unit, edges, raw, restore_plane,
};

#[test]
fn chroma_numbers() {
    let unit = Unit {
        w: 8,
        h: 4,
        edges: edges::LEFT | edges::TOP | edges::BOTTOM | 64,
        stride: 9,
        off: 1,
        top_off: 2,
        bottom_off: 3,
    };
    let luma_unit = LumaUnit {
        stride: 17,
        off: 4,
        top_off: 5,
        bottom_off: 6,
        ss_hor: 1,
        ss_ver: 1,
        kind: 2,
    };
    let lists = [vec![10u8; 300], vec![20; 300], vec![30; 300]];
    let borders = Borders {
        left: &lists[0],
        top: &lists[1],
        bottom: &lists[2],
    };
    let luma = Luma {
        plane: &lists[2],
        top: &lists[1],
        bottom: &lists[0],
    };
    let plane = [40; 100];
    let state = State::open_c(
        &plane, &unit, &borders, &[0; 18], &luma_unit, &luma, &[0; 4],
    )
    .unwrap();
    let state = raw::State::from(state);
    assert_eq!((state.op, state.done, state.classes), (4, 0, [0; 16]));
    let expected = raw::Given {
        w: 8,
        h: 4,
        edges: 1 + 4 + 8 + 64,
        stride: 9,
        luma_stride: 17,
        off: 1,
        top_off: 2,
        bottom_off: 3,
        luma_off: 4,
        luma_top_off: 5,
        luma_bottom_off: 6,
        ss_hor: 1,
        ss_ver: 1,
        kind: 2,
    };
    assert_eq!(state.given, expected);
}

/// A forged number in the last byte of the state comes back, where a refusal hands it back as it came.
#[test]
fn last_byte() {
    let mut forged = raw::State::default();
    forged.rows[1079] = 7;
    let handed = raw::gihvendu_advance_y(forged.clone(), 1, &mut [], &[], &[], &[], &[], &[]);
    assert_eq!(
        (handed.status, handed.pieces, handed.state),
        (13, 0, forged)
    );
}

/// A written text's answer has its length, which takes more than a byte, and a refused one its number and 0.
#[test]
fn written() {
    let state = raw::State {
        op: 4,
        ..raw::State::default()
    };
    let mut out = [0; STATE_TEXT_LIMIT];
    let answer = raw::gihvendu_write_state(state.clone(), &mut out);
    // no text has a byte 0
    let len = out.iter().position(|&b| b == 0).unwrap();
    assert!(len > 255);
    assert_eq!(answer, raw::Written { status: 0, len });

    let shorter = raw::gihvendu_write_state(state, &mut out[..len - 1]);
    assert_eq!(shorter, raw::Written { status: 5, len: 0 });
    let none = raw::gihvendu_write_state(raw::State::default(), &mut out);
    assert_eq!(none, raw::Written { status: 13, len: 0 });
}

/// 8 by 12 samples in units of 4, of which three are restored: two of the first row and the left one of the second. No two of
/// the four numbers can have changed places. The block right of the first is masked.
#[test]
fn plane_numbers() {
    let units = PlaneUnits {
        w: 8,
        h: 12,
        unit: 4,
        count: 3,
    };
    // The mean of the samples left and right. At the plane's left side 8 stands once more: (8 + 24) / 2 = 16.
    let mut filter = [0; 16];
    filter[1] = 64;
    let old = [8, 24, 8, 24, 8, 24, 8, 24];
    let left = [16, 8, 24, 8, 8, 24, 8, 24];
    let mut plane = [old; 12];
    let mut scratch = [0; 8 * 8];
    let pieces = restore_plane(
        plane.as_flattened_mut(),
        &units,
        &filter,
        &[2, 0, 0],
        &mut scratch,
    );
    assert_eq!(pieces, Ok(4 + 4));
    assert_eq!(plane[..8], [left; 8]);
    assert_eq!(plane[8..], [old; 4]);
}
