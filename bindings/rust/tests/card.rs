//! The card of docs/SCOPE.md, whole and in every list of advances.

use gihvendu::{Borders, State, Unit, ns_wiener_single_y_8bpc};

const BEFORE: [[u8; 4]; 4] = [[10; 4], [20; 4], [40; 4], [80; 4]];
const AFTER: [[u8; 4]; 4] = [[0x0f; 4], [0x19; 4], [0x32; 4], [0x3c; 4]];
const FILTER: [i8; 16] = [64, 0, 0, 0, 0, 0, 0, 0, 0, 0, 0, 0, 0, 0, 0, 0];
const UNIT: Unit = Unit {
    w: 4,
    h: 4,
    edges: 0,
    stride: 4,
    off: 0,
    top_off: 0,
    bottom_off: 0,
};

#[test]
fn whole() {
    let mut plane = BEFORE;
    let pieces = ns_wiener_single_y_8bpc(
        plane.as_flattened_mut(),
        &UNIT,
        &Borders::default(),
        &FILTER,
        &[0; 4],
    );
    assert_eq!((pieces, plane), (Ok(4), AFTER));
}

/// Three advances by 0 to 5 rows each, in all ways, and finished rows written over between them.
#[test]
fn in_advances() {
    for list in 0..6 * 6 * 6 {
        let counts = [list % 6, list / 6 % 6, list / 36];
        let mut plane = BEFORE;
        let mut state = State::open_y(
            plane.as_flattened(),
            &UNIT,
            &Borders::default(),
            &FILTER,
            &[0; 4],
        )
        .unwrap();
        let mut expected = BEFORE;
        for count in counts {
            let from = state.rows_done();
            let pieces = state
                .advance_y(
                    count,
                    plane.as_flattened_mut(),
                    &Borders::default(),
                    &FILTER,
                    &[0; 4],
                )
                .unwrap();
            let done = state.rows_done();
            assert_eq!((done, pieces), ((from + count).min(4), done - from));
            assert_eq!(state.finished(), done == 4);
            expected[from..done].copy_from_slice(&AFTER[from..done]);
            assert_eq!(plane, expected);
            plane[..done].fill([255; 4]);
            expected[..done].fill([255; 4]);
        }
    }
}
