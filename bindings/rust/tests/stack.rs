//! Every operation on a 64 by 64 unit, whole, and opened, advanced and put away, and a whole plane of 1,024 by 1,024, on a
//! thread whose whole stack is 64 KiB.

use gihvendu::{
    Borders, Classes, Lent, Luma, LumaUnit, PlaneUnits, State, Unit, get_class_lut_idx_8bpc,
    ns_wiener_multi_8bpc, ns_wiener_single_uv_8bpc, ns_wiener_single_y_8bpc, pc_wiener_8bpc,
    restore_plane,
};

const UNIT: Unit = Unit {
    w: 64,
    h: 64,
    edges: 0,
    stride: 64,
    off: 0,
    top_off: 0,
    bottom_off: 0,
};
const PIECES: usize = 64 * 16;

#[test]
fn in_64_kib() {
    let run = || {
        let (mut plane, luma) = (vec![7; 64 * 64], vec![9; 128 * 128]);
        let (skip, noskip, map, subclass) = ([0; 64], [0; 16], vec![0; 4096], [0]);
        let borders = Borders::default();
        let user = Classes {
            filters: &[1i8; 18][..],
            map: &map,
            subclass: &subclass,
            noskip: &noskip,
            base_q: 100,
        };
        let pretrained = Classes {
            filters: &[1i16; 13][..],
            map: &map,
            subclass: &subclass,
            noskip: &noskip,
            base_q: 100,
        };
        let luma_unit = LumaUnit {
            stride: 128,
            off: 0,
            top_off: 0,
            bottom_off: 0,
            ss_hor: 1,
            ss_ver: 1,
            kind: 0,
        };
        let luma = Luma {
            plane: &luma,
            ..Luma::default()
        };
        let all = [
            ns_wiener_single_y_8bpc(&mut plane, &UNIT, &borders, &[1; 16], &skip),
            ns_wiener_multi_8bpc(&mut plane, &UNIT, &borders, &user, &skip),
            pc_wiener_8bpc(&mut plane, &UNIT, &borders, &pretrained, &skip),
            ns_wiener_single_uv_8bpc(
                &mut plane, &UNIT, &borders, &[1; 18], &luma_unit, &luma, &skip,
            ),
        ];
        assert_eq!(all, [Ok(PIECES); 4]);
        let filter = &[1; 18];
        for lent in [
            Lent::Luma {
                filter: &filter[..16],
            },
            Lent::User { classes: user },
            Lent::Pretrained {
                classes: pretrained,
            },
            Lent::Chroma {
                filter,
                luma_unit,
                luma,
            },
        ] {
            let mut state = State::open(&plane, &UNIT, &borders, &lent, &skip).unwrap();
            let pieces = state.advance(64, &mut plane, &borders, &lent, &skip);
            assert_eq!((pieces, state.finished()), (Ok(PIECES), true));
            let text = state.to_text().unwrap();
            assert_eq!(State::from_text(text.as_bytes()), Ok(state));
        }
        let index = get_class_lut_idx_8bpc(&[0; 760], &[0; 10], &noskip, 0, 3, 2, 16);
        assert!(index.is_ok());
        let units = PlaneUnits::all(1024, 1024);
        let mut plane = vec![7; 1024 * 1024];
        let (skip, mut scratch) = (vec![0; units.skip_len()], vec![0; units.scratch_len()]);
        let pieces = restore_plane(&mut plane, &units, &[1; 16], &skip, &mut scratch);
        assert_eq!(pieces, Ok(1024 * 256));
    };
    let thread = std::thread::Builder::new().stack_size(64 * 1024).spawn(run);
    thread.expect("a thread").join().expect("it ends");
}
