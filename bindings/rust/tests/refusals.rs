//! Each number of the table of refusals: the least that is accepted, and what is declined beside it. Every call is made as a
//! whole unit, as an opening and as an advance; a declined one must leave the plane and the state as they were. Those of a
//! whole plane are in plane.rs, those of a state's text in texts.rs.

use gihvendu::{
    Borders, Classes, Luma, LumaUnit, Pieces, Refusal, State, Unit, edges, get_class_lut_idx_8bpc,
    ns_wiener_multi_8bpc, ns_wiener_single_uv_8bpc, ns_wiener_single_y_8bpc, pc_wiener_8bpc, raw,
};

/// A unit with the left, right, top and bottom bits whose lists are as short as may be.
#[derive(Clone)]
struct Sample {
    unit: Unit,
    plane: Vec<u8>,
    left: Vec<u8>,
    top: Vec<u8>,
    bottom: Vec<u8>,
    skip: Vec<u16>,
}

const ALL: usize = edges::LEFT | edges::RIGHT | edges::TOP | edges::BOTTOM;

impl Sample {
    /// 8 by 4 samples with borders of `e` columns.
    fn with_border(e: usize) -> Sample {
        let (w, h, stride) = (8, 4, 8 + e);
        Sample {
            unit: Unit {
                w,
                h,
                edges: ALL,
                stride,
                off: 3,
                top_off: e,
                bottom_off: e,
            },
            plane: vec![100; 3 + 3 * stride + w + e],
            left: vec![90; 6 * h],
            top: vec![110; e + stride + w + e],
            bottom: vec![120; e + stride + w + e],
            skip: vec![0; h],
        }
    }

    fn borders(&self) -> Borders<'_> {
        Borders {
            left: &self.left,
            top: &self.top,
            bottom: &self.bottom,
        }
    }

    /// What a whole unit answers; a declined one must not write.
    fn whole(&self, run: impl Fn(&mut [u8]) -> Result<Pieces, Refusal>) -> Result<Pieces, Refusal> {
        let mut plane = self.plane.clone();
        let answer = run(&mut plane);
        assert!(answer.is_ok() || plane == self.plane);
        answer
    }

    /// What an advance of `state` by one row answers; a declined one must change nothing.
    fn advance(
        &self,
        state: &State,
        run: impl Fn(&mut State, &mut [u8]) -> Result<Pieces, Refusal>,
    ) -> Result<Pieces, Refusal> {
        let (mut plane, mut now) = (self.plane.clone(), state.clone());
        let answer = run(&mut now, &mut plane);
        assert!(answer.is_ok() || (plane == self.plane && now == *state));
        answer
    }
}

/// What a whole unit, an opening and an advance of a well formed state answer alike.
fn alike(
    whole: Result<Pieces, Refusal>,
    open: Result<State, Refusal>,
    advance: Result<Pieces, Refusal>,
) -> Result<(), Refusal> {
    let answer = whole.map(|_| ());
    assert_eq!(open.map(|_| ()), answer);
    assert_eq!(advance.map(|_| ()), answer);
    answer
}

/// A state of `sample` and this operation with the numbers that the unit has, good or bad.
fn state_of(sample: &Sample, op: usize, luma: &LumaUnit) -> State {
    let u = &sample.unit;
    State::from(raw::State {
        op,
        given: raw::Given {
            w: u.w,
            h: u.h,
            edges: u.edges,
            stride: u.stride,
            luma_stride: luma.stride,
            off: u.off,
            top_off: u.top_off,
            bottom_off: u.bottom_off,
            luma_off: luma.off,
            luma_top_off: luma.top_off,
            luma_bottom_off: luma.bottom_off,
            ss_hor: luma.ss_hor,
            ss_ver: luma.ss_ver,
            kind: luma.kind,
        },
        ..raw::State::default()
    })
}

fn luma_with(filter: &[i8], change: impl Fn(&mut Sample)) -> Result<(), Refusal> {
    let mut s = Sample::with_border(4);
    change(&mut s);
    let (u, b, skip) = (s.unit, s.borders(), &s.skip);
    alike(
        s.whole(|p| ns_wiener_single_y_8bpc(p, &u, &b, filter, skip)),
        State::open_y(&s.plane, &u, &b, filter, skip),
        s.advance(&state_of(&s, 1, &LumaUnit::default()), |state, p| {
            state.advance_y(1, p, &b, filter, skip)
        }),
    )
}

fn luma(change: impl Fn(&mut Sample)) -> Result<(), Refusal> {
    luma_with(&[1; 16], change)
}

/// A unit with user sets and one with pretrained ones: `sets` sets and `more` numbers.
fn classed(
    sets: usize,
    more: usize,
    (map, subclass, noskip): (&[u8], &[u8], &[u16]),
) -> Result<(), Refusal> {
    let s = Sample::with_border(4);
    let (u, b, skip) = (s.unit, s.borders(), &s.skip);
    let (user, pretrained) = (vec![1i8; 18 * sets + more], vec![1i16; 13 * sets + more]);
    let n = Classes {
        filters: &user[..],
        map,
        subclass,
        noskip,
        base_q: 100,
    };
    let p = Classes {
        filters: &pretrained[..],
        map,
        subclass,
        noskip,
        base_q: 100,
    };
    let by_user = alike(
        s.whole(|plane| ns_wiener_multi_8bpc(plane, &u, &b, &n, skip)),
        State::open_n(&s.plane, &u, &b, &n, skip),
        s.advance(&state_of(&s, 2, &LumaUnit::default()), |state, plane| {
            state.advance_n(1, plane, &b, &n, skip)
        }),
    );
    let by_pretrained = alike(
        s.whole(|plane| pc_wiener_8bpc(plane, &u, &b, &p, skip)),
        State::open_p(&s.plane, &u, &b, &p, skip),
        s.advance(&state_of(&s, 3, &LumaUnit::default()), |state, plane| {
            state.advance_p(1, plane, &b, &p, skip)
        }),
    );
    assert_eq!(by_user, by_pretrained);
    by_user
}

/// A 4:2:0 unit of kind 0: its luma rows are 16 samples and 4 more to each side.
fn chroma_with(
    filter: &[i8],
    change: impl Fn(&mut LumaUnit, &mut [Vec<u8>; 3]),
) -> Result<(), Refusal> {
    let s = Sample::with_border(2);
    let mut l = LumaUnit {
        stride: 20,
        off: 4,
        top_off: 4,
        bottom_off: 4,
        ss_hor: 1,
        ss_ver: 1,
        kind: 0,
    };
    let (eight_rows, two_rows) = (4 + 7 * 20 + 20, 4 + 20 + 20);
    let mut lists = [vec![50; eight_rows], vec![60; two_rows], vec![70; two_rows]];
    change(&mut l, &mut lists);
    let [plane, top, bottom] = &lists;
    let luma = Luma { plane, top, bottom };
    let (u, b, skip) = (s.unit, s.borders(), &s.skip);
    alike(
        s.whole(|p| ns_wiener_single_uv_8bpc(p, &u, &b, filter, &l, &luma, skip)),
        State::open_c(&s.plane, &u, &b, filter, &l, &luma, skip),
        s.advance(&state_of(&s, 4, &l), |state, p| {
            state.advance_c(1, p, &b, filter, &luma, skip)
        }),
    )
}

fn chroma(change: impl Fn(&mut LumaUnit, &mut [Vec<u8>; 3])) -> Result<(), Refusal> {
    chroma_with(&[1; 18], change)
}

fn shorten<T>(list: &mut Vec<T>) {
    list.truncate(list.len() - 1);
}

const MAP: &[u8] = &[1; 4096];

#[test]
fn nothing_is_declined_at_the_least() {
    assert_eq!(luma(|_| {}), Ok(()));
    assert_eq!(classed(2, 0, (MAP, &[0, 1], &[0])), Ok(()));
    assert_eq!(chroma(|_, _| {}), Ok(()));
}

#[test]
fn width_1() {
    for w in [0, 1, 6, 68, usize::MAX] {
        assert_eq!(luma(|s| s.unit.w = w), Err(Refusal::Width));
    }
    assert_eq!(luma(|s| s.unit.w = 4), Ok(()));
}

#[test]
fn height_2() {
    for h in [0, 3, 68, usize::MAX - 3] {
        assert_eq!(luma(|s| s.unit.h = h), Err(Refusal::Height));
    }
}

#[test]
fn stride_3() {
    assert_eq!(luma(|s| s.unit.stride -= 1), Err(Refusal::Stride));
    assert_eq!(luma(|s| s.unit.stride = 65_537), Err(Refusal::Stride));
    assert_eq!(luma(|s| s.unit.stride = 65_536), Err(Refusal::Plane));
    let no_right = |s: &mut Sample| (s.unit.edges, s.unit.stride) = (0, 8);
    assert_eq!(luma(no_right), Ok(()));
    assert_eq!(chroma(|l, _| l.stride = 65_537), Err(Refusal::Stride));
    assert_eq!(chroma(|l, _| l.stride = 0), Ok(()));
}

#[test]
fn subsampling_4() {
    for (ss_hor, ss_ver, kind) in [(0, 1, 0), (2, 0, 0), (1, 2, 0), (1, 1, 3), (0, 0, 3)] {
        let changed = chroma(|l, _| (l.ss_hor, l.ss_ver, l.kind) = (ss_hor, ss_ver, kind));
        assert_eq!(changed, Err(Refusal::Subsampling));
    }
}

#[test]
fn plane_5() {
    assert_eq!(luma(|s| s.unit.off += 1), Err(Refusal::Plane));
    assert_eq!(luma(|s| s.unit.off = usize::MAX), Err(Refusal::Plane));
    assert_eq!(luma(|s| shorten(&mut s.plane)), Err(Refusal::Plane));
    let with_bottom = |s: &mut Sample| s.unit.edges |= edges::BOTTOM_INTEGRATED;
    assert_eq!(luma(with_bottom), Err(Refusal::Plane));
}

#[test]
fn left_6() {
    assert_eq!(luma(|s| shorten(&mut s.left)), Err(Refusal::Left));
    let no_left = |s: &mut Sample| (s.left, s.unit.edges) = (Vec::new(), ALL - edges::LEFT);
    assert_eq!(luma(no_left), Ok(()));
}

#[test]
fn top_7() {
    assert_eq!(luma(|s| shorten(&mut s.top)), Err(Refusal::Top));
    assert_eq!(luma(|s| s.unit.top_off -= 1), Err(Refusal::Top));
    assert_eq!(luma(|s| s.unit.top_off += 1), Err(Refusal::Top));
    assert_eq!(luma(|s| s.unit.top_off = usize::MAX), Err(Refusal::Top));
    let no_top = |s: &mut Sample| (s.top, s.unit.edges) = (Vec::new(), ALL - edges::TOP);
    assert_eq!(luma(no_top), Ok(()));
}

#[test]
fn bottom_8() {
    assert_eq!(luma(|s| shorten(&mut s.bottom)), Err(Refusal::Bottom));
    assert_eq!(luma(|s| s.unit.bottom_off -= 1), Err(Refusal::Bottom));
    assert_eq!(luma(|s| s.unit.bottom_off += 1), Err(Refusal::Bottom));
    let no_bottom = |s: &mut Sample| (s.bottom, s.unit.edges) = (Vec::new(), ALL - edges::BOTTOM);
    assert_eq!(luma(no_bottom), Ok(()));
}

#[test]
fn masks_9() {
    assert_eq!(luma(|s| shorten(&mut s.skip)), Err(Refusal::Masks));
    assert_eq!(classed(2, 0, (MAP, &[0, 1], &[])), Err(Refusal::Masks));
}

#[test]
fn filters_10() {
    for n in [0, 15, 17] {
        assert_eq!(luma_with(&vec![0; n], |_| {}), Err(Refusal::Filters));
    }
    assert_eq!(chroma_with(&[0; 17], |_, _| {}), Err(Refusal::Filters));
    assert_eq!(chroma_with(&[0; 19], |_, _| {}), Err(Refusal::Filters));
    // the map's length, an entry past the subclass list, a subclass past the sets, no whole sets
    let short_map = &MAP[1..];
    for (sets, more, map, subclass) in [
        (2, 0, short_map, &[0, 1][..]),
        (2, 0, MAP, &[0]),
        (2, 0, MAP, &[2, 0]),
        (2, 1, MAP, &[0, 1]),
    ] {
        assert_eq!(
            classed(sets, more, (map, subclass, &[0])),
            Err(Refusal::Filters)
        );
    }
}

#[test]
fn luma_11() {
    for list in 0..3 {
        let shorter = chroma(|_, lists| shorten(&mut lists[list]));
        assert_eq!(shorter, Err(Refusal::Luma));
    }
    assert_eq!(chroma(|l, _| l.off -= 1), Err(Refusal::Luma));
    assert_eq!(chroma(|l, _| l.top_off -= 1), Err(Refusal::Luma));
    assert_eq!(chroma(|l, _| l.bottom_off = usize::MAX), Err(Refusal::Luma));
}

#[test]
fn block_12() {
    let (rows, indices, noskip) = ([0; 760], [9; 10], [0; 16]);
    let index = |bx, by, bh| get_class_lut_idx_8bpc(&rows, &indices, &noskip, 0, bx, by, bh);
    assert!(index(15, 15, 16).is_ok());
    for (bx, by, bh) in [(16, 0, 1), (0, 0, 0), (0, 0, 17), (0, 3, 3)] {
        assert_eq!(index(bx, by, bh), Err(Refusal::Block));
    }
}

#[test]
fn class_index_5_and_9() {
    let noskip = [0; 16];
    let index = |rows: &[u8], indices: &[usize; 10], noskip: &[u16]| {
        get_class_lut_idx_8bpc(rows, indices, noskip, 0, 0, 0, 16)
    };
    assert_eq!(
        index(&[0; 759], &[0; 10], &noskip[1..]),
        Err(Refusal::Plane)
    );
    let mut indices = [9; 10];
    indices[9] = 10;
    assert_eq!(index(&[0; 760], &indices, &noskip), Err(Refusal::Plane));
    assert_eq!(
        index(&[0; 760], &[9; 10], &noskip[1..]),
        Err(Refusal::Masks)
    );
}

#[test]
fn state_13() {
    let s = Sample::with_border(4);
    let (b, none) = (s.borders(), LumaUnit::default());
    let advance = |state: raw::State| {
        s.advance(&State::from(state), |state, p| {
            state.advance_y(1, p, &b, &[1; 16], &s.skip)
        })
    };
    let good = || raw::State::from(state_of(&s, 1, &none));
    assert!(advance(good()).is_ok());
    assert_eq!(advance(raw::State::default()), Err(Refusal::State));
    for op in [2, 3, 4, 5] {
        assert_eq!(advance(raw::State { op, ..good() }), Err(Refusal::State));
    }
    assert_eq!(
        advance(raw::State { done: 5, ..good() }),
        Err(Refusal::State)
    );
    assert_eq!(
        advance(raw::State { next: 9, ..good() }),
        Err(Refusal::State)
    );
    let mut indices = [9; 10];
    assert!(advance(raw::State { indices, ..good() }).is_ok());
    indices[3] = 10;
    assert_eq!(
        advance(raw::State { indices, ..good() }),
        Err(Refusal::State)
    );
}

#[test]
fn kept_class_13() {
    let s = Sample::with_border(4);
    let b = s.borders();
    let classes = Classes {
        filters: &[1i8; 36],
        map: MAP,
        subclass: &[0, 1],
        noskip: &[0],
        base_q: 0,
    };
    let advance = |class: u8| {
        let mut state = raw::State::from(state_of(&s, 2, &LumaUnit::default()));
        state.classes[15] = class;
        s.advance(&State::from(state), |state, p| {
            state.advance_n(1, p, &b, &classes, &s.skip)
        })
    };
    assert!(advance(1).is_ok());
    assert_eq!(advance(2), Err(Refusal::State));
}

#[test]
fn lowest_number_first() {
    let all_wrong = |s: &mut Sample| {
        (s.unit.w, s.unit.h, s.unit.stride) = (5, 5, 0);
        s.plane.clear();
        s.skip.clear();
    };
    assert_eq!(luma_with(&[], all_wrong), Err(Refusal::Width));
    // 13 precedes all in an advance.
    let mut s = Sample::with_border(4);
    all_wrong(&mut s);
    let state = state_of(&s, 0, &LumaUnit::default());
    let answer = s.advance(&state, |state, p| {
        state.advance_y(1, p, &s.borders(), &[], &[])
    });
    assert_eq!(answer, Err(Refusal::State));
}

/// All of the table but 14, which is the card's.
const NUMBERS: [u8; 16] = [1, 2, 3, 4, 5, 6, 7, 8, 9, 10, 11, 12, 13, 15, 16, 17];

#[test]
fn numbers_and_words() {
    assert_eq!(Refusal::ALL.map(Refusal::number), NUMBERS);
    for refusal in Refusal::ALL {
        let number = format!("({})", refusal.number());
        assert!(refusal.to_string().ends_with(&number));
    }
}

/// Every status is a refusal of its own number or none.
#[test]
fn statuses() {
    for status in 0..=255 {
        let number = Refusal::from_status(status).map(Refusal::number);
        assert_eq!(number, NUMBERS.contains(&status).then_some(status));
    }
}
