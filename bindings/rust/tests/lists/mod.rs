//! A unit of 8 by 8 samples and the lists that each operation is lent for it.

use gihvendu::{Borders, Classes, Lent, Luma, LumaUnit, Operation, Unit, edges};

/// 8 by 8 samples with borders on all sides.
pub const UNIT: Unit = Unit {
    w: 8,
    h: 8,
    edges: edges::LEFT | edges::RIGHT | edges::TOP | edges::BOTTOM,
    stride: 16,
    off: 2,
    top_off: 4,
    bottom_off: 5,
};
/// 4:2:0, the mean of two rows.
pub const LUMA_UNIT: LumaUnit = LumaUnit {
    stride: 24,
    off: 4,
    top_off: 5,
    bottom_off: 6,
    ss_hor: 1,
    ss_ver: 1,
    kind: 1,
};
/// The second of four blocks is masked.
pub const SKIP: [u16; 8] = [2, 0, 0, 0, 0, 0, 0, 0];

fn bytes(n: usize, seed: usize) -> Vec<u8> {
    let sample = |i: usize| 90 + (i * i + seed * i) % 61;
    (0..n).map(|i| sample(i) as u8).collect()
}

fn taps(n: usize) -> Vec<i8> {
    (0..n).map(|i| (i * 5 % 13) as i8 - 6).collect()
}

/// All that is lent but the plane.
pub struct Lists {
    left: Vec<u8>,
    top: Vec<u8>,
    bottom: Vec<u8>,
    pub user: Vec<i8>,
    pub pretrained: Vec<i16>,
    map: Vec<u8>,
    subclass: Vec<u8>,
    luma_plane: Vec<u8>,
    luma_top: Vec<u8>,
    luma_bottom: Vec<u8>,
}

pub fn plane() -> Vec<u8> {
    bytes(2 + 8 * 16, 3)
}

impl Lists {
    pub fn new() -> Lists {
        // The last of the 13 numbers of a pretrained set is the centre's.
        let pretrained = taps(3 * 13).into_iter().enumerate();
        let pretrained = pretrained.map(|(i, c)| if i % 13 == 12 { 120 } else { c.into() });
        Lists {
            left: bytes(6 * 8, 5),
            top: bytes(50, 7),
            bottom: bytes(50, 11),
            user: taps(3 * 18),
            pretrained: pretrained.collect(),
            map: (0..4096).map(|i| ((i * 37 + i / 64) % 64) as u8).collect(),
            subclass: (0..64).map(|i| i % 3).collect(),
            luma_plane: bytes(400, 13),
            luma_top: bytes(60, 17),
            luma_bottom: bytes(60, 19),
        }
    }

    pub fn borders(&self) -> Borders<'_> {
        Borders {
            left: &self.left,
            top: &self.top,
            bottom: &self.bottom,
        }
    }

    pub fn classes<'a, F>(&'a self, filters: &'a [F]) -> Classes<'a, F> {
        Classes {
            filters,
            map: &self.map,
            subclass: &self.subclass,
            noskip: &[1, 2],
            base_q: 300,
        }
    }

    pub fn luma(&self) -> Luma<'_> {
        Luma {
            plane: &self.luma_plane,
            top: &self.luma_top,
            bottom: &self.luma_bottom,
        }
    }

    /// What an operation alone is lent.
    pub fn lent(&self, operation: Operation) -> Lent<'_> {
        match operation {
            Operation::Luma => Lent::Luma {
                filter: &self.user[..16],
            },
            Operation::User => Lent::User {
                classes: self.classes(&self.user),
            },
            Operation::Pretrained => Lent::Pretrained {
                classes: self.classes(&self.pretrained),
            },
            Operation::Chroma => Lent::Chroma {
                filter: &self.user[..18],
                luma_unit: LUMA_UNIT,
                luma: self.luma(),
            },
        }
    }
}
