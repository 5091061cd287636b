//! A picture to try: shapes without noise, and the same with noise. All of it is whole numbers, so it is the same everywhere.

use crate::pgm::Picture;

const W: i32 = 160;
const H: i32 = 120;

/// A slope from left to right; on it a disc with a hard edge, a dome that rises slowly, and bars that get narrower.
fn shape(x: i32, y: i32) -> i32 {
    let slope = 60 + x / 2;
    let square = |from_x: i32| (x - from_x).pow(2) + (y - 42).pow(2);
    let disc = if square(42) <= 28 * 28 { 70 } else { 0 };
    let dome = (32 * 32 - square(116)).max(0) * 110 / (32 * 32);
    let bars = if (12..148).contains(&x) && (84..108).contains(&y) {
        let width = [8, 8, 6, 6, 4][((x - 12) * 5 / 136) as usize];
        if x / width % 2 == 0 { 24 } else { -24 }
    } else {
        0
    };
    slope + disc + dome + bars
}

fn picture(mut sample: impl FnMut(i32, i32) -> i32) -> Picture {
    let places = (0..H).flat_map(|y| (0..W).map(move |x| (x, y)));
    Picture {
        w: W as usize,
        h: H as usize,
        samples: places
            .map(|(x, y)| sample(x, y).clamp(0, 255) as u8)
            .collect(),
    }
}

pub fn without_noise() -> Picture {
    picture(shape)
}

/// Each sample moved by the sum of three numbers from -7 to 8, less 1: some 8 grey levels, seldom more than 16.
pub fn with_noise() -> Picture {
    let mut state: u64 = 1;
    let mut number = move || {
        state = state
            .wrapping_mul(6_364_136_223_846_793_005)
            .wrapping_add(1_442_695_040_888_963_407);
        (state >> 60) as i32 - 7
    };
    picture(|x, y| shape(x, y) + number() + number() + number() - 1)
}

#[cfg(test)]
mod tests {
    use super::{with_noise, without_noise};

    /// Samples of each shape, worked out by hand: the slope, the disc's centre, the dome's, a bar of 8 and the one behind it.
    #[test]
    fn shapes() {
        let p = without_noise();
        let at = |x: usize, y: usize| p.samples[y * p.w + x];
        assert_eq!((at(0, 0), at(159, 119)), (60, 139));
        assert_eq!((at(42, 42), at(42, 14), at(42, 13)), (151, 151, 81));
        assert_eq!((at(116, 42), at(116, 10)), (228, 118));
        assert_eq!((at(16, 84), at(24, 84)), (92, 48));
    }

    /// No sample is cut off at 0 or 255, so the noise is what it is said to be.
    #[test]
    fn noise() {
        let (shapes, noisy) = (without_noise(), with_noise());
        let pairs = shapes.samples.iter().zip(&noisy.samples);
        let moved: Vec<i32> = pairs.map(|(&a, &b)| i32::from(b) - i32::from(a)).collect();
        assert!(moved.iter().all(|n| (-22..=23).contains(n)));
        let beyond = moved.iter().filter(|n| n.abs() > 16).count();
        assert!(beyond * 20 < moved.len(), "{beyond}");
    }
}
