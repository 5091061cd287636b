//! Binary PGM files (P5) of pictures that the library restores.

use gihvendu::PlaneUnits;

/// A grey picture: rows of `w` samples without gaps.
#[derive(Clone, Debug, PartialEq, Eq)]
pub struct Picture {
    pub w: usize,
    pub h: usize,
    pub samples: Vec<u8>,
}

/// The first picture of a file, or what is wrong with it. More bytes may follow: the format allows further pictures.
pub fn read(file: &[u8]) -> Result<Picture, String> {
    let mut rest = file
        .strip_prefix(b"P5")
        .ok_or("it is no binary PGM, which begins with P5")?;
    let w = number(&mut rest, "width")?;
    let h = number(&mut rest, "height")?;
    let maxval = number(&mut rest, "maxval")?;
    // One byte of white space and no more: the next is a sample, whatever it looks like.
    let [space, samples @ ..] = rest else {
        return Err("it ends behind its maxval".into());
    };
    if !is_space(*space) {
        return Err("no white space stands behind its maxval".into());
    }
    if maxval != 255 {
        return Err(format!("its maxval is {maxval}, and not 255"));
    }
    let limit = PlaneUnits::SIDE_LIMIT;
    for (name, side) in [("width", w), ("height", h)] {
        if !side.is_multiple_of(4) || !(4..=limit).contains(&side) {
            return Err(format!(
                "its {name} is {side}, and not a multiple of 4 from 4 to {limit}"
            ));
        }
    }
    let Some(own) = samples.get(..w * h) else {
        return Err(format!(
            "it has {} samples, and {w} by {h} are {}",
            samples.len(),
            w * h
        ));
    };
    Ok(Picture {
        w,
        h,
        samples: own.to_vec(),
    })
}

/// A file with this one picture.
pub fn write(picture: &Picture) -> Vec<u8> {
    let header = format!("P5\n{} {}\n255\n", picture.w, picture.h);
    [header.as_bytes(), &picture.samples].concat()
}

/// Takes the next number of the header off, and what stands before it: white space and comments, of which there must be some.
fn number(rest: &mut &[u8], name: &str) -> Result<usize, String> {
    let behind = behind_space(rest);
    let digits = behind.iter().take_while(|b| b.is_ascii_digit()).count();
    if digits == 0 || behind.len() == rest.len() {
        return Err(format!("its header has no {name}"));
    }
    let (number, after) = behind.split_at(digits);
    *rest = after;
    let number = String::from_utf8_lossy(number);
    let too_large = |_| format!("its {name} is {number}, which is too large");
    number.parse().map_err(too_large)
}

/// What stands behind white space and comments. A comment goes from # to the end of its line.
fn behind_space(mut rest: &[u8]) -> &[u8] {
    let mut comment = false;
    while let [byte, behind @ ..] = rest {
        comment = (comment || *byte == b'#') && !matches!(byte, b'\n' | b'\r');
        if !comment && !is_space(*byte) {
            break;
        }
        rest = behind;
    }
    rest
}

/// Blank, tabulators, line ends and the form feed, as C has them.
fn is_space(byte: u8) -> bool {
    matches!(byte, b' ' | b'\t'..=b'\r')
}

#[cfg(test)]
mod tests {
    use super::{Picture, read, write};

    /// A file of this header and 32 samples, the first of which look like white space, a comment and a number.
    fn file(header: &str) -> Vec<u8> {
        [header.as_bytes(), b"\n #7", &[200; 28]].concat()
    }

    fn eight_by_four() -> Picture {
        Picture {
            w: 8,
            h: 4,
            samples: file(""),
        }
    }

    #[test]
    fn headers() {
        for header in [
            "P5\n8 4\n255\n",
            "P5 8 4 255 ",
            "P5\t8\r\n4\x0b\x0c255\t",
            "P5\n# made by hand\n8 4\n# 9 9\n255\n",
            "P5# 1\n  ##\r#\n8#2\n4 # three # four\n\n255\n",
            "P5 008 04 0255\n",
        ] {
            assert_eq!(read(&file(header)), Ok(eight_by_four()), "{header:?}");
        }
    }

    #[test]
    fn bytes_behind() {
        let two = [file("P5 8 4 255\n"), file("P5 8 4 255\n")].concat();
        assert_eq!(read(&two), Ok(eight_by_four()));
    }

    #[test]
    fn written_and_read() {
        assert_eq!(read(&write(&eight_by_four())), Ok(eight_by_four()));
    }

    /// What is wrong is told by a word or number of its own.
    #[test]
    fn refused() {
        for (header, told) in [
            ("", "P5"),
            ("P2 8 4 255\n", "P5"),
            ("P6 8 4 255\n", "P5"),
            ("P58 4 255\n", "no width"),
            ("P5 -8 4 255\n", "no width"),
            ("P5 8", "no height"),
            ("P5 8 x4 255\n", "no height"),
            ("P5 8 4 # 255", "no maxval"),
            ("P5 8 4 255x", "no white space"),
            ("P5 8 4 254\n", "maxval is 254"),
            ("P5 8 4 65535\n", "maxval is 65535"),
            ("P5 0 4 255\n", "width is 0"),
            ("P5 6 4 255\n", "width is 6"),
            ("P5 1028 4 255\n", "width is 1028"),
            ("P5 8 2 255\n", "height is 2"),
            ("P5 8 1025 255\n", "height is 1025"),
            (
                "P5 99999999999999999999 4 255\n",
                "width is 99999999999999999999",
            ),
            (
                "P5 18446744073709551612 18446744073709551612 255\n",
                "width is 18446744073709551612",
            ),
            ("P5 12 4 255\n", "32 samples"),
        ] {
            let what = read(&file(header)).unwrap_err();
            assert!(what.contains(told), "{header:?}: {what}");
        }
        let mut short = write(&eight_by_four());
        short.pop();
        assert!(read(&short).unwrap_err().contains("31 samples"));
        assert!(read(b"P5 8 4 255").unwrap_err().contains("ends"));
    }

    #[test]
    fn largest() {
        let largest = Picture {
            w: 1024,
            h: 1024,
            samples: vec![3; 1024 * 1024],
        };
        assert_eq!(read(&write(&largest)), Ok(largest));
    }
}
