//! Writes grey pictures as PNG files. The samples are stored and not compressed, which takes no dependency.

/// A PNG file of `w` by `h` samples, 8 bits each.
pub fn write(w: usize, h: usize, samples: &[u8]) -> Vec<u8> {
    let side = |side: usize| u32::try_from(side).expect("a side of a PNG").to_be_bytes();
    // 8 bits, grey, and the one way each to compress, to filter and to order rows.
    let header = [&side(w)[..], &side(h), &[8, 0, 0, 0, 0]].concat();
    // A byte in front of each row says how it is filtered: not at all.
    let rows: Vec<u8> = samples
        .chunks(w)
        .flat_map(|row| [&[0], row].concat())
        .collect();
    let mut file = b"\x89PNG\r\n\x1a\n".to_vec();
    for (name, data) in [
        (b"IHDR", header),
        (b"IDAT", stored(&rows)),
        (b"IEND", Vec::new()),
    ] {
        file.extend(side(data.len()));
        let named = [&name[..], &data].concat();
        file.extend(&named);
        file.extend(crc32(&named).to_be_bytes());
    }
    file
}

/// A zlib stream of stored blocks. A block has at most 65,535 bytes, and its length twice, the second time inverted.
fn stored(data: &[u8]) -> Vec<u8> {
    let mut stream = vec![0x78, 0x01];
    let mut blocks = data.chunks(65_535).peekable();
    while let Some(block) = blocks.next() {
        let length = block.len() as u16;
        stream.push(u8::from(blocks.peek().is_none())); // 1 says the last
        stream.extend(length.to_le_bytes());
        stream.extend((!length).to_le_bytes());
        stream.extend(block);
    }
    stream.extend(adler32(data).to_be_bytes());
    stream
}

fn crc32(data: &[u8]) -> u32 {
    !data.iter().fold(!0, |crc, &byte| {
        (0..8).fold(crc ^ u32::from(byte), |crc, _| {
            crc >> 1 ^ if crc & 1 == 1 { 0xedb8_8320 } else { 0 }
        })
    })
}

fn adler32(data: &[u8]) -> u32 {
    let (a, b) = data.iter().fold((1, 0), |(a, b), &byte| {
        let a = (a + u32::from(byte)) % 65_521;
        (a, (b + a) % 65_521)
    });
    b << 16 | a
}

#[cfg(test)]
mod tests {
    use super::{adler32, crc32, stored, write};

    /// The known sums of two texts.
    #[test]
    fn sums() {
        assert_eq!(crc32(b"123456789"), 0xcbf4_3926);
        assert_eq!(crc32(b"IEND"), 0xae42_6082);
        assert_eq!(adler32(b"Wikipedia"), 0x11e6_0398);
    }

    #[test]
    fn blocks() {
        let data = vec![7; 65_536];
        let stream = stored(&data);
        assert_eq!(stream[..7], [0x78, 1, 0, 0xff, 0xff, 0, 0]);
        assert_eq!(stream[7 + 65_535..][..6], [1, 1, 0, 0xfe, 0xff, 7]);
        assert_eq!(stream.len(), 2 + 5 + 65_535 + 5 + 1 + 4);
    }

    /// All of a 4 by 1 picture.
    #[test]
    fn file() {
        let file = write(4, 1, &[9, 8, 7, 6]);
        let header = b"\x89PNG\r\n\x1a\n\0\0\0\x0dIHDR\0\0\0\x04\0\0\0\x01\x08\0\0\0\0";
        assert_eq!(file[..29], header[..]);
        assert_eq!(file[33..41], *b"\0\0\0\x10IDAT");
        assert_eq!(file[41..53], [0x78, 1, 1, 5, 0, 0xfa, 0xff, 0, 9, 8, 7, 6]);
        assert_eq!(file[file.len() - 12..], *b"\0\0\0\0IEND\xae\x42\x60\x82");
    }
}
