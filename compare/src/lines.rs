//! Lines that end with byte 10, and what else can be made of them: the cards and the texts of states have this form.

use crate::random::Random;

/// The values of so many hex digits, in lower case.
pub(crate) fn hex(text: &[u8], digits: usize) -> Option<Vec<u8>> {
    if text.len() != digits {
        return None;
    }
    text.iter()
        .map(|b| match b {
            b'0'..=b'9' => Some(b - b'0'),
            b'a'..=b'f' => Some(b - b'a' + 10),
            _ => None,
        })
        .collect()
}

pub(crate) fn digits(bytes: &[u8]) -> String {
    let digit = |d: u8| char::from(b"0123456789abcdef"[usize::from(d)]);
    bytes
        .iter()
        .flat_map(|b| [digit(b >> 4), digit(b & 15)])
        .collect()
}

/// Lines without their byte 10.
#[derive(Clone)]
pub(crate) struct Lines(pub Vec<Vec<u8>>);

impl Lines {
    /// The lines with another end.
    pub fn ended(&self, end: &[u8]) -> Vec<u8> {
        self.0.iter().flat_map(|l| [l, end].concat()).collect()
    }

    pub fn bytes(&self) -> Vec<u8> {
        self.ended(b"\n")
    }

    /// The bytes with another line in place of one.
    pub fn with(&self, at: usize, line: impl AsRef<[u8]>) -> Vec<u8> {
        let mut lines = self.clone();
        lines.0[at] = line.as_ref().to_vec();
        lines.bytes()
    }

    pub fn text(&self, at: usize) -> String {
        String::from_utf8_lossy(&self.0[at]).into_owned()
    }
}

/// A list with something else in place of its first comma.
pub(crate) fn first_comma(list: &str) -> [String; 5] {
    ["", ",,", ", ", ";", " "].map(|other| list.replacen(',', other, 1))
}

/// Lines left out, doubled, joined or in another order, and other line ends.
pub(crate) fn other_order(out: &mut Vec<Vec<u8>>, lines: &Lines) {
    let n = lines.0.len();
    for at in 0..n {
        let mut less = lines.clone();
        less.0.remove(at);
        out.push(less.bytes());
        let mut more = lines.clone();
        more.0.insert(at, lines.0[at].clone());
        out.push(more.bytes());
        let mut empty = lines.clone();
        empty.0.insert(at, Vec::new());
        out.push(empty.bytes());
        if at + 1 < n {
            let mut other = lines.clone();
            other.0.swap(at, at + 1);
            out.push(other.bytes());
            let mut joined = less.clone();
            joined.0[at] = [&lines.0[at][..], &lines.0[at + 1][..]].concat();
            out.push(joined.bytes());
        }
        out.push(lines.with(at, [&lines.0[at][..], b"\r"].concat()));
    }
    for end in [
        &b"\r\n"[..],
        b"\r",
        b"\n\n",
        b" \n",
        b"\n ",
        b"\n\r",
        b"\0",
        b"",
    ] {
        out.push(lines.ended(end));
    }
    let mut other = lines.clone();
    other.0.reverse();
    out.push(other.bytes());
}

/// Bytes after the end, before the start, changed, left out or put in.
pub(crate) fn other_bytes(r: &mut Random, out: &mut Vec<Vec<u8>>, text: &[u8]) {
    for byte in [0, 10, 13, 32, b'0', b'r', 255] {
        out.push([text, &[byte]].concat());
        out.push([&[byte], text].concat());
    }
    out.push([text, text].concat());
    out.push([text, b"row=00000000\n"].concat());
    out.push([b"\xef\xbb\xbf", text].concat());
    for _ in 0..40 {
        let mut other = text.to_vec();
        let at = r.below(text.len());
        // half of the new bytes are such as the text has
        other[at] = if r.once_in(2) {
            r.next() as u8
        } else {
            text[r.below(text.len())]
        };
        out.push(other);
    }
    for _ in 0..12 {
        let mut other = text.to_vec();
        other.remove(r.below(text.len()));
        out.push(other);
        let mut other = text.to_vec();
        let byte = text[r.below(text.len())];
        other.insert(r.below(text.len() + 1), byte);
        out.push(other);
    }
}
