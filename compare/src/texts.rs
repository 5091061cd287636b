//! The text of a state by a second reading of the paper, and its writing: lines as the paper lists them, and what it refuses.

use std::fmt::Write;

use crate::lines::{Lines, digits, hex};

/// The list for a text is too short.
const SHORT: u8 = 5;
/// The numbers are no state's.
const NO_STATE: u8 = 13;
/// The text is not of this form, or a number is past its field.
const ILL_FORMED: u8 = 17;

/// The bytes that a state has for its rows, whether its text has them or not.
pub(crate) const ROWS: usize = 1080;

/// The operations' letters, that of number 1 first.
const LETTERS: [&str; 4] = ["y", "n", "p", "c"];
/// The number of the chroma operation.
pub(crate) const CHROMA: u64 = 4;

/// A state as its text tells it.
#[derive(Clone, Debug, PartialEq, Eq)]
pub(crate) struct State {
    /// 1 to 4, or any other number of none
    pub op: u64,
    pub w: u64,
    pub h: u64,
    pub edges: u64,
    pub done: u64,
    pub classes: [u8; 16],
    pub indices: [u64; 10],
    pub next: u64,
    pub rows: [u8; ROWS],
    /// of the plane and of luma
    pub strides: [u64; 2],
    /// of the plane, top and bottom, then luma's three
    pub offsets: [u64; 6],
    /// horizontal and vertical subsampling
    pub pair: [u64; 2],
    pub kind: u64,
}

/// The bytes of the ten rows, in the order of the slots.
pub(crate) fn row_lengths(op: u64) -> [usize; 10] {
    std::array::from_fn(|slot| if op == CHROMA && slot >= 5 { 140 } else { 76 })
}

/// The greatest row index, and the greatest next row.
pub(crate) fn slot_limits(op: u64) -> (u64, u64) {
    if op == CHROMA { (4, 4) } else { (9, 8) }
}

impl State {
    /// The state of zeros.
    pub const ZEROS: State = State {
        op: 0,
        w: 0,
        h: 0,
        edges: 0,
        done: 0,
        classes: [0; 16],
        indices: [0; 10],
        next: 0,
        rows: [0; ROWS],
        strides: [0; 2],
        offsets: [0; 6],
        pair: [0; 2],
        kind: 0,
    };

    /// Whether its numbers can be a state's, by the shape alone.
    pub fn is_state(&self) -> bool {
        let (index, next) = slot_limits(self.op);
        self.done <= self.h && self.next <= next && self.indices.iter().all(|&i| i <= index)
    }

    /// The state without the bytes that its text has no place for.
    pub fn carried(mut self) -> State {
        let place = row_lengths(self.op).iter().sum();
        self.rows[place..].fill(0);
        self
    }

    /// The lines of its text, whether its numbers are a state's or not; its operation has to be one.
    pub fn text(&self) -> String {
        let mut text = String::with_capacity(3_000);
        let _ = writeln!(text, "op={}", LETTERS[self.op as usize - 1]);
        for (name, number) in [
            ("w", self.w),
            ("h", self.h),
            ("edges", self.edges),
            ("done", self.done),
        ] {
            list(&mut text, name, &[number]);
        }
        list(&mut text, "classes", &self.classes);
        list(&mut text, "indices", &self.indices);
        list(&mut text, "next", &[self.next]);
        let mut rows = &self.rows[..];
        for len in row_lengths(self.op) {
            let row = rows.split_off(..len).expect("ten rows are within");
            let _ = writeln!(text, "row={}", digits(row));
        }
        list(&mut text, "strides", &self.strides);
        list(&mut text, "offsets", &self.offsets);
        list(&mut text, "pair", &self.pair);
        list(&mut text, "kind", &[self.kind]);
        text
    }

    /// The same line by line.
    pub fn lines(&self) -> Lines {
        let lines = self.text();
        Lines(lines.lines().map(|line| line.as_bytes().to_vec()).collect())
    }

    /// The text that a list of so many bytes takes, or why it is not written.
    pub fn written(&self, size: usize) -> Result<String, u8> {
        if !(1..=CHROMA).contains(&self.op) || !self.is_state() {
            return Err(NO_STATE);
        }
        let text = self.text();
        if text.len() > size {
            return Err(SHORT);
        }
        Ok(text)
    }
}

/// A line of decimals with commas between.
fn list<N: ToString>(text: &mut String, name: &str, numbers: &[N]) {
    let numbers: Vec<String> = numbers.iter().map(N::to_string).collect();
    let _ = writeln!(text, "{name}={}", numbers.join(","));
}

/// A decimal of at most so many, without a leading zero.
fn decimal(text: &[u8], most: u64) -> Option<u64> {
    let leading_zero = text.len() > 1 && text[0] == b'0';
    // 20 digits are less than 128 bits have room for
    if text.is_empty() || text.len() > 20 || leading_zero || !text.iter().all(u8::is_ascii_digit) {
        return None;
    }
    let number = text.iter().fold(0, |n, &b| 10 * n + u128::from(b - b'0'));
    u64::try_from(number).ok().filter(|&n| n <= most)
}

/// So many decimals with commas between.
fn decimals<const N: usize>(text: &[u8], most: u64) -> Option<[u64; N]> {
    let numbers: Option<Vec<u64>> = text
        .split(|&b| b == b',')
        .map(|number| decimal(number, most))
        .collect();
    numbers?.try_into().ok()
}

/// What the lines say, if they are of the form.
fn parsed(text: &[u8]) -> Option<State> {
    let mut lines = text.strip_suffix(b"\n")?.split(|&b| b == b'\n');
    let mut value = |name: &str| lines.next()?.strip_prefix(name.as_bytes());
    let letter = value("op=")?;
    let op = 1 + LETTERS.iter().position(|l| l.as_bytes() == letter)? as u64;
    let [w] = decimals(value("w=")?, u64::MAX)?;
    let [h] = decimals(value("h=")?, u64::MAX)?;
    let [edges] = decimals(value("edges=")?, u64::MAX)?;
    let [done] = decimals(value("done=")?, u64::MAX)?;
    let classes = decimals(value("classes=")?, 255)?.map(|class| class as u8);
    let indices = decimals(value("indices=")?, u64::MAX)?;
    let [next] = decimals(value("next=")?, u64::MAX)?;
    let mut bytes = Vec::with_capacity(ROWS);
    for len in row_lengths(op) {
        let row = hex(value("row=")?, 2 * len)?;
        bytes.extend(row.chunks(2).map(|d| 16 * d[0] + d[1]));
    }
    bytes.resize(ROWS, 0);
    let strides = decimals(value("strides=")?, u64::MAX)?;
    let offsets = decimals(value("offsets=")?, u64::MAX)?;
    let pair = decimals(value("pair=")?, u64::MAX)?;
    let [kind] = decimals(value("kind=")?, u64::MAX)?;
    if lines.next().is_some() {
        return None;
    }
    Some(State {
        op,
        w,
        h,
        edges,
        done,
        classes,
        indices,
        next,
        rows: bytes.try_into().ok()?,
        strides,
        offsets,
        pair,
        kind,
    })
}

/// The state of a text, or the number of its refusal: the form of the whole text comes before the numbers.
pub(crate) fn read(text: &[u8]) -> Result<State, u8> {
    let state = parsed(text).ok_or(ILL_FORMED)?;
    if !state.is_state() {
        return Err(NO_STATE);
    }
    Ok(state)
}
