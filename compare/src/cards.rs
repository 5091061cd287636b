//! A corpus of cards, whole and damaged, and the answer expected of each. Samples are the Rust's; statuses are those of the
//! reader below, written from the scope alone.

use std::path::Path;

use crate::corpus;
use crate::exec_context::ExecContext;
use crate::lines::{Lines, digits, first_comma, hex, other_bytes, other_order};
use crate::looprestoration::ns_wiener_single_y_8bpc;
use crate::random::Random;

/// A line that is not of its form, and missing or further bytes.
const ILL_FORMED: u8 = 14;

/// What a whole card says.
struct Card {
    w: usize,
    h: usize,
    filter: [i8; 16],
    /// one for each block row
    skip: Vec<u16>,
    /// the rows, one after another
    samples: Vec<u8>,
}

/// The next line without its byte 10.
fn line<'a>(rest: &mut &'a [u8]) -> Result<&'a [u8], u8> {
    let end = rest.iter().position(|&b| b == 10).ok_or(ILL_FORMED)?;
    let line = &rest[..end];
    *rest = &rest[end + 1..];
    Ok(line)
}

/// What follows the name and the sign = on the next line.
fn value<'a>(rest: &mut &'a [u8], name: &str) -> Result<&'a [u8], u8> {
    line(rest)?
        .strip_prefix(format!("{name}=").as_bytes())
        .ok_or(ILL_FORMED)
}

/// One to three digits with no leading zero.
fn decimal(text: &[u8]) -> Result<usize, u8> {
    let digits = text.iter().all(u8::is_ascii_digit);
    let leading_zero = text.len() > 1 && text[0] == b'0';
    if text.is_empty() || text.len() > 3 || !digits || leading_zero {
        return Err(ILL_FORMED);
    }
    Ok(text.iter().fold(0, |n, &b| 10 * n + usize::from(b - b'0')))
}

/// A decimal, or a decimal other than 0 with a minus, in -128..127.
fn filter_number(text: &[u8]) -> Result<i8, u8> {
    let n = match text.strip_prefix(b"-") {
        None => decimal(text)? as i32,
        Some(digits) => match decimal(digits)? {
            0 => return Err(ILL_FORMED),
            n => -(n as i32),
        },
    };
    i8::try_from(n).map_err(|_| ILL_FORMED)
}

/// Whether a width or a height is within its limit.
fn side(n: usize) -> bool {
    n.is_multiple_of(4) && (4..=64).contains(&n)
}

/// Reads a card top down, to the card or the status that ends the reading.
fn read(card: &[u8]) -> Result<Card, u8> {
    let mut rest = card;
    if line(&mut rest)? != b"op=y" {
        return Err(ILL_FORMED);
    }
    let w = decimal(value(&mut rest, "w")?)?;
    if !side(w) {
        return Err(1);
    }
    let h = decimal(value(&mut rest, "h")?)?;
    if !side(h) {
        return Err(2);
    }
    if line(&mut rest)? != b"edges=0" {
        return Err(ILL_FORMED);
    }
    let numbers = value(&mut rest, "filter")?
        .split(|&b| b == b',')
        .map(filter_number)
        .collect::<Result<Vec<i8>, u8>>()?;
    let filter = numbers.try_into().map_err(|_| ILL_FORMED)?;
    let skip = value(&mut rest, "skip")?
        .split(|&b| b == b',')
        .map(|group| {
            let digits = hex(group, 4).ok_or(ILL_FORMED)?;
            Ok(digits.iter().fold(0, |n, &d| 16 * n + u16::from(d)))
        })
        .collect::<Result<Vec<u16>, u8>>()?;
    if skip.len() != h / 4 {
        return Err(ILL_FORMED);
    }
    let mut samples = Vec::new();
    for _ in 0..h {
        let digits = hex(value(&mut rest, "row")?, 2 * w).ok_or(ILL_FORMED)?;
        samples.extend(digits.chunks(2).map(|d| 16 * d[0] + d[1]));
    }
    if !rest.is_empty() {
        return Err(ILL_FORMED);
    }
    Ok(Card {
        w,
        h,
        filter,
        skip,
        samples,
    })
}

impl Card {
    /// Rows after the Rust restored the unit. No edge bit is set; the Rust indexes the left list all the same.
    fn restored(&self) -> Vec<u8> {
        let mut plane = self.samples.clone();
        let masks: Vec<[u16; 4]> = self.skip.iter().map(|&m| [m, 0, 0, 0]).collect();
        ns_wiener_single_y_8bpc(
            &ExecContext::new(),
            &mut plane,
            0,
            self.w,
            &vec![[0; 6]; self.h],
            &[],
            0,
            &[],
            0,
            self.w,
            self.h,
            &self.filter,
            0,
            &masks,
        );
        plane
    }

    /// Each of a block row's four rows has a piece for each unmasked block.
    fn pieces(&self) -> usize {
        self.skip
            .iter()
            .map(|mask| 4 * (0..self.w / 4).filter(|b| mask >> b & 1 == 0).count())
            .sum()
    }

    fn lines(&self) -> Lines {
        let numbers: Vec<String> = self.filter.iter().map(i8::to_string).collect();
        let groups: Vec<String> = self.skip.iter().map(|m| format!("{m:04x}")).collect();
        let mut lines = vec![
            String::from("op=y"),
            format!("w={}", self.w),
            format!("h={}", self.h),
            String::from("edges=0"),
            format!("filter={}", numbers.join(",")),
            format!("skip={}", groups.join(",")),
        ];
        let rows = self.samples.chunks(self.w);
        lines.extend(rows.map(|row| format!("row={}", digits(row))));
        Lines(lines.into_iter().map(String::into_bytes).collect())
    }

    fn random(r: &mut Random, w: usize, h: usize) -> Card {
        let filter: Vec<i8> = match r.below(8) {
            0 => vec![-128; 16],
            1 => vec![127; 16],
            2 => (0..16).map(|_| [-128, 127][r.below(2)]).collect(),
            _ => r.taps(16, 127).iter().map(|&c| c as i8).collect(),
        };
        let shape = r.below(6);
        let past = (0xffff_u32 << (w / 4)) as u16;
        let skip = (0..h / 4)
            .map(|_| match shape {
                0 => 0,
                1 => 0xffff,
                // only bits that are ignored
                2 => past,
                3 => past & r.next() as u16,
                _ => r.next() as u16,
            })
            .collect();
        Card {
            w,
            h,
            filter: filter.try_into().expect("16 numbers"),
            skip,
            samples: r.bytes(w * h),
        }
    }
}

/// The answer that the program prints: the status and the text.
fn answer(card: &[u8]) -> (u8, String) {
    match read(card) {
        Err(status) => (status, format!("status={status}\nfiltered=0\n")),
        Ok(card) => {
            let mut text = format!("status=0\nfiltered={}\n", card.pieces());
            for row in card.restored().chunks(card.w) {
                text.push_str(&format!("row={}\n", digits(row)));
            }
            (0, text)
        }
    }
}

// The places of a card's lines: the rows come last.
const OP: usize = 0;
const W: usize = 1;
const H: usize = 2;
const EDGES: usize = 3;
const FILTER: usize = 4;
const SKIP: usize = 5;
const ROW: usize = 6;

/// The card of docs/SCOPE.md.
fn first() -> Card {
    let mut filter = [0; 16];
    filter[0] = 64;
    Card {
        w: 4,
        h: 4,
        filter,
        skip: vec![0],
        samples: [10, 20, 40, 80].map(|v| [v; 4]).concat(),
    }
}

/// An 8 by 8 card whose hex digits are letters too.
fn second() -> Card {
    Card {
        w: 8,
        h: 8,
        filter: [
            -128, 127, 9, -9, 10, -10, 99, -99, 100, -100, 0, 1, -1, 64, -64, 0,
        ],
        skip: vec![0xfffe, 0xabc1],
        samples: (0..64).map(|i| (i * 37 + 171) as u8).collect(),
    }
}

const DECIMALS: [&str; 39] = [
    "0", "1", "3", "4", "5", "6", "8", "12", "60", "62", "63", "64", "65", "66", "68", "72", "100",
    "128", "256", "260", "320", "516", "996", "999", "1000", "1004", "04", "004", "0004", "00",
    "000", "+4", "-4", "-0", "", " 4", "4 ", "4,4", "0x4",
];

const FILTER_NUMBERS: [&str; 36] = [
    "127", "-128", "126", "-127", "-1", "-10", "128", "-129", "129", "-130", "200", "255", "256",
    "-256", "384", "999", "-999", "1000", "-1000", "0064", "-0128", "064", "-064", "00", "-00",
    "-0", "+0", "+1", "--1", "-", "", "1-", "- 1", "1.0", "0x1", "a",
];

fn whole_cards(r: &mut Random) -> Vec<Card> {
    let mut cards = vec![first(), second()];
    for k in 1..=16 {
        cards.push(Card::random(r, 4 * k, 4));
        cards.push(Card::random(r, 4, 4 * k));
    }
    for _ in 0..70 {
        let (w, h) = (4 + 4 * r.below(6), 4 + 4 * r.below(6));
        cards.push(Card::random(r, w, h));
    }
    for (filter, mask) in [
        (-128, 0),
        (127, 0),
        (0, 0),
        (1, 0),
        (-1, 0),
        (127, 0xffff),
        (-128, 0xfffc),
        (127, 0xaaaa),
    ] {
        let mut card = Card::random(r, 8, 8);
        card.filter = [filter; 16];
        card.skip = vec![mask; 2];
        cards.push(card);
    }
    for k in 0..16 {
        let mut card = Card::random(r, 12, 8);
        card.filter = [0; 16];
        card.filter[k] = [-128, 127][k % 2];
        card.skip = vec![0; 2];
        cards.push(card);
    }
    cards.push(Card::random(r, 64, 64));
    cards.push(largest(r));
    cards
}

/// The card that takes the most bytes.
fn largest(r: &mut Random) -> Card {
    let mut card = Card::random(r, 64, 64);
    card.filter = [-128; 16];
    card.skip = (0..16).map(|_| r.next() as u16).collect();
    card
}

/// Single lines of another form.
fn other_lines(out: &mut Vec<Vec<u8>>, lines: &Lines, card: &Card) {
    for op in [
        "", "op", "op=", "op=n", "op=p", "op=c", "op=Y", "op=yy", "op=y ", " op=y", "OP=y", "op:y",
        "o=y", "op=y,", "p=y",
    ] {
        out.push(lines.with(OP, op));
    }
    for n in DECIMALS {
        out.push(lines.with(W, format!("w={n}")));
        out.push(lines.with(H, format!("h={n}")));
    }
    for (at, name) in [(W, "w"), (H, "h")] {
        for text in [
            String::new(),
            format!("{name}4"),
            format!("{name} =4"),
            format!("{}=4", name.to_uppercase()),
            format!("x{name}=4"),
            format!("{name}==4"),
            format!("{name}=4294967300"),
            format!("{name}=4\r"),
            format!("{name}=4\0"),
        ] {
            out.push(lines.with(at, text));
        }
    }
    for n in [
        "64", "1", "00", "63", "255", "256", "-0", "+0", "", "0 ", " 0", "0,", "a",
    ] {
        out.push(lines.with(EDGES, format!("edges={n}")));
    }
    out.push(lines.with(EDGES, "edge=0"));
    for n in FILTER_NUMBERS {
        for at in [0, 7, 15] {
            let mut numbers: Vec<String> = card.filter.iter().map(i8::to_string).collect();
            numbers[at] = String::from(n);
            out.push(lines.with(FILTER, format!("filter={}", numbers.join(","))));
        }
    }
    let filter = lines.text(FILTER);
    let longer = [
        filter.clone() + ",0",
        filter.clone() + ",",
        filter.clone() + " ",
        filter.replace('=', "=,"),
        filter.replace('=', "= "),
        filter.replace('=', "=0,"),
    ];
    let others = [
        filter.replace(',', ""),
        filter.rsplit_once(',').expect("commas").0.into(),
        String::from("filter="),
        String::from("filter=0"),
        filter.clone() + "," + &filter.replace("filter=", ""),
        filter.replace("filter", "filters"),
        filter.replace("filter", "Filter"),
    ];
    for text in longer.into_iter().chain(first_comma(&filter)).chain(others) {
        out.push(lines.with(FILTER, text));
    }
    let skip = lines.text(SKIP);
    let group = format!("{:04x}", card.skip[0]);
    for text in [
        skip.clone() + "0",
        skip.clone() + ",",
        skip.clone() + ",0000",
        skip.clone() + " ",
        skip[..skip.len() - 1].into(),
        skip[..skip.len() - 4].into(),
        skip.replace('=', "=0"),
        skip.replace('=', "=,"),
        skip.replace('=', "=0000,"),
        skip.replace('=', "= "),
        skip.replace("=0", "=+").replace("=f", "=+"),
        skip.replace("=0", "=-").replace("=f", "=-"),
        skip.replace("=0", "=g").replace("=f", "=g"),
        skip.replace("=0", "=F").replace("=f", "=F"),
        skip.replace(',', ""),
        skip.replace(',', ",,"),
        skip.replace(',', ", "),
        skip.replace(',', ";"),
        skip.replace(&group, &group[1..]),
        skip.replace(&group, "0x00"),
        skip.to_uppercase().replace("SKIP", "skip"),
        skip.replace("skip", "skips"),
        String::from("skip="),
        String::new(),
    ] {
        out.push(lines.with(SKIP, text));
    }
    for at in [ROW, ROW + card.h / 2, ROW + card.h - 1] {
        let row = lines.text(at);
        let last = &row[..row.len() - 1];
        for text in [
            row.clone() + "0",
            row.clone() + "00",
            row.clone() + " ",
            row.clone() + "\r",
            row.clone() + "\0",
            last.into(),
            last[..last.len() - 1].into(),
            last.to_owned() + "g",
            last.to_owned() + "A",
            last.to_owned() + "F",
            last.to_owned() + "`",
            last.to_owned() + "/",
            last.to_owned() + ":",
            last.to_owned() + ",",
            row.replace('=', ""),
            row.replace('=', "=0x"),
            row.replace("row", "Row"),
            row.replace("row", "rows"),
            row.to_uppercase().replace("ROW", "row"),
            String::from("row="),
            String::new(),
        ] {
            out.push(lines.with(at, text));
        }
        for byte in [0, 127, 128, 255] {
            out.push(lines.with(at, [last.as_bytes(), &[byte]].concat()));
        }
    }
}

/// What follows a refused w or h is not read.
fn refused_early(r: &mut Random, out: &mut Vec<Vec<u8>>) {
    let ends: [&[u8]; 9] = [
        b"",
        b"\n",
        b"h=4\n",
        b"h=6\n",
        b"h=04\n",
        b"edges=0\n",
        b"w=4\nh=4\n",
        b"\0\xff",
        b"anything",
    ];
    for end in ends {
        for w in ["6", "0", "68", "999"] {
            out.push([format!("op=y\nw={w}\n").as_bytes(), end].concat());
            out.push([format!("op=y\nw=4\nh={w}\n").as_bytes(), end].concat());
        }
        out.push([b"op=y\nw=04\n", end].concat());
        out.push([b"op=n\nw=6\n", end].concat());
        out.push([b"w=6\nop=y\n", end].concat());
        out.push([b"op=y\nh=6\nw=6\n", end].concat());
    }
    for text in [
        "op=y\nw=6",
        "op=y\nw=6\r\n",
        "op=y\nw=1000",
        "op=y\nw=1000\n",
        "op=y\nw=4\nh=6",
        "op=y\nw=4\nh=68",
        "op=y\nw=6\nh=6",
        "op=y\nw=64\nh=64\n",
        "op=y\nw=64\nh=68\n",
        "op=y\nw=68\nh=64\n",
    ] {
        out.push(text.into());
    }
    let noise: Vec<u8> = (0..20_000).map(|_| r.next() as u8).collect();
    out.push([b"op=y\nw=6\n", &noise[..]].concat());
    out.push([b"op=y\nw=4\nh=0\n", &noise[..9_000]].concat());
}

/// No card at all.
fn noise(r: &mut Random, out: &mut Vec<Vec<u8>>) {
    for n in 0..24 {
        let len = if n < 8 { n } else { r.below(300) };
        out.push((0..len).map(|_| r.next() as u8).collect());
    }
    for byte in [0, 10, 48, 255] {
        out.push(vec![byte; 1]);
        out.push(vec![byte; 130]);
    }
    out.push(b"op=y\n".to_vec());
    out.push(b"\n".to_vec());
}

fn cards(seed: u64) -> Vec<Vec<u8>> {
    let mut r = Random::new(seed);
    let mut out = Vec::new();
    for card in whole_cards(&mut r) {
        let bytes = card.lines().bytes();
        let back = read(&bytes).expect("a whole card");
        assert!(back.samples == card.samples && back.skip == card.skip);
        assert!(back.filter == card.filter && (back.w, back.h) == (card.w, card.h));
        out.push(bytes);
    }
    let bytes = first().lines().bytes();
    for n in 0..bytes.len() {
        out.push(bytes[..n].to_vec());
    }
    for card in [first(), second()] {
        let lines = card.lines();
        other_lines(&mut out, &lines, &card);
        other_order(&mut out, &lines);
        other_bytes(&mut r, &mut out, &lines.bytes());
    }
    for _ in 0..60 {
        let (w, h) = (4 + 4 * r.below(3), 4 + 4 * r.below(3));
        let mut card = Card::random(&mut r, w, h).lines().bytes();
        let at = r.below(card.len());
        card[at] = card[r.below(card.len())];
        out.push(card);
    }
    let largest = largest(&mut r).lines().bytes();
    assert!(largest.len() == 8_707);
    out.push([&largest[..], b"\n"].concat());
    out.push([&largest[..], &vec![b'0'; 20_000 - largest.len()]].concat());
    out.push(largest[..largest.len() - 1].to_vec());
    refused_early(&mut r, &mut out);
    noise(&mut r, &mut out);
    out
}

/// Writes the cards, their lengths and the answers.
pub(crate) fn write(seed: u64, folder: &Path) -> std::io::Result<()> {
    corpus::write(folder, "cards", &cards(seed), answer)
}
