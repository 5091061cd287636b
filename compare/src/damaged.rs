//! Texts of states that are damaged in every way: bytes, numbers, rows and lines changed, left out, put in, exchanged, and
//! texts of no state.

use crate::lines::{self, Lines};
use crate::random::Random;

/// What becomes of a text by one kind of damage.
pub(crate) type Damage = fn(&mut Random, &Lines) -> Vec<Vec<u8>>;

/// Numbers at the end of a field and past it, those that would wrap to a good one among them, and what is no decimal.
const NUMBERS: [&str; 43] = [
    "18446744073709551615",
    "18446744073709551616",
    "18446744073709551617",
    "18446744073709551620",
    "18446744073709551626",
    "18446744073709551715",
    "18446744073709551872",
    "19446744073709551615",
    "28446744073709551615",
    "36893488147419103232",
    "99999999999999999999",
    "100000000000000000000",
    "184467440737095516150",
    "184467440737095516160",
    "340282366920938463463374607431768211456",
    "9999999999999999999",
    "9223372036854775808",
    "018446744073709551615",
    "00000000000000000000",
    "00000000000000000001",
    "0",
    "1",
    "4",
    "5",
    "8",
    "9",
    "10",
    "255",
    "256",
    "00",
    "01",
    "0255",
    "+1",
    "-1",
    "-0",
    "",
    " 1",
    "1 ",
    "0x1",
    "a",
    "1.0",
    "1_0",
    "\u{0661}",
];

/// A line's name and what follows the sign =.
fn halves(line: &str) -> (&str, &str) {
    line.split_once('=').expect("each line has the sign =")
}

/// The places of the lines that have these names.
fn places<'a>(lines: &'a Lines, names: &'a [&str]) -> impl Iterator<Item = usize> + 'a {
    let named = move |&at: &usize| names.contains(&halves(&lines.text(at)).0);
    (0..lines.0.len()).filter(named)
}

/// The lines of decimals.
const DECIMALS: [&str; 11] = [
    "w", "h", "edges", "done", "classes", "indices", "next", "strides", "offsets", "pair", "kind",
];

/// A text with another number in one place of a line.
fn with_number(lines: &Lines, at: usize, place: usize, number: &str) -> Vec<u8> {
    let line = lines.text(at);
    let (name, list) = halves(&line);
    let mut numbers: Vec<&str> = list.split(',').collect();
    numbers[place] = number;
    lines.with(at, format!("{name}={}", numbers.join(",")))
}

/// Every number of the text, as the places of its line and in it.
fn all_numbers(lines: &Lines) -> Vec<(usize, usize)> {
    let of_line = |at: usize| {
        let line = lines.text(at);
        let count = line.split(',').count();
        (0..count).map(move |place| (at, place))
    };
    places(lines, &DECIMALS).flat_map(of_line).collect()
}

/// Each number of the list in the place of each number of the text.
fn numbers(_: &mut Random, lines: &Lines) -> Vec<Vec<u8>> {
    let all = all_numbers(lines);
    let in_all = |number: &&str| {
        let number = number.to_string();
        let with = |&(at, place): &(usize, usize)| with_number(lines, at, place, &number);
        all.iter().map(with).collect::<Vec<_>>()
    };
    NUMBERS.iter().flat_map(in_all).collect()
}

/// The text's own numbers, written otherwise or 2^64 and 2^65 more.
fn own_numbers(_: &mut Random, lines: &Lines) -> Vec<Vec<u8>> {
    let mut out = Vec::new();
    for (at, place) in all_numbers(lines) {
        let line = lines.text(at);
        let own = halves(&line).1.split(',').nth(place);
        let own: u128 = own.and_then(|n| n.parse().ok()).expect("a decimal");
        for number in [
            format!("0{own}"),
            format!("+{own}"),
            format!("{own:020}"),
            format!("{own}0"),
            (own + (1 << 64)).to_string(),
            (own + (1 << 65)).to_string(),
        ] {
            out.push(with_number(lines, at, place, &number));
        }
    }
    out
}

/// Classes at the end of their field, and past it.
fn classes(_: &mut Random, lines: &Lines) -> Vec<Vec<u8>> {
    let at = places(lines, &["classes"])
        .next()
        .expect("a line of classes");
    let all = [
        "0",
        "255",
        "256",
        "257",
        "300",
        "511",
        "512",
        "999",
        "1000",
        "65536",
        "4294967296",
        "0255",
        "00",
    ];
    let in_all = |class: &&'static str| {
        let class = *class;
        (0..16).map(move |place| with_number(lines, at, place, class))
    };
    all.iter().flat_map(in_all).collect()
}

/// Numbers at the limits of a state's shape and past them.
fn shapes(_: &mut Random, lines: &Lines) -> Vec<Vec<u8>> {
    let value = |name: &'static str| {
        let at = places(lines, &[name]).next().expect("a line of each name");
        (at, halves(&lines.text(at)).1.to_string())
    };
    let ((done, _), (_, h)) = (value("done"), value("h"));
    let h: u64 = h.parse().expect("a decimal");
    let (next, indices) = (value("next").0, value("indices").0);
    let mut changes = Vec::new();
    changes.extend([h, h.saturating_add(1), u64::MAX].map(|n| (done, 0, n)));
    changes.extend([4, 5, 8, 9, u64::MAX].map(|n| (next, 0, n)));
    for place in 0..10 {
        changes.extend([4, 5, 9, 10, u64::MAX].map(|n| (indices, place, n)));
    }
    changes
        .iter()
        .map(|&(at, place, number)| with_number(lines, at, place, &number.to_string()))
        .collect()
}

/// The same with an end that is not of its form: that is told, and not the numbers.
fn shapes_ill_formed(r: &mut Random, lines: &Lines) -> Vec<Vec<u8>> {
    let mut out = Vec::new();
    for mut text in shapes(r, lines) {
        text.pop();
        out.push(text.clone());
        text.extend(b",0\n");
        out.push(text);
    }
    out
}

/// Lists of numbers with one more, one fewer, or other signs between them.
fn lists(_: &mut Random, lines: &Lines) -> Vec<Vec<u8>> {
    let mut out = Vec::new();
    for at in places(lines, &DECIMALS) {
        let line = lines.text(at);
        let (name, list) = halves(&line);
        let fewer = list.rsplit_once(',').map_or("", |(fewer, _)| fewer);
        let of_another_length = [
            format!("{list},0"),
            format!("{list},"),
            format!("0,{list}"),
            format!(",{list}"),
            format!("{list},{list}"),
            fewer.to_string(),
            format!("{fewer},"),
        ];
        let without_commas = [list.replacen(',', "\n", 1), list.replace(',', "")];
        for list in of_another_length
            .into_iter()
            .chain(lines::first_comma(list))
            .chain(without_commas)
        {
            out.push(lines.with(at, format!("{name}={list}")));
        }
    }
    out
}

/// Names, the sign =, and operations.
fn names(_: &mut Random, lines: &Lines) -> Vec<Vec<u8>> {
    let mut out = Vec::new();
    for at in 0..lines.0.len() {
        let line = lines.text(at);
        let (name, value) = halves(&line);
        for line in [
            value.to_string(),
            format!("={value}"),
            format!("{name}{value}"),
            format!("{name}=={value}"),
            format!("{name} ={value}"),
            format!("{name}= {value}"),
            format!("{name}:{value}"),
            format!("{}={value}", name.to_uppercase()),
            format!("{}={value}", &name[1..]),
            format!("{name}s={value}"),
            format!(" {line}"),
            format!("{line} "),
            format!("{line}\t"),
            format!("{line}\0"),
            name.to_string(),
        ] {
            out.push(lines.with(at, line));
        }
    }
    for op in [
        "", "y", "n", "p", "c", "Y", "N", "P", "C", "yy", "y,", "x", "0", "1", "4", "yn", "\0",
    ] {
        out.push(lines.with(0, format!("op={op}")));
    }
    out
}

/// Each line of a row with another in its place, by one change after another.
fn with_rows<C>(
    lines: &Lines,
    changes: &[C],
    change: impl Fn(&C, &str) -> Vec<u8>,
) -> Vec<Vec<u8>> {
    let rows: Vec<(usize, String)> = places(lines, &["row"])
        .map(|at| (at, halves(&lines.text(at)).1.to_string()))
        .collect();
    let by = |c: &C| {
        let with = |(at, row): &(usize, String)| {
            let row = change(c, row);
            lines.with(*at, [b"row=", &row[..]].concat())
        };
        rows.iter().map(with).collect::<Vec<_>>()
    };
    changes.iter().flat_map(by).collect()
}

/// Rows with a byte that is no hex digit in lower case.
fn hex(r: &mut Random, lines: &Lines) -> Vec<Vec<u8>> {
    let place = r.below(2 * 76);
    with_rows(
        lines,
        b"AFBCDEg`/:@G, \0\r\x7f\x80\xc8\xff",
        |&byte, row| {
            let mut row = row.as_bytes().to_vec();
            row[place] = byte;
            row
        },
    )
}

/// Rows of other lengths and forms, among them those of the other rows of chroma.
fn rows(_: &mut Random, lines: &Lines) -> Vec<Vec<u8>> {
    let cycled = |row: &str, len| row.chars().cycle().take(len).collect();
    let changes: [&dyn Fn(&str) -> String; 14] = [
        &|row| cycled(row, 2 * 76),
        &|row| cycled(row, 2 * 140),
        &|row| cycled(row, 2 * 75),
        &|row| cycled(row, row.len() - 1),
        &|row| cycled(row, row.len() - 2),
        &|row| cycled(row, row.len() + 1),
        &|row| cycled(row, row.len() + 2),
        &|row| cycled(row, 2 * row.len()),
        &|row| row.to_uppercase(),
        &|row| format!("0x{row}"),
        &|row| format!("0x{}", &row[2..]),
        &|row| format!("{row},{row}"),
        &|row| format!("{},{}", &row[..2], &row[2..]),
        &|_| String::new(),
    ];
    with_rows(lines, &changes, |change, row| change(row).into_bytes())
}

/// Each byte changed to some others.
fn bytes_changed(r: &mut Random, lines: &Lines) -> Vec<Vec<u8>> {
    let text = lines.bytes();
    let mut out = Vec::new();
    for (at, &was) in text.iter().enumerate() {
        let others = [
            was ^ 1,
            was ^ 0x20,
            was ^ 0x80,
            was.wrapping_add(1),
            [0, b'\n', b',', b'='][r.below(4)],
            b'0' + r.below(10) as u8,
            b'a' + r.below(6) as u8,
            r.next() as u8,
        ];
        for other in others.into_iter().filter(|&other| other != was) {
            let mut text = text.clone();
            text[at] = other;
            out.push(text);
        }
    }
    out
}

/// Every part that a text begins with.
fn cut(_: &mut Random, lines: &Lines) -> Vec<Vec<u8>> {
    let text = lines.bytes();
    (0..text.len()).map(|len| text[..len].to_vec()).collect()
}

/// Every part that a text ends with.
fn begun_late(_: &mut Random, lines: &Lines) -> Vec<Vec<u8>> {
    let text = lines.bytes();
    (1..text.len()).map(|from| text[from..].to_vec()).collect()
}

/// Each byte left out, or twice.
fn bytes_moved(_: &mut Random, lines: &Lines) -> Vec<Vec<u8>> {
    let text = lines.bytes();
    let mut out = Vec::new();
    for at in 0..text.len() {
        out.push([&text[..at], &text[at + 1..]].concat());
        out.push([&text[..=at], &text[at..]].concat());
    }
    out
}

/// Bytes before and behind, the text twice, and some bytes changed, left out or put in.
fn around(r: &mut Random, lines: &Lines) -> Vec<Vec<u8>> {
    let text = lines.bytes();
    let mut out = Vec::new();
    lines::other_bytes(r, &mut out, &text);
    for more in ["kind=0\n", "op=y\n", "\n\n", " ", "#"] {
        out.push([&text[..], more.as_bytes()].concat());
        out.push([more.as_bytes(), &text].concat());
    }
    out
}

/// Lines left out, twice, joined, in another order or with other ends.
fn order(_: &mut Random, lines: &Lines) -> Vec<Vec<u8>> {
    let mut out = Vec::new();
    lines::other_order(&mut out, lines);
    for second in 0..lines.0.len() {
        for first in 0..second {
            let mut other = lines.clone();
            other.0.swap(first, second);
            out.push(other.bytes());
        }
    }
    out
}

/// Longer than any text is.
fn long(r: &mut Random, lines: &Lines) -> Vec<Vec<u8>> {
    let text = lines.bytes();
    let all = all_numbers(lines);
    let mut out = Vec::new();
    for more in ["0", "9", "\n", "row=00\n", "kind=0\n"] {
        let more: String = more.chars().cycle().take(4_000 - text.len()).collect();
        out.push([&text, more.as_bytes()].concat());
        let (at, place) = all[r.below(all.len())];
        out.push(with_number(lines, at, place, &more));
        out.push(with_number(lines, at, place, &("1".to_string() + &more)));
    }
    out
}

/// All kinds of damage, each with how many of its texts stand in the corpus.
pub(crate) const DAMAGES: [(Damage, usize); 16] = [
    (numbers, NUMBERS.len()),
    (own_numbers, 5),
    (classes, 5),
    (shapes, 26),
    (shapes_ill_formed, 6),
    (lists, 8),
    (names, 9),
    (hex, 5),
    (rows, 7),
    (bytes_changed, 14),
    (cut, 10),
    (begun_late, 3),
    (bytes_moved, 6),
    (around, 6),
    (order, 12),
    (long, 2),
];
