//! The text of a state: its lines, each refusal at its limit, and a unit of each operation that is put away between its
//! advances.

mod lists;

use gihvendu::{Operation, Refusal, STATE_TEXT_LIMIT, State, Unit, raw, restore};
use lists::{Lists, SKIP, UNIT, plane};

/// A state whose numbers can all be told from one another, as far as they have room.
fn forged(operation: Operation) -> raw::State {
    let most = most(operation);
    raw::State {
        op: operation.number(),
        given: raw::Given {
            w: 11,
            h: 12,
            edges: usize::MAX,
            stride: 14,
            luma_stride: 15,
            off: 16,
            top_off: 17,
            bottom_off: 18,
            luma_off: 19,
            luma_top_off: 20,
            luma_bottom_off: 21,
            ss_hor: 22,
            ss_ver: 23,
            kind: 24,
        },
        done: 12,
        next: most.min(8),
        classes: std::array::from_fn(|k| 240 + k as u8),
        indices: std::array::from_fn(|k| k % (most + 1)),
        rows: std::array::from_fn(|i| (i * 7 + i / 256) as u8),
    }
}

/// The greatest row index of an operation.
fn most(operation: Operation) -> usize {
    if operation == Operation::Chroma { 4 } else { 9 }
}

/// The lengths of the ten rows.
fn row_lengths(operation: Operation) -> [usize; 10] {
    let luma = if operation == Operation::Chroma {
        140
    } else {
        76
    };
    [76, 76, 76, 76, 76, luma, luma, luma, luma, luma]
}

/// The text of that state, put together after the scope: a second writing of it.
fn text(operation: Operation) -> String {
    let (op, slots) = match operation {
        Operation::Luma => ("y", "indices=0,1,2,3,4,5,6,7,8,9\nnext=8\n"),
        Operation::User => ("n", "indices=0,1,2,3,4,5,6,7,8,9\nnext=8\n"),
        Operation::Pretrained => ("p", "indices=0,1,2,3,4,5,6,7,8,9\nnext=8\n"),
        Operation::Chroma => ("c", "indices=0,1,2,3,4,0,1,2,3,4\nnext=4\n"),
    };
    let (rows, mut from) = (forged(operation).rows, 0);
    let row = |len: usize| {
        let bytes = &rows[from..from + len];
        from += len;
        let digits: String = bytes.iter().map(|b| format!("{b:02x}")).collect();
        format!("row={digits}\n")
    };
    let rows: String = row_lengths(operation).map(row).concat();
    format!(
        "op={op}\nw=11\nh=12\nedges=18446744073709551615\ndone=12\n\
         classes=240,241,242,243,244,245,246,247,248,249,250,251,252,253,254,255\n\
         {slots}{rows}strides=14,15\noffsets=16,17,18,19,20,21\npair=22,23\nkind=24\n"
    )
}

/// The state without the rows that its text has no place for.
fn carried(mut state: raw::State) -> State {
    if state.op != Operation::Chroma.number() {
        state.rows[760..].fill(0);
    }
    State::from(state)
}

#[test]
fn lines() {
    for operation in Operation::ALL {
        let (state, text) = (forged(operation), text(operation));
        assert_eq!(State::from(state.clone()).to_text(), Ok(text.clone()));
        assert_eq!(State::from_text(text.as_bytes()), Ok(carried(state)));
        assert_eq!(text.parse(), State::from_text(text.as_bytes()));
    }
}

/// Every number that has no other limit is the greatest of 64 bits: the text can be written, and read again.
#[test]
fn greatest_numbers() {
    let given = raw::Given {
        w: usize::MAX,
        h: usize::MAX,
        edges: usize::MAX,
        stride: usize::MAX,
        luma_stride: usize::MAX,
        off: usize::MAX,
        top_off: usize::MAX,
        bottom_off: usize::MAX,
        luma_off: usize::MAX,
        luma_top_off: usize::MAX,
        luma_bottom_off: usize::MAX,
        ss_hor: usize::MAX,
        ss_ver: usize::MAX,
        kind: usize::MAX,
    };
    let state = raw::State {
        given,
        done: usize::MAX,
        classes: [255; 16],
        ..forged(Operation::Chroma)
    };
    let text = State::from(state.clone()).to_text().unwrap();
    assert!(text.len() <= STATE_TEXT_LIMIT);
    assert_eq!(text.matches("18446744073709551615").count(), 15);
    assert_eq!(text.parse(), Ok(State::from(state)));
}

/// One byte too few is refused and writes nothing; behind the text all bytes stay.
#[test]
fn lists_written_to() {
    for operation in Operation::ALL {
        let (state, text) = (State::from(forged(operation)), text(operation));
        let len = text.len();
        for size in [0, 1, len - 1] {
            let mut out = vec![0xa5; size];
            assert_eq!(state.write(&mut out), Err(Refusal::Plane));
            assert_eq!(out, vec![0xa5; size]);
        }
        for more in [0, 1, 1000] {
            let mut out = vec![0xa5; len + more];
            assert_eq!(state.write(&mut out), Ok(len));
            assert_eq!(&out[..len], text.as_bytes());
            assert_eq!(out[len..], vec![0xa5; more]);
        }
    }
}

/// Changes of a state that make it none.
fn no_states(operation: Operation) -> Vec<raw::State> {
    let (good, most) = (forged(operation), most(operation));
    let index = |k: usize, index: usize| {
        let mut state = good.clone();
        state.indices[k] = index;
        state
    };
    let done = |done| raw::State {
        done,
        ..good.clone()
    };
    let next = |next| raw::State {
        next,
        ..good.clone()
    };
    let mut all = vec![done(13), done(usize::MAX)];
    all.extend([next(most.min(8) + 1), next(usize::MAX)]);
    all.extend((0..10).map(|k| index(k, most + 1)));
    all.push(index(9, usize::MAX));
    all
}

/// 13 before 5, and nothing is written.
#[test]
fn no_state_is_not_written() {
    let refused = |state: raw::State| {
        for size in [0, STATE_TEXT_LIMIT] {
            let mut out = vec![0xa5; size];
            let answer = State::from(state.clone()).write(&mut out);
            assert_eq!(answer, Err(Refusal::State));
            assert_eq!(out, vec![0xa5; size]);
        }
        assert_eq!(State::from(state).to_text(), Err(Refusal::State));
    };
    for operation in Operation::ALL {
        no_states(operation).into_iter().for_each(refused);
    }
    refused(raw::State::default());
    for op in [0, 5, 256 + 1, (1 << 32) + 1, usize::MAX] {
        refused(raw::State {
            op,
            ..forged(Operation::Luma)
        });
    }
}

/// The bytes are refused with this number, and the state handed out is the one of zeros.
fn refused(text: impl AsRef<[u8]>, refusal: Refusal) {
    let text = text.as_ref();
    let opened = raw::gihvendu_read_state(text);
    let answer = (opened.status, opened.state);
    let shown = String::from_utf8_lossy(text);
    assert_eq!(
        answer,
        (refusal.number(), raw::State::default()),
        "{shown:?}"
    );
    assert_eq!(State::from_text(text), Err(refusal));
}

/// The lines of the text with the numbers of another state, whether it is one or none.
fn with_slots(operation: Operation, state: &raw::State) -> String {
    let numbers = |text: &str, name: &str| {
        let at = text.find(name).unwrap() + name.len();
        at..at + text[at..].find('\n').unwrap()
    };
    let mut text = text(operation);
    let indices = state.indices.map(|i| i.to_string()).join(",");
    text.replace_range(numbers(&text, "\nindices="), &indices);
    text.replace_range(numbers(&text, "\nnext="), &state.next.to_string());
    text.replace_range(numbers(&text, "\ndone="), &state.done.to_string());
    text
}

#[test]
fn no_state_is_not_read() {
    for operation in Operation::ALL {
        for state in no_states(operation) {
            let text = with_slots(operation, &state);
            refused(&text, Refusal::State);
            // what is not of the form is so before its numbers are looked at
            refused(&text[..text.len() - 1], Refusal::Text);
            refused(text + "\n", Refusal::Text);
        }
    }
    // rows done and the height are both of 64 bits
    let far = text(Operation::Luma).replace("h=12", "h=18446744073709551615");
    assert!(far.parse::<State>().is_ok());
    refused(
        far.replace("h=18446744073709551615", "h=11"),
        Refusal::State,
    );
}

#[test]
fn cut() {
    for operation in [Operation::Luma, Operation::Chroma] {
        let text = text(operation);
        for len in 0..text.len() {
            refused(&text[..len], Refusal::Text);
            refused(&text[len + 1..], Refusal::Text);
        }
    }
}

#[test]
fn around() {
    let text = text(Operation::User);
    for byte in ["\0", "\n", "\r", " ", "0", "op=n\n", "kind=24\n", &text] {
        refused(text.clone() + byte, Refusal::Text);
        refused(byte.to_string() + &text, Refusal::Text);
    }
    refused(text.replace('\n', "\r\n"), Refusal::Text);
    refused(text.replace('\n', "\n\n"), Refusal::Text);
    refused(text.replace('\n', ""), Refusal::Text);
}

/// Each line in another place, twice, or missing.
#[test]
fn lines_in_order() {
    let text = text(Operation::Pretrained);
    let lines: Vec<&str> = text.split_inclusive('\n').collect();
    for (k, line) in lines.iter().enumerate() {
        let without = [&lines[..k], &lines[k + 1..]].concat();
        refused(without.concat(), Refusal::Text);
        let twice = [&lines[..k], &[line], &lines[k..]].concat();
        refused(twice.concat(), Refusal::Text);
        // one row in the place of the next is another state's text
        if k > 0 && !(line.starts_with("row=") && lines[k - 1].starts_with("row=")) {
            let mut exchanged = lines.clone();
            exchanged.swap(k - 1, k);
            refused(exchanged.concat(), Refusal::Text);
        }
    }
}

#[test]
fn operations_and_rows() {
    let text = text(Operation::Luma);
    for op in ["", "Y", "x", "yy", "y ", " y", "1", "\0", "n,p"] {
        refused(text.replace("op=y", &format!("op={op}")), Refusal::Text);
    }
    // the rows of a chroma unit are others
    refused(text.replace("op=y", "op=c"), Refusal::Text);
    for (was, is) in [
        ("row=", "row"),
        ("row=", "Row="),
        ("row=", "row=0"),
        ("row=", "row=00"),
        ("row=00", "row="),
        ("row=0", "row=g"),
        ("row=0", "row="),
        ("row=00", "row= 0"),
        ("row=00", "row=0x"),
    ] {
        refused(text.replacen(was, is, 1), Refusal::Text);
    }
    let upper = text.to_uppercase();
    for (small, great) in text.lines().zip(upper.lines()).skip(8).take(10) {
        let great = great.replace("ROW", "row");
        refused(text.replace(small, &great), Refusal::Text);
    }
}

/// What is no decimal, and numbers that 64 bits do not take.
const NO_NUMBERS: [&str; 16] = [
    "",
    "00",
    "01",
    "012",
    "+1",
    "-1",
    "-0",
    " 1",
    "1 ",
    "0x1",
    "a",
    "1.0",
    "18446744073709551616",
    "18446744073709551628",
    "99999999999999999999",
    "184467440737095516160",
];

#[test]
fn numbers() {
    let good = text(Operation::Luma);
    let fields = [
        ("w=11", "w="),
        ("h=12", "h="),
        ("edges=18446744073709551615", "edges="),
        ("done=12", "done="),
        ("classes=240", "classes="),
        (",255\n", ","),
        ("indices=0", "indices="),
        (",9\n", ","),
        ("next=8", "next="),
        ("strides=14", "strides="),
        (",15\n", ","),
        ("offsets=16", "offsets="),
        (",17,", ","),
        (",21\n", ","),
        ("pair=22", "pair="),
        (",23\n", ","),
        ("kind=24", "kind="),
    ];
    for (field, name) in fields {
        assert_eq!(good.matches(field).count(), 1);
        let end = field.chars().last().filter(|c| !c.is_ascii_digit());
        let end = end.map(String::from).unwrap_or_default();
        for number in NO_NUMBERS {
            let bad = good.replace(field, &format!("{name}{number}{end}"));
            refused(bad, Refusal::Text);
        }
    }
    for class in ["256", "999", "1000", "18446744073709551615"] {
        let past = good.replace("classes=240", &format!("classes={class}"));
        refused(past, Refusal::Text);
    }
}

/// A number too many or too few, and other signs between them.
#[test]
fn number_lists() {
    let good = text(Operation::Luma);
    for list in ["classes=", "indices=", "strides=", "offsets=", "pair="] {
        let line = good.lines().find(|l| l.starts_with(list)).unwrap();
        let fewer = line.rsplit_once(',').unwrap().0;
        for bad in [
            line.to_string() + ",0",
            line.to_string() + ",",
            fewer.to_string(),
            fewer.to_string() + ",",
            line.replacen(',', ",,", 1),
            line.replacen(',', ", ", 1),
            line.replacen(',', ";", 1),
            line.replacen('=', "=,", 1),
            line.replacen('=', "", 1),
            list.to_string(),
        ] {
            refused(good.replace(line, &bad), Refusal::Text);
        }
    }
}

/// Numbers that only an advance looks at are read, and written again.
#[test]
fn left_to_advance() {
    let lists = Lists::new();
    let (borders, lent) = (lists.borders(), lists.lent(Operation::User));
    let state = State::open(&plane(), &UNIT, &borders, &lent, &SKIP).unwrap();
    let text = state.to_text().unwrap();
    for (was, is, refusal) in [
        ("w=8\n", "w=9\n", Refusal::Width),
        ("h=8\n", "h=9\n", Refusal::Height),
        ("strides=16,", "strides=0,", Refusal::Stride),
        (
            "offsets=2,",
            "offsets=18446744073709551615,",
            Refusal::Plane,
        ),
        ("classes=", "classes=25", Refusal::State),
    ] {
        let changed = text.replacen(was, is, 1);
        assert_ne!(changed, text);
        let mut state: State = changed.parse().unwrap();
        assert_eq!(state.to_text(), Ok(changed));
        let answer = state.advance(1, &mut plane(), &borders, &lent, &SKIP);
        assert_eq!(answer, Err(refusal));
    }
}

/// Stopped after the opening, within a block row, at the end of one, where no row was asked for, and when it is finished.
#[test]
fn put_away() {
    let lists = Lists::new();
    let borders = lists.borders();
    for operation in Operation::ALL {
        let lent = lists.lent(operation);
        let (mut at_once, mut stopped) = (plane(), plane());
        restore(&mut at_once, &UNIT, &borders, &lent, &SKIP).unwrap();
        let mut state = State::open(&stopped, &UNIT, &borders, &lent, &SKIP).unwrap();
        for count in [0, 1, 0, 2, 1, 2, usize::MAX] {
            let answer = state.advance(count, &mut stopped, &borders, &lent, &SKIP);
            assert!(answer.is_ok());
            let text = state.to_text().unwrap();
            let back: State = text.parse().unwrap();
            assert_eq!(back, state);
            assert_eq!(back.to_text(), Ok(text));
            state = back;
        }
        assert!(state.finished());
        assert_eq!(stopped, at_once);
    }
}

/// Edge bits that nothing looks at are kept.
#[test]
fn higher_edges() {
    let lists = Lists::new();
    let unit = Unit {
        edges: UNIT.edges | 1 << 63 | 1 << 6,
        ..UNIT
    };
    let lent = lists.lent(Operation::Luma);
    let state = State::open(&plane(), &unit, &lists.borders(), &lent, &SKIP).unwrap();
    let back: State = state.to_text().unwrap().parse().unwrap();
    assert_eq!(raw::State::from(back).given.edges, unit.edges);
}
