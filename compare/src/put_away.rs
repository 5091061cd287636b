//! States put away as texts and taken back: between the events of random lists of advances, forged ones, and damaged texts.
//! What the port writes and reads is held against a second writing and a second reading, in every byte.

use gihvendu::raw::{self, Given, Opened};
use gihvendu::{STATE_TEXT_LIMIT, State};

use crate::advances;
use crate::calls;
use crate::damaged::DAMAGES;
use crate::forged;
use crate::random::Random;
use crate::texts;
use crate::units::{OPERATIONS, Operation};
use crate::whole::draw;
use crate::written::Written;

/// The statuses, as they are told.
const STATUSES: [u8; 4] = [0, 5, 13, 17];

/// What came of some texts: how many calls for each status, and how many differ.
#[derive(Default)]
struct Tally {
    statuses: [usize; STATUSES.len()],
    differ: usize,
}

impl Tally {
    fn add(&mut self, status: u8, good: bool) {
        let at = STATUSES.iter().position(|&s| s == status);
        self.statuses[at.expect("a status of a text")] += 1;
        self.differ += usize::from(!good);
    }

    fn print(&self, name: &str) {
        print!("{name:<38}");
        self.statuses.iter().for_each(|count| print!("{count:>10}"));
        println!("{:>10}", self.differ);
    }
}

/// What the text of a state tells.
fn told(s: &raw::State) -> texts::State {
    let g = &s.given;
    texts::State {
        op: s.op as u64,
        w: g.w as u64,
        h: g.h as u64,
        edges: g.edges as u64,
        done: s.done as u64,
        classes: s.classes,
        indices: s.indices.map(|i| i as u64),
        next: s.next as u64,
        rows: s.rows,
        strides: [g.stride, g.luma_stride].map(|n| n as u64),
        offsets: [
            g.off,
            g.top_off,
            g.bottom_off,
            g.luma_off,
            g.luma_top_off,
            g.luma_bottom_off,
        ]
        .map(|n| n as u64),
        pair: [g.ss_hor, g.ss_ver].map(|n| n as u64),
        kind: g.kind as u64,
    }
}

/// The state of such a text, as the port has it.
fn as_handed_out(s: &texts::State) -> raw::State {
    let strides = s.strides.map(|n| n as usize);
    let offsets = s.offsets.map(|n| n as usize);
    let pair = s.pair.map(|n| n as usize);
    raw::State {
        op: s.op as usize,
        given: Given {
            w: s.w as usize,
            h: s.h as usize,
            edges: s.edges as usize,
            stride: strides[0],
            luma_stride: strides[1],
            off: offsets[0],
            top_off: offsets[1],
            bottom_off: offsets[2],
            luma_off: offsets[3],
            luma_top_off: offsets[4],
            luma_bottom_off: offsets[5],
            ss_hor: pair[0],
            ss_ver: pair[1],
            kind: s.kind as usize,
        },
        done: s.done as usize,
        next: s.next as usize,
        classes: s.classes,
        indices: s.indices.map(|i| i as usize),
        rows: s.rows,
    }
}

/// Writes a state to a list of so many bytes: whether status, length and every byte are as the second writing has them, those
/// behind the text and around the list included.
fn write(t: &mut Tally, state: &texts::State, size: usize) {
    let mut list = Written::new(vec![0xa5; size]);
    let answer = raw::gihvendu_write_state(as_handed_out(state), list.list());
    let (status, text) = match state.written(size) {
        Ok(text) => (0, text),
        Err(status) => (status, String::new()),
    };
    let mut after = list.before.clone();
    after[..text.len()].copy_from_slice(text.as_bytes());
    let len = text.len();
    let good = answer == raw::Written { status, len } && list.now() == after && list.around_kept();
    if !good && t.differ == 0 {
        eprintln!("{answer:?} for {status} and {len}, a list of {size} bytes: {state:?}");
    }
    t.add(status, good);
}

/// Reads a text: whether status and state are as the second reading has them, and the state writes the text again.
fn read(t: &mut Tally, text: &[u8]) {
    let Opened { state, status } = raw::gihvendu_read_state(text);
    let (expected, read) = match texts::read(text) {
        Ok(read) => (0, read),
        Err(status) => (status, texts::State::ZEROS),
    };
    let again = |state: &raw::State| {
        let mut list = [0; STATE_TEXT_LIMIT];
        let answer = raw::gihvendu_write_state(state.clone(), &mut list);
        answer.status == 0 && list[..answer.len] == *text
    };
    let good = status == expected && told(&state) == read && (status != 0 || again(&state));
    if !good && t.differ == 0 {
        let shown = String::from_utf8_lossy(text);
        eprintln!("{status} for {expected}, {state:?} for {read:?}: {shown:?}");
    }
    t.add(expected, good);
}

/// A state of a unit is put away and taken back, by the package's own calls: whether the text is that of the second writing and
/// the state is the one that was written.
fn away_and_back(t: &mut Tally, r: &mut Random, state: &mut State) -> bool {
    let before = raw::State::from(state.clone());
    let Ok(text) = told(&before).written(STATE_TEXT_LIMIT) else {
        t.add(0, false);
        return false;
    };
    let size = text.len() + [0, 0, 1, 900][r.below(4)];
    let mut list = Written::new(vec![0xa5; size]);
    let len = state.write(list.list());
    let (now, behind) = list.now().split_at(text.len());
    let written = len == Ok(text.len())
        && now == text.as_bytes()
        && behind.iter().all(|&b| b == 0xa5)
        && list.around_kept();
    let good = match State::from_text(now) {
        Ok(read) => {
            *state = read;
            written && before == raw::State::from(state.clone())
        }
        Err(_) => false,
    };
    t.add(0, good);
    good
}

/// A forged state, written to lists of all lengths that matter, and read.
fn forged_state(t: &mut Tallies, r: &mut Random, state: &texts::State) {
    let text = state.text().into_bytes();
    if let Ok(read) = texts::read(&text) {
        assert_eq!(read, state.clone().carried());
    }
    let len = text.len();
    for size in [0, r.below(len), len - 1, len, len + 1 + r.below(2_000)] {
        write(&mut t.written, state, size);
    }
    read(&mut t.read, &text);
}

/// Random states in the shape and out of it, and one of no operation.
fn forged_states(t: &mut Tallies, r: &mut Random, operation: Operation) {
    let state = forged::any(r, operation);
    forged_state(t, r, &state);
    let state = forged::none(r, operation);
    forged_state(t, r, &state);
    let mut state = forged::any(r, operation);
    state.op = [0, 5, 257, (1 << 32) + 1, u64::MAX, 6 + r.next() / 2][r.below(6)];
    let size = [0, 1_000, STATE_TEXT_LIMIT][r.below(3)];
    write(&mut t.written, &state, size);
}

/// Every length of a list, up to the text's and somewhat further.
fn all_lengths(t: &mut Tally, state: &texts::State) {
    (0..state.text().len() + 9).for_each(|size| write(t, state, size));
}

/// The state of a unit that was opened and advanced by some rows.
fn advanced(r: &mut Random, operation: Operation, k: usize) -> texts::State {
    let u = draw(r, operation, k);
    let mut state = calls::open(&u).answer.expect("a unit that is not refused");
    let count = r.below(u.h + 1);
    let ran = calls::advance(&u, &mut state, count, &u.plane);
    ran.answer.expect("the unit's own advance");
    told(&state.into())
}

/// Every damage of a state's text.
fn damaged(t: &mut Tally, r: &mut Random, state: &texts::State) {
    let lines = state.lines();
    for (damage, _) in DAMAGES {
        let all = damage(r, &lines);
        all.iter().for_each(|text| read(t, text));
    }
}

/// What came of the texts of one operation.
#[derive(Default)]
struct Tallies {
    written: Tally,
    read: Tally,
    damaged: Tally,
}

impl Tallies {
    /// Units that were opened and advanced, the least and the greatest numbers, and forged states, the last of these none.
    fn add(&mut self, r: &mut Random, operation: Operation, count: usize) {
        (0..count).for_each(|_| forged_states(self, r, operation));
        let mut states: Vec<_> = (0..3).map(|k| advanced(r, operation, k)).collect();
        states.extend([false, true].map(|greatest| forged::end(operation, greatest)));
        states.extend([forged::any(r, operation), forged::none(r, operation)]);
        for state in &states {
            all_lengths(&mut self.written, state);
            damaged(&mut self.damaged, r, state);
        }
    }

    fn print(&self, operation: Operation) {
        let name = operation.name();
        self.written.print(&format!("{name}, forged, written"));
        self.read.print(&format!("{name}, forged, read"));
        self.damaged.print(&format!("{name}, damaged, read"));
    }

    fn differ(&self) -> usize {
        self.written.differ + self.read.differ + self.damaged.differ
    }
}

/// `count` units and forged states of each operation, and damaged texts; whether nothing differs.
pub(crate) fn compare(seed: u64, count: usize) -> bool {
    let mut r = Random::new(!seed);
    let mut between = Tally::default();
    let mut put_away = |state: &mut State| away_and_back(&mut between, &mut r, state);
    let same = advances::run(seed, count, &mut put_away);

    print!("\n{:<38}", "status");
    STATUSES.iter().for_each(|status| print!("{status:>10}"));
    println!("{:>10}", "differ");
    between.print("put away and taken back");
    let mut differ = between.differ;
    for operation in OPERATIONS {
        let mut tallies = Tallies::default();
        tallies.add(&mut r, operation, count);
        tallies.print(operation);
        differ += tallies.differ();
    }
    same && differ == 0
}
