//! A corpus of state texts, whole and damaged, and what the Rattle program has to print of each, by a second reading.

use std::path::Path;

use crate::corpus;
use crate::damaged::{DAMAGES, Damage};
use crate::forged;
use crate::random::Random;
use crate::texts::{self, State};
use crate::units::OPERATIONS;

/// Whole texts of each operation, beside the two whose numbers are all at an end.
const WHOLE: usize = 9;

/// Texts of each operation whose numbers are no state's.
const NONE: usize = 5;

/// A state in turn: as of a unit, or of any numbers.
fn state(r: &mut Random, k: usize) -> State {
    let operation = OPERATIONS[k % OPERATIONS.len()];
    if (k / OPERATIONS.len()).is_multiple_of(2) {
        forged::likely(r, operation)
    } else {
        forged::any(r, operation)
    }
}

fn whole(r: &mut Random) -> Vec<Vec<u8>> {
    let ends = OPERATIONS.map(|o| [forged::end(o, false), forged::end(o, true)]);
    let mut states = ends.concat();
    states.extend((0..WHOLE * OPERATIONS.len()).map(|k| state(r, k)));
    let text = |state: State| {
        let text = state.text().into_bytes();
        assert_eq!(texts::read(&text), Ok(state.carried()));
        text
    };
    states.into_iter().map(text).collect()
}

fn no_states(r: &mut Random) -> impl Iterator<Item = Vec<u8>> {
    let all = OPERATIONS.into_iter().flat_map(|o| [o; NONE]);
    all.map(|o| forged::none(r, o).text().into_bytes())
}

/// So many texts of a kind of damage, each of another state, from one end of the kind's list to the other.
fn damaged(r: &mut Random, out: &mut Vec<Vec<u8>>, damage: Damage, count: usize) {
    for n in 0..count {
        let lines = state(r, n + n / OPERATIONS.len()).lines();
        let mut all = damage(r, &lines);
        let (from, to) = (n * all.len() / count, (n + 1) * all.len() / count);
        out.push(all.swap_remove(from + r.below(to - from)));
    }
}

fn all(seed: u64) -> Vec<Vec<u8>> {
    let mut r = Random::new(seed);
    let mut out = whole(&mut r);
    out.extend(no_states(&mut r));
    // nothing, and all but the last byte
    let whole = state(&mut r, 0).text().into_bytes();
    out.extend([Vec::new(), whole[..whole.len() - 1].to_vec()]);
    for (damage, count) in DAMAGES {
        damaged(&mut r, &mut out, damage, count);
    }
    out
}

/// The status and, where it is 0, the text of the state that was read.
fn answer(text: &[u8]) -> (u8, String) {
    match texts::read(text) {
        Err(status) => (status, format!("status={status}\n")),
        Ok(state) => (0, format!("status=0\n{}", state.text())),
    }
}

/// Writes the texts, their lengths and the answers.
pub(crate) fn write(seed: u64, folder: &Path) -> std::io::Result<()> {
    corpus::write(folder, "texts", &all(seed), answer)
}
