//! Inputs of a Rattle program and the answers that are expected of it, as files.

use std::collections::BTreeMap;
use std::path::Path;

/// Writes the inputs one after another to a file of their name, to lengths two bytes for each, the low one first, and to stdout
/// the answers, which stand with their statuses.
pub(crate) fn write(
    folder: &Path,
    name: &str,
    inputs: &[Vec<u8>],
    answer: impl Fn(&[u8]) -> (u8, String),
) -> std::io::Result<()> {
    let (mut lengths, mut answers) = (Vec::new(), String::new());
    let mut counts = BTreeMap::<u8, usize>::new();
    for input in inputs {
        let (status, text) = answer(input);
        *counts.entry(status).or_default() += 1;
        let length = u16::try_from(input.len()).expect("a length of two bytes");
        lengths.extend(length.to_le_bytes());
        answers.push_str(&text);
    }
    let all = inputs.concat();
    std::fs::write(folder.join(name), &all)?;
    std::fs::write(folder.join("lengths"), &lengths)?;
    std::fs::write(folder.join("stdout"), &answers)?;
    let counts: Vec<String> = counts.iter().map(|(s, n)| format!("{s}: {n}")).collect();
    eprintln!(
        "{} {name} of {} bytes, answers of {} bytes; status {}",
        inputs.len(),
        all.len(),
        answers.len(),
        counts.join(", ")
    );
    Ok(())
}
