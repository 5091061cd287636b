//! Puts a unit away and takes it back: it is stopped after some rows, the text of its state and its plane are written to
//! files, and another process goes on from these. It is this program again, with the folder of the files as its argument.
//!
//! Ends with status 1 where the plane is not that of a unit which is restored at once.

use std::error::Error;
use std::path::Path;
use std::process::Command;
use std::{env, fs, process};

use gihvendu::{Borders, State, Unit, edges, ns_wiener_single_y_8bpc};

/// 16 by 16 samples with others to their left.
const UNIT: Unit = Unit {
    w: 16,
    h: 16,
    edges: edges::LEFT,
    stride: 16,
    off: 0,
    top_off: 0,
    bottom_off: 0,
};
const BORDERS: Borders<'_> = Borders {
    left: &[90; 6 * 16],
    top: &[],
    bottom: &[],
};
const FILTER: [i8; 16] = [9, -7, 5, 4, -3, 6, 2, -2, 1, 3, -4, 2, 1, -1, 2, 1];
const SKIP: [u16; 16] = [0; 16];
/// The rows before the stop.
const ROWS: usize = 5;

type Answer = Result<(), Box<dyn Error>>;

/// The unit's samples before it is restored.
fn samples() -> Vec<u8> {
    (0..256).map(|i| (90 + i * i % 61) as u8).collect()
}

/// Restores the first rows. The state and the plane outlive the process as files.
fn put_away(folder: &Path) -> Answer {
    let mut plane = samples();
    let mut state = State::open_y(&plane, &UNIT, &BORDERS, &FILTER, &SKIP)?;
    state.advance_y(ROWS, &mut plane, &BORDERS, &FILTER, &SKIP)?;
    fs::write(folder.join("state.txt"), state.to_text()?)?;
    fs::write(folder.join("plane"), plane)?;
    println!("{} of {} rows done", state.rows_done(), state.h());
    Ok(())
}

/// Restores the rest. Lists and filter are lent again, the same as before.
fn take_back(folder: &Path) -> Answer {
    let mut plane = fs::read(folder.join("plane"))?;
    let mut state = State::from_text(&fs::read(folder.join("state.txt"))?)?;
    state.advance_y(usize::MAX, &mut plane, &BORDERS, &FILTER, &SKIP)?;
    fs::write(folder.join("plane"), plane)?;
    println!("{} of {} rows done", state.rows_done(), state.h());
    Ok(())
}

/// Both, in two processes; the plane that they leave.
fn in_two(folder: &Path) -> Result<Vec<u8>, Box<dyn Error>> {
    put_away(folder)?;
    let other = Command::new(env::current_exe()?).arg(folder).status()?;
    if !other.success() {
        return Err(format!("the other process: {other}").into());
    }
    Ok(fs::read(folder.join("plane"))?)
}

fn main() -> Answer {
    if let Some(folder) = env::args_os().nth(1) {
        return take_back(folder.as_ref());
    }
    let folder = env::temp_dir().join(format!("put_away-{}", process::id()));
    fs::create_dir(&folder)?;
    let stopped = in_two(&folder);
    fs::remove_dir_all(&folder)?;

    let mut at_once = samples();
    ns_wiener_single_y_8bpc(&mut at_once, &UNIT, &BORDERS, &FILTER, &SKIP)?;
    if stopped? != at_once {
        return Err("the planes differ".into());
    }
    println!("the same samples as at once");
    Ok(())
}
