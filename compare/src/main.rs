//! Compares the port with the unchanged Rust: the files filter.rs, looprestoration.rs and intops.rs of tealdust.
//!
//! Build (Rust 1.95, nothing is fetched):
//!
//!     TEALDUST_SRC=FOLDER cargo build --release
//!
//! FOLDER has the three files, as NAME.rs, src/NAME.rs or src--src--NAME.rs.txt. They are compiled where they are, with
//! stand-ins for what they import and with their SIMD features off, so that the scalar functions are the reference.
//!
//! To compare with the port as well, through the package in bindings/rust, which wants `rt` or its static library:
//!
//!     TEALDUST_SRC=FOLDER cargo build --release --features linked
//!
//! Run (target/release/compare). From leaves on all but bench print how much was compared and how much differs, and end with
//! status 1 where anything does. The Rust indexes `left` without the left bit and, in kind 0, one luma column too many: it
//! is lent those.
//!
//!     compare vectors SEED COUNT    prints an antt file with COUNT rounds of random units and what the Rust makes of them, to
//!                                   be checked against the definition by computation. A round has a unit of each of the
//!                                   four operations; where there are at most 3, a chroma unit of each pair and kind, and
//!                                   luma planes that the Rust restored unit by unit stand behind them
//!     compare cards SEED FOLDER     writes a corpus of cards, their lengths and the answers expected (cards, lengths, stdout)
//!     compare replay                prints what the Rust makes of the units of the Rattle program replay
//!     compare traps                 prints what the Rust makes of the units of the Rattle program traps
//!     compare skip_sums             prints the skip sum of each pattern of noskip bits, by a second reading, as the Rattle program
//!                                   skip_sums has to
//!     compare state_texts SEED FOLDER
//!                                   writes a corpus of state texts, whole and damaged, their lengths and the answers expected by
//!                                   a second reading (texts, lengths, stdout)
//!     compare leaves SEED COUNT     COUNT random runs of each leaf, the class index also against a second reading of its parts
//!     compare grid SEED             every width, height, set of edge bits, pair, kind and shape of masks as whole units, and
//!                                   the class index of every block, with its parts, and of every pattern of noskip bits
//!     compare units SEED COUNT      COUNT random whole units of each operation, every byte of the plane
//!     compare advances SEED COUNT   COUNT random units of each operation in random lists of advances, refused calls and
//!                                   overwritten rows, against the Rust's one call
//!     compare texts SEED COUNT      COUNT random units of each operation as in advances, put away as text and taken back between any
//!                                   two events; as many forged states, and damaged texts: every byte against a second writing
//!                                   and a second reading
//!     compare planes SEED COUNT     COUNT random luma planes in units of every size, one call by the port, against the Rust unit
//!                                   by unit and a second reading of the rule sample by sample; and the call's refusals
//!     compare refusals SEED COUNT   units and states at the limits of the table and past them, against a second reading of
//!                                   the table
//!     compare differences           the intended differences, each at a smallest input
//!     compare bench                 nanoseconds of the Rust's scalar functions and of the port's; filter runs by small filters, whose
//!                                   numbers are within 21, and by large ones; a plane by one call beside its units
//!     compare bench planes          the last of these alone

#[cfg(feature = "linked")]
mod advances;
#[cfg(feature = "linked")]
mod bench;
#[cfg(feature = "linked")]
mod bench_planes;
#[cfg(feature = "linked")]
mod bench_units;
#[cfg(feature = "linked")]
mod calls;
mod cards;
#[cfg(feature = "linked")]
mod class_parts;
mod corpus;
mod cuts;
mod damaged;
#[cfg(feature = "linked")]
mod differences;
#[cfg(feature = "linked")]
mod disturb;
mod forged;
#[cfg(feature = "linked")]
mod grid;
#[cfg(feature = "linked")]
mod leaves;
mod lines;
#[cfg(feature = "linked")]
mod plane_refusals;
mod plane_vectors;
#[cfg(feature = "linked")]
mod planes;
#[cfg(feature = "linked")]
mod put_away;
mod random;
#[cfg(feature = "linked")]
mod refusals;
mod replay;
#[cfg(feature = "linked")]
mod runs;
mod skip_sums;
#[allow(dead_code)]
mod stand_ins;
mod state_texts;
#[cfg(feature = "linked")]
mod table;
#[cfg_attr(not(feature = "linked"), allow(dead_code))]
mod texts;
mod traps;
#[cfg_attr(not(feature = "linked"), allow(dead_code))]
mod units;
mod vectors;
#[cfg(feature = "linked")]
mod whole;
#[cfg(feature = "linked")]
mod written;

#[cfg(target_arch = "aarch64")]
use stand_ins::neon;
use stand_ins::{exec_context, headers, lf_mask, pixel, rowops_dispatch, tables};

include!(concat!(env!("OUT_DIR"), "/reference.rs"));

fn usage() -> ! {
    eprintln!(
        "usage: compare vectors | leaves | units | advances | texts | planes | refusals SEED COUNT, grid SEED, cards | state_texts SEED FOLDER, replay, traps, skip_sums, differences, bench [planes]"
    );
    std::process::exit(2);
}

fn number<T: std::str::FromStr>(word: &str) -> T {
    word.parse().unwrap_or_else(|_| usage())
}

/// A seed, said again in the output.
#[cfg(feature = "linked")]
fn printed(word: &str) -> u64 {
    let seed = number(word);
    println!("seed {seed}");
    seed
}

#[cfg(feature = "linked")]
fn linked(words: &[&str]) {
    let same = match words {
        ["leaves", seed, count] => leaves::compare(printed(seed), number(count)),
        ["grid", seed] => grid::compare(printed(seed)),
        ["units", seed, count] => whole::compare(printed(seed), number(count)),
        ["advances", seed, count] => advances::compare(printed(seed), number(count)),
        ["texts", seed, count] => put_away::compare(printed(seed), number(count)),
        ["planes", seed, count] => planes::compare(printed(seed), number(count)),
        ["refusals", seed, count] => refusals::compare(printed(seed), number(count)),
        ["differences"] => differences::compare(),
        ["bench"] => {
            bench::run();
            bench_units::run();
            bench_planes::run();
            true
        }
        ["bench", "planes"] => {
            bench_planes::run();
            true
        }
        _ => usage(),
    };
    std::process::exit(i32::from(!same));
}

#[cfg(not(feature = "linked"))]
fn linked(_: &[&str]) {
    eprintln!("this needs the port: build with --features linked");
    usage();
}

fn main() {
    let args: Vec<String> = std::env::args().skip(1).collect();
    let words: Vec<&str> = args.iter().map(String::as_str).collect();
    match words[..] {
        ["vectors", seed, count] => print!("{}", vectors::file(number(seed), number(count))),
        ["cards", seed, folder] => {
            cards::write(number(seed), folder.as_ref()).expect("the folder can be written");
        }
        ["state_texts", seed, folder] => {
            state_texts::write(number(seed), folder.as_ref()).expect("the folder can be written");
        }
        ["replay"] => print!("{}", replay::lines()),
        ["traps"] => print!("{}", traps::lines()),
        ["skip_sums"] => print!("{}", skip_sums::lines()),
        _ => linked(&words),
    }
}
