//! Restores the 4 by 4 luma unit of the card in docs/SCOPE.md, and prints what the card's answer holds.

use gihvendu::{Borders, Unit, ns_wiener_single_y_8bpc};

fn main() {
    let mut plane = [
        10, 10, 10, 10, 20, 20, 20, 20, 40, 40, 40, 40, 80, 80, 80, 80,
    ];
    let unit = Unit {
        w: 4,
        h: 4,
        stride: 4,
        ..Unit::default()
    };
    let filter = [64, 0, 0, 0, 0, 0, 0, 0, 0, 0, 0, 0, 0, 0, 0, 0];
    let skip = [0; 4];
    let answer = ns_wiener_single_y_8bpc(&mut plane, &unit, &Borders::default(), &filter, &skip);
    println!(
        "status={}",
        answer.map_or_else(|refusal| refusal.number(), |_| 0)
    );
    println!("filtered={}", answer.unwrap_or(0));
    if answer.is_ok() {
        for [a, b, c, d] in plane.as_chunks::<4>().0 {
            println!("row={a:02x}{b:02x}{c:02x}{d:02x}");
        }
    }
}
