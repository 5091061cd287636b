//! Units and planes and what the Rust makes of them, as an antt file that compares them with the definition by computation.

use std::fmt::Write;
use std::ops::Range;

use crate::plane_vectors;
use crate::random::Random;
use crate::units::{OPERATIONS, Operation, Spacing, Unit};

const HEAD: &str = "\
use Rattle.std.specs.Prelude.{Bool, true, false, ◌&&◌, List, [], ◌∷◌, ◌≡◌, refl, ℕ, zero, suc, ◌+◌, ◌*◌, ◌/◌, ◌%◌, eqb, ℤ, pos, negsuc}
use Rattle.definition.specs.declared.Operation.{Operation}
use Rattle.definition.specs.declared.Operation.TheVariants.{Luma, User, Pretrained, Chroma}
use Rattle.definition.specs.declared.Given.{Given}
use Rattle.definition.specs.Numbers.{sum_z, sum_n}
use Rattle.definition.specs.Rows.{tab}
use Rattle.definition.specs.Sample.{rounded}
use Rattle.definition.specs.ClassIndex.{term, bin, feature, skip_sum, bins_of, index_of}
use Rattle.definition.specs.Units.{Lent, sample_at, luma_at, class_of, final_sample}
use Rattle.definition.specs.Planes.{padded_in, skip_bit, final_in, across, unit_number, plane_after, piece_at, plane_pieces}

record Vector : Type 0 where
  op : Operation
  given : Given
  lent : Lent
  plane : List ℕ
  -- the rectangle after the unit was restored, row by row
  expected : List ℕ

-- the map that the reference is run with, from entry k on and whole
map_from : ℕ → ℕ → List ℕ
map_from zero k = []
map_from (suc n) k = (k * 37 + k / 64) % 64 ∷ map_from n (suc k)

class_map : List ℕ
class_map = map_from 4096 0

same : List ℕ → List ℕ → Bool
same [] [] = true
same [] (y ∷ ys) = false
same (x ∷ xs) [] = false
same (x ∷ xs) (y ∷ ys) = eqb x y && same xs ys

final : Operation → Given → Lent → List ℕ → List ℕ
final op g l plane = tab (g.w * g.h) (λ i. final_sample g l plane op (i / g.w) (i % g.w))

holds : Vector → Bool
holds v = same (final v.op v.given v.lent v.plane) v.expected
";

/// The definition's own names that the computation goes through.
const UNFOLDED: &str =
    "sum_z sum_n rounded term bin feature skip_sum bins_of index_of sample_at luma_at class_of final_sample";

/// A line `name = items;` of a record, broken into further lines where it is long.
pub(crate) fn field<T>(
    out: &mut String,
    indent: &str,
    name: &str,
    items: &[T],
    show: impl Fn(&T) -> String,
) {
    let _ = write!(out, "{indent}{name} =");
    let mut column = 0;
    for item in items {
        let item = show(item);
        column += item.len() + 3;
        if column > 150 {
            let _ = write!(out, "\n{indent}   ");
            column = item.len() + 3;
        }
        let _ = write!(out, " {item} ∷");
    }
    let _ = writeln!(out, " [];");
}

pub(crate) fn integer(v: i64) -> String {
    if v < 0 {
        format!("negsuc {}", -(v + 1))
    } else {
        format!("pos {v}")
    }
}

fn write_unit(out: &mut String, k: usize, u: &Unit, expected: &[u8]) {
    let (op, classed) = match u.op {
        Operation::Luma => ("Luma", false),
        Operation::User => ("User", true),
        Operation::Pretrained => ("Pretrained", true),
        Operation::Chroma => ("Chroma", false),
    };
    let _ = writeln!(out, "\nunit{k} : Vector\nunit{k} = record {{\n  op = {op};");
    let _ = writeln!(out, "  given = record {{");
    for (name, number) in [
        ("w", u.w),
        ("h", u.h),
        ("edges", u.edges),
        ("stride", u.stride),
        ("luma_stride", u.luma_stride),
        ("off", u.off),
        ("top_off", u.top_off),
        ("bottom_off", u.bottom_off),
        ("luma_off", u.luma_off),
        ("luma_top_off", u.luma_top_off),
        ("luma_bottom_off", u.luma_bottom_off),
        ("ss_hor", u.ss_hor),
        ("ss_ver", u.ss_ver),
        ("kind", u.kind),
    ] {
        let _ = writeln!(out, "    {name} = {number};");
    }
    let _ = writeln!(out, "  }};\n  lent = record {{");
    for (name, bytes) in [
        ("left", &u.left),
        ("top", &u.top),
        ("bottom", &u.bottom),
        ("luma_plane", &u.luma_plane),
        ("luma_top", &u.luma_top),
        ("luma_bottom", &u.luma_bottom),
    ] {
        field(out, "    ", name, bytes, u8::to_string);
    }
    field(out, "    ", "skip", &u.skip, u16::to_string);
    field(out, "    ", "noskip", &u.noskip, u16::to_string);
    let map = if classed { "class_map" } else { "[]" };
    let _ = writeln!(out, "    map = {map};");
    field(out, "    ", "subclass", &u.subclass, u8::to_string);
    field(out, "    ", "filters", &u.filters, |&c| integer(c));
    let _ = writeln!(out, "    q = {};\n  }};", integer(i64::from(u.q)));
    field(out, "  ", "plane", &u.plane, u8::to_string);
    field(out, "  ", "expected", expected, u8::to_string);
    let _ = writeln!(out, "}}");
}

/// Up to so many rounds are planned, so that they have a bit of everything; more are drawn.
const FEW: usize = 3;

/// Horizontal and vertical subsampling, and the kind.
type Sampling = (usize, usize, usize);

/// The units of a planned round. Chroma has each pair, and each kind under the one pair where kinds differ; under the others a
/// kind that would mix rows.
const PLAN: [(Operation, Sampling); 8] = [
    (Operation::Luma, (0, 0, 0)),
    (Operation::User, (0, 0, 0)),
    (Operation::Pretrained, (0, 0, 0)),
    (Operation::Chroma, (0, 0, 0)),
    (Operation::Chroma, (1, 0, 1)),
    (Operation::Chroma, (1, 1, 0)),
    (Operation::Chroma, (1, 1, 1)),
    (Operation::Chroma, (1, 1, 2)),
];

/// The edge bits at a place of a planned round: saved rows above and below, integrated ones, then a mix. Left and right differ
/// from round to round.
fn varied_edges(r: &mut Random, round: usize, place: usize) -> u8 {
    let beside = (place as u8 % 4) ^ [0, 3, 1][round];
    beside
        | match round {
            0 => 12,
            1 => 48 | (r.below(4) as u8) << 2,
            _ => [0, 36, 24, 24, 36, 0, 4, 8][place],
        }
}

/// The unit under another pair and kind. They may want luma rows that are not lent: those are zeros, as the definition has
/// them.
fn resampled(u: &Unit, (ss_hor, ss_ver, kind): Sampling) -> Unit {
    let room = 32 * (u.luma_stride + 1);
    let widened = |bytes: &[u8]| [&vec![0; room], bytes, &vec![0; room]].concat();
    Unit {
        luma_off: u.luma_off + room,
        luma_top_off: u.luma_top_off + room,
        luma_bottom_off: u.luma_bottom_off + room,
        luma_plane: widened(&u.luma_plane),
        luma_top: widened(&u.luma_top),
        luma_bottom: widened(&u.luma_bottom),
        ss_hor,
        ss_ver,
        kind,
        ..u.clone()
    }
}

/// The unit with other bytes in one of the places that its border is taken from, for each of them: a list, or rows of a plane
/// outside the unit.
fn other_borders(u: &Unit) -> Vec<Unit> {
    type Bytes = fn(&mut Unit) -> &mut Vec<u8>;
    let (plane, luma) = (u.plane.len(), u.luma_plane.len());
    let (luma_start, luma_end) = (u.luma_off, u.luma_off + (u.h << u.ss_ver) * u.luma_stride);
    let above = |start: usize, len: usize| 0..if u.edges & 16 != 0 { start.min(len) } else { 0 };
    let below = |end: usize, len: usize| if u.edges & 32 != 0 { end.min(len) } else { len }..len;
    let places: [(Bytes, Range<usize>); 8] = [
        (|u| &mut u.left, 0..u.left.len()),
        (|u| &mut u.top, 0..u.top.len()),
        (|u| &mut u.bottom, 0..u.bottom.len()),
        (|u| &mut u.plane, below(u.off + u.h * u.stride, plane)),
        (|u| &mut u.luma_top, 0..u.luma_top.len()),
        (|u| &mut u.luma_bottom, 0..u.luma_bottom.len()),
        (|u| &mut u.luma_plane, above(luma_start, luma)),
        (|u| &mut u.luma_plane, below(luma_end, luma)),
    ];
    let changed = |(bytes, range): (Bytes, Range<usize>)| {
        let mut other = u.clone();
        bytes(&mut other)[range].iter_mut().for_each(|b| *b = !*b);
        other
    };
    let used = places.into_iter().filter(|(_, range)| !range.is_empty());
    used.map(changed).collect()
}

/// Whether the unit's samples say something of all that they are made of: the Rust changes one, and it gives others with each
/// other border and under each other pair and kind of the plan. Else blocks may be masked, or the filter is weak.
fn tells(u: &Unit) -> bool {
    let restored = |u: &Unit| u.rectangle(&u.restored());
    let (own, expected) = ((u.ss_hor, u.ss_ver, u.kind), restored(u));
    let samplings = PLAN
        .into_iter()
        .filter(|&(op, other)| op == u.op && other != own)
        .map(|(_, other)| resampled(u, other));
    let mut others = other_borders(u).into_iter().chain(samplings);
    expected != u.rectangle(&u.plane) && others.all(|other| restored(&other) != expected)
}

/// The unit at a place of a planned round. It is not square, so that w and h are told apart. Blocks are masked in half of the
/// mix only: else the whole border counts.
fn planned(r: &mut Random, round: usize, place: usize) -> Unit {
    let (op, sampling) = PLAN[place];
    let spacing = Spacing {
        room: 4,
        first: 1,
        subsampling: Some(sampling),
        ..Spacing::default()
    };
    loop {
        let edges = varied_edges(r, round, place);
        let (w, h) = [(4, 8), (8, 4)][r.below(2)];
        let unit = Unit::spaced(r, op, edges, w, h, spacing);
        let masked = unit.pieces(0..h) < w / 4 * h;
        if masked == (round == 2 && place % 2 == 1) && tells(&unit) {
            return unit;
        }
    }
}

/// So many rounds of units.
fn units(seed: u64, count: usize) -> Vec<Unit> {
    let r = &mut Random::new(seed);
    let mut units = Vec::new();
    for round in 0..count {
        if count <= FEW {
            units.extend((0..PLAN.len()).map(|place| planned(r, round, place)));
        } else {
            units.extend(OPERATIONS.map(|op| {
                let edges = r.below(64) as u8;
                Unit::random(r, op, edges)
            }));
        }
    }
    units
}

/// An antt file with `count` rounds of units and, where these are planned, planes behind them. Each unit and each plane has a
/// proof of its own: antt stops one at 50 million steps.
pub(crate) fn file(seed: u64, count: usize) -> String {
    let mut out = format!(
        "-- What the reference makes of random units, beside what the definition says: every sample of each unit's rectangle.\n\
         -- Proofs that antt computes. Made by `compare vectors {seed} {count}`.\n\
         {HEAD}"
    );
    for (k, unit) in units(seed, count).iter().enumerate() {
        let expected = unit.rectangle(&unit.restored());
        write_unit(&mut out, k, unit, &expected);
        let _ = write!(
            out,
            "\nunit{k}-holds : holds unit{k} ≡ true\n\
             unfolding holds final same map_from class_map unit{k} {UNFOLDED}\n\
             unit{k}-holds = refl\n"
        );
    }
    if count <= FEW {
        out += &plane_vectors::planes(seed);
    }
    out
}
