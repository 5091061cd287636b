//! Restores a grey picture as one plane: a binary PGM file in, one out. Without files it restores a test picture, and writes
//! before, after and difference side by side as restore_pgm.png.

mod pgm;
mod png;
mod test_picture;

use gihvendu::{Pieces, PlaneUnits, Refusal, restore_plane};
use pgm::Picture;
use std::ffi::OsString;
use std::iter::Peekable;
use std::path::PathBuf;
use std::process::ExitCode;
use std::{env, fs};

const USAGE: &str = "\
restore_pgm [IN.pgm OUT.pgm] [--filter N N N N N N N N N N N N N N N N] [--unit N] [--difference DIFF.pgm] [--picture FILE.png]

Restores IN.pgm, a binary PGM (P5) of maxval 255 whose sides are multiples of 4 from 4 to 1024, and writes OUT.pgm.
Without these two it restores a test picture.

--filter      the filter: 16 words behind the flag, each a whole number from -128 to 127; mild smoothing if not given
--unit        the unit size, a multiple of 4 from 4 to 64, and 64 if not given; the picture is the same by any
--difference  write how far each sample moved: 0 as black, 1 as dark grey, 25 and more as white
--picture     write before, after and difference side by side; of the test picture restore_pgm.png if not given";

/// A sample gets 56/128 of its old value, 12/128 of each of the four above, below and beside it, and 6/128 of each of the four
/// at its corners: noise goes, and edges blur a little. What a tap adds of its two samples it takes from the centre, so flat
/// parts stay. (docs/SCOPE.md, 'One sample': taps 0, 1, 4 and 5 are these neighbours; all others reach further, and are 0.)
const MILD: [i8; 16] = [12, 12, 0, 0, 6, 6, 0, 0, 0, 0, 0, 0, 0, 0, 0, 0];

/// White columns between two parts of the picture file.
const GAP: [u8; 8] = [255; 8];

/// What the words of the command ask for.
#[derive(Debug, PartialEq)]
struct Asked {
    files: Option<(PathBuf, PathBuf)>,
    filter: [i8; 16],
    unit: usize,
    difference: Option<PathBuf>,
    picture: Option<PathBuf>,
}

impl Asked {
    fn read(words: impl IntoIterator<Item = OsString>) -> Result<Asked, String> {
        let mut words = words.into_iter().peekable();
        let mut files = Vec::new();
        let mut asked = Asked {
            files: None,
            filter: MILD,
            unit: PlaneUnits::UNIT_LIMIT,
            difference: None,
            picture: None,
        };
        while let Some(word) = words.next() {
            let mut behind = || {
                let missing = || format!("nothing stands behind {}", word.display());
                words.next().ok_or_else(missing)
            };
            match word.to_str() {
                Some("--filter") => asked.filter = filter(&mut words)?,
                Some("--unit") => asked.unit = unit(&behind()?)?,
                Some("--difference") => asked.difference = Some(behind()?.into()),
                Some("--picture") => asked.picture = Some(behind()?.into()),
                Some(flag) if flag.starts_with('-') => return Err(format!("{flag} is no flag")),
                _ => files.push(PathBuf::from(word)),
            }
        }
        asked.files = match <[PathBuf; 2]>::try_from(files) {
            Ok([input, output]) => Some((input, output)),
            Err(none) if none.is_empty() => None,
            Err(files) => {
                return Err(format!(
                    "IN.pgm and OUT.pgm are two files, and not {}",
                    files.len()
                ));
            }
        };
        if asked.files.is_none() {
            asked
                .picture
                .get_or_insert_with(|| "restore_pgm.png".into());
        }
        Ok(asked)
    }
}

/// The numbers behind --filter. All whole numbers that follow count, so that one too many is told as such.
fn filter(words: &mut Peekable<impl Iterator<Item = OsString>>) -> Result<[i8; 16], String> {
    let number = |word: &OsString| word.to_str()?.parse::<i128>().ok();
    let mut numbers = Vec::new();
    while let Some(number) = words.peek().and_then(number) {
        words.next();
        let off = |_| format!("the filter has {number}, which is not from -128 to 127");
        numbers.push(i8::try_from(number).map_err(off)?);
    }
    let count = |numbers: Vec<i8>| {
        format!(
            "--filter has {} whole numbers behind it, and not 16",
            numbers.len()
        )
    };
    numbers.try_into().map_err(count)
}

fn unit(word: &OsString) -> Result<usize, String> {
    let limit = PlaneUnits::UNIT_LIMIT;
    let size = word.to_str().and_then(|word| word.parse::<usize>().ok());
    size.filter(|size| size.is_multiple_of(4) && (4..=limit).contains(size))
        .ok_or_else(|| {
            format!(
                "the unit size is {}, and not a multiple of 4 from 4 to {limit}",
                word.display()
            )
        })
}

/// Restores what is asked for, writes the files and tells what was done. Nothing is written before all is made.
fn run(asked: &Asked) -> Result<(), String> {
    let before = input(asked)?;
    let units = PlaneUnits {
        unit: asked.unit,
        ..PlaneUnits::all(before.w, before.h)
    };
    let (after, pieces) =
        restored(&before, &units, &asked.filter).map_err(|refusal| refusal.to_string())?;
    let changes: Vec<u8> = zipped(&before, &after)
        .map(|(old, new)| old.abs_diff(new))
        .collect();
    let difference = Picture {
        samples: changes.iter().copied().map(stretched).collect(),
        ..before
    };

    let mut made = Vec::new();
    if let Some((_, path)) = &asked.files {
        made.push((path, pgm::write(&after)));
    }
    if let Some(path) = &asked.difference {
        made.push((path, pgm::write(&difference)));
    }
    if let Some(path) = &asked.picture {
        made.push((path, side_by_side([&before, &after, &difference])));
    }
    for (path, file) in &made {
        fs::write(path, file).map_err(|e| format!("{} cannot be written: {e}", path.display()))?;
    }

    let name = match &asked.files {
        Some((path, _)) => path.display().to_string(),
        None => "a test picture".into(),
    };
    let (w, h, unit, total) = (units.w, units.h, units.unit, units.total());
    println!("picture: {name}, {w} by {h} samples");
    println!("filter: {:?}", asked.filter);
    println!("restored: {total} units of {unit} by {unit} or less, {pieces} pieces");
    let changed = changes.iter().filter(|change| **change > 0).count();
    let most = changes.iter().max().unwrap_or(&0);
    println!(
        "changed: {changed} of {} samples, by {most} at most",
        changes.len()
    );
    if asked.files.is_none() {
        let shapes = test_picture::without_noise();
        let [old, new] = [&before, &after].map(|picture| squared_error(picture, &shapes));
        println!(
            "mean squared error against the test picture without noise: {old:.1} before, {new:.1} after"
        );
    }
    for (path, _) in &made {
        println!("wrote: {}", path.display());
    }
    Ok(())
}

/// The picture that is asked for.
fn input(asked: &Asked) -> Result<Picture, String> {
    let Some((path, _)) = &asked.files else {
        return Ok(test_picture::with_noise());
    };
    let file = fs::read(path).map_err(|e| format!("{} cannot be read: {e}", path.display()))?;
    pgm::read(&file).map_err(|what| format!("{}: {what}", path.display()))
}

/// The picture after the one call that all this is about, and the pieces.
fn restored(
    before: &Picture,
    units: &PlaneUnits,
    filter: &[i8],
) -> Result<(Picture, Pieces), Refusal> {
    let mut after = before.clone();
    let skip = vec![0; units.skip_len()]; // no block is masked
    let mut scratch = vec![0; units.scratch_len()];
    let pieces = restore_plane(&mut after.samples, units, filter, &skip, &mut scratch)?;
    Ok((after, pieces))
}

/// The samples of two pictures, place by place.
fn zipped(a: &Picture, b: &Picture) -> impl Iterator<Item = (u8, u8)> {
    a.samples.iter().copied().zip(b.samples.iter().copied())
}

fn squared_error(a: &Picture, b: &Picture) -> f64 {
    let squares = zipped(a, b).map(|(a, b)| f64::from(a.abs_diff(b)).powi(2));
    squares.sum::<f64>() / a.samples.len() as f64
}

/// The grey level for a change, so that a change of 1 is seen: 64 for it, 8 more for each further one, and 255 from 25 on.
/// No change is black.
fn stretched(change: u8) -> u8 {
    match change {
        0 => 0,
        _ => change.saturating_mul(8).saturating_add(56),
    }
}

/// A PNG file of three pictures of one size.
fn side_by_side(pictures: [&Picture; 3]) -> Vec<u8> {
    let Picture { w, h, .. } = *pictures[0];
    let row = |y: usize| pictures.map(|p| &p.samples[y * w..][..w]).join(&GAP[..]);
    let samples: Vec<u8> = (0..h).flat_map(row).collect();
    png::write(3 * w + 2 * GAP.len(), h, &samples)
}

fn main() -> ExitCode {
    let words: Vec<OsString> = env::args_os().skip(1).collect();
    if words.iter().any(|word| word == "--help") {
        println!("{USAGE}");
        return ExitCode::SUCCESS;
    }
    let asked = Asked::read(words).map_err(|what| format!("{what}\n\n{USAGE}"));
    match asked.and_then(|asked| run(&asked)) {
        Ok(()) => ExitCode::SUCCESS,
        Err(what) => {
            eprintln!("restore_pgm: {what}");
            ExitCode::FAILURE
        }
    }
}

#[cfg(test)]
mod tests {
    use super::{
        Asked, MILD, Picture, PlaneUnits, pgm, restored, run, side_by_side, squared_error,
        stretched, test_picture, zipped,
    };
    use std::fs;
    use std::path::PathBuf;

    fn asked(words: &str) -> Result<Asked, String> {
        Asked::read(words.split_whitespace().map(Into::into))
    }

    #[test]
    fn words() {
        let none = asked("").unwrap();
        assert_eq!((none.files, none.filter, none.unit), (None, MILD, 64));
        assert_eq!(
            (none.difference, none.picture),
            (None, Some("restore_pgm.png".into()))
        );

        let all = "--unit 8 a --filter 1 -2 3 4 5 6 7 8 9 10 11 12 13 -128 127 +0 b --picture p --difference d";
        let all = asked(all).unwrap();
        assert_eq!(all.files, Some(("a".into(), "b".into())));
        assert_eq!(
            all.filter,
            [1, -2, 3, 4, 5, 6, 7, 8, 9, 10, 11, 12, 13, -128, 127, 0]
        );
        assert_eq!(
            (all.unit, all.difference, all.picture),
            (8, Some("d".into()), Some("p".into()))
        );
        assert_eq!(asked("a b").unwrap().picture, None);
    }

    /// What is wrong is told by a word or number of its own.
    #[test]
    fn words_refused() {
        for (words, told) in [
            ("a", "not 1"),
            ("a b c", "not 3"),
            ("a b --quiet", "--quiet"),
            ("-u 8", "-u"),
            ("--unit", "behind --unit"),
            ("--difference", "behind --difference"),
            ("a b --picture", "behind --picture"),
            ("--unit 0", "is 0"),
            ("--unit 6", "is 6"),
            ("--unit 68", "is 68"),
            ("--unit -4", "is -4"),
            ("--unit 8x", "is 8x"),
            ("--filter", "0 whole numbers"),
            (
                "--filter 1,2,3,4,5,6,7,8,9,10,11,12,13,14,15,16",
                "0 whole numbers",
            ),
            (
                "--filter 1 2 3 4 5 6 7 8 9 10 11 12 13 14 15 --unit 8",
                "15 whole numbers",
            ),
            (
                "--filter 1 2 3 4 5 6 7 8 9 10 11 12 13 14 15 16 17",
                "17 whole numbers",
            ),
            (
                "--filter 1 2 3 4.5 5 6 7 8 9 10 11 12 13 14 15 16",
                "3 whole numbers",
            ),
            ("--filter 1 128", "128"),
            ("--filter -129", "-129"),
        ] {
            let what = asked(words).unwrap_err();
            assert!(what.contains(told), "{words}: {what}");
        }
    }

    /// A folder that is removed with what it holds.
    struct Folder(PathBuf);

    impl Folder {
        fn new(name: &str) -> Folder {
            let folder =
                std::env::temp_dir().join(format!("restore_pgm_{name}_{}", std::process::id()));
            fs::create_dir(&folder).unwrap();
            Folder(folder)
        }
    }

    impl Drop for Folder {
        fn drop(&mut self) {
            let _ = fs::remove_dir_all(&self.0);
        }
    }

    /// A run from a file `in` that holds this to the files `out`, `difference` and `picture`.
    fn run_on(folder: &Folder, file: &[u8]) -> Result<(), String> {
        let path = |name: &str| folder.0.join(name);
        fs::write(path("in"), file).unwrap();
        run(&Asked {
            files: Some((path("in"), path("out"))),
            filter: MILD,
            unit: 4,
            difference: Some(path("difference")),
            picture: Some(path("picture")),
        })
    }

    /// One light sample on black: 100 × 56/128, beside it 100 × 12/128 and at its corners 100 × 6/128, rounded.
    #[test]
    fn files() {
        let folder = Folder::new("files");
        let mut before = Picture {
            w: 8,
            h: 8,
            samples: vec![0; 64],
        };
        let mut after = before.clone();
        before.samples[3 * 8 + 4] = 100;
        for (row, samples) in [(2, [5, 9, 5]), (3, [9, 44, 9]), (4, [5, 9, 5])] {
            after.samples[row * 8 + 3..][..3].copy_from_slice(&samples);
        }
        let mut difference = after.clone();
        for sample in &mut difference.samples {
            *sample = [0, 96, 128, 255][[0, 5, 9, 44].iter().position(|s| s == sample).unwrap()];
        }
        run_on(&folder, &pgm::write(&before)).unwrap();
        let read = |name: &str| fs::read(folder.0.join(name)).unwrap();
        assert_eq!(pgm::read(&read("out")), Ok(after.clone()));
        assert_eq!(pgm::read(&read("difference")), Ok(difference.clone()));
        assert_eq!(
            read("picture"),
            side_by_side([&before, &after, &difference])
        );
    }

    #[test]
    fn no_file_where_refused() {
        let folder = Folder::new("refused");
        for header in [
            "P5 8 4 255\n",
            "P5 6 4 255\n",
            "P2 8 4 255\n",
            "P5 8 4 15\n",
        ] {
            let file = [header.as_bytes(), &[0; 31]].concat();
            let what = run_on(&folder, &file).unwrap_err();
            assert!(what.contains("in: "), "{what}");
            assert_eq!(fs::read_dir(&folder.0).unwrap().count(), 1, "{header}");
        }
    }

    /// From a change to the next the grey level rises, by the most from none to one.
    #[test]
    fn stretching() {
        assert_eq!(
            [0, 1, 2, 24, 25, 255].map(stretched),
            [0, 64, 72, 248, 255, 255]
        );
    }

    /// Of the test picture's noise more than half is gone, and docs/restore_pgm.png is what is written today.
    #[test]
    fn test_picture_restored() {
        let (shapes, before) = (test_picture::without_noise(), test_picture::with_noise());
        let units = PlaneUnits::all(before.w, before.h);
        let (after, _) = restored(&before, &units, &MILD).unwrap();
        assert!(squared_error(&after, &shapes) * 2.0 < squared_error(&before, &shapes));

        let changes = zipped(&before, &after).map(|(old, new)| stretched(old.abs_diff(new)));
        let difference = Picture {
            samples: changes.collect(),
            ..before
        };
        let kept = concat!(env!("CARGO_MANIFEST_DIR"), "/../../docs/restore_pgm.png");
        let written = side_by_side([&before, &after, &difference]);
        assert!(
            fs::read(kept).unwrap() == written,
            "write it anew, by --picture"
        );
    }
}
