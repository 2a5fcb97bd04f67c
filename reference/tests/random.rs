//! The generators: the same seed gives the same case and the same scripts, and
//! what should be met is met.

use reference::bench::{bench_watched, Watch, LISTING};
use reference::calls::Answer;
use reference::coverage::{Coverage, Picks};
use reference::gen::{case, following};
use reference::lane::Lane;
use reference::network::{code, Network, Record, OUTSIDE};
use reference::plans::largest;
use reference::replay::Replay;
use reference::scripts::Scripts;
use std::collections::BTreeMap;
use std::path::{Path, PathBuf};

/// A folder of this test's own.
fn folder(test: &str) -> PathBuf {
    let folder = Path::new(env!("CARGO_TARGET_TMPDIR")).join(test);
    std::fs::create_dir_all(&folder).unwrap();
    folder
}

#[test]
fn cases_can_be_repeated() {
    let mut seed = 42;
    for _ in 0..200 {
        assert_eq!(case(seed), case(seed));
        assert_ne!(case(seed), case(following(seed)));
        seed = following(seed);
    }
}

#[test]
fn lanes_meet_every_case() {
    let mut answers = BTreeMap::new();
    let mut coverage = Coverage::default();
    let mut seed = 7;
    for _ in 0..4_000 {
        let case = case(seed);
        let mut listing = vec![0; case.listing];
        let answer =
            bench_watched(&case.file, &case.input, &case.picks, &mut listing, &mut coverage);
        coverage.count(answer.map(|length| &listing[..length]));
        *answers.entry(answer.err().map(|refusal| refusal.number())).or_insert(0) += 1;
        assert!(answer.is_ok() || case.listing < LISTING || !listing.iter().any(|&byte| byte != 0));
        seed = following(seed);
    }
    println!("{coverage}");
    for number in [1, 2, 3, 4, 5, 6, 7, 8, 15, 17] {
        assert!(
            answers.get(&Some(number)).is_some_and(|&count| count >= 20),
            "{number}: {answers:?}"
        );
    }
    assert!(answers[&None] > 2_000);
    assert_eq!(coverage.missing(), Vec::<String>::new());
}

/// Divisions are counted where they show how a quotient is rounded.
#[test]
fn divisions_are_counted_by_their_signs() {
    let counted = |op: u8, dividend: i32, divisor: i32| {
        let program = vec![code(op, 0, 1, 2), code(0, 0, 0, 0)];
        let out = Record { sender: 0, receiver: OUTSIDE, capacity: 1 };
        let mut lane = Lane::fresh(Network::of(&[program], &[out]));
        lane.processes[0].registers[1..3].copy_from_slice(&[dividend, divisor]);
        let mut picks = Picks::default();
        picks.picking(&lane, 0);
        picks.picked(Answer::Moved);
        let start = ["divide: ", "remainder: "][usize::from(op) - 6];
        let met = picks.counts().into_iter().filter(|&(_, count)| count > 0);
        met.filter_map(|(name, _)| name.strip_prefix(start).map(str::to_string)).collect()
    };
    let cases: [(&[(i32, i32)], &[&str]); 5] = [
        (&[(-7, 2), (i32::MIN, i32::MAX)], &["negative by positive, with a remainder"]),
        (&[(7, -2), (i32::MAX, i32::MIN)], &["positive by negative, with a remainder"]),
        (&[(-7, -2), (-1, i32::MIN)], &["both negative, with a remainder"]),
        (&[(6, -3), (-6, 3), (i32::MIN, 2)], &["signs differ, a multiple"]),
        (&[(7, 2), (6, 3), (-6, -3), (0, -5), (5, -1), (-5, 1), (i32::MIN, -1), (-7, 0)], &[]),
    ];
    for (divisions, names) in cases {
        for &(dividend, divisor) in divisions {
            for op in [6, 7] {
                let met: Vec<String> = counted(op, dividend, divisor);
                assert_eq!(met, names, "{dividend} by {divisor}");
            }
        }
    }
}

#[test]
fn the_largest_lane() {
    let network = largest(1);
    assert!(network.fits());
    assert_eq!((network.processes, network.channels, network.total()), (16, 32, 1_016));
}

#[test]
fn scripts_can_be_repeated() {
    let folder = folder("repeated");
    let texts = |seed| -> Vec<String> {
        let mut scripts = Scripts::new(seed, &folder);
        (0..30).map(|_| scripts.script().unwrap()).collect()
    };
    assert_eq!(texts(42), texts(42));
    assert_ne!(texts(42), texts(43));
}

/// A script starts anew, whatever stands before it in its batch.
#[test]
fn scripts_do_not_hang_on_one_another() {
    let folder = folder("batches");
    let mut scripts = Scripts::new(3, &folder);
    let texts: Vec<String> = (0..40).map(|_| scripts.script().unwrap()).collect();
    let printed = |script: &str| {
        let mut out = Vec::new();
        Replay::new(&folder).play(script.as_bytes(), &mut out).unwrap();
        String::from_utf8(out).unwrap()
    };
    let alone: Vec<String> = texts.iter().map(|text| printed(text)).collect();
    assert_eq!(printed(&texts.concat()), alone.concat());
    for (text, printed) in texts.iter().zip(alone) {
        assert_eq!(text.lines().count(), printed.lines().count());
    }
}

#[test]
fn scripts_meet_every_case() {
    let folder = folder("cases");
    let mut scripts = Scripts::new(2, &folder);
    for _ in 0..1_000 {
        scripts.script().unwrap();
    }
    assert_eq!(scripts.missing(), Vec::<String>::new());
}
