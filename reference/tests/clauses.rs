//! The edits that make a lane unsound: each breaks one part of the sentence
//! "Sound means", or of what request 6 adds to it, and no other, and each part is
//! broken. Only held above the capacity cannot be so alone: then the peak is below
//! what is held, or above the capacity too.

use reference::clauses::clauses;
use reference::lane::{Channel, Condition, Lane, Process, CELLS};
use reference::plans;
use reference::random::Random;
use reference::schedule::run;
use std::collections::BTreeSet;

/// The part that is never broken alone.
const HELD: &str = "held at most capacity";

/// The parts of the sentence that do not hold. The others are about processes
/// and channels that a network which does not pass need not have.
fn broken(lane: &Lane) -> Vec<&'static str> {
    if !lane.network.fits() {
        return vec!["the network passes the file's rules"];
    }
    let processes = usize::from(lane.network.processes);
    let channels = usize::from(lane.network.channels);
    let ended =
        |end: u8| end != 255 && lane.processes[usize::from(end)].condition != Condition::Live;
    let used = || lane.channels[..channels].iter().zip(&lane.network.records);
    let position =
        |number: usize| lane.processes[number].position < lane.network.slots[number].count;
    let parts = [
        ("positions are below the counts", (0..processes).all(position)),
        (HELD, used().all(|(channel, _)| channel.held <= channel.capacity)),
        ("peak at least held", used().all(|(channel, _)| channel.peak >= channel.held)),
        ("peak at most capacity", used().all(|(channel, _)| channel.peak <= channel.capacity)),
        ("capacity 1 to 256", used().all(|(channel, _)| (1..=256).contains(&channel.capacity))),
        ("oldest at most 255", used().all(|(channel, _)| channel.oldest <= 255)),
        ("a sender that ended has closed", used().all(|(c, ends)| !ended(ends.sender) || c.closed)),
        (
            "a receiver that ended holds 0",
            used().all(|(c, ends)| !ended(ends.receiver) || c.held == 0),
        ),
        (
            "entries beyond P and C are zero",
            lane.processes[processes..].iter().all(|process| *process == Process::default())
                && lane.channels[channels..].iter().all(|channel| *channel == Channel::default()),
        ),
    ];
    parts.into_iter().filter(|(_, holds)| !holds).map(|(part, _)| part).collect()
}

#[test]
fn each_breaks_one_part() {
    let random = &mut Random::new(17);
    let clauses = clauses();
    let names: BTreeSet<&str> = clauses.iter().map(|clause| clause.name.as_str()).collect();
    assert_eq!(names.len(), clauses.len());
    let (mut met, mut parts) = (BTreeSet::new(), BTreeSet::new());
    for _ in 0..600 {
        let mut lane = Lane::fresh(plans::lane(random));
        let picks: Vec<u8> = (0..lane.network.processes).cycle().take(random.below(400)).collect();
        run(&mut lane, &mut [0; CELLS], &picks).unwrap();
        assert_eq!(broken(&lane), Vec::<&str>::new());
        for clause in &clauses {
            let Some(edit) = clause.broken(random, &lane) else { continue };
            let mut edited = lane.clone();
            edited.edit(edit);
            let broken = broken(&edited);
            let count = if broken.contains(&HELD) { 2 } else { 1 };
            assert_eq!(broken.len(), count, "{}: {edit}, {broken:?}", clause.name);
            met.insert(clause.name.as_str());
            parts.insert(broken);
        }
    }
    assert_eq!(met, names);
    // Nine alone, and the one with each of two others.
    assert_eq!(parts.len(), 9 + 2, "{parts:?}");
}
