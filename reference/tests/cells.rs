//! A message goes to its cell, and no other cell changes.

use reference::calls::{feed, pick, take, Answer};
use reference::lane::{Lane, CELLS};
use reference::network::OUTSIDE;
use reference::plans;
use reference::random::Random;

#[test]
fn only_the_cell_of_the_message_changes() {
    let random = &mut Random::new(21);
    let mut laid = 0;
    for _ in 0..60 {
        let network = plans::lane(random);
        let channels = usize::from(network.channels);
        let processes = usize::from(network.processes);
        let mut lane = Lane::fresh(network);
        let mut cells: Vec<i32> = (0..CELLS).map(|_| random.bits() as i32).collect();
        // Places near the last one, so that they are counted round.
        for channel in &mut lane.channels[..channels] {
            channel.oldest = random.one(&[0, 3, 250, 254, 255]);
        }
        for _ in 0..600 {
            let before = lane.clone();
            let mut expected = cells.clone();
            let mut lay = |channel: usize, value: i32| {
                let state = before.channels[channel];
                let place = usize::from(state.oldest) + usize::from(state.held);
                expected[256 * channel + place % 256] = value;
                laid += 1;
            };
            let stored = |channel: usize| !before.is_unheard(channel as u8);
            if random.percent(70) {
                let process = random.below(processes);
                let i = before.instruction(process);
                let answer = pick(&mut lane, &mut cells, process).unwrap();
                let channel = usize::from(i.b);
                let sends = i.op == 12 && !before.channels[channel].closed && stored(channel);
                if answer == Answer::Moved && sends {
                    lay(channel, before.processes[process].registers[usize::from(i.a)]);
                }
                if answer != Answer::Moved {
                    assert_eq!(lane, before);
                }
            } else {
                let channel = random.below(channels);
                let value = random.value();
                let accepted = feed(&mut lane, &mut cells, channel, value).is_ok();
                if accepted && stored(channel) {
                    lay(channel, value);
                }
                if lane.network.records[channel].receiver == OUTSIDE {
                    let _ = take(&mut lane, &cells, channel);
                }
            }
            assert_eq!(cells, expected);
        }
    }
    assert!(laid > 1_000, "{laid}");
}
