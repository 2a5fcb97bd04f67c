//! Demand 3 on random lanes: whatever the capacities and the order of the
//! calls, a lane sends a beginning of what the plain order sends, and at rest
//! it agrees with it.

use reference::board::{Board, Leanings};
use reference::calls::pick;
use reference::file::bytes_of;
use reference::lane::{Process, Wait, CELLS};
use reference::network::Network;
use reference::plain::Plain;
use reference::plans;
use reference::random::Random;

/// A fresh lane after calls in any order, with any arguments.
fn after_any_calls<'a>(random: &mut Random, network: &Network, input: &'a [Vec<i32>]) -> Board<'a> {
    let cells = Box::new([(); CELLS].map(|()| random.bits() as i32));
    let mut board = Board::new(network, input, cells);
    let leanings = Leanings::any(random);
    for _ in 0..random.below(500) {
        board.any_call(random, &leanings);
        if random.percent(2) {
            // Cells of a wrong length.
            let short = random.below(CELLS);
            let answer = pick(&mut board.lane, &mut board.cells[..short], 0);
            assert!(answer.is_err());
        }
    }
    board
}

/// Tries to bring the lane to rest.
fn settle(board: &mut Board, most: usize) {
    for _ in 0..most {
        if !board.lap() {
            return;
        }
    }
}

fn is_at_rest(board: &Board) -> bool {
    let lane = &board.lane;
    let rests = |process: usize| {
        lane.has_ended(process) || matches!(lane.wait(process), Some(Wait::Empty(_)))
    };
    board.has_all_input() && (0..usize::from(lane.network.processes)).all(rests)
}

/// Holds the board against the plain order after at least as many rounds as
/// picks moved.
fn compare(board: &Board, network: &Network, input: &[Vec<i32>], more: u64) {
    let mut plain = Plain::start(network, input);
    for _ in 0..board.moves {
        plain.round();
    }
    compare_now(board, &plain);
    for _ in 0..more {
        plain.round();
    }
    compare_now(board, &plain);
}

fn compare_now(board: &Board, plain: &Plain) {
    for (channel, stream) in plain.streams.iter().enumerate() {
        assert!(board.sent[channel].starts_with(&board.taken[channel]));
        assert!(stream.sent.starts_with(&board.sent[channel]));
    }
    if is_at_rest(board) {
        for (channel, stream) in plain.streams.iter().enumerate() {
            assert_eq!(board.sent[channel], stream.sent);
        }
        assert_eq!(processes(board), &plain.processes[..]);
    }
}

fn processes<'a>(board: &'a Board) -> &'a [Process] {
    &board.lane.processes[..usize::from(board.lane.network.processes)]
}

/// The same network with other capacities.
fn other_capacities(random: &mut Random, network: &Network) -> Network {
    let mut other = network.clone();
    for record in &mut other.records[..usize::from(network.channels)] {
        record.capacity = random.one(&[1, 2, 3, 7, 100, 256]);
    }
    // The files differ at most in the capacities and in block 0's check.
    let (one, two) = (bytes_of(network), bytes_of(&other));
    assert_eq!(one.len(), two.len());
    for at in (0..one.len()).filter(|&at| one[at] != two[at]) {
        assert!((72..200).contains(&at) && at % 4 >= 2 || at == 510 || at == 511);
    }
    other
}

#[test]
fn any_spare_fits_any_lane() {
    let random = &mut Random::new(3);
    let (mut at_rest, mut both_at_rest, mut in_bursts) = (0, 0, 0);
    let mut refused = [0; 18];
    for _ in 0..600 {
        let network = plans::lane(random);
        let input: Vec<Vec<i32>> = (0..network.channels)
            .map(|_| (0..random.below(30)).map(|_| random.value()).collect())
            .collect();
        let networks = [other_capacities(random, &network), network];
        let mut rests = Vec::new();
        for network in &networks {
            let mut board = after_any_calls(random, network, &input);
            compare(&board, network, &input, random.below(50) as u64);
            settle(&mut board, 400);
            compare(&board, network, &input, random.below(50) as u64);
            in_bursts += board.in_bursts;
            for (count, more) in refused.iter_mut().zip(board.refused) {
                *count += more;
            }
            if is_at_rest(&board) {
                rests.push((board.sent.clone(), processes(&board).to_vec()));
            }
        }
        at_rest += rests.len();
        if let [one, other] = &rests[..] {
            assert_eq!(one, other);
            both_at_rest += 1;
        }
    }
    // The lists were worth trying.
    println!("{at_rest} boards at rest, {both_at_rest} pairs; refused {refused:?}");
    assert!(at_rest > 200 && both_at_rest > 100, "{at_rest} {both_at_rest}");
    assert!(in_bursts > 1_000, "{in_bursts}");
    assert!(refused[8..16].iter().all(|&count| count > 0), "{refused:?}");
    assert_eq!(refused[16], 0);
}
