//! Refusals 8 to 17, the order of their tests, and that they change nothing.

mod common;
use common::*;
use reference::bench::{bench, LISTING};
use reference::calls::{close, feed, pick, take, Answer, Taken};
use reference::file::bytes_of;
use reference::lane::{Condition, Lane};
use reference::network::{code, Instruction, Network};
use reference::refusal::Refusal;
use reference::relief::{relieve, Relieved};
use reference::schedule::{drive, run, Ran};

/// Channels: 0 in, 1 out, 2 from 0 to 1, 3 from 1 to itself. Process 0 passes
/// on from 0 to 2, process 1 from 2 to 1.
fn lane() -> Lane {
    let programs: [&[Instruction]; 2] = [
        &[code(11, 0, 0, 3), code(12, 0, 2, 0), code(8, 0, 0, 0), STOP],
        &[code(11, 0, 2, 3), code(12, 0, 1, 0), code(8, 0, 0, 0), STOP],
    ];
    fresh(&programs, &[from_outside(0, 1), to_outside(1, 1), channel(0, 1, 1), channel(1, 1, 1)])
}

/// The refusal of a call, and that lane and cells are as they came.
fn refusal<T: std::fmt::Debug + PartialEq>(
    lane: &Lane,
    call: impl FnOnce(&mut Lane, &mut [i32]) -> Result<T, Refusal>,
) -> u8 {
    refusal_with(lane, 8_192, call)
}

fn refusal_with<T: std::fmt::Debug + PartialEq>(
    lane: &Lane,
    cells: usize,
    call: impl FnOnce(&mut Lane, &mut [i32]) -> Result<T, Refusal>,
) -> u8 {
    let mut after = lane.clone();
    let before: Vec<i32> = (0..cells as i32).collect();
    let mut cells = before.clone();
    let number = call(&mut after, &mut cells).expect_err("a refusal").number();
    assert_eq!(&after, lane);
    assert_eq!(cells, before);
    number
}

#[test]
fn refusal_8_absent() {
    let lane = lane();
    for process in [2, 3, 16, 255, 256, 258, usize::MAX] {
        assert_eq!(refusal(&lane, |l, c| pick(l, c, process)), 8);
    }
    for channel in [4, 31, 32, 255, 256, 260, usize::MAX] {
        assert_eq!(refusal(&lane, |l, c| feed(l, c, channel, 1)), 8);
        assert_eq!(refusal(&lane, |l, _| close(l, channel)), 8);
        assert_eq!(refusal(&lane, |l, c| take(l, c, channel)), 8);
    }
}

#[test]
fn refusal_8_in_a_run_comes_before_its_first_pick() {
    let mut lane = lane();
    assert_eq!(feed(&mut lane, &mut cells()[..], 0, 1), Ok(())); // a pick of 0 would move
    for byte in [2, 3, 16, 254] {
        assert_eq!(refusal(&lane, |l, c| run(l, c, &[0, 1, 255, byte])), 8);
    }
    assert_eq!(run(&mut lane, &mut cells()[..], &[]), Ok(Ran { moved: 0, enlarged: 0 }));
}

#[test]
fn refusal_9_inside() {
    let lane = lane();
    for channel in [1, 2, 3] {
        assert_eq!(refusal(&lane, |l, c| feed(l, c, channel, 1)), 9);
        assert_eq!(refusal(&lane, |l, _| close(l, channel)), 9);
    }
    for channel in [0, 2, 3] {
        assert_eq!(refusal(&lane, |l, c| take(l, c, channel)), 9);
    }
}

#[test]
fn refusals_10_and_11() {
    let mut lane = lane();
    assert_eq!(feed(&mut lane, &mut cells()[..], 0, 1), Ok(()));
    assert_eq!(refusal(&lane, |l, c| feed(l, c, 0, 1)), 10);
    assert_eq!(close(&mut lane, 0), Ok(()));
    assert_eq!(refusal(&lane, |l, c| feed(l, c, 0, 1)), 11);
    assert_eq!(refusal(&lane, |l, _| close(l, 0)), 11);
    assert_eq!(lane.accepted, 2);
}

#[test]
fn refusal_12_and_the_end() {
    let mut lane = lane();
    let mut cells = cells();
    assert_eq!(refusal(&lane, |l, c| take(l, c, 1)), 12);
    lane.channels[1].closed = true;
    hold(&mut lane, 1, 1);
    cells[256] = -5;
    assert_eq!(take(&mut lane, &cells[..], 1), Ok(Taken::Value(-5)));
    for _ in 0..3 {
        assert_eq!(take(&mut lane, &cells[..], 1), Ok(Taken::End));
    }
    assert_eq!(lane.accepted, 4);
    assert_eq!((lane.channels[1].oldest, lane.channels[1].held), (1, 0));
}

#[test]
fn refusals_13_14_and_15_of_relief() {
    let lane = lane();
    assert_eq!(refusal(&lane, |l, _| relieve(l, &mut [])), 13);
    let programs: [&[Instruction]; 1] = [&[code(12, 0, 0, 0), code(8, 0, 0, 0)]];
    let mut ceiling = fresh(&programs, &[channel(0, 0, 256)]);
    hold(&mut ceiling, 0, 256);
    assert_eq!(refusal(&ceiling, |l, _| relieve(l, &mut [])), 14);
    ceiling.channels[0].capacity = 255;
    hold(&mut ceiling, 0, 255);
    assert_eq!(refusal(&ceiling, |l, _| relieve(l, &mut [])), 15);
    assert_eq!(relieve(&mut ceiling, &mut [0]), Ok(Relieved { length: 1, channel: 0 }));
    assert_eq!(ceiling.channels[0].capacity, 256);
}

#[test]
fn relief_writes_nothing_where_the_buffer_is_short() {
    let programs: [&[Instruction]; 2] = [&[code(12, 0, 0, 0), STOP], &[code(12, 0, 1, 0), STOP]];
    let mut lane = fresh(&programs, &[channel(0, 1, 1), channel(1, 0, 1)]);
    hold(&mut lane, 0, 1);
    hold(&mut lane, 1, 1);
    let mut buffer = [77];
    assert_eq!(refusal(&lane, |l, _| relieve(l, &mut buffer)), 15);
    assert_eq!(buffer, [77]);
}

#[test]
fn relief_passes_over_a_ring_at_its_ceiling() {
    // Process 0 on a full self-channel of 256, process 2 on one of 5.
    let program = |channel| vec![code(12, 0, channel, 0), STOP];
    let network =
        Network::of(&[program(0), vec![STOP], program(1)], &[channel(0, 0, 256), channel(2, 2, 5)]);
    let mut lane = Lane::fresh(network);
    hold(&mut lane, 0, 256);
    hold(&mut lane, 1, 5);
    let mut ring = [9; 1]; // just as long as the ring
    assert_eq!(relieve(&mut lane, &mut ring), Ok(Relieved { length: 1, channel: 1 }));
    assert_eq!(ring, [2]);
}

#[test]
fn refusal_15_cells_comes_first() {
    let mut unsound = lane();
    hold(&mut unsound, 0, 2);
    for lane in [&lane(), &unsound] {
        for cells in [0, 8_191, 8_193] {
            assert_eq!(refusal_with(lane, cells, |l, c| pick(l, c, 99)), 15);
            assert_eq!(refusal_with(lane, cells, |l, c| feed(l, c, 99, 1)), 15);
            assert_eq!(refusal_with(lane, cells, |l, c| take(l, c, 99)), 15);
            assert_eq!(refusal_with(lane, cells, |l, c| run(l, c, &[99])), 15);
            assert_eq!(refusal_with(lane, cells, |l, c| drive(l, c, 0)), 15);
        }
    }
}

#[test]
fn refusal_16_unsound() {
    let edits: [fn(&mut Lane); 25] = [
        |l| l.network.processes = 17,
        |l| l.network.records[1].capacity = 257,
        |l| l.network.code[3].op = 14,
        |l| l.processes[0].position = 4,
        |l| l.processes[1].position = u16::MAX,
        |l| hold(l, 0, 2),
        |l| (l.channels[0].held, l.channels[0].peak) = (2, 1),
        |l| l.channels[0].held = 1,
        |l| l.channels[0].peak = 2,
        |l| l.channels[1].capacity = 0,
        |l| l.channels[1].capacity = 257,
        |l| l.channels[1].oldest = 256,
        |l| l.processes[0].condition = Condition::Stopped, // channel 2 is open
        |l| {
            l.processes[0].condition = Condition::Faulted;
            l.channels[2].closed = true;
            hold(l, 0, 1);
        },
        |l| l.processes[2].registers[7] = 1,
        |l| l.processes[2].position = 1,
        |l| l.processes[15].condition = Condition::Stopped,
        |l| l.processes[15].moves = 1,
        |l| l.channels[4].capacity = 1,
        |l| l.channels[31].oldest = 1,
        |l| l.channels[31].held = 1,
        |l| l.channels[4].peak = 1,
        |l| l.channels[31].peak = 1,
        |l| l.channels[31].closed = true,
        |l| l.network.slots[2].first = 8,
    ];
    for edit in edits {
        let mut lane = lane();
        edit(&mut lane);
        assert!(!lane.is_sound());
        assert_eq!(refusal(&lane, |l, c| pick(l, c, 99)), 16);
        assert_eq!(refusal(&lane, |l, c| feed(l, c, 99, 1)), 16);
        assert_eq!(refusal(&lane, |l, _| close(l, 99)), 16);
        assert_eq!(refusal(&lane, |l, c| take(l, c, 99)), 16);
        assert_eq!(refusal(&lane, |l, _| relieve(l, &mut [])), 16);
        assert_eq!(refusal(&lane, |l, c| run(l, c, &[99])), 16);
        assert_eq!(refusal(&lane, |l, c| drive(l, c, 0)), 16);
    }
}

#[test]
fn sound_lanes_that_look_odd() {
    let edits: [fn(&mut Lane); 8] = [
        |l| l.accepted = u64::MAX,
        |l| l.processes[0].moves = u64::MAX,
        |l| l.channels[0].oldest = 255,
        |l| l.channels[0].capacity = 256,
        |l| l.channels[0].closed = true,
        |l| l.channels[0].peak = 1, // though nothing was ever fed
        |l| hold(l, 0, 1),
        |l| {
            // Ended though not at a stop.
            l.processes[0].condition = Condition::Stopped;
            l.channels[2].closed = true;
            hold(l, 2, 1);
        },
    ];
    for edit in edits {
        let mut lane = lane();
        edit(&mut lane);
        assert!(lane.is_sound());
    }
}

#[test]
fn counters_stay_at_their_largest() {
    let mut lane = lane();
    lane.accepted = u64::MAX;
    lane.processes[0].moves = u64::MAX;
    let mut cells = cells();
    assert_eq!(feed(&mut lane, &mut cells[..], 0, 1), Ok(()));
    assert_eq!(pick(&mut lane, &mut cells[..], 0), Ok(Answer::Moved));
    assert_eq!((lane.accepted, lane.processes[0].moves), (u64::MAX, u64::MAX));
}

#[test]
fn an_ending_process_closes_and_empties() {
    let programs: [&[Instruction]; 2] = [&[STOP], &[code(12, 0, 0, 0), code(8, 0, 0, 0)]];
    let channels = [channel(1, 0, 2), channel(0, 1, 2), channel(0, 0, 2), from_outside(0, 2)];
    let mut lane = fresh(&programs, &channels);
    for number in 0..4 {
        hold(&mut lane, number, 2);
        lane.channels[number].oldest = 7;
    }
    let mut cells = cells();
    assert_eq!(pick(&mut lane, &mut cells[..], 0), Ok(Answer::Moved));
    assert_eq!(pick(&mut lane, &mut cells[..], 0), Ok(Answer::Ended));
    let state = |channel: usize| (lane.channels[channel].held, lane.channels[channel].closed);
    assert_eq!(
        [state(0), state(1), state(2), state(3)],
        [(0, false), (2, true), (0, true), (0, false)]
    );
    assert!(lane.channels[..4].iter().all(|channel| channel.oldest == 7));
    assert_eq!((lane.processes[0].moves, lane.processes[0].position), (1, 0));
    // What is sent to it now is not stored, and never waits.
    for _ in 0..10 {
        assert_eq!(pick(&mut lane, &mut cells[..], 1), Ok(Answer::Moved));
        assert_eq!(feed(&mut lane, &mut cells[..], 3, 8), Ok(()));
    }
    assert_eq!((lane.channels[0].held, lane.channels[3].held, lane.accepted), (0, 0, 10));
    assert!(cells.iter().all(|&cell| cell == 0));
    assert_eq!(close(&mut lane, 3), Ok(()));
    assert_eq!(feed(&mut lane, &mut cells[..], 3, 8), Err(Refusal::Closed));
}

#[test]
fn a_closed_channel_faults_full_or_not() {
    for op in [12, 13] {
        for held in [0, 1] {
            let program = [code(op, 0, 0, 0), STOP];
            let mut lane = fresh(&[&program], &[to_outside(0, 1)]);
            lane.channels[0].closed = true;
            hold(&mut lane, 0, held);
            assert_eq!(pick(&mut lane, &mut cells()[..], 0), Ok(Answer::Moved));
            assert_eq!(lane.processes[0].condition, Condition::Faulted);
            assert_eq!(lane.channels[0].held, held);
        }
    }
}

#[test]
fn run_passes_over_refused_relief() {
    let mut lane = fresh(&[&[code(12, 0, 0, 0), code(8, 0, 0, 0)]], &[channel(0, 0, 1)]);
    let picks = [255, 0, 0, 0, 255, 0, 0, 0, 255, 255];
    assert_eq!(run(&mut lane, &mut cells()[..], &picks), Ok(Ran { moved: 4, enlarged: 3 - 1 }));
    assert_eq!((lane.channels[0].capacity, lane.accepted), (3, 2));
}

#[test]
fn bench_refusals_in_order() {
    let file = bytes_of(&lane().network);
    let answer = |file: &[u8], input: &[u8], picks: &[u8], listing: usize| {
        let mut buffer = vec![7; listing];
        let answer = bench(file, input, picks, &mut buffer);
        assert!(answer.is_ok() || buffer.iter().all(|&byte| byte == 7));
        answer.map_err(Refusal::number)
    };
    let record = records(&[(0, 1)]);
    let full = record.repeat(4_096);
    let long = record.repeat(4_097);
    let ok = |answer: Result<usize, u8>| assert!(answer.is_ok());
    ok(answer(&file, &full, &[0; 3_000], LISTING));
    ok(answer(&file, &[], &[], LISTING));
    assert_eq!(answer(&[], &long, &[9; 3_001], LISTING - 1), Err(15));
    assert_eq!(answer(&[], &long, &[9; 3_001], 0), Err(15));
    assert_eq!(answer(&[], &long, &[9; 3_001], LISTING), Err(1));
    assert_eq!(answer(&file, &long, &[9], LISTING), Err(17));
    assert_eq!(answer(&file, &record[..4], &[9], LISTING), Err(17));
    assert_eq!(answer(&file, &full[..20_479], &[], LISTING), Err(17));
    for channel in [1, 2, 3, 4, 31, 32, 255] {
        let input = [record.clone(), records(&[(channel, 1)])].concat();
        assert_eq!(answer(&file, &input, &[], LISTING), Err(17));
    }
    assert_eq!(answer(&file, &[], &[0; 3_001], LISTING), Err(17));
    assert_eq!(answer(&file, &[], &[9; 3_001], LISTING), Err(17));
    for byte in [2, 3, 254] {
        assert_eq!(answer(&file, &record, &[0, 255, byte], LISTING), Err(8));
    }
}

fn listing(network: &Network, input: &[(u8, i32)], picks: &[u8]) -> String {
    let mut buffer = vec![0; LISTING];
    let length = bench(&bytes_of(network), &records(input), picks, &mut buffer).unwrap();
    String::from_utf8(buffer[..length].to_vec()).unwrap()
}

#[test]
fn bench_lines() {
    // Nothing happens without a pick byte; relief feeds, closes and empties too.
    let lane = sample();
    assert_eq!(listing(&lane, &[(0, 5)], &[]), "proc 0 empty 0\n");
    assert_eq!(listing(&lane, &[(0, 5)], &[255]), "proc 0 run 0\n");
    assert_eq!(listing(&lane, &[], &[0]), "proc 0 run 1\n");
    assert_eq!(listing(&lane, &[], &[0, 0]), "end 1\nproc 0 stop 2\n");
    let least = [(0, i32::MIN)];
    assert_eq!(listing(&lane, &least, &[0, 0, 0]), "out 1 0\nproc 0 run 3\n");
    // A process that fills its own channel, and a relief that lets it go on.
    let filler = Network::of(&[vec![code(12, 0, 0, 0), code(8, 0, 0, 0)]], &[channel(0, 0, 1)]);
    assert_eq!(listing(&filler, &[], &[0, 0, 0]), "proc 0 full 2\n");
    assert_eq!(listing(&filler, &[], &[0, 0, 0, 255, 255]), "grow 0 2\nproc 0 run 2\n");
    let fault = Network::of(&[vec![code(6, 0, 0, 0), STOP]], &[to_outside(0, 1), to_outside(0, 1)]);
    assert_eq!(listing(&fault, &[], &[0, 0]), "end 0\nend 1\nproc 0 fault 1\n");
}
