//! The examples a to m of the scope document, and its sample listing. Example d
//! is the one of the request that quotients round down.

mod common;
use common::*;
use reference::bench::{bench, LISTING};
use reference::calls::{feed, pick, Answer};
use reference::check::check;
use reference::file;
use reference::lane::{Condition, Lane};
use reference::network::{code, Instruction};
use reference::plain::Plain;
use reference::refusal::Refusal;
use reference::relief::{relieve, Relieved};

/// A lane of one process that has done this one instruction.
fn after(i: Instruction, registers: [i32; 8]) -> Lane {
    let mut lane = fresh(&[&[i, STOP]], &[to_outside(0, 1)]);
    lane.processes[0].registers = registers;
    assert_eq!(pick(&mut lane, &mut cells()[..], 0), Ok(Answer::Moved));
    assert_eq!(lane.processes[0].moves, 1);
    lane
}

fn register_0(i: Instruction, registers: [i32; 8]) -> i32 {
    after(i, registers).processes[0].registers[0]
}

#[test]
fn a_set() {
    assert_eq!(register_0(code(1, 0, 255, 255), [0; 8]), -1);
}

#[test]
fn b_sum_wraps() {
    assert_eq!(register_0(code(3, 0, 1, 2), [0, i32::MAX, 1, 0, 0, 0, 0, 0]), i32::MIN);
}

#[test]
fn c_product_wraps() {
    assert_eq!(register_0(code(5, 0, 1, 1), [7, 65_536, 0, 0, 0, 0, 0, 0]), 0);
}

/// Quotient and remainder, in whichever register they go, on a lane and in the
/// plain order.
fn divided(dividend: i32, divisor: i32) -> (i32, i32) {
    let registers = [9, dividend, divisor, 0, 0, 0, 0, 0];
    let result = |op: u8, a: u8| {
        let lane = after(code(op, a, 1, 2), registers);
        let mut plain = Plain::start(&lane.network, &[Vec::new()]);
        plain.processes[0].registers = registers;
        plain.round();
        assert_eq!(plain.processes[0], lane.processes[0], "{dividend} by {divisor}");
        lane.processes[0].registers[usize::from(a)]
    };
    let [quotient, remainder] = [6, 7].map(|op| {
        let results = [0, 1, 2].map(|a| result(op, a));
        assert_eq!(results, [results[0]; 3]);
        results[0]
    });
    (quotient, remainder)
}

#[test]
fn d_quotient_and_remainder() {
    assert_eq!(divided(-7, 2), (-4, 1));
}

/// Worked out by hand.
#[test]
fn quotients_round_down() {
    let least = i32::MIN;
    let cases = [
        ((7, 2), (3, 1)),
        ((-7, 2), (-4, 1)),
        ((7, -2), (-4, -1)),
        ((-7, -2), (3, -1)),
        ((6, -3), (-2, 0)),
        ((-6, 3), (-2, 0)),
        ((0, -5), (0, 0)),
        ((least, 1), (least, 0)),
        ((least, -1), (least, 0)),
        ((least, 2_147_483_647), (-2, 2_147_483_646)),
        ((2_147_483_647, least), (-1, -1)),
    ];
    for ((dividend, divisor), expected) in cases {
        assert_eq!(divided(dividend, divisor), expected, "{dividend} by {divisor}");
    }
}

/// All whole q and r with dividend = divisor × q + r, where r is nearer to zero
/// than the divisor, and zero or of its sign. Such a q lies less than 1 from the
/// exact quotient, so that only a few need to be tried.
fn pairs(dividend: i64, divisor: i64) -> Vec<(i64, i64)> {
    let near = dividend / divisor;
    let tried = (near - 2..=near + 2).map(|q| (q, dividend - divisor * q));
    let fits = |r: i64| r.abs() < divisor.abs() && (r == 0 || (r < 0) == (divisor < 0));
    tried.filter(|&(_, r)| fits(r)).collect()
}

#[test]
fn quotient_and_remainder_are_the_only_pair() {
    let extremes = [i32::MIN, i32::MIN + 1, -65_536, 65_536, i32::MAX - 1, i32::MAX];
    let numbers: Vec<i32> = (-20..=20).chain(extremes).collect();
    for &dividend in &numbers {
        for &divisor in numbers.iter().filter(|&&divisor| divisor != 0) {
            // The one quotient that does not fit 32 bits.
            if (dividend, divisor) != (i32::MIN, -1) {
                let (q, r) = divided(dividend, divisor);
                let expected = pairs(dividend.into(), divisor.into());
                assert_eq!([(q.into(), r.into())], expected[..], "{dividend} by {divisor}");
            }
        }
    }
}

#[test]
fn e_by_zero() {
    for (op, dividend) in [(6, -7), (7, -7), (6, 0), (7, 0), (6, i32::MIN), (7, i32::MIN)] {
        let registers = [9, dividend, 0, 0, 0, 0, 0, 0];
        let lane = after(code(op, 0, 1, 2), registers);
        assert_eq!(lane.processes[0].condition, Condition::Faulted);
        assert_eq!(lane.processes[0].registers, registers);
        assert_eq!(lane.processes[0].position, 0);
        assert!(lane.channels[0].closed);
    }
}

#[test]
fn f_empty_and_open_waits() {
    let mut lane = fresh(&[&[code(11, 3, 0, 1), STOP]], &[from_outside(0, 1)]);
    let before = lane.clone();
    assert_eq!(pick(&mut lane, &mut cells()[..], 0), Ok(Answer::WaitingEmpty(0)));
    assert_eq!(lane, before);
}

#[test]
fn g_empty_and_closed_jumps() {
    let mut lane = fresh(&[&[code(11, 3, 0, 2), STOP, STOP]], &[from_outside(0, 1)]);
    lane.channels[0].closed = true;
    lane.processes[0].registers[3] = 77;
    assert_eq!(pick(&mut lane, &mut cells()[..], 0), Ok(Answer::Moved));
    assert_eq!(lane.processes[0].registers[3], 77);
    assert_eq!(lane.processes[0].position, 2);
}

#[test]
fn h_send_needs_room() {
    let mut lane = fresh(&[&[code(12, 0, 0, 0), code(8, 0, 0, 0)]], &[to_outside(0, 2)]);
    lane.processes[0].registers[0] = 42;
    hold(&mut lane, 0, 1);
    let mut cells = cells();
    assert_eq!(pick(&mut lane, &mut cells[..], 0), Ok(Answer::Moved));
    assert_eq!((lane.channels[0].held, cells[1]), (2, 42));
    assert_eq!(pick(&mut lane, &mut cells[..], 0), Ok(Answer::Moved));
    let before = (lane.clone(), cells.clone());
    assert_eq!(pick(&mut lane, &mut cells[..], 0), Ok(Answer::WaitingFull(0)));
    assert_eq!((lane, cells), before);
}

#[test]
fn i_self_channel_grows() {
    let mut lane = fresh(&[&[code(12, 0, 0, 0), code(8, 0, 0, 0)]], &[channel(0, 0, 1)]);
    hold(&mut lane, 0, 1);
    let mut ring = [99; 3];
    assert_eq!(relieve(&mut lane, &mut ring), Ok(Relieved { length: 1, channel: 0 }));
    assert_eq!(ring, [0, 99, 99]);
    assert_eq!(lane.channels[0].capacity, 2);
    assert_eq!(lane.network.records[0].capacity, 1);
    assert_eq!(lane.accepted, 1);
}

#[test]
fn j_two_empty_waits() {
    let programs: [&[Instruction]; 2] = [&[code(11, 0, 1, 0), STOP], &[code(11, 0, 0, 0), STOP]];
    let mut lane = fresh(&programs, &[channel(0, 1, 1), channel(1, 0, 1)]);
    let before = lane.clone();
    assert_eq!(relieve(&mut lane, &mut []), Err(Refusal::NoRing));
    assert_eq!(lane, before);
}

#[test]
fn k_full_and_empty_wait() {
    let programs: [&[Instruction]; 2] = [&[code(12, 0, 0, 0), STOP], &[code(11, 0, 1, 0), STOP]];
    let mut lane = fresh(&programs, &[channel(0, 1, 2), channel(0, 1, 1)]);
    hold(&mut lane, 0, 2);
    let mut ring = [99; 2];
    assert_eq!(relieve(&mut lane, &mut ring), Ok(Relieved { length: 2, channel: 0 }));
    assert_eq!(ring, [0, 1]);
    assert_eq!(lane.channels[0].capacity, 3);
}

#[test]
fn l_lower_number_on_a_tie() {
    let programs: [&[Instruction]; 2] = [&[code(12, 0, 1, 0), STOP], &[code(12, 0, 0, 0), STOP]];
    let mut lane = fresh(&programs, &[channel(1, 0, 3), channel(0, 1, 3)]);
    hold(&mut lane, 0, 3);
    hold(&mut lane, 1, 3);
    let mut ring = [99; 2];
    assert_eq!(relieve(&mut lane, &mut ring), Ok(Relieved { length: 2, channel: 0 }));
    assert_eq!(ring, [0, 1]);
    assert_eq!((lane.channels[0].capacity, lane.channels[1].capacity), (4, 3));
}

#[test]
fn m_check_of_the_nine_digits() {
    assert_eq!(check(b"123456789"), 0x29B1);
}

#[test]
fn published_checks() {
    assert_eq!(check(b""), 0xFFFF);
    assert_eq!(check(b"A"), 0xB915);
    assert_eq!(check(&[b'A'; 256]), 0xEA0B);
    assert_eq!(check(&[0, 0]), 0x1D0F);
    assert_eq!(check(&[0xFF, 0xFF]), 0);
}

#[test]
fn check_is_the_remainder_of_a_division() {
    // Bit by bit: the start's 16 bits go into the message's first 16.
    let divided = |bytes: &[u8]| {
        let mut rest = 0xFFFF_u32;
        for byte in bytes {
            rest ^= u32::from(*byte) << 8;
            for _ in 0..8 {
                rest <<= 1;
                if rest & 0x1_0000 != 0 {
                    rest ^= 0x1_1021;
                }
            }
        }
        rest as u16
    };
    for first in 0..=255 {
        assert_eq!(check(&[first]), divided(&[first]));
        assert_eq!(check(&[first, 3, first ^ 0x5A]), divided(&[first, 3, first ^ 0x5A]));
    }
}

#[test]
fn sample_listing() {
    let mut listing = vec![7; LISTING + 1];
    let input = records(&[(0, 5), (0, -3)]);
    let length = bench(&file::bytes_of(&sample()), &input, &[0; 10], &mut listing).unwrap();
    let expected = "out 1 10\nout 1 -6\nend 1\nproc 0 stop 10\n";
    assert_eq!(std::str::from_utf8(&listing[..length]), Ok(expected));
    assert!(listing[length..].iter().all(|&byte| byte == 7));
}

#[test]
fn messages_keep_their_order_past_place_255() {
    let mut lane = fresh(&[&[code(11, 0, 0, 0), code(8, 0, 0, 0)]], &[from_outside(0, 3)]);
    let mut cells = cells();
    for value in 0..600 {
        assert_eq!(feed(&mut lane, &mut cells[..], 0, value), Ok(()));
        assert_eq!(cells[value as usize % 256], value);
        assert_eq!(pick(&mut lane, &mut cells[..], 0), Ok(Answer::Moved));
        assert_eq!(lane.processes[0].registers[0], value);
        assert_eq!(pick(&mut lane, &mut cells[..], 0), Ok(Answer::Moved));
    }
    assert_eq!((lane.channels[0].oldest, lane.channels[0].held), (600 % 256, 0));
    assert_eq!(lane.accepted, 600);
    assert!(cells[256..].iter().all(|&cell| cell == 0));
}
