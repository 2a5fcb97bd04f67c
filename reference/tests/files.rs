//! Reading and writing lane files: refusals 1 to 7, each with its place.

mod common;
use common::*;
use reference::file::{bytes_of, mend, read, write, BLOCK, CHECKED};
use reference::gen;
use reference::network::{code, Instruction, Network, Record, OUTSIDE};
use reference::plans;
use reference::random::Random;
use reference::refusal::{Misfit, Refusal};

/// The answer to these bytes, as number and place.
fn refused(bytes: &[u8]) -> Option<(u8, usize)> {
    read(bytes).err().map(|Misfit { refusal, place }| (refusal.number(), place))
}

/// The answer after these bytes are written and the checks mended.
fn changed(file: &[u8], changes: &[(usize, u8)]) -> Option<(u8, usize)> {
    let mut file = file.to_vec();
    for &(at, byte) in changes {
        file[at] = byte;
    }
    mend(&mut file);
    refused(&file)
}

/// Three processes of 100, 27 and 5 instructions, five channels, two code
/// blocks.
fn lane_file() -> Vec<u8> {
    bytes_of(&network())
}

fn network() -> Network {
    let program = |count| vec![STOP; count];
    let channels = [
        from_outside(0, 1),
        channel(0, 1, 2),
        channel(1, 2, 256),
        channel(2, 2, 3),
        to_outside(2, 4),
    ];
    Network::of(&[program(100), program(27), program(5)], &channels)
}

#[test]
fn refusal_1_lengths() {
    for length in (0..6_000).chain([512 * 20, 65_536]) {
        let good = length % 512 == 0 && (2..=9).contains(&(length / 512));
        let number = refused(&vec![0; length]);
        assert_eq!(number == Some((1, 0)), !good, "{length}");
    }
}

#[test]
fn every_number_of_blocks_is_read() {
    for blocks in 1..=8 {
        for total in [127 * blocks - 126, 127 * blocks] {
            let programs: Vec<_> = (0..16).map(|p| vec![STOP; (total + p) / 16]).collect();
            let programs: Vec<_> =
                programs.into_iter().filter(|program| !program.is_empty()).collect();
            let network = Network::of(&programs, &[from_outside(0, 1)]);
            let file = bytes_of(&network);
            assert_eq!(file.len(), 512 * (blocks + 1));
            assert_eq!(read(&file), Ok(network));
        }
    }
}

#[test]
fn refusal_2_every_byte_is_checked() {
    let file = lane_file();
    assert_eq!(refused(&file), None);
    for at in 0..file.len() {
        for bit in 0..8 {
            let mut file = file.clone();
            file[at] ^= 1 << bit;
            assert_eq!(refused(&file), Some((2, at / BLOCK)));
        }
    }
}

#[test]
fn refusal_2_first_block_comes_first_and_before_3() {
    let mut file = lane_file();
    file[BLOCK + 9] ^= 1;
    file[2 * BLOCK + 9] ^= 1;
    assert_eq!(refused(&file), Some((2, 1)));
    let mut file = lane_file();
    file[3] = 17;
    mend(&mut file);
    file[2 * BLOCK + CHECKED] ^= 1;
    assert_eq!(refused(&file), Some((2, 2)));
}

#[test]
fn refusal_3_header() {
    let file = lane_file();
    for byte in 0..=255 {
        for (at, good) in [(0, 0x4C), (1, 0x4E), (2, 1), (5, 2)] {
            let expected = (byte != good).then_some((3, at));
            assert_eq!(changed(&file, &[(at, byte)]), expected);
        }
        for (at, most) in [(3, 16), (4, 32)] {
            let out_of_range = !(1..=most).contains(&byte);
            assert_eq!(changed(&file, &[(at, byte)]) == Some((3, at)), out_of_range);
        }
    }
    assert_eq!(changed(&file, &[(5, 9), (4, 33), (8, 1)]), Some((3, 4)));
    assert_eq!(changed(&file, &[(5, 9), (8, 1)]), Some((3, 5)));
}

#[test]
fn refusal_4_slots() {
    let file = lane_file();
    assert_eq!(changed(&file, &[(9, 1)]), Some((4, 0)));
    assert_eq!(changed(&file, &[(8, 1)]), Some((4, 0)));
    assert_eq!(changed(&file, &[(11, 0)]), Some((4, 0)));
    assert_eq!(changed(&file, &[(10, 1), (11, 1)]), Some((4, 0))); // 257
    assert_eq!(changed(&file, &[(11, 101)]), Some((4, 1)));
    assert_eq!(changed(&file, &[(13, 99)]), Some((4, 1)));
    assert_eq!(changed(&file, &[(13, 101)]), Some((4, 1)));
    assert_eq!(changed(&file, &[(15, 0)]), Some((4, 1)));
    assert_eq!(changed(&file, &[(17, 126)]), Some((4, 2)));
    assert_eq!(changed(&file, &[(18, 1), (19, 1)]), Some((4, 2)));
    assert_eq!(changed(&file, &[(19, 0)]), Some((4, 2)));
    assert_eq!(changed(&file, &[(3, 4)]), Some((4, 3))); // slot 3 is zero
    assert_eq!(changed(&file, &[(19, 0), (11, 101)]), Some((4, 1)));
}

#[test]
fn refusal_4_blocks_do_not_suit_the_total() {
    let file = lane_file();
    // 127 and 255 instructions with two blocks; 128 and 254 suit.
    let last_count =
        |count: u8| changed(&file, &[(14, 0), (15, count - 105), (16, 0), (17, count - 5)]);
    assert_eq!(last_count(127), Some((4, 16)));
    assert_eq!(last_count(128), None);
    assert_eq!(last_count(254), None);
    assert_eq!(last_count(255), Some((4, 16)));
    // The place is 16 with 16 processes too.
    let mut file = bytes_of(&Network::of(&vec![vec![STOP; 8]; 16], &[from_outside(0, 1)]));
    file.resize(4 * BLOCK, 0);
    assert_eq!(changed(&file, &[(5, 3), (3 * BLOCK + 509, 3)]), Some((4, 16)));
    assert_eq!(changed(&file, &[(5, 3), (8 + 4 * 15 + 3, 0)]), Some((4, 15)));
}

#[test]
fn refusal_5_records() {
    let file = lane_file();
    for record in 0..5 {
        let at = 72 + 4 * record;
        let expected = Some((5, record));
        for end in 3..=254 {
            assert_eq!(changed(&file, &[(at, end)]), expected);
            assert_eq!(changed(&file, &[(at + 1, end)]), expected);
        }
        assert_eq!(changed(&file, &[(at, OUTSIDE), (at + 1, OUTSIDE)]), expected);
        assert_eq!(changed(&file, &[(at + 2, 0), (at + 3, 0)]), expected);
        assert_eq!(changed(&file, &[(at + 2, 1), (at + 3, 1)]), expected); // 257
        assert_eq!(changed(&file, &[(at + 2, 255), (at + 3, 255)]), expected);
        assert_eq!(changed(&file, &[(at + 2, 1), (at + 3, 0)]), None); // 256
        assert_eq!(changed(&file, &[(at + 2, 0), (at + 3, 1)]), None);
    }
    assert_eq!(changed(&file, &[(4, 6)]), Some((5, 5))); // record 5 is zero
    assert_eq!(changed(&file, &[(6, 1), (84, 99), (80, 99)]), Some((5, 2)));
}

#[test]
fn refusal_6_every_zero_byte() {
    let file = lane_file();
    let used = |at: usize| match at {
        0..=5 => true,
        8..=19 => true,             // three slots
        72..=91 => true,            // five records
        512..=1_019 => true,        // 127 instructions
        1_024..=1_043 => true,      // the last five
        _ => at % BLOCK >= CHECKED, // checks
    };
    let numbers = [1_021, 1_533]; // the block numbers' second bytes
    for at in (0..file.len()).filter(|&at| !used(at)) {
        for byte in [1, 3, 128, 255] {
            let expected = (file[at] != byte).then_some((6, at));
            assert_eq!(changed(&file, &[(at, byte)]), expected);
        }
        assert_eq!(changed(&file, &[(at, 0)]).is_some(), numbers.contains(&at));
    }
}

#[test]
fn refusal_6_places_rise() {
    let file = lane_file();
    assert_eq!(changed(&file, &[(7, 1), (20, 1)]), Some((6, 7)));
    assert_eq!(changed(&file, &[(92, 1), (71, 1)]), Some((6, 71)));
    assert_eq!(changed(&file, &[(509, 1), (199, 1)]), Some((6, 199)));
    assert_eq!(changed(&file, &[(1_021, 2), (1_044, 1)]), Some((6, 1_021)));
    assert_eq!(changed(&file, &[(1_020, 1), (1_021, 2)]), Some((6, 1_020)));
    assert_eq!(changed(&file, &[(1_532, 1), (1_531, 1)]), Some((6, 1_531)));
    assert_eq!(changed(&file, &[(1_533, 1), (512, 99)]), Some((6, 1_533))); // before 7
}

/// Process 1 has ten instructions behind process 0's three; its sixth is this.
fn with(i: Instruction) -> Option<(u8, usize)> {
    let channels = [
        channel(0, 1, 1),
        channel(1, 0, 1),
        from_outside(1, 1),
        to_outside(1, 1),
        channel(1, 1, 1),
    ];
    let network = Network::of(&[vec![STOP; 3], vec![STOP; 10]], &channels);
    let at = BLOCK + 4 * 8;
    let fields = [i.op, i.a, i.b, i.c];
    changed(
        &bytes_of(&network),
        &[(at, fields[0]), (at + 1, fields[1]), (at + 2, fields[2]), (at + 3, fields[3])],
    )
}

#[test]
fn refusal_7_fields() {
    // For each op, whether each field is zero, a register, free, a target, an
    // incoming or an outgoing channel.
    let kinds = [
        "zzz", "rff", "rrz", "rrr", "rrr", "rrr", "rrr", "rrr", "zzt", "rzt", "rzt", "rit", "roz",
        "zoz",
    ];
    let good = |kind: u8, field: u8| match kind {
        b'z' => field == 0,
        b'r' => field < 8,
        b't' => field < 10,
        b'i' => [0, 2, 4].contains(&field),
        b'o' => [1, 3, 4].contains(&field),
        _ => true,
    };
    for (op, kinds) in kinds.iter().enumerate() {
        let kinds = kinds.as_bytes();
        let base: Vec<u8> =
            kinds.iter().map(|&kind| (0..=255).find(|&f| good(kind, f)).unwrap()).collect();
        for field in 0..3 {
            for byte in 0..=255 {
                let mut fields = base.clone();
                fields[field] = byte;
                let expected = (!good(kinds[field], byte)).then_some((7, 8));
                let instruction = code(op as u8, fields[0], fields[1], fields[2]);
                assert_eq!(with(instruction), expected, "{instruction:?}");
            }
        }
    }
    for op in 14..=255 {
        assert_eq!(with(code(op, 0, 0, 0)), Some((7, 8)));
    }
}

#[test]
fn refusal_7_last_instruction() {
    let last_of = |i: Instruction| {
        let network = Network::of(&[vec![STOP; 3], vec![STOP; 2]], &[channel(0, 0, 1)]);
        let at = BLOCK + 8;
        let file = bytes_of(&network);
        let second = changed(&file, &[(at + 8, 1)]);
        assert_eq!(second, Some((7, 4)));
        changed(&file, &[(at, i.op), (at + 1, i.a), (at + 2, i.b), (at + 3, i.c)])
    };
    for op in 1..14 {
        // The self-channel makes all of these right but for their place.
        assert_eq!(last_of(code(op, 0, 0, 0)), (op != 8).then_some((7, 2)));
    }
    assert_eq!(last_of(code(8, 0, 0, 2)), None);
    assert_eq!(last_of(code(8, 0, 0, 3)), Some((7, 2)));
}

#[test]
fn refusal_7_place_counts_over_the_file() {
    let file = lane_file();
    // Instruction 129 is the third in the second block.
    assert_eq!(changed(&file, &[(2 * BLOCK + 8, 14)]), Some((7, 129)));
    assert_eq!(changed(&file, &[(2 * BLOCK + 8, 14), (BLOCK + 4 * 126, 1)]), Some((7, 126)));
}

#[test]
fn reading_and_writing_undo_each_other() {
    let random = &mut Random::new(5);
    for _ in 0..500 {
        let network = plans::lane(random);
        assert!(network.fits());
        let file = bytes_of(&network);
        assert_eq!(read(&file), Ok(network));
    }
    // Whatever is read writes the same bytes again.
    let mut read_again = 0;
    let mut seed = 1;
    for _ in 0..3_000 {
        let file = gen::case(seed).file;
        if let Ok(network) = read(&file) {
            assert_eq!(bytes_of(&network), file);
            read_again += 1;
        }
        seed = gen::following(seed);
    }
    assert!(read_again > 2_000);
}

#[test]
fn writing_refuses_16_before_15_and_changes_nothing() {
    let network = network();
    let mut buffer = vec![9; 1_535];
    assert_eq!(write(&network, &mut buffer), Err(Refusal::Buffer));
    let mut unfit = network.clone();
    unfit.records[0].capacity = 257;
    assert_eq!(write(&unfit, &mut buffer), Err(Refusal::Unsound));
    assert!(buffer.iter().all(|&byte| byte == 9));
    let mut buffer = vec![9; 1_600];
    assert_eq!(write(&network, &mut buffer), Ok(1_536));
    assert!(buffer[1_536..].iter().all(|&byte| byte == 9));
    assert_eq!(read(&buffer[..1_536]), Ok(network));
}

#[test]
fn unfit_networks() {
    let edits: [fn(&mut Network); 14] = [
        |n| n.processes = 0,
        |n| n.processes = 17,
        |n| n.processes = 255,
        |n| n.processes = 4,
        |n| n.processes = 2,
        |n| n.channels = 0,
        |n| n.channels = 33,
        |n| n.channels = 6,
        |n| n.channels = 4,
        |n| n.slots[0].first = 1,
        |n| n.slots[2].count = 0,
        |n| n.slots[15].count = 1,
        |n| n.records[31] = Record { sender: 0, receiver: 0, capacity: 1 },
        |n| n.code[1_015].c = 1,
    ];
    for (number, edit) in edits.iter().enumerate() {
        let mut network = network();
        edit(&mut network);
        // Out-of-range numbers must not make the test for soundness fail.
        let fits = std::panic::catch_unwind(|| network.fits());
        assert!(matches!(fits, Ok(false)), "edit {number}");
    }
    // 16 processes of 256 instructions find no room.
    let mut network = network();
    network.processes = 16;
    for (slot, first) in network.slots.iter_mut().zip((0..).step_by(256)) {
        *slot = reference::network::Slot { first, count: 256 };
    }
    assert!(!network.fits());
}
