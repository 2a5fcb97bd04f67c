//! Scripts of calls: their lines and limits, and what is printed for them,
//! worked out from the scope document by hand.

mod common;
use common::*;
use reference::file::bytes_of;
use reference::lane::{Channel, Condition};
use reference::network::{code, Instruction, Network, Record, Slot};
use reference::random::Random;
use reference::replay::Replay;
use reference::script::{parse, Call, Edit, Line};
use std::path::{Path, PathBuf};

/// A folder of this test's own with these lane files.
fn folder(test: &str, files: &[(&str, Vec<u8>)]) -> PathBuf {
    let folder = Path::new(env!("CARGO_TARGET_TMPDIR")).join(test);
    std::fs::create_dir_all(&folder).unwrap();
    for (name, bytes) in files {
        std::fs::write(folder.join(name), bytes).unwrap();
    }
    folder
}

/// What is printed for a script in a folder.
fn printed(folder: &Path, script: &str) -> String {
    let mut out = Vec::new();
    Replay::new(folder).play(script.as_bytes(), &mut out).unwrap();
    String::from_utf8(out).unwrap()
}

/// Replays the lines, each with what is to be printed after it: all that stands
/// behind the bar.
fn replays(folder: &Path, lines: &str) {
    let (mut script, mut expected) = (String::new(), String::new());
    for line in lines.trim_matches('\n').lines() {
        let (line, after) = line.trim_start().split_once('|').expect("a bar");
        let line = line.trim_end();
        script += &format!("{line}\n");
        expected += &format!("{line}{after}\n");
    }
    let found = printed(folder, &script);
    for (found, expected) in found.lines().zip(expected.lines()) {
        assert_eq!(found, expected);
    }
    assert_eq!(found, expected);
}

fn network_of(programs: &[&[Instruction]], channels: &[Record]) -> Vec<u8> {
    let programs: Vec<_> = programs.iter().map(|program| program.to_vec()).collect();
    bytes_of(&Network::of(&programs, channels))
}

#[test]
fn lines() {
    let says = |line: &str, says: Line| assert_eq!(parse(line.as_bytes()), says, "{line}");
    says("", Line::Note);
    says("#", Line::Note);
    says("#  any  thing ", Line::Note);
    says("lane a.bin", Line::Lane(b"a.bin"));
    says("lane  a b ", Line::Lane(b" a b "));
    says("read a.bin", Line::Read(b"a.bin"));
    says("write 0", Line::Write(0));
    says("write 4700", Line::Write(4_700));
    says("room 8193", Line::Room(8_193));
    says("show", Line::Show);
    for word in ["pick", "lent-pick"] {
        says(&format!("{word} 0"), Line::Call(Call::Pick(0)));
        says(&format!("{word} 18446744073709551615"), Line::Call(Call::Pick(usize::MAX)));
    }
    for word in ["feed", "lent-feed"] {
        says(&format!("{word} 3 -7"), Line::Call(Call::Feed(3, -7)));
        says(&format!("{word} 3 2147483647"), Line::Call(Call::Feed(3, i32::MAX)));
        says(&format!("{word} 3 -2147483648"), Line::Call(Call::Feed(3, i32::MIN)));
        let most = format!("{word} 18446744073709551615 0");
        says(&most, Line::Call(Call::Feed(usize::MAX, 0)));
    }
    for word in ["take", "lent-take"] {
        says(&format!("{word} 31"), Line::Call(Call::Take(31)));
    }
    says("close 300", Line::Call(Call::Close(300)));
    says("relieve 0", Line::Call(Call::Relieve(0)));
    says("relieve 32", Line::Call(Call::Relieve(32)));
    says("run", Line::Call(Call::Run(vec![])));
    says("run 0 255 16", Line::Call(Call::Run(vec![0, 255, 16])));
    let most = "run".to_string() + &" 7".repeat(256);
    says(&most, Line::Call(Call::Run(vec![7; 256])));
    says("drive 18446744073709551615", Line::Call(Call::Drive(u64::MAX)));
    // Digits may begin with zeros, however many.
    says("pick 007", Line::Call(Call::Pick(7)));
    says(&format!("pick {}7", "0".repeat(40)), Line::Call(Call::Pick(7)));
    says("feed 0 -0", Line::Call(Call::Feed(0, 0)));
    says("feed 0 -00000000002147483648", Line::Call(Call::Feed(0, i32::MIN)));
}

#[test]
fn lines_of_bursts() {
    let says = |line: &str, channel: usize, values: &[i32]| {
        let burst = Call::Burst(channel, values.to_vec());
        assert_eq!(parse(line.as_bytes()), Line::Call(burst), "{line}");
    };
    says("burst 3", 3, &[]);
    says("burst 003 -7 2147483647 -0", 3, &[-7, i32::MAX, 0]);
    says("burst 18446744073709551615", usize::MAX, &[]);
    says(&format!("burst 0{}", " -2147483648".repeat(512)), 0, &[i32::MIN; 512]);
}

#[test]
fn edits() {
    let channel = Channel { capacity: 1, oldest: 65_535, held: 3, peak: 65_535, closed: true };
    let record = Record { sender: 255, receiver: 0, capacity: 65_535 };
    let process =
        |position, condition, moves| Edit::Process { number: 15, position, condition, moves };
    for (text, edit) in [
        ("network 1 2", Edit::Network { processes: 1, channels: 2 }),
        ("network 18446744073709551615 300", Edit::Network { processes: u64::MAX, channels: 300 }),
        ("slot 15 first 65535 count 9", Edit::Slot(15, Slot { first: 65_535, count: 9 })),
        ("record 31 sender 255 receiver 0 capacity 65535", Edit::Record(31, record)),
        ("byte 4063 255", Edit::Byte(4_063, 255)),
        ("process 15 position 0 live moves 0", process(0, Condition::Live, 0)),
        ("process 15 position 9 stopped moves 1", process(9, Condition::Stopped, 1)),
        (
            "process 15 position 65535 faulted moves 18446744073709551615",
            process(65_535, Condition::Faulted, u64::MAX),
        ),
        ("register 127 -1", Edit::Register(127, -1)),
        ("channel 31 capacity 1 oldest 65535 held 3 peak 65535 closed", Edit::Channel(31, channel)),
        (
            "channel 31 capacity 1 oldest 65535 held 3 peak 65535 open",
            Edit::Channel(31, Channel { closed: false, ..channel }),
        ),
        ("cell 8192 2147483647", Edit::Cell(8_192, i32::MAX)),
        ("accepted 18446744073709551615", Edit::Accepted(u64::MAX)),
    ] {
        assert_eq!(parse(format!("make {text}").as_bytes()), Line::Make(edit));
        assert_eq!(parse(format!("with {text}").as_bytes()), Line::With(edit));
        assert_eq!(edit.to_string(), text);
    }
}

#[test]
fn bad_lines() {
    let bytes = "run".to_string() + &" 7".repeat(257);
    let values = "burst 0".to_string() + &" 7".repeat(513);
    for line in [
        // No such line, or words too many or too few.
        " ",
        "picks 0",
        "Pick 0",
        "lent-close 0",
        "lent-relieve 3",
        "pick",
        "pick 0 0",
        "feed 0",
        "feed 0 1 2",
        "burst",
        "bursts 0 1",
        "lent-burst 0 1",
        "close",
        "take",
        "relieve",
        "drive",
        "drive 1 1",
        "show 1",
        "write",
        "room",
        "lane",
        "read",
        "make",
        "with",
        "make show",
        "with pick 0",
        "make make accepted 1",
        // Spaces.
        " pick 0",
        "pick 0 ",
        "pick  0",
        "pick\t0",
        "pick 0\r",
        "run ",
        "run 0  1",
        "burst ",
        "burst 0 ",
        "burst  0",
        "burst 0  1",
        "show ",
        " # no note",
        " lane a.bin",
        "lane ",
        "read ",
        "make  accepted 1",
        // No numbers and no values.
        "pick -1",
        "pick +1",
        "pick x",
        "pick 0x1",
        "pick 1.",
        "pick ١",
        "feed 0 +1",
        "feed 0 -",
        "feed 0 --1",
        "feed 0 1-",
        "feed -0 1",
        "burst -0",
        "burst 0 1 x",
        "burst 0 1 +1",
        "burst 0 - 1",
        "make accepted -1",
        // Past a limit.
        "pick 18446744073709551616",
        "lent-pick 18446744073709551616",
        "feed 18446744073709551616 0",
        "feed 0 2147483648",
        "feed 0 -2147483649",
        "feed 0 4294967296",
        "feed 0 18446744073709551616",
        "close 18446744073709551616",
        "take 100000000000000000000000",
        "relieve 33",
        "run 256",
        "run 0 0 1000",
        &bytes,
        "burst 18446744073709551616",
        "burst 0 2147483648",
        "burst 0 1 -2147483649",
        &values,
        "drive 18446744073709551616",
        "write 4701",
        "room 8194",
        "make network 18446744073709551616 1",
        "make network 1 18446744073709551616",
        "make slot 16 first 0 count 1",
        "make slot 0 first 65536 count 1",
        "make slot 0 first 0 count 65536",
        "make record 32 sender 0 receiver 0 capacity 1",
        "make record 0 sender 256 receiver 0 capacity 1",
        "make record 0 sender 0 receiver 256 capacity 1",
        "make record 0 sender 0 receiver 0 capacity 65536",
        "make byte 4064 0",
        "make byte 0 256",
        "make process 16 position 0 live moves 0",
        "make process 0 position 65536 live moves 0",
        "make process 0 position 0 live moves 18446744073709551616",
        "make register 128 0",
        "make register 0 2147483648",
        "make channel 32 capacity 1 oldest 0 held 0 peak 0 open",
        "make channel 0 capacity 65536 oldest 0 held 0 peak 0 open",
        "make channel 0 capacity 1 oldest 65536 held 0 peak 0 open",
        "make channel 0 capacity 1 oldest 0 held 65536 peak 0 open",
        "make channel 0 capacity 1 oldest 0 held 0 peak 65536 open",
        "make cell 8193 0",
        "make cell 0 -2147483649",
        "make accepted 18446744073709551616",
        // Words of an edit that are not its own.
        "make network 1",
        "make slot 0 count 1 first 0",
        "make slot 0 first 0",
        "make record 0 sender outside receiver 0 capacity 1",
        "make process 0 position 0 stop moves 0",
        "make process 0 position 0 Live moves 0",
        "make channel 0 capacity 1 oldest 0 held 0 peak 0 shut",
        "make channel 0 capacity 1 oldest 0 held 0 peak 0",
        "make channel 0 capacity 1 oldest 0 held 0 open",
        "make channel 0 capacity 1 oldest 0 peak 0 held 0 open",
        "make channel 0 capacity 1 oldest 0 held 0 peak open",
        "make channel 0 capacity 1 oldest 0 held 0 peak -1 open",
        "make channel 0 capacity 1 oldest 0 held 0 open peak 0",
        "with channel 0 capacity 1 oldest 0 held 0 peak 0 open 0",
    ] {
        assert_eq!(parse(line.as_bytes()), Line::Bad, "{line}");
    }
    assert_eq!(parse(b"pick 0\xFF"), Line::Bad);
    assert_eq!(parse(b"lane \xFF"), Line::Lane(b"\xFF"));
}

#[test]
fn bad_lines_do_nothing() {
    let folder = folder("bad_lines", &[("sample.bin", bytes_of(&sample()))]);
    replays(
        &folder,
        "lane sample.bin|
         |
         # a note|
         feed 0 5 |: accepted; channel 0 capacity 1 oldest 0 held 1 peak 1 open; cell 0 is 5; accepted 1
         lane|: bad line
         room 9000|: bad line
         make accepted x|: bad line
         pick 1x|: bad line
         show|; channel 0 capacity 1 oldest 0 held 1 peak 1 open\
; channel 1 capacity 1 oldest 0 held 0 peak 0 open; cell 0 is 5; accepted 1",
    );
}

#[test]
fn the_last_line_may_lack_its_newline() {
    let folder = folder("last_line", &[]);
    assert_eq!(printed(&folder, ""), "");
    assert_eq!(printed(&folder, "\n"), "\n");
    assert_eq!(printed(&folder, "\n\n"), "\n\n");
    assert_eq!(printed(&folder, "show\npick 0"), "show\npick 0: refused 16\n");
    assert_eq!(printed(&folder, "show\npick 0\n"), "show\npick 0: refused 16\n");
}

/// The program reads 1,048,576 bytes and no more, in the folder it is in.
#[test]
fn the_program_reads_so_much() {
    let folder = folder("program", &[("sample.bin", bytes_of(&sample()))]);
    let start = "lane sample.bin\npick 0\n";
    let note = "#".repeat(1_048_576 - start.len() - 4);
    std::fs::write(folder.join("script"), format!("{start}{note}\nlane sample.bin\n")).unwrap();
    let output = std::process::Command::new(env!("CARGO_BIN_EXE_replay"))
        .stdin(std::fs::File::open(folder.join("script")).unwrap())
        .current_dir(&folder)
        .output()
        .unwrap();
    assert!(output.status.success());
    let expected = format!("lane sample.bin\npick 0: waiting-empty 0\n{note}\nlan: bad line\n");
    assert!(output.stdout == expected.as_bytes());
}

/// The lane of the sample listing, call by call.
#[test]
fn picks_feeds_and_takes() {
    let folder = folder("sample", &[("sample.bin", bytes_of(&sample()))]);
    for lent in ["", "lent-"] {
        let lines = "lane sample.bin|
            show|; channel 0 capacity 1 oldest 0 held 0 peak 0 open; channel 1 capacity 1 oldest 0 held 0 peak 0 open
            PICK 0|: waiting-empty 0
            PICK 1|: refused 8
            FEED 2 5|: refused 8
            FEED 1 5|: refused 9
            FEED 0 5|: accepted; channel 0 capacity 1 oldest 0 held 1 peak 1 open; cell 0 is 5; accepted 1
            FEED 0 -3|: refused 10
            PICK 0|: moved; register 0 is 5; process 0 position 1 live moves 1; channel 0 capacity 1 oldest 1 held 0 peak 1 open
            PICK 0|: moved; register 0 is 10; process 0 position 2 live moves 2
            TAKE 1|: refused 12
            TAKE 0|: refused 9
            TAKE 2|: refused 8
            PICK 0|: moved; process 0 position 3 live moves 3; channel 1 capacity 1 oldest 0 held 1 peak 1 open; cell 256 is 10
            FEED 0 -3|: accepted; channel 0 capacity 1 oldest 1 held 1 peak 1 open; cell 1 is -3; accepted 2
            close 0|: accepted; channel 0 capacity 1 oldest 1 held 1 peak 1 closed; accepted 3
            close 0|: refused 11
            close 1|: refused 9
            close 2|: refused 8
            FEED 0 9|: refused 11
            run 0 0 0 0|: moved 3 enlarged 0; register 0 is -6; process 0 position 2 live moves 6; channel 0 capacity 1 oldest 2 held 0 peak 1 closed
            PICK 0|: waiting-full 1
            drive 3|: settled picks 1 enlarged 0
            TAKE 1|: value 10; channel 1 capacity 1 oldest 1 held 0 peak 1 open; accepted 4
            drive 4|: spent picks 4 enlarged 0; process 0 position 4 stopped moves 10; channel 1 capacity 1 oldest 1 held 1 peak 1 closed; cell 257 is -6
            TAKE 1|: value -6; channel 1 capacity 1 oldest 2 held 0 peak 1 closed; accepted 5
            TAKE 1|: end; accepted 6
            TAKE 1|: end; accepted 7
            PICK 0|: ended
            drive 0|: spent picks 0 enlarged 0
            drive 1|: settled picks 1 enlarged 0
            run|: moved 0 enlarged 0
            run 0 255 1|: refused 8
            run 0 255|: moved 0 enlarged 0";
        let lines = lines.replace("PICK", &format!("{lent}pick"));
        let lines = lines.replace("FEED", &format!("{lent}feed"));
        replays(&folder, &lines.replace("TAKE", &format!("{lent}take")));
    }
}

#[test]
fn bursts() {
    // Channel 0 in, 1 out; the process stops at once.
    let stops = network_of(&[&[STOP]], &[from_outside(0, 3), to_outside(0, 2)]);
    let folder = folder("bursts", &[("stops.bin", stops)]);
    replays(
        &folder,
        "burst 0|: fed 0 refused 16
         burst 0 1|: fed 0 refused 16
         lane stops.bin|
         burst 0|: fed 0 accepted
         burst 0 7 -8|: fed 2 accepted; channel 0 capacity 3 oldest 0 held 2 peak 2 open; cell 0 is 7; cell 1 is -8; accepted 2
         burst 0 9 10 11|: fed 1 refused 10; channel 0 capacity 3 oldest 0 held 3 peak 3 open; cell 2 is 9; accepted 3
         burst 0 10|: fed 0 refused 10
         burst 0|: fed 0 accepted
         burst 1 1|: fed 0 refused 9
         burst 1|: fed 0 refused 9
         burst 2 1|: fed 0 refused 8
         burst 2|: fed 0 refused 8
         burst 256|: fed 0 refused 8
         make channel 0 capacity 3 oldest 254 held 1 peak 2 open|
         make accepted 18446744073709551614|
         burst 0 98 6 5|: fed 2 refused 10; channel 0 capacity 3 oldest 254 held 3 peak 3 open; cell 0 is 6; cell 255 is 98; accepted 18446744073709551615
         close 0|: accepted; channel 0 capacity 3 oldest 254 held 3 peak 3 closed
         burst 0 1|: fed 0 refused 11
         burst 0|: fed 0 accepted
         make channel 0 capacity 3 oldest 254 held 0 peak 2 open|
         make accepted 0|
         pick 0|: moved; process 0 position 0 stopped moves 1; channel 1 capacity 2 oldest 0 held 0 peak 0 closed
         burst 0 1 2 3 4 5|: fed 5 accepted; accepted 5
         burst 0|: fed 0 accepted
         close 0|: accepted; channel 0 capacity 3 oldest 254 held 0 peak 2 closed; accepted 6
         burst 0 1 2|: fed 0 refused 11
         make channel 0 capacity 3 oldest 254 held 1 peak 2 closed|
         burst 9|: fed 0 refused 16
         room 8191|
         burst 9|: fed 0 refused 15",
    );
}

/// The most that was held stands after what is held.
#[test]
fn peaks() {
    // Channel 0 in, 1 out; the process passes on.
    let passes = [code(11, 0, 0, 3), code(12, 0, 1, 0), code(8, 0, 0, 0), STOP];
    let passes = network_of(&[&passes], &[from_outside(0, 3), to_outside(0, 2)]);
    let folder = folder("peaks", &[("passes.bin", passes)]);
    replays(
        &folder,
        "lane passes.bin|
         burst 0 7 8|: fed 2 accepted; channel 0 capacity 3 oldest 0 held 2 peak 2 open; cell 0 is 7; cell 1 is 8; accepted 2
         pick 0|: moved; register 0 is 7; process 0 position 1 live moves 1; channel 0 capacity 3 oldest 1 held 1 peak 2 open
         feed 0 9|: accepted; channel 0 capacity 3 oldest 1 held 2 peak 2 open; cell 2 is 9; accepted 3
         lent-feed 0 10|: accepted; channel 0 capacity 3 oldest 1 held 3 peak 3 open; cell 3 is 10; accepted 4
         run 0|: moved 1 enlarged 0; process 0 position 2 live moves 2; channel 1 capacity 2 oldest 0 held 1 peak 1 open; cell 256 is 7
         take 1|: value 7; channel 1 capacity 2 oldest 1 held 0 peak 1 open; accepted 5
         make channel 1 capacity 2 oldest 1 held 0 peak 2 open|
         with channel 0 capacity 3 oldest 1 held 3 peak 3 open|: moved; process 0 position 0 live moves 3
         with channel 0 capacity 3 oldest 1 held 3 peak 2 open|: refused 16
         with channel 0 capacity 3 oldest 1 held 3 peak 4 open|: refused 16
         with channel 2 capacity 0 oldest 0 held 0 peak 1 open|: refused 16
         with channel 31 capacity 0 oldest 0 held 0 peak 65535 open|: refused 16
         drive 6|: spent picks 6 enlarged 0; register 0 is 9; process 0 position 2 live moves 8\
; channel 0 capacity 3 oldest 3 held 1 peak 3 open; channel 1 capacity 2 oldest 1 held 2 peak 2 open; cell 257 is 8; cell 258 is 9
         make process 0 position 3 live moves 0|
         pick 0|: moved; process 0 position 3 stopped moves 1; channel 0 capacity 3 oldest 3 held 0 peak 3 open; channel 1 capacity 2 oldest 1 held 2 peak 2 closed
         burst 0 1 2 3 4 5|: fed 5 accepted; accepted 10
         make channel 0 capacity 3 oldest 3 held 0 peak 0 open|
         feed 0 6|: accepted; accepted 11
         show|; register 0 is 9; process 0 position 3 stopped moves 1; channel 0 capacity 3 oldest 3 held 0 peak 0 open; channel 1 capacity 2 oldest 1 held 2 peak 2 closed\
; cell 0 is 7; cell 1 is 8; cell 2 is 9; cell 3 is 10; cell 256 is 7; cell 257 is 8; cell 258 is 9; accepted 11",
    );
}

#[test]
fn a_position_after_a_drive_stands_as_it_is_now() {
    // The receive finds the channel closed and goes to 4, where it stops.
    let folder = folder("position", &[("sample.bin", bytes_of(&sample()))]);
    replays(
        &folder,
        "lane sample.bin|
         close 0|: accepted; channel 0 capacity 1 oldest 0 held 0 peak 0 closed; accepted 1
         drive 2|: spent picks 2 enlarged 0; process 0 position 4 stopped moves 2; channel 1 capacity 1 oldest 0 held 0 peak 0 closed",
    );
}

/// Examples i, k and l, and the ceiling.
#[test]
fn reliefs() {
    // i: a process fills a channel to itself.
    let own = network_of(&[&[code(12, 0, 0, 0), code(8, 0, 0, 0)]], &[channel(0, 0, 1)]);
    // k: 0 sends on channel 0 without end, 1 receives from channel 1 of 0.
    let detour = network_of(
        &[&[code(12, 0, 0, 0), code(8, 0, 0, 0)], &[code(11, 0, 1, 0), code(8, 0, 0, 0)]],
        &[channel(0, 1, 2), channel(0, 1, 1)],
    );
    // l: two processes fill channels to each other.
    let both = network_of(
        &[&[code(12, 0, 1, 0), code(8, 0, 0, 0)], &[code(12, 0, 0, 0), code(8, 0, 0, 0)]],
        &[channel(1, 0, 3), channel(0, 1, 3)],
    );
    let folder = folder("reliefs", &[("own.bin", own), ("detour.bin", detour), ("both.bin", both)]);
    replays(
        &folder,
        "lane own.bin|
         relieve 0|: refused 13; buffer
         pick 0|: moved; process 0 position 1 live moves 1; channel 0 capacity 1 oldest 0 held 1 peak 1 open; cell 0 is 0
         pick 0|: moved; process 0 position 0 live moves 2
         pick 0|: waiting-full 0
         relieve 0|: refused 15; buffer
         relieve 3|: enlarged 0 ring 1; buffer 0 99 99; channel 0 capacity 2 oldest 0 held 1 peak 1 open; accepted 1
         relieve 1|: refused 13; buffer 99
         drive 5|: spent picks 5 enlarged 2; process 0 position 1 live moves 7; channel 0 capacity 4 oldest 0 held 4 peak 4 open\
; cell 1 is 0; cell 2 is 0; cell 3 is 0; accepted 3
         run 0 255 0 0|: moved 3 enlarged 1; process 0 position 0 live moves 10; channel 0 capacity 5 oldest 0 held 5 peak 5 open; cell 4 is 0; accepted 4
         make channel 0 capacity 256 oldest 9 held 256 peak 256 open|
         relieve 0|: refused 14; buffer
         run 255 0|: moved 0 enlarged 0
         drive 9|: ceiling picks 1 enlarged 0
         make channel 0 capacity 255 oldest 9 held 255 peak 255 open|
         make register 0 7|
         drive 18446744073709551615|: ceiling picks 4 enlarged 1; process 0 position 0 live moves 12; channel 0 capacity 256 oldest 9 held 256 peak 256 open; cell 8 is 7; accepted 5
         lane detour.bin|
         drive 8|: spent picks 8 enlarged 1; process 0 position 0 live moves 4; channel 0 capacity 3 oldest 0 held 2 peak 2 open; cell 0 is 0; cell 1 is 0; accepted 1
         lane detour.bin|
         drive 7|: spent picks 6 enlarged 0; process 0 position 1 live moves 3; channel 0 capacity 2 oldest 0 held 2 peak 2 open; cell 0 is 0; cell 1 is 0
         pick 0|: moved; process 0 position 0 live moves 4
         relieve 1|: refused 15; buffer 99
         relieve 2|: enlarged 0 ring 2; buffer 0 1; channel 0 capacity 3 oldest 0 held 2 peak 2 open; accepted 1
         lane both.bin|
         run 0 0 0 0 0 0 0 1 1 1 1 1 1 1 1|: moved 12 enlarged 0; process 0 position 0 live moves 6; process 1 position 0 live moves 6\
; channel 0 capacity 3 oldest 0 held 3 peak 3 open; channel 1 capacity 3 oldest 0 held 3 peak 3 open\
; cell 0 is 0; cell 1 is 0; cell 2 is 0; cell 256 is 0; cell 257 is 0; cell 258 is 0
         relieve 4|: enlarged 0 ring 2; buffer 0 1 99 99; channel 0 capacity 4 oldest 0 held 3 peak 3 open; accepted 1",
    );
}

/// Cells too few or too many come before all else, and close and relief take
/// none.
#[test]
fn rooms() {
    let folder = folder("rooms", &[("sample.bin", bytes_of(&sample()))]);
    let mut lines = "lane sample.bin|\n".to_string();
    for room in [0, 8_191, 8_193] {
        lines += &format!(
            "room {room}|
             pick 9|: refused 15
             lent-pick 0|: refused 15
             feed 9 1|: refused 15
             lent-feed 0 1|: refused 15
             burst 9|: fed 0 refused 15
             burst 0 1 2|: fed 0 refused 15
             take 9|: refused 15
             lent-take 1|: refused 15
             run 9|: refused 15
             drive 0|: refused 15
             with accepted 1|: refused 15
             close 9|: refused 8
             relieve 0|: refused 13; buffer
             make channel 0 capacity 0 oldest 0 held 0 peak 0 open|
             pick 0|: refused 15
             close 0|: refused 16
             relieve 0|: refused 16; buffer
             make channel 0 capacity 1 oldest 0 held 0 peak 0 open|
            "
        );
    }
    lines += "room 8192|
              pick 0|: waiting-empty 0
              room 0|
              lane sample.bin|
              pick 0|: waiting-empty 0";
    let lines: Vec<&str> = lines.lines().filter(|line| !line.trim().is_empty()).collect();
    replays(&folder, &lines.join("\n"));
}

#[test]
fn a_lane_begins_anew() {
    let mut longer = bytes_of(&sample());
    longer.push(0);
    let files = [
        ("sample.bin", bytes_of(&sample())),
        ("empty.bin", vec![]),
        ("longer.bin", longer),
        ("a b.bin", bytes_of(&sample())),
        ("large.bin", vec![0; 10_000]),
    ];
    let folder = folder("anew", &files);
    replays(
        &folder,
        "show|
         pick 0|: refused 16
         lane sample.bin|
         feed 0 7|: accepted; channel 0 capacity 1 oldest 0 held 1 peak 1 open; cell 0 is 7; accepted 1
         make cell 8192 1|
         read absent.bin|: refused 1 place 0
         read empty.bin|: refused 1 place 0
         read longer.bin|: refused 1 place 0
         read large.bin|: refused 1 place 0
         read .|: refused 1 place 0
         read a b.bin|: accepted
         read sample.bin|: accepted
         show|; channel 0 capacity 1 oldest 0 held 1 peak 1 open; channel 1 capacity 1 oldest 0 held 0 peak 0 open; cell 0 is 7; cell 8192 is 1; accepted 1
         lane a b.bin|
         show|; channel 0 capacity 1 oldest 0 held 0 peak 0 open; channel 1 capacity 1 oldest 0 held 0 peak 0 open
         lane absent.bin|
         show|
         drive 0|: refused 16
         write 0|: refused 16; buffer ",
    );
}

#[test]
fn reads_name_the_place() {
    let good = bytes_of(&sample());
    let mut spoilt = good.clone();
    spoilt[3] ^= 1;
    let mut large = good.clone();
    large[512 + 20 + 3] = 1;
    reference::file::mend(&mut large);
    let folder = folder("reads", &[("spoilt.bin", spoilt), ("filler.bin", large)]);
    replays(
        &folder,
        "read spoilt.bin|: refused 2 place 0
         read filler.bin|: refused 6 place 535",
    );
}

/// The network's own capacities are written, whatever the lane's have become.
#[test]
fn writes() {
    let folder = folder("writes", &[("sample.bin", bytes_of(&sample()))]);
    let head = "4c4e010102010000".to_string() + "00000005" + &"0".repeat(120);
    let records = "ff000001".to_string() + "00ff0001";
    let first = format!("{head}{records}{}", "0".repeat(2 * 430));
    let code = "0b000004".to_string() + "03000000" + "0c000100" + "08000000" + "00000000";
    let second = format!("{code}{}0001", "0".repeat(2 * 488));
    let script = "lane sample.bin\nmake channel 0 capacity 9 oldest 1 held 2 peak 5 closed\n";
    let lines = "write 1026\nwrite 1024\nwrite 3\nwrite 0\nmake network 2 2\nwrite 2\n";
    let found = printed(&folder, &format!("{script}{lines}"));
    let found: Vec<&str> = found.lines().skip(2).collect();
    // The two checks are not worked out here: tests/files.rs does that.
    let blocks = found[1].strip_prefix("write 1024: written 1024; buffer ").unwrap();
    assert_eq!(&blocks[..1_020], first);
    assert_eq!(&blocks[1_024..2_044], second);
    assert_eq!(blocks.len(), 2_048);
    assert_eq!(found[0], format!("write 1026: written 1024; buffer {blocks}6363"));
    assert_eq!(found[2], "write 3: refused 15; buffer 636363");
    assert_eq!(found[3], "write 0: refused 15; buffer ");
    assert_eq!(found[5], "write 2: refused 16; buffer 6363");
}

#[test]
fn with_leaves_the_lane() {
    let folder = folder("with", &[("sample.bin", bytes_of(&sample()))]);
    replays(
        &folder,
        "lane sample.bin|
         with accepted 4|: waiting-empty 0
         with channel 0 capacity 1 oldest 255 held 1 peak 1 open|: moved; register 0 is 99; process 0 position 1 live moves 1; channel 0 capacity 1 oldest 0 held 0 peak 1 open
         with channel 0 capacity 257 oldest 0 held 0 peak 0 open|: refused 16
         with process 0 position 4 live moves 18446744073709551615|: moved; process 0 position 4 stopped moves 18446744073709551615; channel 1 capacity 1 oldest 0 held 0 peak 0 closed
         with process 0 position 5 live moves 0|: refused 16
         make channel 0 capacity 1 oldest 7 held 1 peak 1 open|
         with cell 7 -12|: moved; register 0 is -12; process 0 position 1 live moves 1; channel 0 capacity 1 oldest 8 held 0 peak 1 open
         with byte 0 14|: refused 16
         with byte 3 0|: moved; register 0 is 99; process 0 position 1 live moves 1; channel 0 capacity 1 oldest 8 held 0 peak 1 open
         show|; channel 0 capacity 1 oldest 7 held 1 peak 1 open; channel 1 capacity 1 oldest 0 held 0 peak 0 open
         pick 0|: moved; register 0 is 99; process 0 position 1 live moves 1; channel 0 capacity 1 oldest 8 held 0 peak 1 open",
    );
}

/// Each edit, and that a call sees it.
#[test]
fn edits_are_made() {
    let folder = folder("made", &[("sample.bin", bytes_of(&sample()))]);
    replays(
        &folder,
        "lane sample.bin|
         make register 127 -5|
         show|; register 127 is -5; channel 0 capacity 1 oldest 0 held 0 peak 0 open; channel 1 capacity 1 oldest 0 held 0 peak 0 open
         pick 0|: refused 16
         make register 127 0|
         make process 0 position 1 live moves 18446744073709551614|
         make register 0 1073741824|
         pick 0|: moved; register 0 is -2147483648; process 0 position 2 live moves 18446744073709551615
         make accepted 18446744073709551615|
         close 0|: accepted; channel 0 capacity 1 oldest 0 held 0 peak 0 closed
         pick 0|: moved; process 0 position 3 live moves 18446744073709551615; channel 1 capacity 1 oldest 0 held 1 peak 1 open; cell 256 is -2147483648
         make cell 256 6|
         take 1|: value 6; channel 1 capacity 1 oldest 1 held 0 peak 1 open
         make slot 0 first 1 count 4|
         pick 0|: refused 16
         make slot 0 first 0 count 6|
         pick 0|: moved; process 0 position 0 live moves 18446744073709551615
         make slot 0 first 0 count 5|
         make record 1 sender 1 receiver 255 capacity 1|
         pick 0|: refused 16
         make record 1 sender 0 receiver 255 capacity 256|
         pick 0|: moved; process 0 position 4 live moves 18446744073709551615
         make network 1 258|
         pick 0|: refused 16
         make network 257 2|
         take 0|: refused 16
         make network 1 2|
         make byte 20 1|
         pick 0|: refused 16
         make byte 20 0|
         make byte 16 8|
         pick 0|: moved; process 0 position 0 live moves 18446744073709551615",
    );
}

/// A call of each kind, some of them to be refused on any lane.
const CALLS: [&str; 16] = [
    "pick 0",
    "pick 3",
    "feed 0 1",
    "feed 9 1",
    "burst 0",
    "burst 0 1 2",
    "burst 9",
    "close 0",
    "take 1",
    "take 31",
    "relieve 32",
    "run 0 0 1 255",
    "run 0 255",
    "drive 50",
    "write 4700",
    "show",
];

/// Any edits with any numbers: no call panics, and on an unsound lane none
/// does anything.
#[test]
fn calls_answer_on_any_lane() {
    let folder = folder("any", &[("sample.bin", bytes_of(&sample()))]);
    let random = &mut Random::new(5);
    let mut unsound = 0;
    for _ in 0..400 {
        let mut replay = Replay::new(&folder);
        replay.play(b"lane sample.bin\n", &mut Vec::new()).unwrap();
        for _ in 0..random.between(1, 12) {
            replay.state.edit(any_edit(random));
            let sound = replay.state.lane.is_sound();
            unsound += u64::from(!sound);
            for call in CALLS {
                let before = replay.state.clone();
                let mut out = Vec::new();
                replay.play_line(call.as_bytes(), &mut out).unwrap();
                let text = String::from_utf8(out).unwrap();
                if !sound && call != "show" && call != "write 4700" {
                    assert!(text.contains(" refused 16"), "{text}");
                    assert_eq!(replay.state, before);
                }
            }
        }
    }
    assert!(unsound > 1_000, "{unsound}");
}

fn any_edit(random: &mut Random) -> Edit {
    let small = |random: &mut Random| {
        let any = random.bits() as u16;
        random.one(&[0, 1, 2, 3, 4, 5, 15, 16, 17, 31, 32, 255, 256, 257, 65_535, any])
    };
    let count = |random: &mut Random| {
        let any = random.bits();
        random.one(&[0, 1, 2, 15, 16, 17, 32, 33, 255, 256, 257, 258, u64::MAX, any])
    };
    let condition = random.one(&[Condition::Live, Condition::Stopped, Condition::Faulted]);
    match random.below(9) {
        0 => Edit::Network { processes: count(random), channels: count(random) },
        1 => {
            let slot = Slot { first: small(random), count: small(random) };
            Edit::Slot(random.below(16), slot)
        }
        2 => {
            let ends = [0; 2].map(|_: u8| small(random) as u8);
            let record = Record { sender: ends[0], receiver: ends[1], capacity: small(random) };
            Edit::Record(random.below(32), record)
        }
        3 => Edit::Byte(random.below(30), small(random) as u8),
        4 => {
            let number = random.one(&[0, 0, 1, 15]);
            Edit::Process { number, position: small(random), condition, moves: count(random) }
        }
        5 => Edit::Register(random.below(128), random.value()),
        6 => {
            let [capacity, oldest, held, peak] = [0; 4].map(|_: u8| small(random));
            let channel = Channel { capacity, oldest, held, peak, closed: random.percent(50) };
            Edit::Channel(random.one(&[0, 1, 2, 31]), channel)
        }
        7 => Edit::Cell(random.below(8_193), random.value()),
        _ => Edit::Accepted(count(random)),
    }
}
