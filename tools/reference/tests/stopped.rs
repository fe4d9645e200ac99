//! Programs that hang, crash or fail. One test alone, since a file that is
//! being written cannot be started.
#![cfg(unix)]

use reference::child::{run, Ending, Feed};
use std::fs;
use std::os::unix::fs::PermissionsExt;
use std::path::{Path, PathBuf};
use std::time::{Duration, Instant};

/// A shell program with the given lines.
fn program(name: &str, lines: &str) -> PathBuf {
    let path = Path::new(env!("CARGO_TARGET_TMPDIR")).join(name);
    fs::write(&path, format!("#!/bin/sh\n{lines}\n")).expect("the file can be written");
    let mode = fs::Permissions::from_mode(0o755);
    fs::set_permissions(&path, mode).expect("the file can be made a program");
    path
}

fn ending_within(seconds: u64, program: &Path, input: &[u8], feed: Feed<'_>) -> Ending {
    let time = Duration::from_secs(seconds);
    run(program, input, feed, 10, time).expect("the program can be started")
}

/// The ending of a program that ends by itself, with time enough on a busy machine.
fn ending(program: &Path, input: &[u8], feed: Feed<'_>) -> Ending {
    ending_within(60, program, input, feed)
}

#[test]
fn programs_are_stopped_and_crashes_are_seen() {
    let start = Instant::now();
    let hangs = program("hangs", "exec sleep 60");
    // More than a pipe holds, so that writing it has to be broken off.
    let long = vec![0; 1 << 20];
    let stopped = Ending::Stopped(Vec::new());
    let pipe = Feed::Pipe(long.len());
    assert_eq!(ending_within(1, &hangs, &long, pipe), stopped);
    let closes = program("closes", "exec sleep 60 >&-");
    assert_eq!(ending_within(1, &closes, &[], Feed::Pipe(1)), stopped);
    assert!(start.elapsed() < Duration::from_secs(20));

    let crashes = program("crashes", "echo line\nkill -KILL $$");
    assert_eq!(ending(&crashes, &[], Feed::Pipe(1)), Ending::Crashed);

    // An input reaches the program in pieces or as a file.
    let copies = program("copies", "exec cat");
    let printed = Ending::Printed(b"abcde".to_vec());
    let file = Path::new(env!("CARGO_TARGET_TMPDIR")).join("input.bin");
    for feed in [
        Feed::Pipe(1),
        Feed::Pipe(3),
        Feed::Pipe(5),
        Feed::File(&file),
    ] {
        assert_eq!(ending(&copies, b"abcde", feed), printed, "{feed:?}");
    }
    assert!(!file.exists());
    // Only one byte more than asked for is read.
    let long = Ending::Stopped(b"abcdefghijk".to_vec());
    assert_eq!(ending(&copies, b"abcdefghijklmno", Feed::Pipe(99)), long);
    let fails = program("fails", "echo line\nexit 3");
    assert_eq!(ending(&fails, &[], Feed::Pipe(1)), Ending::Failed(3));
}
