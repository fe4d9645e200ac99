//! Running a program on given bytes, within a time.

use std::fs::{self, File};
use std::io::{self, Read, Write};
use std::path::Path;
use std::process::{Child, ChildStdin, Command, Stdio};
use std::sync::mpsc;
use std::thread;
use std::time::{Duration, Instant};

/// How the input reaches the program.
#[derive(Clone, Copy, Debug)]
pub enum Feed<'a> {
    /// Through a pipe, in pieces of so many bytes.
    Pipe(usize),
    /// As a file that is made at this path for the time of the run.
    File(&'a Path),
}

/// How a program ended.
#[derive(Clone, Debug, PartialEq, Eq)]
pub enum Ending {
    /// By itself, with these bytes printed and exit status 0.
    Printed(Vec<u8>),
    /// By itself, with another exit status.
    Failed(i32),
    /// By a signal.
    Crashed,
    /// Not at all within its time, or it printed more than was asked for.
    Stopped(Vec<u8>),
}

/// Runs a program and reads up to `most` bytes of its output.
pub fn run(
    program: &Path,
    input: &[u8],
    feed: Feed<'_>,
    most: usize,
    time: Duration,
) -> io::Result<Ending> {
    let mut command = Command::new(program);
    command.stdout(Stdio::piped()).stderr(Stdio::null());
    match feed {
        Feed::Pipe(piece) => {
            let mut child = command.stdin(Stdio::piped()).spawn()?;
            let stdin = child.stdin.take();
            thread::scope(|scope| {
                scope.spawn(move || give(stdin, input, piece));
                ending(child, most, time)
            })
        }
        Feed::File(path) => {
            fs::write(path, input)?;
            let child = command.stdin(File::open(path)?).spawn()?;
            let ending = ending(child, most, time);
            fs::remove_file(path)?;
            ending
        }
    }
}

/// Writes the input; a program that reads no further is no error here, since
/// what it prints decides.
fn give(stdin: Option<ChildStdin>, input: &[u8], piece: usize) {
    let Some(mut stdin) = stdin else { return };
    for bytes in input.chunks(piece) {
        if stdin.write_all(bytes).is_err() {
            return;
        }
    }
}

fn ending(mut child: Child, most: usize, time: Duration) -> io::Result<Ending> {
    let deadline = Instant::now() + time;
    let stdout = child.stdout.take();
    let (sender, receiver) = mpsc::channel();
    thread::spawn(move || {
        let mut bytes = Vec::new();
        let read = stdout.map(|out| out.take(most as u64 + 1).read_to_end(&mut bytes));
        // The receiver is gone only if the program took too long.
        let _ = sender.send(read.transpose().map(|_| bytes));
    });
    let printed = match receiver.recv_timeout(time) {
        Ok(printed) => printed?,
        Err(_) => return stop(child, Vec::new()),
    };
    if printed.len() > most {
        return stop(child, printed);
    }
    loop {
        if let Some(status) = child.try_wait()? {
            return Ok(match status.code() {
                Some(0) => Ending::Printed(printed),
                Some(status) => Ending::Failed(status),
                None => Ending::Crashed,
            });
        }
        if Instant::now() > deadline {
            return stop(child, printed);
        }
        thread::sleep(Duration::from_micros(50));
    }
}

fn stop(mut child: Child, printed: Vec<u8>) -> io::Result<Ending> {
    child.kill()?;
    child.wait()?;
    Ok(Ending::Stopped(printed))
}
