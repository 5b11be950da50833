//! A process that has to end in time.

use std::io::{self, Read, Write};
use std::os::unix::process::CommandExt;
use std::process::{Child, Command, Stdio};
use std::thread;
use std::time::{Duration, Instant};

/// What a process printed, what it said on standard error, and how it ended where that was not by itself with
/// status 0.
pub struct Ran {
    pub printed: Vec<u8>,
    pub said: Vec<u8>,
    pub fault: Option<String>,
}

/// A process is asked this often whether it has ended, and this long is waited between two pieces
/// of its input.
const PAUSE: Duration = Duration::from_millis(2);

/// Runs a command: its input comes in these pieces, it has to end within the limit, and of what
/// it prints and says no more than `most` bytes each are kept.
pub fn run(
    command: &mut Command,
    pieces: Vec<Vec<u8>>,
    limit: Duration,
    most: usize,
) -> io::Result<Ran> {
    let mut child = command
        .stdin(Stdio::piped())
        .stdout(Stdio::piped())
        .stderr(Stdio::piped())
        .process_group(0)
        .spawn()?;
    let mut input = child.stdin.take().expect("standard input is piped");
    let output = child.stdout.take().expect("standard output is piped");
    let error = child.stderr.take().expect("standard error is piped");
    thread::spawn(move || {
        for piece in pieces {
            // A program that has seen enough may end before it has read all.
            if input.write_all(&piece).is_err() {
                break;
            }
            thread::sleep(PAUSE);
        }
    });
    let printed = thread::spawn(move || heard(output, most));
    let said = thread::spawn(move || heard(error, most));
    let fault = wait(&mut child, limit)?;
    Ok(Ran {
        printed: printed.join().expect("reading does not panic")?,
        said: said.join().expect("reading does not panic")?,
        fault,
    })
}

/// The first bytes of what is read, no more than `most`.
fn heard(from: impl Read, most: usize) -> io::Result<Vec<u8>> {
    let mut bytes = Vec::new();
    from.take(most as u64).read_to_end(&mut bytes)?;
    Ok(bytes)
}

/// Waits until a process ends, or ends it; says how, if that is not with status 0.
fn wait(child: &mut Child, limit: Duration) -> io::Result<Option<String>> {
    let began = Instant::now();
    loop {
        match child.try_wait()? {
            Some(status) if status.success() => return Ok(None),
            Some(status) => return Ok(Some(format!("it ended with {status}"))),
            None if began.elapsed() > limit => {
                end(&child)?;
                child.wait()?;
                return Ok(Some(format!("it did not end within {limit:?}")));
            }
            None => thread::sleep(PAUSE),
        }
    }
}

/// Ends a process and all that it has started, which are the group of its number.
fn end(child: &Child) -> io::Result<()> {
    let kill = format!("kill -KILL -{}", child.id());
    Command::new("sh").args(["-c", &kill]).status().map(|_| ())
}
