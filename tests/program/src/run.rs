//! Runs a command on given bytes, within a time limit.

use std::io::{Read, Write};
use std::process::{Child, ChildStdin, ChildStdout, Command, Stdio};
use std::sync::mpsc::{channel, RecvTimeoutError};
use std::time::Duration;

/// How long a command may take. The program needs milliseconds, and some seconds under Valgrind.
const LIMIT: Duration = Duration::from_secs(20);

/// Gives what the command prints for an input that arrives in pieces of so many bytes. A command
/// that takes too long, is killed by a signal or ends with another status than 0 is an error.
pub fn run(command: &[String], input: &[u8], piece: usize) -> Result<Vec<u8>, String> {
    let started = Command::new(&command[0])
        .args(&command[1..])
        .stdin(Stdio::piped())
        .stdout(Stdio::piped())
        .spawn();
    let mut child = started.map_err(|error| format!("{}: {error}", command[0]))?;
    let stdin = child.stdin.take().expect("it is piped");
    let stdout = child.stdout.take().expect("it is piped");
    std::thread::scope(|scope| {
        scope.spawn(|| feed(stdin, input, piece));
        let (sender, receiver) = channel();
        scope.spawn(move || sender.send(read(stdout)));
        let printed = receiver.recv_timeout(LIMIT);
        end(child, printed)
    })
}

/// Writes the input. A command may end without reading all of it, which is for the answer to judge.
fn feed(mut stdin: ChildStdin, input: &[u8], piece: usize) {
    for bytes in input.chunks(piece) {
        if stdin.write_all(bytes).is_err() {
            return;
        }
    }
}

/// Reads all that is printed.
fn read(mut stdout: ChildStdout) -> std::io::Result<Vec<u8>> {
    let mut printed = vec![];
    stdout.read_to_end(&mut printed).map(|_| printed)
}

/// Judges how the command ends.
fn end(
    mut child: Child,
    printed: Result<std::io::Result<Vec<u8>>, RecvTimeoutError>,
) -> Result<Vec<u8>, String> {
    let Ok(printed) = printed else {
        child.kill().map_err(|error| error.to_string())?;
        child.wait().map_err(|error| error.to_string())?;
        return Err(format!("takes more than {} s", LIMIT.as_secs()));
    };
    let status = child.wait().map_err(|error| error.to_string())?;
    let printed = printed.map_err(|error| error.to_string())?;
    if status.success() {
        Ok(printed)
    } else {
        Err(format!("ends with {status}"))
    }
}
