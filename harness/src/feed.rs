//! Runs a command on an input that is written in pieces, while its output is read.

use std::io::{self, Read, Write};
use std::process::{Child, ChildStdout, Command, Stdio};
use std::sync::atomic::{AtomicBool, Ordering};
use std::sync::mpsc::{self, RecvTimeoutError};
use std::time::Duration;

/// A command that prints nothing for so long is taken to hang, and ended.
const PATIENCE: Duration = Duration::from_secs(300);

/// An input, cut into pieces.
pub struct Pieces<'a> {
    pub pieces: Vec<&'a [u8]>,
    /// Between two pieces.
    pub pause: Duration,
    /// Nothing may be printed before this piece is written; before the end of the input, if it is the number of pieces.
    pub silent_before: usize,
    /// How long a word is waited for then.
    pub silence: Duration,
}

/// What came of it.
pub struct Fed {
    pub output: Vec<u8>,
    /// It printed something, or ended, where it had to be silent.
    pub spoke_early: bool,
    /// It ended by itself and was not ended.
    pub ended: bool,
}

/// Feeds the input whole, and asks for no silence.
pub fn feed_whole(command: &[String], input: &[u8]) -> io::Result<Fed> {
    let no_time = Duration::ZERO;
    feed(command, &Pieces { pieces: vec![input], pause: no_time, silent_before: 0, silence: no_time })
}

pub fn feed(command: &[String], input: &Pieces) -> io::Result<Fed> {
    let (program, arguments) = command.split_first().ok_or_else(|| io::Error::other("no command"))?;
    let mut child = Command::new(program).args(arguments).stdin(Stdio::piped()).stdout(Stdio::piped()).spawn()?;
    let mut its_input = child.stdin.take().ok_or(io::ErrorKind::BrokenPipe)?;
    let its_output = child.stdout.take().ok_or(io::ErrorKind::BrokenPipe)?;
    let (watched, spoke) = (&mut child, &AtomicBool::new(false));
    let (printed, waited) = mpsc::channel();
    // One thread writes while this one reads, so neither waits for the other with full hands.
    let (spoke_early, output) = std::thread::scope(|scope| {
        let writer = scope.spawn(move || write_pieces(&mut its_input, input, spoke));
        scope.spawn(move || watch(watched, &waited));
        let output = take_output(its_output, spoke, printed);
        (writer.join().unwrap_or(true), output)
    });
    let ended = child.wait()?.code().is_some();
    Ok(Fed { output: output?, spoke_early, ended })
}

/// Writes the pieces: whether something was printed too early. A command that has ended may have left the rest unread.
fn write_pieces(its_input: &mut impl Write, input: &Pieces, spoke: &AtomicBool) -> bool {
    let (silent, free) = input.pieces.split_at(input.silent_before);
    let mut put = |piece: &[u8]| {
        let put = its_input.write_all(piece).and_then(|()| its_input.flush());
        std::thread::sleep(input.pause);
        put.is_ok()
    };
    if !silent.iter().all(|piece| put(piece)) {
        return true;
    }
    std::thread::sleep(input.silence);
    let spoke_early = spoke.load(Ordering::SeqCst);
    let _ = free.iter().all(|piece| put(piece));
    spoke_early
}

/// Ends the command when it prints nothing for too long. It has closed its output when the sender is gone.
fn watch(child: &mut Child, waited: &mpsc::Receiver<()>) {
    loop {
        match waited.recv_timeout(PATIENCE) {
            Ok(()) => (),
            Err(RecvTimeoutError::Timeout) => {
                let _ = child.kill();
                return;
            }
            Err(RecvTimeoutError::Disconnected) => return,
        }
    }
}

fn take_output(mut its_output: ChildStdout, spoke: &AtomicBool, printed: mpsc::Sender<()>) -> io::Result<Vec<u8>> {
    let (mut output, mut chunk) = (Vec::new(), [0; 4096]);
    loop {
        let many = its_output.read(&mut chunk)?;
        if many == 0 {
            return Ok(output);
        }
        spoke.store(true, Ordering::SeqCst);
        output.extend(&chunk[..many]);
        let _ = printed.send(());
    }
}
