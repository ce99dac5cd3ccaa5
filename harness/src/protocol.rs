//! Requests to a test program of the other side and its responses, many in one process.
//!
//! A request: the kind, the lent length, the text and the codes, each with its length (2 bytes, lowest first).
//! A response: its length (2 bytes, lowest first) and its bytes.

use std::io::{self, BufReader, BufWriter, Read, Write};
use std::process::{Child, ChildStdin, ChildStdout, Command, Stdio};
use std::sync::mpsc;
use std::time::Duration;

/// A program that gives no response for so long is taken to hang, and ended.
const PATIENCE: Duration = Duration::from_secs(300);

#[derive(Clone, Copy, Debug, PartialEq, Eq)]
pub enum Kind {
    /// What bench prints for the text.
    Query,
    /// The question, read and written again.
    Write,
    /// The codes, followed.
    Follow,
    /// The index of the first of the codes that is not allowed, or that there is none.
    Legality,
    /// The state after the longest allowed beginning of the codes, with its length.
    State,
    /// What mend prints for the text, and the lent buffer behind it.
    Mend,
}

impl Kind {
    pub fn letter(self) -> u8 {
        match self {
            Kind::Query => b'q',
            Kind::Write => b'w',
            Kind::Follow => b'f',
            Kind::Legality => b'l',
            Kind::State => b's',
            Kind::Mend => b'm',
        }
    }

    pub fn of_letter(letter: u8) -> Option<Kind> {
        match letter {
            b'q' => Some(Kind::Query),
            b'w' => Some(Kind::Write),
            b'f' => Some(Kind::Follow),
            b'l' => Some(Kind::Legality),
            b's' => Some(Kind::State),
            b'm' => Some(Kind::Mend),
            _ => None,
        }
    }
}

#[derive(Clone, Debug, PartialEq, Eq)]
pub struct Request {
    pub kind: Kind,
    /// At most 4,096.
    pub lent: u16,
    pub text: Vec<u8>,
    /// The list for Follow, Legality and State; for Mend one byte, any, if the text is wanted alone. Otherwise empty.
    pub codes: Vec<u8>,
}

impl Request {
    pub fn bytes(&self) -> Vec<u8> {
        let mut bytes = vec![self.kind.letter()];
        bytes.extend(self.lent.to_le_bytes());
        bytes.extend((self.text.len() as u16).to_le_bytes());
        bytes.extend(&self.text);
        bytes.extend((self.codes.len() as u16).to_le_bytes());
        bytes.extend(&self.codes);
        bytes
    }

    /// Takes one request from a stream; nothing at its end.
    pub fn take(stream: &mut impl Read) -> io::Result<Option<Request>> {
        let mut letter = [0];
        if stream.read(&mut letter)? == 0 {
            return Ok(None);
        }
        let kind = Kind::of_letter(letter[0]).ok_or(io::ErrorKind::InvalidData)?;
        let lent = take_number(stream)?;
        let text = take_bytes(stream)?;
        let codes = take_bytes(stream)?;
        Ok(Some(Request { kind, lent, text, codes }))
    }
}

fn take_number(stream: &mut impl Read) -> io::Result<u16> {
    let mut number = [0; 2];
    stream.read_exact(&mut number)?;
    Ok(u16::from_le_bytes(number))
}

/// Takes a length and as many bytes.
fn take_bytes(stream: &mut impl Read) -> io::Result<Vec<u8>> {
    let length = take_number(stream)?;
    let mut bytes = vec![0; usize::from(length)];
    stream.read_exact(&mut bytes)?;
    Ok(bytes)
}

/// Puts one response on a stream.
pub fn put_response(stream: &mut impl Write, response: &[u8]) -> io::Result<()> {
    stream.write_all(&(response.len() as u16).to_le_bytes())?;
    stream.write_all(response)
}

/// The test program. It is started for each batch of requests, so that it may give its responses as late as at its end.
pub struct Server {
    command: Vec<String>,
}

impl Server {
    pub fn new(command: &[String]) -> Server {
        Server { command: command.to_vec() }
    }

    /// Sends requests and takes as many responses; fewer if the program ends before.
    pub fn ask(&self, requests: &[Request]) -> io::Result<Vec<Vec<u8>>> {
        let (program, arguments) = self.command.split_first().ok_or_else(|| io::Error::other("no command"))?;
        let mut child = Command::new(program).args(arguments).stdin(Stdio::piped()).stdout(Stdio::piped()).spawn()?;
        let input = child.stdin.take().ok_or(io::ErrorKind::BrokenPipe)?;
        let output = child.stdout.take().ok_or(io::ErrorKind::BrokenPipe)?;
        let watched = &mut child;
        let (responded, waited) = mpsc::channel();
        // One thread writes while this one reads, so neither waits for the other with full hands.
        let taken = std::thread::scope(|scope| {
            scope.spawn(move || send(input, requests));
            scope.spawn(move || watch(watched, &waited));
            take_responses(output, requests.len(), responded)
        });
        child.wait()?;
        taken
    }
}

/// Writes all requests and closes the program's input. A program that has ended shows on the reading side.
fn send(input: ChildStdin, requests: &[Request]) {
    let mut input = BufWriter::new(input);
    for request in requests {
        if input.write_all(&request.bytes()).is_err() {
            return;
        }
    }
    let _ = input.flush();
}

/// Ends the program when it gives no response for too long, or when nobody waits for its responses any more.
fn watch(child: &mut Child, waited: &mpsc::Receiver<()>) {
    while waited.recv_timeout(PATIENCE).is_ok() {}
    let _ = child.kill();
}

/// Takes the responses, and the end of the output behind the last one. The sender goes when this returns.
fn take_responses(output: ChildStdout, count: usize, responded: mpsc::Sender<()>) -> io::Result<Vec<Vec<u8>>> {
    let mut output = BufReader::new(output);
    let mut responses = Vec::new();
    while responses.len() < count {
        let Ok(response) = take_bytes(&mut output) else {
            return Ok(responses);
        };
        responses.push(response);
        let _ = responded.send(());
    }
    if output.read(&mut [0])? > 0 {
        return Err(io::Error::other("the program writes more than its responses"));
    }
    Ok(responses)
}
