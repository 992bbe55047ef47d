//! The dialogue with the proved program: a line for each event goes in, and what the client decides
//! comes out. This module needs nothing but std, so that another manager can copy it: it starts
//! `dhcp_main live`, writes a line, reads the answer to it, and keeps a transcript.

use std::fs::File;
use std::io::{BufRead, BufReader, Error, Read, Result, Write};
use std::net::{IpAddr, Ipv6Addr};
use std::os::fd::{AsRawFd, OwnedFd, RawFd};
use std::os::unix::{net::UnixStream, process::CommandExt};
use std::process::{Child, Command};
use std::thread::sleep;
use std::time::{Duration, Instant};

/// How long the program may take to read a line, and to answer it.
pub const LIMIT: Duration = Duration::from_secs(5);
/// The longest packet that an event may carry, in bytes.
pub const MAX_PACKET: usize = 1500;
/// Where the messages of an IPv6 client go.
pub const ALL_SERVERS: Ipv6Addr = Ipv6Addr::new(0xff02, 0, 0, 0, 0, 0, 1, 2);

/// What the client reports of an event.
pub enum Report {
    /// A payload is to be sent to this address and port, or, without them, an Ethernet frame.
    Send(Option<(IpAddr, u16)>, Vec<u8>),
    /// The client is in another state. In `done` it has the lease with these fields; else none.
    State(String, String),
    /// What else a log has to say.
    Note(String),
}

/// The running program.
pub struct Program {
    /// The moment, in milliseconds, of the next event that is needed if no packet comes.
    pub next: Option<u64>,
    /// Whether a packet would be read.
    pub is_listening: bool,
    /// The beginnings of the last lines that went either way.
    pub last_lines: [String; 8],
    child: Child,
    stream: BufReader<UnixStream>,
    transcript: File,
}

impl Program {
    /// Starts the program, in a process group of its own so that no terminal ends it, and gives it
    /// the lines of a script up to and with that of `start`. If it takes none, `event` says so.
    pub fn start(path: &str, head: &str, transcript: &str) -> Result<Self> {
        let (stream, theirs) = UnixStream::pair()?;
        stream.set_read_timeout(Some(LIMIT))?;
        stream.set_write_timeout(Some(LIMIT))?;
        let theirs = OwnedFd::from(theirs);
        let mut command = Command::new(path);
        command.arg("live").stdin(theirs.try_clone()?).stdout(theirs).process_group(0);
        let failed = |error| Error::other(format!("{path} does not start: {error}"));
        let mut program = Program {
            next: None,
            is_listening: false,
            last_lines: Default::default(),
            child: command.spawn().map_err(failed)?,
            stream: BufReader::new(stream),
            transcript: File::create(transcript)?,
        };
        let _ = head.lines().try_for_each(|line| program.write(line));
        Ok(program)
    }

    /// Tells the client what happens at a moment, in milliseconds, and whether its link takes what
    /// it sends. What happens is `none`, `frame <hex>`, `payload <hex>`, `release` or `cleanup`. If
    /// few random words are left after it, more are added.
    pub fn event(&mut self, moment: u64, takes: bool, what: &str) -> Result<Vec<Report>> {
        self.write(&format!("at {moment} {} {what}", if takes { "ok" } else { "refuse" }))?;
        let (begun, mut reports) = (Instant::now(), Vec::new());
        while begun.elapsed() < LIMIT {
            let line = self.read()?;
            let words: Vec<_> = line.split(' ').collect();
            if let ["next", moment, listening, left] = words[..] {
                self.next = moment.parse().ok();
                self.is_listening = listening == "listening";
                if left.parse::<u64>().map_err(Error::other)? < 64 {
                    self.write(&format!("words {}", random_words()?))?;
                }
                return Ok(reports);
            }
            let wrong = || Error::other(format!("no line of an answer: {line}"));
            reports.push(report(&words).ok_or_else(wrong)?);
        }
        Err(self.ending())
    }

    /// Ends the dialogue, and waits for the program, whose end closes the stream.
    pub fn end(&mut self) -> Result<()> {
        self.write("end")?;
        let is_good = self.read()? == "ok" && self.stream.by_ref().lines().next().is_none();
        if is_good { Ok(()) } else { Err(self.ending()) }
    }

    /// The file of the answers. When none is due, it can be read only if the program has ended.
    pub fn output(&self) -> RawFd {
        self.stream.get_ref().as_raw_fd()
    }

    fn write(&mut self, line: &str) -> Result<()> {
        self.remember(line);
        writeln!(self.transcript, "{line}")?;
        let stream = self.stream.get_mut();
        stream.write_all(format!("{line}\n").as_bytes()).map_err(|_| self.ending())
    }

    fn read(&mut self) -> Result<String> {
        let line = self.stream.by_ref().lines().next();
        let line = line.and_then(Result::ok).ok_or_else(|| self.ending())?;
        self.remember(&line);
        Ok(line)
    }

    fn remember(&mut self, line: &str) {
        self.last_lines.rotate_left(1);
        self.last_lines[7] = line.chars().take(160).collect();
    }

    // How the program ended, or that it is too slow.
    fn ending(&mut self) -> Error {
        sleep(Duration::from_millis(200));
        Error::other(match self.child.try_wait() {
            Ok(Some(status)) => format!("the program ended with {status}"),
            _ => format!("the program does not answer within {LIMIT:?}"),
        })
    }
}

impl Drop for Program {
    fn drop(&mut self) {
        let _ = self.child.kill().and_then(|()| self.child.wait());
    }
}

// What a line of the outputs says.
fn report(words: &[&str]) -> Option<Report> {
    let send = |to, bytes| Some(Report::Send(to, unhex(bytes)?));
    match words {
        [_, "handed", "frame", bytes] => send(None, bytes),
        [_, "handed", "udp4", _, to, bytes] => send(Some((to.parse().ok()?, 67)), bytes),
        [_, "handed", "udp6", bytes] => send(Some((ALL_SERVERS.into(), 547)), bytes),
        [_, "state", state, lease @ ..] => Some(Report::State(state.to_string(), lease.join(" "))),
        [_, "refused", ..] => Some(Report::Note("the link is down: no message sent".into())),
        [_, "failed", _] | ["dropped", _, _, ..] => Some(Report::Note(words.join(" "))),
        _ => None,
    }
}

/// A thousand random words, of eight digits each, in hex.
pub fn random_words() -> Result<String> {
    let mut bytes = [0; 4096];
    File::open("/dev/urandom")?.read_exact(&mut bytes)?;
    Ok(hex(&bytes))
}

/// Bytes in hex, lower case; `-` for none.
pub fn hex(bytes: &[u8]) -> String {
    let digits: String = bytes.iter().map(|byte| format!("{byte:02x}")).collect();
    if digits.is_empty() { "-".into() } else { digits }
}

/// The bytes of a text in hex, if it is one.
pub fn unhex(text: &str) -> Option<Vec<u8>> {
    let byte = |at| u8::from_str_radix(text.get(at..at + 2)?, 16).ok();
    (0..text.len()).step_by(2).map(byte).collect()
}
