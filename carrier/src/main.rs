//! The carrier, which isn't proved: it has the sockets and the clock, tells the proved program what
//! happens, and does what the client says.

mod dialogue;
mod lease;
mod sockets;
mod system;

use dialogue::{Program, Report, hex, random_words};
use lease::{Lease, lease_of};
use sockets::Sockets;
use std::env::{args, current_exe};
use std::io::{Error, ErrorKind, Read, Result};
use std::os::{fd::AsRawFd, unix::net::UnixStream, unix::process::CommandExt};
use std::process::{Command, Stdio, exit};
use std::{collections::HashMap, fs::read_to_string};
use system::{SIGHUP, attribute, now, signals};

// What is asked for: the values of options by name, and the `interface`.
type Options = HashMap<String, String>;

fn main() {
    if let Err(error) = options().and_then(run) {
        eprintln!("carrier: {error}");
        exit(1);
    }
}

// What the words of the command line ask for; an error if one of them is wrong or missing.
fn options() -> Result<Options> {
    let (mut options, mut words) = (Options::new(), args().skip(1));
    let wrong = |what| Err(Error::other(what));
    while let Some(word) = words.next() {
        let (name, value) = match word.as_str() {
            "-4" | "-6" | "--once" | "--foreground" | "--help" => (word, String::new()),
            "--prefix" | "--forms" | "--host" | "--timeout" | "--program" | "--lease"
            | "--hook" | "--transcript" => match words.next() {
                Some(value) => (word, value),
                None => return wrong(format!("{word} has no value")),
            },
            name if name.starts_with('-') => return wrong(format!("what is {name}?")),
            _ if options.contains_key("interface") => {
                return wrong(format!("{word} is a second interface"));
            }
            _ => ("interface".into(), word),
        };
        options.insert(name, value);
    }
    if !options.contains_key("interface") && !options.contains_key("--help") {
        return wrong("no interface is named; --help says how to".into());
    }
    Ok(options)
}

// Prints the help, or runs the carrier, here or, by starting it anew, in the background.
fn run(options: Options) -> Result<()> {
    let has = |name| options.contains_key(name);
    if has("--help") {
        print!("{}", include_str!("../help.txt"));
    } else if has("--once") || has("--foreground") {
        return Carrier::start(options)?.run();
    } else {
        let mut command = Command::new(current_exe()?);
        command.args(args().skip(1)).arg("--foreground").process_group(0);
        println!("{}", command.stdin(Stdio::null()).stdout(Stdio::null()).spawn()?.id());
    }
    Ok(())
}

// The text of a file; none if there is no such file.
fn text_of(path: &str) -> Result<String> {
    match read_to_string(path) {
        Err(error) if error.kind() == ErrorKind::NotFound => Ok(String::new()),
        read => read.map_err(|error| Error::other(format!("{path}: {error}"))),
    }
}

// A client on an interface: what was asked for, what it speaks to, and what it has.
struct Carrier {
    options: Options,
    signals: UnixStream,
    sockets: Sockets,
    program: Program,
    duid: String,
    lease: Option<Lease>,
    is_set: bool,
}

impl Carrier {
    // Opens the sockets, and starts the program with the identifier and the lease that are kept.
    fn start(options: Options) -> Result<Self> {
        let value = |name, missing| options.get(name).map_or(missing, String::as_str);
        let (name, timeout) = (&options["interface"], value("--timeout", "0"));
        let index: u32 = attribute(name, "ifindex")?.parse().map_err(Error::other)?;
        let mac = attribute(name, "address")?.replace(':', "");
        let file = text_of(value("--lease", ""))?;
        let kept = |word| file.lines().find_map(|line| line.strip_prefix(word));
        let duid = kept("duid ").map_or(format!("00030001{mac}"), String::from);
        let lease = kept("lease ").and_then(lease_of);
        let (sockets, client) = if options.contains_key("-6") {
            let (sockets, from) = Sockets::open6(index)?;
            let mode = options.get("--prefix").map_or("na".into(), |length| format!("pd {length}"));
            let iface = format!("iface {index} {from} {mac} {mode} {timeout}");
            (sockets, format!("dhcp6 2\n{iface}\nduid {duid}"))
        } else {
            let (forms, host) = (value("--forms", "rfc2131"), hex(value("--host", "").as_bytes()));
            let iface = format!("iface {index} {mac} 0 {timeout}\nforms {forms}");
            let client = format!("dhcp4 3\n{iface}\nhost {host}\nclient 01{mac}");
            (Sockets::open4(name, index)?, client)
        };
        let held = lease.as_ref().and_then(|lease| lease["words"].split_once(' '));
        let (taken, fields) = held.unwrap_or(("", "none"));
        let (words, start) = (random_words()?, taken.parse().unwrap_or(u64::MAX).min(now()));
        let head = format!("{client}\ncodes default\nlease {fields}\nwords {words}\nstart {start}");
        let path = value("--program", "dhcp_main");
        let program = Program::start(path, &head, value("--transcript", "/dev/null"))?;
        Ok(Carrier { options, signals: signals()?, sockets, program, duid, lease, is_set: false })
    }

    // Keeps a lease until a signal comes. After a failure the address is taken off.
    fn run(mut self) -> Result<()> {
        self.play_events().map_err(|error| {
            self.set("deconfig");
            let lines = self.program.last_lines.join("\n");
            Error::other(format!("{error}; the last lines were\n{lines}"))
        })
    }

    // Tells the program what happens, one event after the other.
    fn play_events(&mut self) -> Result<()> {
        let mut what = "none".to_string();
        loop {
            let takes = attribute(&self.options["interface"], "carrier").is_ok_and(|up| up == "1");
            for report in self.program.event(now(), takes, &what)? {
                self.carry_out(report);
            }
            if what == "release" || what == "cleanup" {
                self.hold(None);
            }
            if what == "release" || (self.is_set && self.options.contains_key("--once")) {
                return self.program.end();
            }
            what = self.next();
        }
    }

    // Waits for what happens next: a signal, a packet that is listened for, or the moment.
    fn next(&mut self) -> String {
        loop {
            let mut signal = [0];
            if self.signals.read(&mut signal).is_ok() {
                return if signal == [SIGHUP] { "cleanup" } else { "release" }.into();
            }
            while let Some(packet) = self.sockets.receive() {
                if self.program.is_listening {
                    return packet;
                }
            }
            let left = self.program.next.map(|moment| moment.saturating_sub(now()));
            let others = [self.program.output(), self.signals.as_raw_fd()];
            if self.sockets.wait(others, left, self.program.is_listening) || left == Some(0) {
                return "none".into();
            }
        }
    }

    fn carry_out(&mut self, report: Report) {
        match report {
            Report::Send(to, bytes) => {
                if let Err(error) = self.sockets.send(to, &bytes) {
                    self.log(&format!("no message sent: {error}"));
                }
            }
            Report::State(state, fields) => {
                let lease = lease_of(&format!("{} {fields}", now()));
                let address = lease.as_ref().map_or("", |lease| &lease["address"]);
                self.log(format!("{state} {address}").trim_end());
                if lease.is_some() || matches!(state.as_str(), "init_reboot" | "solicit") {
                    self.hold(lease);
                }
            }
            Report::Note(what) => self.log(&what),
        }
    }
}
