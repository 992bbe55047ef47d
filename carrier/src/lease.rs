//! A lease: its variables, the file that keeps it, and the hook that sets an interface as it says.

use crate::{Carrier, dialogue::unhex};
use std::io::{Result, Write, stderr};
use std::net::{Ipv4Addr, Ipv6Addr};
use std::process::{Command, Stdio};
use std::{collections::BTreeMap, fs};

/// The variables of a lease, with the names of udhcpc's scripts. Among them are `address`, with the
/// length, and `words`, the text that is kept: when it was taken, in milliseconds, and its fields.
pub type Lease = BTreeMap<&'static str, String>;

// The names of the words of a lease of either family, in the program's order.
const WORDS_4: &str = "taken ip siaddr serverid t1 t2 lease subnet broadcast mtu dns router \
    ntpsrv hostname domain staticroutes";
const WORDS_6: &str = "taken association iaid ipv6 mask serverid t1 t2 preferred lease xid duid \
    serverip";

/// The lease that has these words, if a family has such a lease.
pub fn lease_of(words: &str) -> Option<Lease> {
    let is_its = |names: &&str| names.split(' ').count() == words.split(' ').count();
    let names = [WORDS_4, WORDS_6].into_iter().find(is_its)?.split(' ');
    let values = names.zip(words.split(' '));
    let values = values.filter_map(|(name, word)| Some((name, value(name, word)?)));
    let mut lease: Lease = values.chain([("words", words.into())]).collect();
    if let Some(mask) = lease.get("subnet").and_then(|mask| mask.parse::<Ipv4Addr>().ok()) {
        // 0.0.0.0: the server sent no mask
        let length = if mask.is_unspecified() { 32 } else { u32::from(mask).leading_ones() };
        lease.insert("mask", length.to_string());
    }
    let address = lease.get("ip").or(lease.get("ipv6"))?;
    lease.insert("address", format!("{address}/{}", lease.get("mask")?));
    Some(lease)
}

// The value of a variable; none if the lease does not have it, or if it is a name with characters
// that names of hosts do not have: a server chooses it, and scripts take it.
fn value(name: &str, word: &str) -> Option<String> {
    let is_plain = |char: char| char.is_ascii_alphanumeric() || "-._".contains(char);
    Some(match name {
        _ if matches!(word, "none" | "-") => return None,
        "hostname" | "domain" => {
            String::from_utf8(unhex(word)?).ok().filter(|name| name.chars().all(is_plain))?
        }
        "ipv6" | "serverip" => Ipv6Addr::from(u128::from_str_radix(word, 16).ok()?).to_string(),
        "staticroutes" => {
            let routes = word.split(',').filter_map(|route| route.rsplit_once('/'));
            routes.map(|(to, by)| format!("{to} {by} ")).collect()
        }
        _ => word.replace(',', " "),
    })
}

impl Carrier {
    /// Keeps a lease and sets the interface as it says; without one, takes off what the last gave.
    pub fn hold(&mut self, lease: Option<Lease>) {
        let address = |lease: &Option<Lease>| lease.as_ref().map(|lease| lease["address"].clone());
        if address(&self.lease) != address(&lease) {
            self.set("deconfig");
            self.is_set = false;
        }
        self.lease = lease;
        if let Err(error) = self.keep() {
            self.log(&format!("the lease was not kept: {error}"));
        }
        self.set(if self.is_set { "renew" } else { "bound" });
        self.is_set = self.lease.is_some();
    }

    // Writes the file that keeps the identifier and the lease.
    fn keep(&self) -> Result<()> {
        let Some(file) = self.options.get("--lease") else { return Ok(()) };
        let lease = self.lease.as_ref().map_or("none", |lease| &lease["words"]);
        fs::write(format!("{file}.new"), format!("duid {}\nlease {lease}\n", self.duid))?;
        fs::rename(format!("{file}.new"), file)
    }

    /// Runs the hook with a lease, if there is one, for `bound`, `renew` or `deconfig`. A variable
    /// that the lease does not have is not set, whatever the carrier's own environment has.
    pub fn set(&self, event: &str) {
        let Some(lease) = &self.lease else { return };
        let hook = self.options.get("--hook");
        let mut command = Command::new(hook.map_or("sh", String::as_str));
        if hook.is_none() {
            command.args(["-c", include_str!("../hook.sh"), "hook.sh"]);
        }
        for name in [WORDS_4, WORDS_6].iter().flat_map(|names| names.split(' ')) {
            command.env_remove(name);
        }
        command.arg(event).env("interface", &self.options["interface"]).envs(lease);
        let status = command.stdin(Stdio::null()).stdout(stderr()).status();
        if !status.as_ref().is_ok_and(|status| status.success()) {
            self.log(&format!("the hook for {event} failed: {status:?}"));
        }
    }

    /// Writes a line to standard error, if anyone reads it.
    pub fn log(&self, text: &str) {
        let _ = writeln!(stderr(), "{}: {text}", self.options["interface"]);
    }
}
