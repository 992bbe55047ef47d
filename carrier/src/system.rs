//! What the system says: the clock, signals, and what an interface is.

use std::ffi::{c_int, c_long};
use std::fs::read_to_string;
use std::io::{Error, Result, Write};
use std::os::unix::net::UnixStream;
use std::sync::OnceLock;
use std::time::UNIX_EPOCH;

const CLOCK_BOOTTIME: c_int = 7;
const SIGINT: u8 = 2;
const SIGTERM: u8 = 15;
/// The signal that asks for a clean-up.
pub const SIGHUP: u8 = 1;

unsafe extern "C" {
    // The seconds, and the nanoseconds of the second.
    fn clock_gettime(clock: c_int, time: *mut [c_long; 2]) -> c_int;
    fn signal(number: c_int, handler: extern "C" fn(c_int)) -> usize;
}

/// Milliseconds since 1970 at the first call. From then on the clock goes on while the machine
/// sleeps, and nobody sets it.
pub fn now() -> u64 {
    static BOOT: OnceLock<u64> = OnceLock::new();
    let mut time = [0, 0];
    unsafe { clock_gettime(CLOCK_BOOTTIME, &mut time) };
    let since_boot = time[0] as u64 * 1000 + time[1] as u64 / 1_000_000;
    let since_1970 = || UNIX_EPOCH.elapsed().unwrap_or_default().as_millis() as u64;
    BOOT.get_or_init(|| since_1970().saturating_sub(since_boot)) + since_boot
}

static SIGNALS: OnceLock<UnixStream> = OnceLock::new();

extern "C" fn on_signal(number: c_int) {
    let _ = SIGNALS.get().map(|mut stream| stream.write(&[number as u8]));
}

/// A stream from which a signal that asks for something is read, as a byte, once it has come.
pub fn signals() -> Result<UnixStream> {
    let (reader, writer) = UnixStream::pair()?;
    reader.set_nonblocking(true)?;
    SIGNALS.get_or_init(|| writer);
    for number in [SIGHUP, SIGINT, SIGTERM] {
        unsafe { signal(number.into(), on_signal) };
    }
    Ok(reader)
}

/// What the kernel says of an interface under `/sys/class/net`.
pub fn attribute(interface: &str, name: &str) -> Result<String> {
    let text = read_to_string(format!("/sys/class/net/{interface}/{name}"));
    let missing = |_| Error::other(format!("{interface} has no {name}"));
    text.map(|text| text.trim().into()).map_err(missing)
}
