//! The sockets of a client of either family, by calls of the C library where std has none.

use crate::dialogue::{ALL_SERVERS, MAX_PACKET, hex};
use std::ffi::{c_int, c_ulong, c_void};
use std::io::{Error, ErrorKind, Result};
use std::net::{IpAddr, SocketAddr, SocketAddrV6, UdpSocket};
use std::os::fd::{AsRawFd, FromRawFd, RawFd};
use std::ptr::from_ref;

const AF_INET: u16 = 2;
const AF_PACKET: u16 = 17;
const SOCK_DGRAM: c_int = 2;
const SOCK_RAW: c_int = 3;
const SOCK_CLOEXEC: c_int = 0o2000000;
const SOCK_NONBLOCK: c_int = 0o4000;
const SOL_SOCKET: c_int = 1;
const SO_REUSEADDR: c_int = 2;
const SO_BINDTODEVICE: c_int = 25;
const SO_ATTACH_FILTER: c_int = 26;
const ETH_P_IP: u16 = 0x800;
const POLLIN: i16 = 1;
// The longest that a call waits, in milliseconds.
const MOST_WAIT: u64 = 10_000;

unsafe extern "C" {
    fn socket(family: c_int, kind: c_int, protocol: c_int) -> c_int;
    fn setsockopt(file: c_int, level: c_int, name: c_int, value: *const c_void, len: u32) -> c_int;
    fn bind(file: c_int, address: *const u8, length: u32) -> c_int;
    fn poll(files: *mut PollFile, count: c_ulong, timeout: c_int) -> c_int;
}

#[repr(C)]
struct PollFile(RawFd, i16, i16);

/// The open sockets: for payloads and, in IPv4, for frames.
pub struct Sockets {
    payloads: UdpSocket,
    frames: Option<UdpSocket>,
}

impl Sockets {
    /// Those of an IPv4 client: for the frames of an interface to UDP port 68, and for the payloads
    /// to it, whatever the address, since servers send a Nack to all.
    pub fn open4(name: &str, index: u32) -> Result<Self> {
        let frames = open(AF_PACKET, SOCK_RAW)?;
        let filter = Filter { length: PORT_68.len() as u16, instructions: PORT_68.as_ptr() };
        set_option(&frames, SO_ATTACH_FILTER, &filter)?;
        let address = [&ETH_P_IP.to_be_bytes()[..], &index.to_ne_bytes(), &[0; 12]].concat();
        bind_to(&frames, AF_PACKET, &address)?;
        let payloads = open(AF_INET, SOCK_DGRAM)?;
        set_option(&payloads, SO_REUSEADDR, &c_int::from(true))?;
        set_option(&payloads, SO_BINDTODEVICE, name)?;
        payloads.set_broadcast(true)?;
        bind_to(&payloads, AF_INET, &[&68u16.to_be_bytes()[..], &[0; 12]].concat())?;
        Ok(Sockets { payloads, frames: Some(frames) })
    }

    /// That of an IPv6 client, for payloads to UDP port 546 of the address, in hex, it sends from.
    pub fn open6(index: u32) -> Result<(Self, String)> {
        let probe = UdpSocket::bind("[::]:0")?;
        probe.connect(SocketAddrV6::new(ALL_SERVERS, 547, 0, index))?;
        let SocketAddr::V6(from) = probe.local_addr()? else { return Err(ErrorKind::Other.into()) };
        let payloads = UdpSocket::bind(SocketAddrV6::new(*from.ip(), 546, 0, index))?;
        payloads.set_nonblocking(true)?;
        Ok((Sockets { payloads, frames: None }, hex(&from.ip().octets())))
    }

    /// Sends a payload to an address and port, or, without them, a frame.
    pub fn send(&self, to: Option<(IpAddr, u16)>, bytes: &[u8]) -> Result<usize> {
        match to {
            Some(to) => self.payloads.send_to(bytes, to),
            None => self.frames.as_ref().ok_or(ErrorKind::Unsupported)?.send(bytes),
        }
    }

    /// The next packet that waits, as an event has it. A longer one than an event may have is lost.
    pub fn receive(&self) -> Option<String> {
        let mut room = [0; MAX_PACKET + 1];
        for (kind, socket) in [("frame", self.frames.as_ref()), ("payload", Some(&self.payloads))] {
            while let Some(Ok(length)) = socket.map(|socket| socket.recv(&mut room)) {
                if length <= MAX_PACKET {
                    return Some(format!("{kind} {}", hex(&room[..length])));
                }
            }
        }
        None
    }

    /// Waits until one of the other files can be read, so many milliseconds are over, or a packet
    /// is there, if one is listened for; ten seconds at most, also where no limit is given. poll(2)
    /// does not count the time in which the machine sleeps: a longer wait would end late after it,
    /// so the caller looks at the clock and waits again. Returns whether the first of those files
    /// can be read.
    pub fn wait(&self, others: [RawFd; 2], milliseconds: Option<u64>, is_listening: bool) -> bool {
        let sockets = self.frames.iter().chain([&self.payloads]).filter(|_| is_listening);
        let files = others.into_iter().chain(sockets.map(UdpSocket::as_raw_fd));
        let mut files: Vec<_> = files.map(|file| PollFile(file, POLLIN, 0)).collect();
        let limit = milliseconds.map_or(MOST_WAIT, |left| left.min(MOST_WAIT)) as c_int;
        unsafe { poll(files.as_mut_ptr(), files.len() as c_ulong, limit) > 0 && files[0].2 != 0 }
    }
}

// A socket of this family and kind.
fn open(family: u16, kind: c_int) -> Result<UdpSocket> {
    let file = unsafe { socket(family.into(), kind | SOCK_NONBLOCK | SOCK_CLOEXEC, 0) };
    check(file)?;
    Ok(unsafe { UdpSocket::from_raw_fd(file) })
}

fn set_option<T: ?Sized>(socket: &UdpSocket, name: c_int, value: &T) -> Result<()> {
    let (file, length) = (socket.as_raw_fd(), size_of_val(value) as u32);
    check(unsafe { setsockopt(file, SOL_SOCKET, name, from_ref(value).cast(), length) })
}

// Binds a socket to an address: its family, and what follows that.
fn bind_to(socket: &UdpSocket, family: u16, rest: &[u8]) -> Result<()> {
    let address = [&family.to_ne_bytes(), rest].concat();
    check(unsafe { bind(socket.as_raw_fd(), address.as_ptr(), address.len() as u32) })
}

// What the C library answered, negative after a failure.
fn check(answer: c_int) -> Result<()> {
    if answer < 0 { Err(Error::last_os_error()) } else { Ok(()) }
}

// A packet filter of the kernel (BPF): of IPv4 frames, those to UDP port 68 alone wake us.
#[repr(C)]
struct Instruction(u16, u8, u8, u32);

#[repr(C)]
struct Filter {
    length: u16,
    instructions: *const Instruction,
}

static PORT_68: [Instruction; 7] = [
    Instruction(0x30, 0, 0, 23),    // the protocol
    Instruction(0x15, 0, 4, 17),    // is it UDP?
    Instruction(0xb1, 0, 0, 14),    // the length of the IPv4 header
    Instruction(0x48, 0, 0, 16),    // the port that it goes to
    Instruction(0x15, 0, 1, 68),    // is it 68?
    Instruction(0x06, 0, 0, 65535), // take it
    Instruction(0x06, 0, 0, 0),     // drop it
];
