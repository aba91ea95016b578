//! Sockets at which no call waits but `wait`: by UDP, or at network interfaces.

use std::ffi::CString;
use std::io::{Error, ErrorKind, Result};
use std::net::{SocketAddr, ToSocketAddrs, UdpSocket};
use std::os::fd::{AsRawFd, FromRawFd, OwnedFd, RawFd};
use std::time::Duration;

/// The EtherType of EtherCAT.
const ETHERCAT: u16 = 0x88A4;

/// What the system's headers call so (Linux, x86-64).
const AF_PACKET: i32 = 17;
const SOCK_RAW: i32 = 3;
const SOCK_NONBLOCK: i32 = 0o4000;
const SOCK_CLOEXEC: i32 = 0o2000000;
const MSG_DONTWAIT: i32 = 0x40;
const MSG_NOSIGNAL: i32 = 0x4000;
const POLLIN: i16 = 1;

#[repr(C)]
struct PollFd {
    fd: i32,
    events: i16,
    revents: i16,
}

#[repr(C)]
struct TimeSpec {
    seconds: i64,
    nanoseconds: i64,
}

/// The address of a packet socket.
#[repr(C)]
struct LinkAddress {
    family: u16,
    protocol: u16,
    interface: i32,
    rest: [u8; 12],
}

extern "C" {
    fn socket(domain: i32, kind: i32, protocol: i32) -> i32;
    fn bind(fd: i32, address: *const LinkAddress, size: u32) -> i32;
    fn if_nametoindex(name: *const core::ffi::c_char) -> u32;
    fn send(fd: i32, bytes: *const u8, size: usize, flags: i32) -> isize;
    fn recv(fd: i32, bytes: *mut u8, size: usize, flags: i32) -> isize;
    fn ppoll(asked: *mut PollFd, count: u64, within: *const TimeSpec, mask: *const u8) -> i32;
}

/// A socket that speaks with HOST:PORT alone.
pub(super) fn connected(text: &str) -> Result<OwnedFd> {
    let mut fault = Error::from(ErrorKind::NotFound);
    for to in text.to_socket_addrs()? {
        match connected_to(to) {
            Ok(opened) => return Ok(opened),
            Err(found) => fault = found,
        }
    }
    Err(fault)
}

fn connected_to(to: SocketAddr) -> Result<OwnedFd> {
    let opened = UdpSocket::bind(if to.is_ipv4() { "0.0.0.0:0" } else { "[::]:0" })?;
    opened.connect(to)?;
    opened.set_nonblocking(true)?;
    Ok(opened.into())
}

/// A packet socket of EtherCAT's type at an interface.
pub(super) fn bound(interface: &str) -> Result<OwnedFd> {
    let name = CString::new(interface)?;
    // SAFETY: the name ends with a NUL; the address is as large as is said, and only read.
    unsafe {
        let number = if_nametoindex(name.as_ptr());
        if number == 0 {
            return Err(Error::last_os_error());
        }
        let made = socket(AF_PACKET, SOCK_RAW | SOCK_NONBLOCK | SOCK_CLOEXEC, 0);
        if made < 0 {
            return Err(Error::last_os_error());
        }
        let opened = OwnedFd::from_raw_fd(made);
        let (family, protocol) = (AF_PACKET as u16, ETHERCAT.to_be());
        let at = LinkAddress { family, protocol, interface: number as i32, rest: [0; 12] };
        if bind(made, &at, core::mem::size_of::<LinkAddress>() as u32) != 0 {
            return Err(Error::last_os_error());
        }
        Ok(opened)
    }
}

/// Sends a packet.
pub(super) fn send_to(socket: &OwnedFd, packet: &[u8]) -> Result<()> {
    // SAFETY: the pointer is that of a slice of that length, which is only read.
    let sent = unsafe { send(socket.as_raw_fd(), packet.as_ptr(), packet.len(), MSG_NOSIGNAL) };
    if sent < 0 {
        return Err(Error::last_os_error());
    }
    Ok(())
}

/// Receives a packet that waits, if one does.
pub(super) fn receive(socket: &OwnedFd, room: &mut [u8]) -> Result<Option<usize>> {
    // SAFETY: the pointer is that of a slice of that length, which is borrowed alone.
    let got = unsafe { recv(socket.as_raw_fd(), room.as_mut_ptr(), room.len(), MSG_DONTWAIT) };
    if got >= 0 {
        return Ok(Some(got as usize));
    }
    let fault = Error::last_os_error();
    match fault.kind() {
        ErrorKind::WouldBlock | ErrorKind::Interrupted => Ok(None),
        _ => Err(fault),
    }
}

/// Waits until something is at one of these descriptors, and says at which; at none where the time is over,
/// or a signal came.
pub(super) fn wait(sockets: [Option<RawFd>; 2], within: Duration) -> [bool; 2] {
    let mut asked = sockets.map(|fd| PollFd { fd: fd.unwrap_or(-1), events: POLLIN, revents: 0 });
    let seconds = within.as_secs().min(i64::MAX as u64) as i64;
    let within = TimeSpec { seconds, nanoseconds: within.subsec_nanos().into() };
    // SAFETY: both are asked for by their count; the time is only read, and there is no mask.
    let found = unsafe { ppoll(asked.as_mut_ptr(), 2, &within, core::ptr::null()) };
    asked.map(|one| found > 0 && one.revents != 0)
}

const _: () = assert!(core::mem::size_of::<LinkAddress>() == 20);
const _: () = assert!(core::mem::size_of::<PollFd>() == 8);
