//! System calls for which neither std nor a crate in Debian has a safe function: the only unsafe
//! code of this crate.
#![allow(unsafe_code)]

use std::ffi::CString;
use std::fs::File;
use std::io::{self, Read};
use std::mem::{size_of, zeroed};
use std::os::fd::{AsRawFd, FromRawFd, OwnedFd, RawFd};
use std::os::unix::net::UnixListener;

/// The first of the sockets that systemd passes.
const FIRST_HANDED: RawFd = 3;

/// The user at the other end of a Unix socket.
pub fn peer_user(socket: &impl AsRawFd) -> io::Result<u32> {
    // SAFETY: the structure has only numbers.
    let mut peer: libc::ucred = unsafe { zeroed() };
    option(socket, libc::SO_PEERCRED, &mut peer)?;
    Ok(peer.uid)
}

/// The socket that systemd passes; `None` if it does not listen. Call this only once.
pub fn handed_listener() -> io::Result<Option<UnixListener>> {
    // SAFETY: if a file with this number is open, nobody else owns it, since it was passed to the
    // process; if none is, `fcntl` fails.
    let socket = unsafe {
        if libc::fcntl(FIRST_HANDED, libc::F_SETFD, libc::FD_CLOEXEC) < 0 {
            return Err(io::Error::last_os_error());
        }
        OwnedFd::from_raw_fd(FIRST_HANDED)
    };
    let (mut kind, mut listens): (libc::c_int, libc::c_int) = (0, 0);
    option(&socket, libc::SO_TYPE, &mut kind)?;
    option(&socket, libc::SO_ACCEPTCONN, &mut listens)?;
    Ok((kind == libc::SOCK_STREAM && listens != 0).then(|| UnixListener::from(socket)))
}

fn option<T>(socket: &impl AsRawFd, name: libc::c_int, value: &mut T) -> io::Result<()> {
    let mut len = size_of::<T>() as libc::socklen_t;
    let at: *mut T = value;
    // SAFETY: the value is borrowed for the call, and has the stated length; all `T` here are
    // numbers.
    let status = unsafe {
        libc::getsockopt(socket.as_raw_fd(), libc::SOL_SOCKET, name, at.cast(), &mut len)
    };
    if status == 0 {
        Ok(())
    } else {
        Err(io::Error::last_os_error())
    }
}

/// A memory figure of this process in bytes, by the name of its line in /proc/self/status; 0 if it
/// can't be read.
pub fn memory(name: &str) -> u64 {
    let mut status = [0; 4_096];
    let read = File::open("/proc/self/status").and_then(|mut file| file.read(&mut status));
    let text = read.ok().and_then(|len| std::str::from_utf8(&status[..len]).ok());
    let line = text.and_then(|text| text.lines().find_map(|line| line.strip_prefix(name)));
    let kibibytes = line.and_then(|line| line.split_whitespace().next()?.parse::<u64>().ok());
    kibibytes.map_or(0, |kibibytes| 1_024 * kibibytes)
}

/// The system's text for an error number.
pub fn error_text(number: i32, room: &mut [u8; 128]) -> &str {
    // SAFETY: the buffer is borrowed for the call, and has the stated length.
    let status = unsafe { libc::strerror_r(number, room.as_mut_ptr().cast(), room.len()) };
    let text = room.split(|byte| *byte == 0).next().unwrap_or_default();
    std::str::from_utf8(text).ok().filter(|_| status == 0).unwrap_or("an error of the system")
}

/// The number of the group with a name; `None` if there is none.
pub fn group_number(name: &str) -> Option<u32> {
    let name = CString::new(name).ok()?;
    let mut texts = vec![0; 65_536];
    // SAFETY: the structure has only numbers and pointers; all that is borrowed lives for the call.
    unsafe {
        let mut group: libc::group = zeroed();
        let mut result = std::ptr::null_mut();
        let status = libc::getgrnam_r(
            name.as_ptr(),
            &mut group,
            texts.as_mut_ptr(),
            texts.len(),
            &mut result,
        );
        (status == 0 && !result.is_null()).then_some(group.gr_gid)
    }
}
