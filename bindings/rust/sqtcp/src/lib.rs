//! The proved server's side of TCP (RFC 9293 over IPv4) as an engine without socket, clock and thread.
//!
//! A [`Server`] takes IPv4 datagrams and the time, and hands out the datagrams that are to be sent. `docs/C.md` tells what is proved of it.
//! This wrapper isn't proved: it meets by types what the C header asks of a caller.
//!
//! ```
//! use sqtcp::{Server, Setting};
//! use std::net::Ipv4Addr;
//!
//! let mut server = Server::open(&Setting {
//!     address: Ipv4Addr::new(10, 9, 0, 2),
//!     broadcast: Ipv4Addr::new(10, 9, 0, 255),
//!     echo: 7,
//!     ..Setting::with_secret([7; 16]) // of a real server: 16 random bytes
//! })?;
//! server.datagram(1_000_000, b"no IPv4 datagram")?;
//! assert_eq!(server.next(), None);
//! # Ok::<(), sqtcp::Error>(())
//! ```
#![warn(missing_docs)]

use std::{error, ffi::c_void, fmt, marker::PhantomData, net::Ipv4Addr, ptr::null_mut};

/// What `sqtcp.h` declares. The tests compare its sizes and offsets with C's.
mod raw {
    use std::ffi::c_void;

    #[repr(C)]
    pub struct Handle {
        pub at: *mut c_void,
        pub open: bool,
    }

    #[repr(C)]
    pub struct Setting {
        pub idle: u64,
        pub bytes: u64,
        pub places: u64,
        pub secret: [u8; 16],
        pub address: u32,
        pub broadcast: u32,
        pub pings: u32,
        pub host: u32,
        pub segment: u16,
        pub echo: u16,
        pub discard: u16,
        pub daytime: u16,
        pub chargen: u16,
        pub ttl: u8,
        pub dscp: u8,
    }

    extern "C" {
        pub fn sqtcp_open(server: *mut Handle, setting: *const Setting) -> u32;
        pub fn sqtcp_close(server: *mut Handle);
        pub fn sqtcp_datagram(server: *mut Handle, now: u64, datagram: *const u8, n: usize) -> u32;
        pub fn sqtcp_tick(server: *mut Handle, now: u64) -> u32;
        pub fn sqtcp_next_size(server: *mut Handle) -> usize;
        pub fn sqtcp_next(server: *mut Handle, buffer: *mut u8, room: usize) -> usize;
        pub fn sqtcp_connections(server: *mut Handle) -> usize;
    }
}

/// What a server is opened with. Port 0 says that a service isn't had.
#[derive(Clone, Debug, PartialEq, Eq)]
pub struct Setting {
    /// How long a silent connection stays where the table is full, in microseconds.
    pub idle: u64,
    /// How many bytes of text all connections together may hold.
    pub bytes: u64,
    /// How many connections are kept at once.
    pub places: u64,
    /// What is behind the initial sequence numbers (RFC 6528): random, and nobody else's.
    pub secret: [u8; 16],
    /// The address that it answers for.
    pub address: Ipv4Addr,
    /// The broadcast address of its network.
    pub broadcast: Ipv4Addr,
    /// How many echo requests are answered from one tick to the next.
    pub pings: u32,
    /// Whose orders it obeys, if anybody's.
    pub host: Option<Ipv4Addr>,
    /// The most bytes of text in a segment that is sent; below 64 counts as 64.
    pub segment: u16,
    /// The port of echo (RFC 862).
    pub echo: u16,
    /// The port of discard (RFC 863).
    pub discard: u16,
    /// The port of daytime (RFC 867).
    pub daytime: u16,
    /// The port of the character generator (RFC 864).
    pub chargen: u16,
    /// TTL of each datagram that is sent; 0 stands for 64.
    pub ttl: u8,
    /// Its DSCP (RFC 2474), 0 to 63; modulo 64 beyond that.
    pub dscp: u8,
}

impl Setting {
    /// A thousand connections with 64 MiB, segments of 1,460 bytes, no address and no service.
    pub fn with_secret(secret: [u8; 16]) -> Setting {
        Setting {
            idle: 60_000_000,
            bytes: 64 << 20,
            places: 1_000,
            secret,
            address: Ipv4Addr::UNSPECIFIED,
            broadcast: Ipv4Addr::BROADCAST,
            pings: 1_000,
            host: None,
            segment: 1_460,
            echo: 0,
            discard: 0,
            daytime: 0,
            chargen: 0,
            ttl: 64,
            dscp: 0,
        }
    }

    fn raw(&self) -> raw::Setting {
        raw::Setting {
            idle: self.idle,
            bytes: self.bytes,
            places: self.places,
            secret: self.secret,
            address: self.address.into(),
            broadcast: self.broadcast.into(),
            pings: self.pings,
            host: self.host.map_or(0, u32::from),
            segment: self.segment,
            echo: self.echo,
            discard: self.discard,
            daytime: self.daytime,
            chargen: self.chargen,
            ttl: self.ttl,
            dscp: self.dscp,
        }
    }
}

/// Why a call wasn't done.
#[derive(Clone, Copy, Debug, PartialEq, Eq)]
pub enum Error {
    /// Memory was missing. The server goes on, and may have lost a connection.
    NoMemory,
    /// The time is later than 2^62 microseconds, or the datagram over 65,535 bytes.
    Refused,
}

impl fmt::Display for Error {
    fn fmt(&self, to: &mut fmt::Formatter<'_>) -> fmt::Result {
        to.write_str(match self {
            Error::NoMemory => "memory is missing",
            Error::Refused => "the time or the datagram is out of range",
        })
    }
}

impl error::Error for Error {}

fn done(answer: u32) -> Result<(), Error> {
    match answer {
        0 => Ok(()),
        1 => Err(Error::NoMemory),
        _ => Err(Error::Refused),
    }
}

/// A server that is open; it closes where it is dropped. It is neither `Send` nor `Sync`: no proof says that it may leave its thread.
///
/// ```compile_fail
/// fn moves<T: Send>() {}
/// moves::<sqtcp::Server>();
/// ```
pub struct Server {
    handle: raw::Handle,
    here: PhantomData<*mut c_void>,
}

impl Server {
    /// A server without connections.
    pub fn open(setting: &Setting) -> Result<Server, Error> {
        let mut handle = raw::Handle {
            at: null_mut(),
            open: false,
        };
        // SAFETY: the handle is of a server that isn't open, and both references are to whole values of the declared types.
        done(unsafe { raw::sqtcp_open(&mut handle, &setting.raw()) })?;
        Ok(Server {
            handle,
            here: PhantomData,
        })
    }

    /// An IPv4 datagram comes, at a time in microseconds.
    pub fn datagram(&mut self, now: u64, datagram: &[u8]) -> Result<(), Error> {
        // SAFETY: the handle is ours alone. A slice's pointer isn't null, and its length is the memory's.
        done(unsafe {
            raw::sqtcp_datagram(&mut self.handle, now, datagram.as_ptr(), datagram.len())
        })
    }

    /// The time comes to all connections; ten times a second or so.
    pub fn tick(&mut self, now: u64) -> Result<(), Error> {
        // SAFETY: the handle is ours alone.
        done(unsafe { raw::sqtcp_tick(&mut self.handle, now) })
    }

    /// The next datagram that is to be sent, where there is one.
    #[allow(clippy::should_implement_trait)]
    pub fn next(&mut self) -> Option<Vec<u8>> {
        // SAFETY: the handle is ours alone.
        let size = unsafe { raw::sqtcp_next_size(&mut self.handle) };
        if size == 0 {
            return None;
        }
        let mut datagram = vec![0; size];
        self.next_into(&mut datagram);
        Some(datagram)
    }

    /// The next datagram goes into a buffer, and its length comes back; 0: there is none. Is it longer than the buffer, it stays, and nothing is
    /// written.
    pub fn next_into(&mut self, buffer: &mut [u8]) -> usize {
        // SAFETY: the handle and the buffer are ours alone, and the length is the buffer's.
        unsafe { raw::sqtcp_next(&mut self.handle, buffer.as_mut_ptr(), buffer.len()) }
    }

    /// How many connections there are.
    pub fn connections(&mut self) -> usize {
        // SAFETY: the handle is ours alone.
        unsafe { raw::sqtcp_connections(&mut self.handle) }
    }
}

impl Drop for Server {
    fn drop(&mut self) {
        // SAFETY: the handle is ours, and nobody uses it afterwards.
        unsafe { raw::sqtcp_close(&mut self.handle) }
    }
}

#[cfg(test)]
mod tests {
    use super::raw::{Handle, Setting};
    use std::mem::{offset_of, size_of};

    /// One line a field, as `bindings/tests/layout.c` prints it.
    #[test]
    fn layout() {
        let mut lines = vec![format!("sqtcp {}", size_of::<Handle>())];
        macro_rules! fields {
            ($of:ident, $name:literal, $($field:ident)*) => {
                $(lines.push(format!("{}.{} {}", $name, stringify!($field), offset_of!($of, $field)));)*
            };
        }
        fields!(Handle, "sqtcp", at open);
        lines.push(format!("sqtcp_setting {}", size_of::<Setting>()));
        fields!(Setting, "sqtcp_setting", idle bytes places secret address broadcast pings host segment echo discard daytime chargen ttl dscp);
        if let Ok(file) = std::env::var("SQTCP_LAYOUT") {
            std::fs::write(file, lines.join("\n") + "\n").unwrap();
        }
        assert_eq!(lines[0], "sqtcp 16");
    }
}
