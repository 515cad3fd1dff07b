//! A SYN comes, and the SYN,ACK that is sent is told.
use sqtcp::{Server, Setting};
use std::net::Ipv4Addr;

/// A SYN of 10.9.0.1, port 4000, to port 7 of 10.9.0.2, whose checksums are right.
const SYN: [u8; 40] = [
    0x45, 0, 0, 0x28, 0, 1, 0, 0, 0x40, 6, 0x66, 0xbb, 10, 9, 0, 1, 10, 9, 0, 2, 0x0f, 0xa0, 0, 7,
    0, 0, 0, 0x64, 0, 0, 0, 0, 0x50, 2, 0xff, 0xff, 0x8b, 0xc3, 0, 0,
];

fn main() -> Result<(), sqtcp::Error> {
    let mut server = Server::open(&Setting {
        address: Ipv4Addr::new(10, 9, 0, 2),
        broadcast: Ipv4Addr::new(10, 9, 0, 255),
        echo: 7,
        ..Setting::with_secret([7; 16]) // of a real server: 16 random bytes
    })?;
    server.datagram(1_000_000, &SYN)?;
    while let Some(sent) = server.next() {
        println!("{} bytes, flags {:#04x}", sent.len(), sent[33]);
    }
    Ok(())
}
