//! The safe wrapper: a session, what is refused, and a buffer that is too small.
use sqtcp::{Error, Server, Setting};
use std::net::Ipv4Addr;

/// A SYN of 10.9.0.1, port 4000, to port 7 of 10.9.0.2, whose checksums are right.
const SYN: [u8; 40] = [
    0x45, 0, 0, 0x28, 0, 1, 0, 0, 0x40, 6, 0x66, 0xbb, 10, 9, 0, 1, 10, 9, 0, 2, 0x0f, 0xa0, 0, 7,
    0, 0, 0, 0x64, 0, 0, 0, 0, 0x50, 2, 0xff, 0xff, 0x8b, 0xc3, 0, 0,
];

fn server() -> Server {
    let setting = Setting {
        address: Ipv4Addr::new(10, 9, 0, 2),
        broadcast: Ipv4Addr::new(10, 9, 0, 255),
        echo: 7,
        ..Setting::with_secret([7; 16])
    };
    Server::open(&setting).unwrap()
}

#[test]
fn a_syn_is_answered() {
    let mut server = server();
    assert_eq!((server.connections(), server.next()), (0, None));
    server.datagram(1, &SYN).unwrap();
    assert_eq!(server.connections(), 1);
    let sent = server.next().unwrap();
    assert_eq!(
        (sent[33], &sent[28..32], &sent[16..20]),
        (0x12, &[0, 0, 0, 0x65][..], &[10, 9, 0, 1][..])
    );
    assert_eq!(server.next(), None);
}

#[test]
fn one_that_does_not_fit_stays() {
    let mut server = server();
    server.datagram(1, &SYN).unwrap();
    let mut small = [0x55; 43];
    assert_eq!((server.next_into(&mut small), small), (44, [0x55; 43]));
    let mut large = [0x55; 45];
    assert_eq!(
        (server.next_into(&mut large), large[0], large[44]),
        (44, 0x45, 0x55)
    );
    assert_eq!(server.next_into(&mut large), 0);
}

#[test]
fn out_of_range_is_refused() {
    let mut server = server();
    assert_eq!(server.tick((1 << 62) + 1), Err(Error::Refused));
    assert_eq!(server.datagram(1, &[0; 65_536]), Err(Error::Refused));
    assert_eq!(server.datagram(1, &[0; 65_535]), Ok(()));
    assert_eq!(server.tick(1 << 62), Ok(()));
}

#[test]
fn the_time_fires_deadlines() {
    let mut server = server();
    server.datagram(1_000_000, &SYN).unwrap();
    let first = server.next().unwrap();
    server.tick(1_999_999).unwrap();
    assert_eq!(server.next(), None);
    server.tick(2_000_000).unwrap();
    assert_eq!(server.next(), Some(first)); // the SYN,ACK again, a second later (RFC 6298, 2.1)
}

#[test]
fn servers_stand_side_by_side() {
    let (mut one, mut other) = (server(), server());
    one.datagram(1, &SYN).unwrap();
    assert_eq!((one.connections(), other.connections()), (1, 0));
    drop(one);
    other.datagram(1, &SYN).unwrap();
    assert_eq!(other.connections(), 1);
}
