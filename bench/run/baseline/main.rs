//! The plain loop that sqrun and sqmore are measured beside: the least that the job can cost. It reads a capture file whole, finds the
//! TCP segment or UDP datagram in each record, groups those to ports 7 and 9 by connection in a hash map, and writes each text in
//! hexadecimal.
//! It has no TCP, no replies, no order of times, and checks no sums. Std only; no checks but those of slices.
use std::collections::HashMap;
use std::io::{self, Write};

/// The client's address and port, then the server's.
type Ends = (u32, u16, u32, u16);

/// A segment's time in microseconds, and the bytes of the file that are its text.
type Text = (u64, usize, usize);

struct Capture<'a> {
    bytes: &'a [u8],
    is_big_endian: bool,
    units_per_microsecond: u64,
    link: u32,
}

impl<'a> Capture<'a> {
    fn of(bytes: &'a [u8]) -> Capture<'a> {
        let (is_big_endian, units_per_microsecond) = match bytes[..4] {
            [0xd4, 0xc3, 0xb2, 0xa1] => (false, 1),
            [0x4d, 0x3c, 0xb2, 0xa1] => (false, 1000),
            [0xa1, 0xb2, 0xc3, 0xd4] => (true, 1),
            [0xa1, 0xb2, 0x3c, 0x4d] => (true, 1000),
            _ => panic!("this is no capture file"),
        };
        let mut capture = Capture { bytes, is_big_endian, units_per_microsecond, link: 0 };
        capture.link = capture.field(20);
        capture
    }

    /// A number of the capture file's own headers.
    fn field(&self, at: usize) -> u32 {
        let word = [self.bytes[at], self.bytes[at + 1], self.bytes[at + 2], self.bytes[at + 3]];
        if self.is_big_endian { u32::from_be_bytes(word) } else { u32::from_le_bytes(word) }
    }

    fn word(&self, at: usize) -> u16 {
        u16::from_be_bytes([self.bytes[at], self.bytes[at + 1]])
    }

    fn long(&self, at: usize) -> u32 {
        u32::from_be_bytes([self.bytes[at], self.bytes[at + 1], self.bytes[at + 2], self.bytes[at + 3]])
    }

    fn time(&self, at: usize) -> u64 {
        u64::from(self.field(at)) * 1_000_000 + u64::from(self.field(at + 4)) / self.units_per_microsecond
    }

    /// Where the IPv4 datagram of a body begins: behind the header of Ethernet, with a tag or none, or of a cooked capture.
    fn datagram(&self, body: usize, end: usize) -> Option<usize> {
        match self.link {
            1 if body + 18 <= end => match (self.word(body + 12), self.word(body + 16)) {
                (0x0800, _) => Some(body + 14),
                (0x8100, 0x0800) => Some(body + 18),
                _ => None,
            },
            113 => (body + 16 <= end && self.word(body + 14) == 0x0800).then_some(body + 16),
            1 => None,
            _ => Some(body),
        }
    }

    /// The ends and the text's place of the segment in a datagram, where it goes to a served port.
    fn segment(&self, ip: usize, end: usize) -> Option<(Ends, usize, usize)> {
        if ip + 20 > end || self.bytes[ip] >> 4 != 4 {
            return None;
        }
        let header = usize::from(self.bytes[ip] & 15) * 4;
        let total = match usize::from(self.word(ip + 2)) {
            0 => end - ip,
            total => total,
        };
        let is_fragment = self.word(ip + 6) & 0x3fff != 0;
        if header < 20 || is_fragment || ip + total > end {
            return None;
        }
        match self.bytes[ip + 9] {
            6 if total >= header + 20 => self.tcp(ip, header, total),
            17 if total >= header + 8 => self.udp(ip, header, total),
            _ => None,
        }
    }

    fn udp(&self, ip: usize, header: usize, total: usize) -> Option<(Ends, usize, usize)> {
        let udp = ip + header;
        let length = usize::from(self.word(udp + 4));
        let ends = (self.long(ip + 12), self.word(udp), self.long(ip + 16), self.word(udp + 2));
        let is_served = (8..=total - header).contains(&length) && matches!(ends.3, 7 | 9);
        is_served.then_some((ends, udp + 8, udp + length))
    }

    fn tcp(&self, ip: usize, header: usize, total: usize) -> Option<(Ends, usize, usize)> {
        let tcp = ip + header;
        let offset = usize::from(self.bytes[tcp + 12] >> 4) * 4;
        let ends = (self.long(ip + 12), self.word(tcp), self.long(ip + 16), self.word(tcp + 2));
        let is_served = offset >= 20 && header + offset <= total && matches!(ends.3, 7 | 9);
        is_served.then_some((ends, tcp + offset, ip + total))
    }

    /// The served texts of each connection, in the order of the file.
    fn connections(&self) -> Vec<(Ends, Vec<Text>)> {
        let mut numbers: HashMap<Ends, usize> = HashMap::new();
        let mut connections: Vec<(Ends, Vec<Text>)> = Vec::new();
        let mut at = 24;
        while at + 16 <= self.bytes.len() {
            let body = at + 16;
            let end = body + self.field(at + 8) as usize;
            if end > self.bytes.len() {
                break;
            }
            let found = self.datagram(body, end).and_then(|ip| self.segment(ip, end));
            if let Some((ends, from, to)) = found {
                let c = *numbers.entry(ends).or_insert_with(|| {
                    connections.push((ends, Vec::new()));
                    connections.len() - 1
                });
                connections[c].1.push((self.time(at), from, to));
            }
            at = end;
        }
        connections
    }
}

fn main() -> io::Result<()> {
    // The size of a file that is standard input is known before it is read.
    let bytes = std::fs::read("/dev/stdin")?;
    const DIGITS: &[u8; 16] = b"0123456789abcdef";
    let mut report: Vec<u8> = Vec::with_capacity(1 << 20);
    for (ends, texts) in Capture::of(&bytes).connections() {
        writeln!(report, "conn {:08x}:{} {:08x}:{}", ends.0, ends.1, ends.2, ends.3)?;
        for (at, from, to) in texts {
            write!(report, "{at} ")?;
            for byte in &bytes[from..to] {
                report.push(DIGITS[usize::from(byte >> 4)]);
                report.push(DIGITS[usize::from(byte & 15)]);
            }
            report.push(b'\n');
        }
    }
    io::stdout().write_all(&report)
}
