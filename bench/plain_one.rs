//! The command `one` as a plain Rust program, without proofs: what it is measured beside. It reads a classic capture from standard input, keeps
//! what it needs of each packet, and prints the same log. `rustc -O plain_one.rs`, then `plain_one VIP SERVERS <capture`.
use std::env;
use std::io::{self, BufReader, BufWriter, Read, Write};
use std::net::SocketAddrV4;

#[derive(Clone, Copy)]
enum Seen {
    Packet { address: u32, port: u16, kind: u8 },
    Skipped(&'static str),
}

struct Kept {
    number: u32,
    address: u32,
    port: u16,
    kind: u8,
}

fn be16(bytes: &[u8]) -> u16 {
    u16::from_be_bytes([bytes[0], bytes[1]])
}

fn be32(bytes: &[u8]) -> u32 {
    u32::from_be_bytes([bytes[0], bytes[1], bytes[2], bytes[3]])
}

// FNV-1a of a byte and the key's number, seven bytes, folded.
fn hash(i: u8, key: u64) -> u64 {
    let mut x: u64 = 14_695_981_039_346_656_037;
    let mut step = |byte: u8| x = (x ^ byte as u64).wrapping_mul(1_099_511_628_211);
    step(i);
    for byte in &key.to_be_bytes()[1..] {
        step(*byte);
    }
    x ^ (x >> 32)
}

fn see_segment(source: u32, destination: u32, segment: &[u8], vip: SocketAddrV4) -> Seen {
    if segment.len() < 14 {
        return Seen::Skipped("short");
    }
    if destination != u32::from(*vip.ip()) || be16(&segment[2..]) != vip.port() {
        return Seen::Skipped("notvip");
    }
    let flags = segment[13];
    let kind = if flags & 5 != 0 { 2 } else if flags & 18 == 2 { 0 } else { 1 };
    Seen::Packet { address: source, port: be16(segment), kind }
}

fn see_packet(packet: &[u8], vip: SocketAddrV4) -> Seen {
    if packet.is_empty() {
        return Seen::Skipped("short");
    }
    if packet[0] >> 4 != 4 {
        return Seen::Skipped("notipv4");
    }
    let header = (packet[0] & 15) as usize * 4;
    if packet.len() < 20 || header < 20 || header > packet.len() {
        return Seen::Skipped("short");
    }
    let total = be16(&packet[2..]) as usize;
    let size = if total == 0 { packet.len() } else { total.min(packet.len()) };
    if size < header {
        return Seen::Skipped("short");
    }
    if packet[9] != 6 {
        return Seen::Skipped("nottcp");
    }
    if be16(&packet[6..]) & 0x1fff != 0 {
        return Seen::Skipped("fragment");
    }
    see_segment(be32(&packet[12..]), be32(&packet[16..]), &packet[header..size], vip)
}

fn see(link: u16, frame: &[u8], vip: SocketAddrV4) -> Seen {
    if link == 101 {
        return see_packet(frame, vip);
    }
    if frame.len() < 14 {
        return Seen::Skipped("short");
    }
    let mut at = 12;
    for _ in 0..2 {
        if matches!(be16(&frame[at..]), 0x8100 | 0x88a8) {
            at += 4;
            if frame.len() < at + 2 {
                return Seen::Skipped("short");
            }
        }
    }
    if be16(&frame[at..]) != 0x0800 {
        return Seen::Skipped("notipv4");
    }
    see_packet(&frame[at + 2..], vip)
}

fn main() -> io::Result<()> {
    let words: Vec<String> = env::args().collect();
    let vip: SocketAddrV4 = words[1].parse().expect("a virtual address");
    let servers = words[2].split(',').count() as u64;
    let mut source = BufReader::with_capacity(256 * 1024, io::stdin().lock());
    let mut header = [0; 24];
    source.read_exact(&mut header)?;
    let big = matches!(be32(&header), 0xa1b2c3d4 | 0xa1b23c4d);
    let number = |bytes: &[u8]| if big { be32(bytes) } else { be32(bytes).swap_bytes() };
    let link = number(&header[20..]) as u16;
    let mut skips: Vec<(u32, &'static str)> = Vec::new();
    let mut packets: Vec<Kept> = Vec::new();
    let mut frame = vec![0; 262_144];
    let mut record = [0; 16];
    let mut count = 0;
    while source.read_exact(&mut record).is_ok() {
        count += 1;
        let size = number(&record[8..]) as usize;
        source.read_exact(&mut frame[..size])?;
        match see(link, &frame[..size], vip) {
            Seen::Packet { address, port, kind } => packets.push(Kept { number: count, address, port, kind }),
            Seen::Skipped(why) => skips.push((count, why)),
        }
    }
    let mut sink = BufWriter::with_capacity(256 * 1024, io::stdout().lock());
    sink.write_all(b"silkroad 1\n")?;
    for (number, why) in &skips {
        writeln!(sink, "skip {number} {why}")?;
    }
    sink.write_all(b"give 1 0 0 1\n")?;
    let mut tick = 2u64;
    for packet in &packets {
        let key = (packet.address as u64) << 16 | packet.port as u64;
        let [a, b, c, d] = packet.address.to_be_bytes();
        let kind = ["open", "data", "end"][packet.kind as usize];
        let server = hash(0, key) % servers;
        let (number, port, out) = (packet.number, packet.port, tick + 1);
        writeln!(sink, "packet {number} {tick} {out} 0 0/{a}.{b}.{c}.{d}:{port} {kind} to {server} 0 1")?;
        tick += 2;
    }
    sink.flush()
}
