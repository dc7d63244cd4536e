// Writes the lists of arrivals that are measured: lists FOLDER. No list hangs on chance: the numbers are drawn from a fixed seed.
// A list has the entries of its profile, and the packets as they arrive: time, UUI and octets.

use std::fmt::Write;
use std::path::Path;
use std::{env, fs, io};

const PACKETS: usize = 4096;

const SHORT: usize = 64;

const START: u64 = 1_000_000;

// The lengths of one profile, whose entries have all sixteen UUIs.
const LENGTHS: [usize; 6] = [40, 25, 20, 15, 10, 1];

struct Numbers(u64);

impl Numbers {
    fn below(&mut self, bound: usize) -> usize {
        self.0 = self
            .0
            .wrapping_mul(6_364_136_223_846_793_005)
            .wrapping_add(1_442_695_040_888_963_407);
        ((self.0 >> 33) % bound as u64) as usize
    }

    fn one_of<T: Copy>(&mut self, things: &[T]) -> T {
        things[self.below(things.len())]
    }

    fn percent(&mut self, percent: usize) -> bool {
        self.below(100) < percent
    }

    fn octets(&mut self, length: usize) -> Vec<u8> {
        (0..length).map(|_| self.below(256) as u8).collect()
    }

    // Reserved bits are set as they come, here and of digits: old units set some of them.
    fn bits(&mut self) -> Vec<u8> {
        vec![self.below(256) as u8]
    }

    // Of any system, one in eight the end of a tone.
    fn digit(&mut self) -> Vec<u8> {
        let code = if self.below(8) == 0 {
            31
        } else {
            1 + self.below(14)
        };
        vec![self.below(256) as u8, (self.below(4) << 5 | code) as u8]
    }

    fn audio(&mut self, time: u64, length: usize) -> Packet {
        Packet {
            time,
            uui: time / 5 % 16,
            octets: self.octets(length),
        }
    }
}

#[derive(Clone)]
struct Packet {
    time: u64,
    uui: u64,
    octets: Vec<u8>,
}

const DIGITS: u8 = 2;

const CAS: u8 = 3;

// A type 3 payload, its check made bit by bit.
fn type3(redundancy: u8, made: u64, message_type: u8, body: &[u8]) -> Vec<u8> {
    let stamp = made % 16_384;
    let mut octets = vec![redundancy << 6 | (stamp >> 8) as u8, stamp as u8];
    octets.extend(body);
    octets.extend([message_type << 2, 0]);
    let mut rest = 0u16;
    for bit in 0..8 * octets.len() {
        rest = rest << 1 | u16::from(octets[bit / 8] >> (7 - bit % 8) & 1);
        if rest & 0x400 != 0 {
            rest ^= 0x633;
        }
    }
    let last = octets.len() - 1;
    octets[last - 1] |= (rest >> 8) as u8;
    octets[last] = rest as u8;
    octets
}

// What arrives of a far end's kind: now and then an event, its three copies, and refreshes. Of one event in five all copies are lost.
struct Messages {
    message_type: u8,
    made: u64,
    body: Vec<u8>,
    copies: u8,
}

impl Messages {
    fn new(message_type: u8) -> Messages {
        Messages {
            message_type,
            made: 0,
            body: Vec::new(),
            copies: 0,
        }
    }

    fn packet(&mut self, numbers: &mut Numbers, time: u64) -> Packet {
        if self.body.is_empty() || numbers.percent(30) {
            self.body = match self.message_type {
                DIGITS => numbers.digit(),
                _ => numbers.bits(),
            };
            self.made = time;
            self.copies = if numbers.percent(20) { 3 } else { 0 };
        }
        let made = if self.copies < 3 { self.made } else { time };
        let octets = type3(self.copies, made, self.message_type, &self.body);
        self.copies = (self.copies + 1).min(3);
        Packet {
            time,
            uui: 24,
            octets,
        }
    }
}

// A packet that is refused: before the last arrival, past the last time, with a UUI or a length that nothing has, of an unknown
// type, of the other kind's length, of no digit, with no octets, or spoiled.
fn refused(numbers: &mut Numbers, time: u64) -> Packet {
    let (time, uui, octets) = match numbers.below(9) {
        0 => (0, 0, numbers.octets(40)),
        1 => (1 << 40, 0, numbers.octets(40)),
        2 => (time, 23, numbers.octets(40)),
        3 => (time, 5, numbers.octets(41)),
        4 => (time, 24, type3(0, time, 5, &[0])),
        5 => (time, 24, type3(0, time, CAS, &numbers.digit())),
        6 => (time, 24, type3(0, time, DIGITS, &[10, 128])),
        7 => (time, 24, Vec::new()),
        _ => {
            let mut octets = type3(0, time, DIGITS, &numbers.digit());
            octets[numbers.below(6)] ^= 1 << numbers.below(8);
            (time, 24, octets)
        }
    };
    Packet { time, uui, octets }
}

// Half audio and a quarter of each kind: news and copies of it, one in ten an older packet again, and one in fourteen refused.
fn mixed(numbers: &mut Numbers, count: usize) -> Vec<Packet> {
    let mut kinds = [Messages::new(DIGITS), Messages::new(CAS)];
    let mut sent: Vec<Packet> = Vec::new();
    let mut time = START;
    (0..count)
        .map(|_| {
            time += numbers.one_of(&[0, 1, 2, 5, 5, 5, 10]);
            if numbers.percent(7) {
                return refused(numbers, time);
            }
            if !sent.is_empty() && numbers.percent(10) {
                let from = sent.len().saturating_sub(8);
                let again = sent[from + numbers.below(sent.len() - from)].clone();
                return Packet { time, ..again };
            }
            let packet = match numbers.below(4) {
                0 => kinds[0].packet(numbers, time),
                1 => kinds[1].packet(numbers, time),
                _ => {
                    let length = numbers.one_of(&LENGTHS);
                    numbers.audio(time, length)
                }
            };
            sent.push(packet.clone());
            packet
        })
        .collect()
}

// A packet every five milliseconds, each for its own time.
fn steady(mut packet: impl FnMut(u64) -> Packet) -> Vec<Packet> {
    (0..PACKETS as u64)
        .map(|place| packet(START + 5 * place))
        .collect()
}

// Signalling bits at 5 octets, a digit at 6; longer ones have a right check, and are refused for their length.
fn type3_of(numbers: &mut Numbers, length: usize) -> Vec<Packet> {
    steady(|time| {
        let octets = if length == 5 {
            type3(0, time, CAS, &numbers.bits())
        } else {
            let mut body = numbers.digit();
            body.resize(length - 4, 0);
            type3(0, time, DIGITS, &body)
        };
        Packet {
            time,
            uui: 24,
            octets,
        }
    })
}

fn write(folder: &Path, name: &str, lengths: &[usize], packets: &[Packet]) -> io::Result<()> {
    let mut text = String::new();
    for length in lengths {
        writeln!(text, "entry 0 15 {length} 5 5").unwrap();
    }
    for packet in packets {
        write!(text, "{} {} ", packet.time, packet.uui).unwrap();
        if packet.octets.is_empty() {
            text.push('-');
        }
        for octet in &packet.octets {
            write!(text, "{octet:02X}").unwrap();
        }
        text.push('\n');
    }
    fs::write(folder.join(name), text)
}

fn main() -> io::Result<()> {
    let folder = env::args().nth(1).expect("a folder is wanted");
    let folder = Path::new(&folder);
    fs::create_dir_all(folder)?;
    let numbers = &mut Numbers(9);
    write(folder, "short", &LENGTHS, &mixed(numbers, SHORT))?;
    write(folder, "mixed", &LENGTHS, &mixed(numbers, PACKETS))?;
    for length in [1, 2, 4, 8, 16, 32, 64] {
        let packets = steady(|time| numbers.audio(time, length));
        write(folder, &format!("audio-{length}"), &[length], &packets)?;
    }
    for length in 5..=12 {
        let packets = type3_of(numbers, length);
        write(folder, &format!("type3-{length}"), &LENGTHS, &packets)?;
    }
    // the packets are those of the last entry
    for count in [1, 2, 4, 8, 16, 32] {
        let lengths: Vec<usize> = (1..=count).rev().collect();
        let packets = steady(|time| numbers.audio(time, 1));
        write(folder, &format!("entries-{count}"), &lengths, &packets)?;
    }
    Ok(())
}
