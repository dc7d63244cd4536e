// The program `pace` over the end without proof: it reads the same list and prints the same lines.

mod arrive;

use arrive::{Arrived, CasBits, Class, Digit, End, Entry, MessageNews, Moved, Profile, Refusal, Told};
use std::io::{self, BufRead};
use std::time::Duration;

struct Packet {
    time: u64,
    uui: u16,
    octets: Vec<u8>,
}

#[derive(Default)]
struct List {
    entries: Vec<Entry>,
    packets: Vec<Packet>,
}

impl List {
    fn read() -> Option<List> {
        let mut list = List::default();
        for line in io::stdin().lock().lines() {
            let line = line.ok()?;
            let words: Vec<&str> = line.split(' ').collect();
            match words[..] {
                ["entry", first, last, length, packet_time, interval] => list.entries.push(Entry {
                    index: None,
                    format: 0,
                    first: first.parse().ok()?,
                    last: last.parse().ok()?,
                    length: length.parse().ok()?,
                    packet_time: packet_time.parse().ok()?,
                    interval: interval.parse().ok()?,
                }),
                [time, uui, octets] => list.packets.push(Packet {
                    time: time.parse().ok()?,
                    uui: uui.parse().ok()?,
                    octets: octets_of(octets)?,
                }),
                _ => return None,
            }
        }
        Some(list)
    }
}

fn octets_of(text: &str) -> Option<Vec<u8>> {
    if text == "-" {
        return Some(Vec::new());
    }
    text.as_bytes()
        .chunks(2)
        .map(|pair| u8::from_str_radix(std::str::from_utf8(pair).ok()?, 16).ok())
        .collect()
}

// ---- the checksum

fn of_digit(digit: Digit) -> u64 {
    let system = digit.system as u64;
    u64::from(digit.level) * 256 + system * 32 + u64::from(digit.code)
}

fn of_cas(bits: CasBits) -> u64 {
    u64::from(bits.a) * 8 + u64::from(bits.b) * 4 + u64::from(bits.c) * 2 + u64::from(bits.d)
}

fn of_moved(stream: u64, moved: Moved) -> u64 {
    add(add(stream, moved.elapsed), moved.position)
}

fn of_told<T>(stream: u64, told: Told<T>, of_news: impl FnOnce(T) -> u64) -> u64 {
    match told {
        Told::News(news) => of_news(news),
        Told::Repeat => stream + 1,
        Told::Late => stream + 2,
    }
}

fn of_message<M>(stream: u64, news: MessageNews<M>, number: impl FnOnce(M) -> u64) -> u64 {
    let class = match news.class {
        Class::Event => 0,
        Class::Confirmed => 1,
        Class::Recovered => 2,
    };
    let moved = of_moved(stream, news.moved);
    let redundancy = u64::from(news.redundancy);
    add(add(add(moved, class), redundancy), number(news.message))
}

fn of_answer(answer: Result<Arrived, Refusal>) -> u64 {
    match answer {
        Err(refusal) => add(
            u64::from(refusal.number),
            u64::from(refusal.cause.unwrap_or(0)),
        ),
        Ok(Arrived::Audio(told)) => of_told(10, told, |news| {
            add(of_moved(10, news.moved), news.place as u64)
        }),
        Ok(Arrived::Digit(told)) => of_told(20, told, |news| of_message(20, news, of_digit)),
        Ok(Arrived::Cas(told)) => of_told(30, told, |news| of_message(30, news, of_cas)),
    }
}

fn add(sum: u64, number: u64) -> u64 {
    sum.wrapping_mul(31).wrapping_add(number)
}

// One lap: a fresh end, and all packets arrive.
#[inline(never)]
fn lap(list: &List) -> Option<u64> {
    let mut end = End::new(Profile::load(&list.entries).ok()?);
    let sum = list.packets.iter().fold(0, |sum, packet| {
        let answer = end.arrive(packet.time, packet.uui, &packet.octets);
        add(sum, of_answer(answer))
    });
    let digit = end.digit_in_force().map_or(0, |digit| add(1, of_digit(digit)));
    let bits = end.cas_in_force().map_or(0, |bits| add(1, of_cas(bits)));
    Some(add(add(sum, digit), bits))
}

// ---- the clock: the standard library has none of processor time

#[repr(C)]
struct Timespec {
    seconds: i64,
    nanoseconds: i64,
}

unsafe extern "C" {
    fn clock_gettime(clock: i32, time: *mut Timespec) -> i32;
}

const THREAD_CPU_TIME: i32 = 3;

fn cpu_time() -> Duration {
    let mut time = Timespec {
        seconds: 0,
        nanoseconds: 0,
    };
    unsafe { clock_gettime(THREAD_CPU_TIME, &mut time) };
    Duration::new(time.seconds as u64, time.nanoseconds as u32)
}

fn run() -> Option<()> {
    let laps = match std::env::args().nth(1) {
        Some(text) => text.parse().ok()?,
        None => 0,
    };
    let list = List::read()?;
    println!("answers {}", lap(&list)?);
    for _ in 0..laps {
        let start = cpu_time();
        let sum = lap(&list)?;
        let took = cpu_time() - start;
        println!("lap {} {sum}", took.as_nanos());
    }
    Some(())
}

fn main() {
    if run().is_none() {
        eprintln!("pace: a bad list");
        std::process::exit(1);
    }
}
