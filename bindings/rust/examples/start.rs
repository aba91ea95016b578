//! A line of two slaves is started, and cycles each millisecond until Ctrl-C; between the first cycles an
//! object is read, a frame each time, and behind the last one the slaves go to Init:
//!
//!     ./ecat serve scenes/serve/line.scene --control
//!     cargo run --offline --manifest-path bindings/rust/Cargo.toml --features net --example start

use rummymaple::net::{pause_until, Net};
use rummymaple::{check, single, Cable::One, FmmuRecord, Item, Kind, Records, Service, Stage, Start, State};
use rummymaple::{SyncManagerRecord as Area, Verdict, Way, Way::Reads, Way::Writes};
use std::{process::exit, sync::atomic::{AtomicBool, Ordering::Relaxed}, time::Duration, time::Instant};
const PERIOD: Duration = Duration::from_millis(1);
static ENDED: AtomicBool = AtomicBool::new(false);
extern "C" fn end(_signal: i32) { ENDED.store(true, Relaxed) }
extern "C" { fn signal(number: i32, handler: extern "C" fn(i32)) -> usize; }

/// Each slave has mailboxes and gives a byte, and the first one takes one.
fn records() -> [Records; 2] {
    let mail = |start, way| Area::mailbox(start, 32, way).bytes().expect("a mailbox");
    let data = |start, way| Area::buffered(start, 1, way).bytes().expect("an area");
    let map = |logical, at, way: Way| FmmuRecord::of_bytes(logical, 1, at, way).bytes().expect("an FMMU");
    let mut line = [1, 2].map(|k| Records { station: 0x1000 + k, ..Records::default() });
    for (slave, logical) in line.iter_mut().zip(0x10000..) {
        slave.sync_managers[..2].copy_from_slice(&[mail(0x1800, Writes), mail(0x1880, Reads)]);
        (slave.sync_managers[3], slave.fmmus[1]) = (data(0x1100, Reads), map(logical, 0x1100, Reads));
    }
    (line[0].sync_managers[2], line[0].fmmus[0]) = (data(0x1000, Writes), map(0x10000, 0x1000, Writes));
    check(&line).map(|()| line).expect("a line that is mapped")
}

fn main() {
    let _before = [2, 15].map(|number| unsafe { signal(number, end) }); // SAFETY: `end` sets a flag alone
    let word = |n, other: &str| std::env::args().nth(n).unwrap_or(other.into());
    let mut net = Net::udp(&word(1, "127.0.0.1:34980"), Some(&word(2, "127.0.0.1:34981"))).expect("ports");
    let (line, limit, mut seen, mut said) = (records(), 20 * PERIOD, String::new(), String::new());
    let down = match net.locate(2, limit).map(|at| at.cable) { Ok(One(k)) => Some(k as u16), _ => None };
    let mut start = Start::begin(net.form(), 2, down, Stage::Count, Stage::Op);
    while start.state() == State::UnderWay && !ENDED.load(Relaxed) {
        if let Err(why) = net.start(&mut start, &line, &[], limit) { eprintln!("start: {why:?}"); exit(3) }
    }
    let (mut talk, mut next) = (Service::begin_read(net.form(), &line[0], 0x1018, 1, 0, 64), Instant::now());
    let mut items = [Item::new(Kind::Lrw, 0x10000, 0, 2, 3 + 1)];
    let (mut image, mut waiting, mut frame, mut counts) = ([0; 2], [0; 2], [0; 64], [0; 3]);
    while !ENDED.load(Relaxed) {
        image[0] = counts[0] as u8; // the output of this cycle; inputs come into the image too
        let ran = net.cycle(&mut items, &mut image, &mut waiting, PERIOD / 2).expect("an item");
        counts[match ran.verdict { Verdict::Good => 0, Verdict::Short(_) => 1, Verdict::Over(_) => 2 }] += 1;
        let told = match talk.state() {
            State::UnderWay => format!("object: {:?}", net.serve(&mut talk, PERIOD / 3).map(|it| it.told)),
            _ => format!("cable: {:?}", net.locate(2, PERIOD / 3).expect("a probe").cable),
        };
        if told != said && (told == seen || told.starts_with('o')) { println!("{told}"); said = told.clone() }
        seen = told; // of the cable two looks say so: no packet was lost
        next = Instant::now().max(next + PERIOD);
        pause_until(next);
    }
    let size = single(8, 0x0120_0000, &[1, 0], &mut frame).expect("a frame"); // BWR: all to Init
    net.trip(&frame[..size], &[], limit).expect("a frame");
    println!("good {}, short {}, over {}", counts[0], counts[1], counts[2]);
}
