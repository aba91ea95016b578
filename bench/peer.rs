//! The peer of the benchmark: the same works in plain Rust by hand, over plain bytes and with no proof. It is
//! what a careful programmer writes who knows where each byte stands. Built by
//! `rustc -O -C target-cpu=native`.
//!
//! It prints a line for each work: its name and the picoseconds of one run, the best of many.

use std::hint::black_box;
use std::time::Instant;

const MEMORY_SIZE: usize = 0x3000;
const FRAME_MAX: usize = 1500;
const DATAGRAMS_MAX: usize = 124;
const PAYLOAD_MAX: usize = 1486;

/// A frame: a copy of its bytes, and where its datagrams begin.
#[derive(Clone)]
struct Frame {
    bytes: [u8; FRAME_MAX],
    len: usize,
    starts: [u16; DATAGRAMS_MAX],
    count: usize,
}

fn word(bytes: &[u8], at: usize) -> u16 {
    u16::from_le_bytes([bytes[at], bytes[at + 1]])
}

fn double(bytes: &[u8], at: usize) -> u32 {
    u32::from_le_bytes([bytes[at], bytes[at + 1], bytes[at + 2], bytes[at + 3]])
}

impl Frame {
    fn new() -> Frame {
        Frame { bytes: [0; FRAME_MAX], len: 0, starts: [0; DATAGRAMS_MAX], count: 0 }
    }

    /// Checks the bytes against the frame's grammar, and keeps a copy of them; false where they are no frame.
    fn read(&mut self, bytes: &[u8]) -> bool {
        if bytes.len() < 2 {
            return false;
        }
        let head = word(bytes, 0);
        let end = 2 + usize::from(head & 0x7FF);
        if head >> 12 != 1 || head & 0x800 != 0 || end == 2 || end > FRAME_MAX || bytes.len() < end {
            return false;
        }
        let mut at = 2;
        let mut count = 0;
        loop {
            if end - at < 12 || bytes[at] > 14 || count == DATAGRAMS_MAX {
                return false;
            }
            let length = word(bytes, at + 6);
            let next = at + 12 + usize::from(length & 0x7FF);
            let more = length >> 15 == 1;
            if length & 0x3800 != 0 || next > end || more == (next == end) {
                return false;
            }
            self.starts[count] = at as u16;
            count += 1;
            at = next;
            if !more {
                break;
            }
        }
        self.bytes[..end].copy_from_slice(&bytes[..end]);
        self.len = end;
        self.count = count;
        true
    }

    /// A frame that asks these items, all of which fit, each with its number as index.
    fn of_items(items: &[Item]) -> Frame {
        let mut frame = Frame::new();
        let mut at = 2;
        for (k, item) in items.iter().enumerate() {
            let more = u16::from(k + 1 < items.len()) << 15;
            let end = at + 10 + item.data.len();
            frame.bytes[at..at + 2].copy_from_slice(&[item.command, k as u8]);
            frame.bytes[at + 2..at + 6].copy_from_slice(&item.address.to_le_bytes());
            frame.bytes[at + 6..at + 8].copy_from_slice(&(item.data.len() as u16 | more).to_le_bytes());
            frame.bytes[at + 10..end].copy_from_slice(&item.data);
            frame.bytes[end..end + 2].copy_from_slice(&item.counter.to_le_bytes());
            frame.starts[k] = at as u16;
            at = end + 2;
        }
        frame.bytes[..2].copy_from_slice(&((at - 2) as u16 | 1 << 12).to_le_bytes());
        frame.len = at;
        frame.count = items.len();
        frame
    }

    /// May the datagram from `at` on have come of the one of the sent frame?
    fn belongs(&self, sent: &Frame, at: usize) -> bool {
        let fixed = if counts_adp(sent.bytes[at]) { at + 4 } else { at + 2 };
        self.bytes[at..at + 2] == sent.bytes[at..at + 2]
            && self.bytes[fixed..at + 6] == sent.bytes[fixed..at + 6]
            && word(&self.bytes, at + 6) & 0x7FF == word(&sent.bytes, at + 6) & 0x7FF
    }

    /// Joins another copy of a sent frame in; false where one of them is a stranger.
    fn join(&mut self, sent: &Frame, other: &Frame) -> bool {
        if self.count != sent.count || other.count != sent.count {
            return false;
        }
        for k in 0..sent.count {
            let at = usize::from(sent.starts[k]);
            if !self.belongs(sent, at) || !other.belongs(sent, at) {
                return false;
            }
            let end = at + 10 + usize::from(word(&sent.bytes, at + 6) & 0x7FF);
            let bits = at + 6..end;
            join(&sent.bytes[bits.clone()], &mut self.bytes[bits.clone()], &other.bytes[bits]);
            self.join_count(sent, other, end);
            if counts_adp(sent.bytes[at]) {
                self.join_count(sent, other, at + 2);
            }
        }
        true
    }

    /// Joins a number in that slaves count up.
    fn join_count(&mut self, sent: &Frame, other: &Frame, at: usize) {
        let other = word(&other.bytes, at).wrapping_sub(word(&sent.bytes, at));
        let joined = word(&self.bytes, at).wrapping_add(other);
        self.bytes[at..at + 2].copy_from_slice(&joined.to_le_bytes());
    }
}

/// Do slaves count up the ADP of this command?
fn counts_adp(command: u8) -> bool {
    matches!(command, 1..=3 | 7 | 8)
}

/// A run of bits that an FMMU maps.
#[derive(Clone, Copy, Default)]
struct Fmmu {
    first: u64,
    bits: u64,
    physical: u64,
    reads: bool,
    writes: bool,
}

/// An area that a sync manager guards.
#[derive(Clone, Copy, Default)]
struct Area {
    start: usize,
    end: usize,
    mailbox: bool,
    outputs: bool,
}

struct Controller {
    memory: Vec<u8>,
    shown: Vec<u8>,
    fmmus: [Fmmu; 8],
    areas: [Area; 8],
}

/// Copies `count` bits from bit `source` of some bytes on to bit `at` of others on.
fn copy_bits(into: &mut [u8], at: usize, bytes: &[u8], source: usize, count: usize) {
    if (at | source | count) % 8 == 0 {
        into[at / 8..(at + count) / 8].copy_from_slice(&bytes[source / 8..(source + count) / 8]);
        return;
    }
    let edge = |into: &mut [u8], at: usize, source: usize, count: usize| {
        if count > 0 {
            let high = bytes.get(source / 8 + 1).copied().unwrap_or(0);
            let wide = u16::from(bytes[source / 8]) | u16::from(high) << 8;
            let mask = (((1u16 << count) - 1) << (at % 8)) as u8;
            let byte = &mut into[at / 8];
            *byte = *byte & !mask | ((wide >> (source % 8)) << (at % 8)) as u8 & mask;
        }
    };
    let head = ((8 - at % 8) % 8).min(count);
    edge(into, at, source, head);
    let whole = (count - head) / 8;
    let (from, shift) = ((source + head) / 8, (source + head) % 8);
    let middle = &mut into[(at + head) / 8..(at + head) / 8 + whole];
    if shift == 0 {
        middle.copy_from_slice(&bytes[from..from + whole]);
    } else {
        for (byte, pair) in middle.iter_mut().zip(bytes[from..from + whole + 1].windows(2)) {
            *byte = ((u16::from(pair[0]) | u16::from(pair[1]) << 8) >> shift) as u8;
        }
    }
    let done = head + 8 * whole;
    edge(into, at + done, source + done, count - done);
}

impl Controller {
    fn new() -> Controller {
        Controller {
            memory: vec![0; MEMORY_SIZE],
            shown: vec![0; MEMORY_SIZE],
            fmmus: [Fmmu::default(); 8],
            areas: [Area::default(); 8],
        }
    }

    /// Is some byte of the range in an area that reads, or writes, may not reach?
    fn is_kept(&self, from: usize, to: usize, write: bool) -> bool {
        self.areas.iter().any(|a| a.start < to && from < a.end && (a.mailbox || a.outputs != write))
    }

    fn logical(&mut self, datagram: &mut [u8]) {
        let command = datagram[0];
        let count = usize::from(word(datagram, 6) & 0x7FF);
        let from = 8 * u64::from(double(datagram, 2));
        let to = from + 8 * count as u64;
        let mut arrived = [0; PAYLOAD_MAX];
        if command == 12 {
            arrived[..count].copy_from_slice(&datagram[10..10 + count]);
        }
        let (mut is_read, mut is_written) = (false, false);
        for k in 0..8 {
            let fmmu = self.fmmus[k];
            let start = fmmu.first.max(from);
            let end = (fmmu.first + fmmu.bits).min(to);
            if start >= end {
                continue;
            }
            let at = (start - from) as usize;
            let bits = (end - start) as usize;
            let physical = (fmmu.physical + (start - fmmu.first)) as usize;
            let bytes = (physical / 8, (physical + bits).div_ceil(8));
            if fmmu.reads && command != 11 && !self.is_kept(bytes.0, bytes.1, false) {
                copy_bits(&mut datagram[10..10 + count], at, &self.memory, physical, bits);
                is_read = true;
            }
            if fmmu.writes && command != 10 && !self.is_kept(bytes.0, bytes.1, true) {
                let data = if command == 12 { &arrived[..count] } else { &datagram[10..10 + count] };
                copy_bits(&mut self.memory, physical, data, at, bits);
                is_written = true;
                for area in &self.areas {
                    if area.outputs && bytes.0 < area.end && area.end <= bytes.1 {
                        self.shown[area.start..area.end].copy_from_slice(&self.memory[area.start..area.end]);
                    }
                }
            }
        }
        let share = u16::from(is_read) + u16::from(is_written) * if command == 12 { 2 } else { 1 };
        let counter = word(datagram, 10 + count).wrapping_add(share);
        datagram[10 + count..12 + count].copy_from_slice(&counter.to_le_bytes());
    }

    fn broadcast_read(&mut self, datagram: &mut [u8]) {
        let adp = word(datagram, 2).wrapping_add(1);
        datagram[2..4].copy_from_slice(&adp.to_le_bytes());
        let from = usize::from(word(datagram, 4));
        let count = usize::from(word(datagram, 6) & 0x7FF);
        if count == 0 || from + count > MEMORY_SIZE || self.is_kept(from, from + count, false) {
            return;
        }
        for (byte, own) in datagram[10..10 + count].iter_mut().zip(&self.memory[from..from + count]) {
            *byte |= own;
        }
        let counter = word(datagram, 10 + count).wrapping_add(1);
        datagram[10 + count..12 + count].copy_from_slice(&counter.to_le_bytes());
    }

    fn process(&mut self, frame: &mut Frame) {
        for k in 0..frame.count {
            let datagram = &mut frame.bytes[usize::from(frame.starts[k])..frame.len];
            match datagram[0] {
                7 => self.broadcast_read(datagram),
                10..=12 => self.logical(datagram),
                _ => {}
            }
        }
    }
}

/// Joins two copies of sent bytes into the first one.
fn join(sent: &[u8], into: &mut [u8], other: &[u8]) {
    for ((s, a), b) in sent.iter().zip(into).zip(other) {
        *a = s ^ ((*a ^ s) | (b ^ s));
    }
}

/// What a master asks in each cycle, with the last answer.
struct Item {
    command: u8,
    address: u32,
    data: Vec<u8>,
    counter: u16,
}

impl Item {
    fn new(command: u8, address: u32, data: Vec<u8>) -> Item {
        Item { command, address, data, counter: 0 }
    }

    /// Sets the counter, and the ADP of a broadcast read, to 0.
    fn rewind(&mut self) {
        self.counter = 0;
        if self.command == 7 {
            self.address &= 0xFFFF_0000;
        }
    }

    /// Takes its datagram's answer.
    fn take(&mut self, datagram: &[u8]) {
        let end = 10 + self.data.len();
        self.data.copy_from_slice(&datagram[10..end]);
        self.counter = word(datagram, end);
        if self.command == 7 {
            self.address = double(datagram, 2);
        }
    }
}

/// A ring of 256 slaves. Each takes five logical bytes of its own as they arrive, and puts five others in
/// their place.
fn full_ring() -> Vec<Controller> {
    let slave = |place: u64| {
        let mut slave = Controller::new();
        let first = 8 * (0x1_0000 + 5 * place);
        slave.fmmus[0] = Fmmu { first, bits: 40, physical: 8 * 0x1000, reads: false, writes: true };
        slave.fmmus[1] = Fmmu { first, bits: 40, physical: 8 * 0x1100, reads: true, writes: false };
        slave.areas[2] = Area { start: 0x1000, end: 0x1005, mailbox: false, outputs: true };
        slave.areas[3] = Area { start: 0x1100, end: 0x1105, mailbox: false, outputs: false };
        slave.memory[0x1100..0x1105].copy_from_slice(&[0x11, 0x22, 0x33, 0x44, 0x55]);
        slave
    };
    (0..256).map(slave).collect()
}

/// One copy of a frame passes the ring.
fn walk(ring: &mut [Controller], frame: &mut Frame) {
    for slave in ring {
        slave.process(frame);
    }
}

/// One cycle: the items' frame goes out in two copies, of which all slaves pass the first one, and the items
/// take the joined answer.
fn cycle(ring: &mut [Controller], items: &mut [Item]) -> bool {
    let sent = Frame::of_items(items);
    let mut joined = sent.clone();
    walk(ring, &mut joined);
    let other = sent.clone();
    if !joined.join(&sent, black_box(&other)) {
        return false;
    }
    for (k, item) in items.iter_mut().enumerate() {
        item.take(&joined.bytes[usize::from(joined.starts[k])..joined.len]);
    }
    true
}

/// The bytes of a frame of datagrams, each a command, an address and data.
fn frame_of(datagrams: &[(u8, u32, Vec<u8>)]) -> Vec<u8> {
    let mut body = Vec::new();
    for (k, (command, address, data)) in datagrams.iter().enumerate() {
        let more = u16::from(k + 1 < datagrams.len()) << 15;
        body.extend([*command, 0]);
        body.extend(address.to_le_bytes());
        body.extend((data.len() as u16 | more).to_le_bytes());
        body.extend([0, 0]);
        body.extend(data);
        body.extend([0, 0]);
    }
    let mut bytes = (body.len() as u16 | 1 << 12).to_le_bytes().to_vec();
    bytes.extend(body);
    bytes
}

/// Prints the picoseconds of one run of a work, the best of many.
fn measure(name: &str, mut work: impl FnMut()) {
    let runs = 1000;
    let mut best = u128::MAX;
    for _ in 0..20 {
        let start = Instant::now();
        for _ in 0..runs {
            work();
        }
        best = best.min(start.elapsed().as_nanos());
    }
    println!("{name} {}", best * 1000 / runs);
}

fn main() {
    let one = frame_of(&[(12, 0x1_0000, vec![0x5A; PAYLOAD_MAX])]);
    let many = frame_of(&vec![(0, 0, Vec::new()); DATAGRAMS_MAX]);
    let mut frame = Frame::new();
    measure("read_1", || {
        black_box(frame.read(black_box(&one)));
    });
    measure("read_124", || {
        black_box(frame.read(black_box(&many)));
    });

    let mut aligned = Controller::new();
    for k in 0..8 {
        let start = 0x1000 + 185 * k;
        aligned.fmmus[k] = Fmmu {
            first: 8 * (0x1_0000 + 185 * k as u64),
            bits: 8 * 185,
            physical: 8 * start as u64,
            reads: k % 2 == 0,
            writes: k % 2 == 1,
        };
        aligned.areas[k] = Area { start, end: start + 185, mailbox: false, outputs: k % 2 == 1 };
    }
    frame.read(&one);
    measure("lrw_1486_aligned", || aligned.process(black_box(&mut frame)));

    let mut odd = Controller::new();
    for k in 0..8 {
        odd.fmmus[k] = Fmmu {
            first: 8 * (0x1_0000 + 185 * k as u64) + 3,
            bits: 8 * 184 + 2,
            physical: 8 * (0x1000 + 186 * k as u64) + 5,
            reads: true,
            writes: false,
        };
    }
    let lrd = frame_of(&[(10, 0x1_0000, vec![0; PAYLOAD_MAX])]);
    frame.read(&lrd);
    measure("lrd_1486_odd", || odd.process(black_box(&mut frame)));

    let brd = frame_of(&[(7, 0x0130 << 16, vec![0; PAYLOAD_MAX])]);
    frame.read(&brd);
    measure("brd_1486", || odd.process(black_box(&mut frame)));

    let (sent, other) = (vec![0xF0; PAYLOAD_MAX], vec![0x70; PAYLOAD_MAX]);
    let mut into = vec![0xF1; PAYLOAD_MAX];
    measure("join_1486", || join(black_box(&sent), black_box(&mut into), black_box(&other)));

    let mut ring = full_ring();
    let mut items = [Item::new(12, 0x1_0000, vec![0x5A; 1280]), Item::new(7, 0x0130 << 16, vec![0; 2])];
    let sent = Frame::of_items(&items);
    measure("ring_256", || {
        let mut joined = sent.clone();
        walk(&mut ring, &mut joined);
        black_box(joined.join(&sent, black_box(&sent)));
        black_box(&joined);
    });
    measure("cycle_256", || {
        items.iter_mut().for_each(Item::rewind);
        black_box(cycle(&mut ring, &mut items));
    });
    assert_eq!((items[0].counter, items[1].counter), (3 * 256, 256));
    assert_eq!(items[0].data, [0x11, 0x22, 0x33, 0x44, 0x55].repeat(256));
}
