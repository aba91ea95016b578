//! The library's benchmark: frame, join, judge and store of one LRW of 1,280 bytes and one BRD of 2, and
//! these with the numbering and opening of both copies, by `librummymaple.a` and in plain Rust by hand, over
//! the same plain data and with no proof. Both are tried to come to the same before they are measured. It
//! prints a line of each: the nanoseconds of a cycle, ours and the peer's.

use std::hint::black_box;
use std::time::Instant;

#[derive(Clone, Copy, PartialEq, Debug)]
#[repr(C)]
struct Item {
    address: u32,
    offset: u32,
    length: u16,
    kind: u16,
    expected: u16,
    sent: u16,
    came: u16,
    passed: u16,
}

#[repr(C)]
struct Framed {
    bytes: usize,
    items: usize,
    at: usize,
    code: u32,
}

#[repr(C)]
struct Joined {
    bytes: usize,
    at: usize,
    code: u32,
    copy_a: u32,
    copy_b: u32,
}

#[repr(C)]
struct Written {
    bytes: usize,
    at: usize,
    code: u32,
}

#[repr(C)]
struct Answer {
    at: usize,
    code: u32,
}

extern "C" {
    fn rmp_frame(items: *const Item, n: usize, image: *const u8, image_size: usize, first: usize,
        room: *mut u8, room_size: usize) -> Framed;
    fn rmp_join(form: u32, sent: *const u8, sent_size: usize, a: *const u8, a_size: usize, b: *const u8,
        b_size: usize, room: *mut u8, room_size: usize) -> Joined;
    fn rmp_seal(number: u64, sent: *const u8, sent_size: usize, room: *mut u8, room_size: usize) -> Written;
    fn rmp_open(form: u32, number: u64, sent: *const u8, sent_size: usize, packet: *const u8, size: usize,
        room: *mut u8, room_size: usize) -> Written;
    fn rmp_judge(items: *mut Item, n: usize, first: usize, joined: *const u8, size: usize) -> Answer;
    fn rmp_store(items: *const Item, n: usize, first: usize, joined: *const u8, size: usize, image: *mut u8,
        image_size: usize) -> Answer;
}

/// The peer: each call as a careful programmer writes it who knows where each byte stands.
mod peer {
    use super::Item;

    fn word(bytes: &[u8], at: usize) -> u16 {
        u16::from_le_bytes([bytes[at], bytes[at + 1]])
    }

    fn counts_adp(command: u8) -> bool {
        matches!(command, 1..=3 | 7 | 8)
    }

    /// Where the datagrams of a frame begin, and how many they are; none where the bytes are no frame.
    struct Frame<'a> {
        bytes: &'a [u8],
        starts: [u16; 124],
        count: usize,
    }

    impl Frame<'_> {
        fn read(bytes: &[u8]) -> Option<Frame<'_>> {
            let head = if bytes.len() < 2 { return None } else { word(bytes, 0) };
            let end = 2 + usize::from(head & 0x7FF);
            if head >> 12 != 1 || head & 0x800 != 0 || end == 2 || end > 1500 || bytes.len() != end {
                return None;
            }
            let (mut starts, mut count, mut at) = ([0; 124], 0, 2);
            loop {
                if end - at < 12 || bytes[at] > 14 || count == 124 {
                    return None;
                }
                let length = word(bytes, at + 6);
                let next = at + 12 + usize::from(length & 0x7FF);
                let more = length >> 15 == 1;
                if length & 0x3800 != 0 || next > end || more == (next == end) {
                    return None;
                }
                starts[count] = at as u16;
                count += 1;
                at = next;
                if !more {
                    return Some(Frame { bytes, starts, count });
                }
            }
        }

        fn place(&self, k: usize) -> (usize, usize) {
            let at = usize::from(self.starts[k]);
            (at, at + 10 + usize::from(word(self.bytes, at + 6) & 0x7FF))
        }

        /// May it have come of the sent frame?
        fn is_own(&self, sent: &Frame) -> bool {
            self.count == sent.count && self.begins_with(sent)
        }

        /// May its first datagrams, as many as were sent, have come of the sent frame?
        fn begins_with(&self, sent: &Frame) -> bool {
            (0..sent.count).all(|k| {
                let (at, _) = sent.place(k);
                let fixed = if counts_adp(sent.bytes[at]) { at + 4 } else { at + 2 };
                self.starts[k] == sent.starts[k]
                    && self.bytes[at..at + 2] == sent.bytes[at..at + 2]
                    && self.bytes[fixed..at + 6] == sent.bytes[fixed..at + 6]
                    && (word(self.bytes, at + 6) ^ word(sent.bytes, at + 6)) & 0x7FF == 0
            })
        }

        /// Does it end with this number from a place on?
        fn bears(&self, number: u64, at: usize) -> bool {
            let (last, end) = self.place(self.count - 1);
            last == at
                && end == at + 18
                && self.bytes[at..at + 6] == [0; 6]
                && self.bytes[at + 10..end] == number.to_le_bytes()
        }

        /// Are its datagrams answers of the items from `first` on?
        fn answers(&self, items: &[Item], first: usize) -> bool {
            self.count <= items.len().saturating_sub(first)
                && (0..self.count).all(|k| {
                    let (item, (at, end)) = (&items[first + k], self.place(k));
                    u16::from(self.bytes[at]) == item.kind
                        && usize::from(self.bytes[at + 1]) == first + k
                        && end - at - 10 == usize::from(item.length)
                })
        }
    }

    fn is_taken(item: &Item, size: usize) -> bool {
        let (end, length) = (u64::from(item.address), u64::from(item.length));
        let in_range = match item.kind {
            4 | 5 => (end >> 16) + length <= 0x3000,
            7 => end + length <= 0x1000,
            10..=12 => end + length <= 1 << 32,
            _ => false,
        };
        let place = item.offset as usize + usize::from(item.length);
        in_range && length > 0 && length <= 1486 && place <= size
    }

    pub fn frame(items: &[Item], image: &[u8], first: usize, room: &mut [u8]) -> Option<(usize, usize)> {
        if items.len() > 256 || first >= items.len() || !items.iter().all(|i| is_taken(i, image.len())) {
            return None;
        }
        let (mut at, mut count) = (2, 0);
        let mut last = 0;
        for (k, item) in items.iter().enumerate().skip(first) {
            let length = usize::from(item.length);
            if at + 12 + length > 1500 {
                break;
            }
            if at + 12 + length > room.len() {
                return None;
            }
            let address = if item.kind == 7 { item.address << 16 } else { item.address };
            let (offset, end) = (item.offset as usize, at + 10 + length);
            room[at..at + 2].copy_from_slice(&[item.kind as u8, k as u8]);
            room[at + 2..at + 6].copy_from_slice(&address.to_le_bytes());
            room[at + 6..at + 8].copy_from_slice(&(item.length | 0x8000).to_le_bytes());
            room[at + 8..at + 10].copy_from_slice(&[0, 0]);
            room[at + 10..end].copy_from_slice(&image[offset..offset + length]);
            room[end..end + 2].copy_from_slice(&item.sent.to_le_bytes());
            (last, at, count) = (at, end + 2, count + 1);
        }
        room[last + 7] &= 0x7F;
        room[..2].copy_from_slice(&((at - 2) as u16 | 1 << 12).to_le_bytes());
        Some((at, count))
    }

    /// The frame with a number behind it.
    pub fn seal(number: u64, sent: &[u8], room: &mut [u8]) -> Option<usize> {
        let frame = Frame::read(sent)?;
        let (end, whole) = (sent.len(), sent.len() + 20);
        if whole > 1500 || room.len() < whole {
            return None;
        }
        let (last, _) = frame.place(frame.count - 1);
        room[..end].copy_from_slice(sent);
        room[..2].copy_from_slice(&(word(sent, 0) + 20).to_le_bytes());
        room[last + 7] |= 0x80;
        room[end..whole].copy_from_slice(&[0; 20]);
        room[end + 6] = 8;
        room[end + 10..end + 18].copy_from_slice(&number.to_le_bytes());
        Some(whole)
    }

    /// What a packet is without its number, where it came of the frame with it.
    pub fn open(number: u64, sent: &[u8], packet: &[u8], room: &mut [u8]) -> Option<usize> {
        let (s, copy) = (Frame::read(sent)?, Frame::read(packet)?);
        let end = sent.len();
        if copy.count != s.count + 1 || !copy.bears(number, end) || !copy.begins_with(&s) {
            return None;
        }
        if room.len() < end {
            return None;
        }
        let (last, _) = s.place(s.count - 1);
        room[..end].copy_from_slice(&packet[..end]);
        room[..2].copy_from_slice(&(word(packet, 0) - 20).to_le_bytes());
        room[last + 7] &= 0x7F;
        Some(end)
    }

    pub fn join(sent: &[u8], a: &[u8], b: &[u8], room: &mut [u8]) -> Option<usize> {
        let s = Frame::read(sent)?;
        let x = Frame::read(a).unwrap_or(Frame { bytes: sent, ..s });
        let y = Frame::read(b).unwrap_or(Frame { bytes: sent, ..s });
        if !x.is_own(&s) || !y.is_own(&s) || room.len() < sent.len() {
            return None;
        }
        room[..sent.len()].copy_from_slice(sent);
        for k in 0..s.count {
            let (at, end) = s.place(k);
            let bits = at + 6..end;
            let copies = x.bytes[bits.clone()].iter().zip(&y.bytes[bits.clone()]);
            for ((r, s), (a, b)) in room[bits.clone()].iter_mut().zip(&sent[bits]).zip(copies) {
                *r = s ^ ((s ^ a) | (s ^ b));
            }
            let mut count = |at: usize| {
                let more = word(y.bytes, at).wrapping_sub(word(sent, at));
                let joined = word(x.bytes, at).wrapping_add(more);
                room[at..at + 2].copy_from_slice(&joined.to_le_bytes());
            };
            count(end);
            if counts_adp(sent[at]) {
                count(at + 2);
            }
        }
        Some(sent.len())
    }

    /// The number of the first item whose counter has not moved as is expected, or none.
    pub fn judge(items: &mut [Item], first: usize, joined: &[u8]) -> Option<Option<usize>> {
        let frame = Frame::read(joined)?;
        if !frame.answers(items, first) {
            return None;
        }
        let mut wrong = None;
        for k in 0..frame.count {
            let (item, (at, end)) = (&mut items[first + k], frame.place(k));
            item.came = word(joined, end);
            item.passed = if item.kind == 7 { word(joined, at + 2) } else { 0 };
            if item.came.wrapping_sub(item.sent) != item.expected && wrong.is_none() {
                wrong = Some(first + k);
            }
        }
        Some(wrong)
    }

    pub fn store(items: &[Item], first: usize, joined: &[u8], image: &mut [u8]) -> Option<()> {
        let frame = Frame::read(joined)?;
        if !items.iter().all(|item| is_taken(item, image.len())) || !frame.answers(items, first) {
            return None;
        }
        for k in 0..frame.count {
            let (item, (at, end)) = (&items[first + k], frame.place(k));
            if !matches!(item.kind, 5 | 11) {
                let offset = item.offset as usize;
                image[offset..offset + usize::from(item.length)].copy_from_slice(&joined[at + 10..end]);
            }
        }
        Some(())
    }
}

const DATA: u16 = 1280;

/// The numbers of both copies.
const NUMBERS: [u64; 2] = [0x0123_4567_89AB_CDEE, 0x0123_4567_89AB_CDEF];

/// What a master holds, and what its ring brings back.
struct Master {
    items: [Item; 2],
    image: [u8; DATA as usize + 2],
    sent: [u8; 1500],
    joined: [u8; 1500],
    a: Vec<u8>,
    b: Vec<u8>,
    /// Both copies as they come with their numbers, what goes out, and both copies opened.
    packets: [Vec<u8>; 2],
    numbered: [u8; 1500],
    opened: [[u8; 1500]; 2],
}

impl Master {
    fn new() -> Master {
        let (address, offset) = (0x130, DATA.into());
        let states = Item { address, offset, length: 2, kind: 7, expected: 2, sent: 7, came: 0, passed: 0 };
        let exchange =
            Item { address: 0x10000, offset: 0, length: DATA, kind: 12, expected: 3, ..states };
        let mut master = Master {
            items: [exchange, states],
            image: [0x5A; DATA as usize + 2],
            sent: [0; 1500],
            joined: [0; 1500],
            a: vec![],
            b: vec![],
            packets: [vec![], vec![]],
            numbered: [0; 1500],
            opened: [[0; 1500]; 2],
        };
        let (bytes, _) = peer::frame(&master.items, &master.image, 0, &mut master.sent).unwrap();
        let (mut a, mut b) = (master.sent[..bytes].to_vec(), master.sent[..bytes].to_vec());
        (a[20], a[12 + 1280], a[1296], a[1306]) = (0x33, 10, 1, 8); // one slave reads and writes on the way
        (b[21], b[1296], b[1306], b[9]) = (0x44, 1, 8, b[9] | 0x40);
        for ((packet, number), copy) in master.packets.iter_mut().zip(NUMBERS).zip([&a, &b]) {
            packet.extend(&copy[..]);
            packet.extend([0, 0, 0, 0, 0, 0, 8, 0, 0, 0]);
            packet.extend(number.to_le_bytes());
            packet.extend([0, 0]);
            packet[0] += 20; // the length, 1,306, has room for it in its low byte
            packet[1301] |= 0x80; // the last datagram says now that another follows
        }
        (master.a, master.b) = (a, b);
        master
    }

    /// What goes out with both numbers, and the copies that come back with them.
    fn ours_numbered(&mut self) -> [u32; 8] {
        let (n, size) = (self.items.len(), self.image.len());
        let (items, image) = (self.items.as_mut_ptr(), self.image.as_mut_ptr());
        let (sent, joined) = (self.sent.as_mut_ptr(), self.joined.as_mut_ptr());
        // SAFETY: each pointer is that of an array of that length, and none of them overlap.
        unsafe {
            let made = rmp_frame(items, n, image, size, 0, sent, 1500);
            let (mut codes, mut sizes) = ([0; 4], [0; 2]);
            for c in 0..2 {
                codes[c] = rmp_seal(NUMBERS[c], sent, made.bytes, self.numbered.as_mut_ptr(), 1500).code;
            }
            for c in 0..2 {
                let (number, packet) = (NUMBERS[c], &self.packets[c]);
                let room = self.opened[c].as_mut_ptr();
                let open = rmp_open(1, number, sent, made.bytes, packet.as_ptr(), packet.len(), room, 1500);
                (codes[2 + c], sizes[c]) = (open.code, open.bytes);
            }
            let (a, b) = (self.opened[0].as_ptr(), self.opened[1].as_ptr());
            let came = rmp_join(1, sent, made.bytes, a, sizes[0], b, sizes[1], joined, 1500);
            let verdict = rmp_judge(items, n, 0, joined, came.bytes);
            let stored = rmp_store(items, n, 0, joined, came.bytes, image, size);
            let [numbered_a, numbered_b, opened_a, opened_b] = codes;
            let rest = [made.code, came.code, verdict.code, stored.code];
            [numbered_a, numbered_b, opened_a, opened_b, rest[0], rest[1], rest[2], rest[3]]
        }
    }

    fn peer_numbered(&mut self) -> Option<()> {
        let (bytes, _) = peer::frame(&self.items, &self.image, 0, &mut self.sent)?;
        let (sent, mut sizes) = (&self.sent[..bytes], [0; 2]);
        for c in 0..2 {
            peer::seal(NUMBERS[c], sent, &mut self.numbered)?;
        }
        for c in 0..2 {
            sizes[c] = peer::open(NUMBERS[c], sent, &self.packets[c], &mut self.opened[c])?;
        }
        let (a, b) = (&self.opened[0][..sizes[0]], &self.opened[1][..sizes[1]]);
        let bytes = peer::join(sent, a, b, &mut self.joined)?;
        if peer::judge(&mut self.items, 0, &self.joined[..bytes])?.is_some() {
            return None;
        }
        peer::store(&self.items, 0, &self.joined[..bytes], &mut self.image)
    }

    fn ours(&mut self) -> [u32; 4] {
        let (n, size) = (self.items.len(), self.image.len());
        let (items, image) = (self.items.as_mut_ptr(), self.image.as_mut_ptr());
        let (sent, joined) = (self.sent.as_mut_ptr(), self.joined.as_mut_ptr());
        // SAFETY: each pointer is that of an array of that length, and none of them overlap.
        unsafe {
            let made = rmp_frame(items, n, image, size, 0, sent, 1500);
            let (a, b) = (&self.a, &self.b);
            let came = rmp_join(1, sent, made.bytes, a.as_ptr(), a.len(), b.as_ptr(), b.len(), joined, 1500);
            let verdict = rmp_judge(items, n, 0, joined, came.bytes);
            let stored = rmp_store(items, n, 0, joined, came.bytes, image, size);
            [made.code, came.code, verdict.code, stored.code]
        }
    }

    fn peer(&mut self) -> Option<()> {
        let (bytes, _) = peer::frame(&self.items, &self.image, 0, &mut self.sent)?;
        let bytes = peer::join(&self.sent[..bytes], &self.a, &self.b, &mut self.joined)?;
        if peer::judge(&mut self.items, 0, &self.joined[..bytes])?.is_some() {
            return None;
        }
        peer::store(&self.items, 0, &self.joined[..bytes], &mut self.image)
    }
}

/// The nanoseconds of one run, the best of some hundreds.
fn measure(mut work: impl FnMut()) -> f64 {
    const RUNS: u32 = 2000;
    let one = |_| {
        let start = Instant::now();
        (0..RUNS).for_each(|_| work());
        start.elapsed().as_secs_f64() * 1e9 / f64::from(RUNS)
    };
    (0..200).map(one).fold(f64::MAX, f64::min)
}

/// What a run answered is not left out.
fn keep<T>(answered: T) {
    black_box(answered);
}

/// The best of five turns: the nanoseconds of our cycle, and of the peer's.
fn compare(ours: &mut Master, peers: &mut Master, ran: fn(&mut Master), peer: fn(&mut Master)) -> (f64, f64) {
    let first = Master::new().image;
    let image = ours.image;
    let (mut here, mut there) = (f64::MAX, f64::MAX);
    for _ in 0..5 {
        // A cycle's outputs are written anew: what is joined is the sent frame and what its copies changed.
        here = here.min(measure(|| {
            ours.image = first;
            ran(black_box(ours));
        }));
        there = there.min(measure(|| {
            peers.image = first;
            peer(black_box(peers));
        }));
    }
    assert!(ours.image == image && peers.image == image);
    (here, there)
}

fn main() {
    let (mut ours, mut peers) = (Master::new(), Master::new());
    let first = ours.image;
    for &numbered in &[false, true] {
        (ours.image, peers.image) = (first, first);
        if numbered {
            assert_eq!(ours.ours_numbered(), [0; 8]);
            assert_eq!(peers.peer_numbered(), Some(()));
            assert!(ours.opened[0][..ours.a.len()] == ours.a && ours.opened[1][..ours.b.len()] == ours.b);
            assert!(ours.opened == peers.opened && ours.numbered == peers.numbered);
        } else {
            assert_eq!(ours.ours(), [0; 4]);
            assert_eq!(peers.peer(), Some(()));
        }
        assert!(ours.image != first && ours.image == peers.image && ours.joined == peers.joined);
        assert!(ours.sent == peers.sent && ours.items == peers.items);
        let (here, there) = if numbered {
            compare(&mut ours, &mut peers, |m| keep(m.ours_numbered()), |m| keep(m.peer_numbered()))
        } else {
            compare(&mut ours, &mut peers, |m| keep(m.ours()), |m| keep(m.peer()))
        };
        println!("{here:.0} {there:.0}");
    }
}
