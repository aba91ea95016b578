//! What travels: a frame goes out of both ports of a line, each copy with a number of its own, and what comes
//! back is opened. `rummymaple_net.h` in Rust, for Linux, with `std`; written by hand and tried, not proved.
//!
//! ```no_run
//! use rummymaple::{net::Net, Item, Kind, Verdict};
//! use std::time::Duration;
//!
//! let mut net = Net::udp("127.0.0.1:34980", Some("127.0.0.1:34981"))?;
//! let mut items = [Item::new(Kind::Lrd, 0x20000, 0, 5, 5)];
//! let (mut image, mut waiting) = ([0; 5], [0; 5]);
//! let ran = net.cycle(&mut items, &mut image, &mut waiting, Duration::from_micros(500)).expect("a frame");
//! if ran.verdict == Verdict::Good {
//!     println!("{image:?}");
//! }
//! # Ok::<(), std::io::Error>(())
//! ```
//!
//! A cycle takes no memory and starts no thread; it waits for both ports at once. A send or receive that
//! fails, at whichever port, is a copy that is missing: it is counted, and ends nothing. The port is tried
//! again with the next frame.

mod sockets;

use crate::{frame, frame_of_look, locate, look, open, seal};
use crate::{Cycle, Fault, Form, Item, Kind, Located, State, Verdict};
use crate::{NotStarted, Records, Seen, Served, Service, Start, Started, Startup};
use std::fs::File;
use std::io::{Error, Read, Result as IoResult};
use std::os::fd::{AsRawFd, OwnedFd, RawFd};
use std::time::{Duration, Instant, SystemTime};

/// The most bytes of a frame, its number included.
pub const FRAME_SIZE: usize = 1500;

/// For how long at least the other copy is awaited behind one that is enough.
pub const FLOOR: Duration = Duration::from_micros(100);

/// Behind so many cycles in which nothing came at a port there is no such least time there.
pub const SILENT: u32 = 100;

/// How many packets that wait at a port one look reads at the most: more than a socket keeps, unless its
/// buffer was made larger.
const WAITING: usize = 512;

/// The bytes of an Ethernet header without tags, and the least ones of a packet that goes out.
const HEADER: usize = 14;
const LEAST: usize = 60;

/// The most datagrams of a frame.
const DATAGRAMS: usize = 124;

/// A port of a master, or the one that a copy went out from.
#[derive(Clone, Copy, PartialEq, Eq, Debug)]
pub enum Side {
    /// At the first slave's end of the line.
    A = 0,
    /// At the last one's.
    B = 1,
}

/// Both of them.
const SIDES: [Side; 2] = [Side::A, Side::B];

/// How a trip ended.
#[derive(Clone, Copy, PartialEq, Eq, Debug)]
pub enum End {
    /// It has not: copies are awaited.
    UnderWay,
    /// Each copy came that can: each that went out, or one at each port that works.
    All,
    /// What came has the counters that are expected, and the other copy had its time.
    Enough,
    /// The time was over.
    Time,
    /// No copy went out, or no port works: nothing can come.
    Nowhere,
}

/// What a trip answers; the copies are in [`Net::copy`] and [`Net::at`].
#[derive(Clone, Copy, PartialEq, Eq, Debug)]
pub struct Came {
    /// How it ended.
    pub ended: End,
    /// For how long it took.
    pub took: Duration,
    /// How many copies went out.
    pub out: u32,
    /// How many of them came back.
    pub back: u32,
}

/// What a cycle answers.
#[derive(Clone, Copy, PartialEq, Eq, Debug)]
pub struct Ran {
    /// What the working counters say.
    pub verdict: Verdict,
    /// How many frames went out.
    pub frames: u32,
    /// How many copies of them did not come back, whether they went out or not.
    pub missing: u32,
    /// How the last trip ended.
    pub ended: End,
    /// For how long all of it took.
    pub took: Duration,
}

/// How it went at a port.
#[derive(Clone, Copy, PartialEq, Eq, Debug, Default)]
pub struct Counts {
    /// How many copies went out from it.
    pub sent: u64,
    /// How many copies came at it, whichever port they went out from.
    pub came: u64,
    /// How many other packets did: late, doubled, damaged, or not of this master.
    pub passed_over: u64,
    /// How many sends and receives failed.
    pub failures: u64,
    /// The system's number of the last failure, where no packet has come since.
    pub error: Option<i32>,
    /// How many cycles have begun since a packet came there.
    pub silent: u32,
}

/// A port.
#[derive(Debug)]
struct Port {
    socket: Option<OwnedFd>,
    counts: Counts,
    /// Of this trip: its copy went out.
    is_out: bool,
    /// A receive failed, and nothing is awaited there.
    has_failed: bool,
    /// Which copy came there first.
    first: Option<Side>,
}

impl Port {
    fn over(socket: Option<OwnedFd>) -> Port {
        Port { socket, counts: Counts::default(), is_out: false, has_failed: false, first: None }
    }

    /// A send or receive failed.
    fn fails(&mut self, fault: &Error) {
        self.counts.failures += 1;
        self.counts.error = Some(fault.raw_os_error().unwrap_or(0));
    }

    /// Whether nothing more is awaited there: it has failed, there is none, or a copy came.
    fn is_served(&self) -> bool {
        self.socket.is_none() || self.has_failed || self.first.is_some()
    }

    /// What may be waited at.
    fn awaited(&self) -> Option<RawFd> {
        self.socket.as_ref().filter(|_| !self.has_failed).map(|socket| socket.as_raw_fd())
    }
}

/// A copy of the last frame that went out.
#[derive(Debug)]
struct Back {
    bytes: [u8; FRAME_SIZE],
    size: usize,
    at: Side,
    after: Duration,
}

/// A line as the master reaches it, and the trip that is under way.
#[derive(Debug)]
pub struct Net {
    form: Form,
    ports: [Port; 2],
    /// By the port that each went out from.
    copies: [Back; 2],
    /// The next trip: its copies get the numbers 2 * trip and 2 * trip + 1.
    trip: u64,
    sent: [u8; FRAME_SIZE],
    sent_size: usize,
    expected: [u16; DATAGRAMS],
    expected_count: usize,
    begun: Instant,
    until: Instant,
    ended: End,
    /// What came is enough, so that `until` is sooner than it was.
    is_enough: bool,
    packet: [u8; HEADER + FRAME_SIZE + 1],
}

/// The first trip of a run, for answers to another run may still come: drawn by chance, or where that cannot
/// be read the time.
fn first_trip() -> u64 {
    let mut drawn = [0; 8];
    match File::open("/dev/urandom").and_then(|mut chance| chance.read_exact(&mut drawn)) {
        Ok(()) => u64::from_le_bytes(drawn) >> 1,
        Err(_) => SystemTime::UNIX_EPOCH.elapsed().map_or(0, |since| since.as_nanos() as u64),
    }
}

impl Net {
    /// Opens the ports of a line that is reached by UDP, at its ends as HOST:PORT; without `b` port A alone.
    pub fn udp(a: &str, b: Option<&str>) -> IoResult<Net> {
        let opened = (sockets::connected(a)?, b.map(sockets::connected).transpose()?);
        Ok(Net::over(Form::Udp, opened.0, opened.1))
    }

    /// Opens the ports of a line at network interfaces, by their names, which takes the right to packet
    /// sockets (CAP_NET_RAW). Frames go out to every station, from 10:52:4D:50:00:0A and 10:52:4D:50:00:0B;
    /// what comes is looked at where its source address says that it has passed a slave.
    pub fn raw(a: &str, b: Option<&str>) -> IoResult<Net> {
        let opened = (sockets::bound(a)?, b.map(sockets::bound).transpose()?);
        Ok(Net::over(Form::Ethernet, opened.0, opened.1))
    }

    fn over(form: Form, a: OwnedFd, b: Option<OwnedFd>) -> Net {
        let now = Instant::now();
        let none = |at| Back { bytes: [0; FRAME_SIZE], size: 0, at, after: Duration::ZERO };
        Net {
            form,
            ports: [Port::over(Some(a)), Port::over(b)],
            copies: [none(Side::A), none(Side::B)],
            trip: first_trip(),
            sent: [0; FRAME_SIZE],
            sent_size: 0,
            expected: [0; DATAGRAMS],
            expected_count: 0,
            begun: now,
            until: now,
            ended: End::Nowhere,
            is_enough: false,
            packet: [0; HEADER + FRAME_SIZE + 1],
        }
    }

    /// How its packets are framed.
    pub fn form(&self) -> Form {
        self.form
    }

    /// How it went at a port.
    pub fn counts(&self, port: Side) -> Counts {
        self.ports[port as usize].counts
    }

    /// The descriptor of a port, for loops of somebody else's.
    pub fn descriptor(&self, port: Side) -> Option<RawFd> {
        self.ports[port as usize].socket.as_ref().map(|socket| socket.as_raw_fd())
    }

    /// The copy that went out from a port, opened, and the port where it came; none where it did not come.
    pub fn copy(&self, from: Side) -> Option<(&[u8], Side)> {
        let copy = &self.copies[from as usize];
        (copy.size > 0).then(|| (&copy.bytes[..copy.size], copy.at))
    }

    /// The copy that came at a port, the first one where two did: what `locate` asks for. It is empty where
    /// none came.
    pub fn at(&self, port: Side) -> &[u8] {
        match self.ports[port as usize].first {
            Some(from) => self.opened(from),
            None => &[],
        }
    }

    fn opened(&self, from: Side) -> &[u8] {
        let copy = &self.copies[from as usize];
        &copy.bytes[..copy.size]
    }

    /// How many bytes stand in front of a frame.
    fn front(&self) -> usize {
        if self.form == Form::Ethernet { HEADER } else { 0 }
    }

    /// Another cycle begins, in which nothing has come yet.
    fn count(&mut self) {
        for port in &mut self.ports {
            port.counts.silent = port.counts.silent.saturating_add(1);
        }
    }

    /// Sends this trip's copy from a port, under its number: where that fails, it is missing.
    fn send_copy(&mut self, from: Side) -> Result<(), Fault> {
        let number = self.trip.wrapping_mul(2).wrapping_add(from as u64);
        let front = self.front();
        let room = &mut self.packet[front..front + FRAME_SIZE];
        let mut size = front + seal(number, &self.sent[..self.sent_size], room)?;
        if self.form == Form::Ethernet {
            let source = [0x10, 0x52, 0x4D, 0x50, 0, 0x0A + from as u8];
            self.packet[..6].fill(0xFF);
            self.packet[6..12].copy_from_slice(&source);
            self.packet[12..HEADER].copy_from_slice(&[0x88, 0xA4]);
            self.packet[size..LEAST.max(size)].fill(0);
            size = size.max(LEAST);
        }
        let port = &mut self.ports[from as usize];
        let Some(socket) = &port.socket else { return Ok(()) };
        match sockets::send_to(socket, &self.packet[..size]) {
            Ok(()) => {
                port.is_out = true;
                port.counts.sent += 1;
            }
            Err(fault) => port.fails(&fault),
        }
        Ok(())
    }

    /// Whether a packet may be an answer: by UDP each, else one of EtherCAT's type that has passed a slave.
    fn is_answer(&self, size: usize) -> bool {
        self.form == Form::Udp
            || (size > HEADER && self.packet[12..HEADER] == [0x88, 0xA4] && self.packet[6] & 2 != 0)
    }

    /// Opens the packet that came at a port: whether it is a copy of this trip that did not come yet.
    fn open_packet(&mut self, at: Side, size: usize) -> bool {
        if self.ended != End::UnderWay || !self.is_answer(size) {
            return false;
        }
        let (trip, sent) = (self.trip.wrapping_sub(1).wrapping_mul(2), &self.sent[..self.sent_size]);
        let packet = &self.packet[self.front()..size];
        for from in SIDES {
            let copy = &mut self.copies[from as usize];
            if !self.ports[from as usize].is_out || copy.size > 0 {
                continue;
            }
            let number = trip.wrapping_add(from as u64);
            if let Ok(opened) = open(self.form, number, sent, packet, &mut copy.bytes) {
                (copy.size, copy.at, copy.after) = (opened, at, self.begun.elapsed());
                self.ports[at as usize].first.get_or_insert(from);
                return true;
            }
        }
        false
    }

    /// Receives what waits at a port, up to a copy.
    fn take(&mut self, at: Side) {
        for _ in 0..WAITING {
            let port = &mut self.ports[at as usize];
            let Some(socket) = &port.socket else { return };
            match sockets::receive(socket, &mut self.packet) {
                Ok(None) => return,
                Ok(Some(size)) => {
                    (port.counts.silent, port.counts.error) = (0, None);
                    if self.open_packet(at, size) {
                        self.ports[at as usize].counts.came += 1;
                        return;
                    }
                    self.ports[at as usize].counts.passed_over += 1;
                }
                Err(fault) => {
                    port.fails(&fault);
                    port.has_failed = true;
                    return;
                }
            }
        }
    }

    /// Whether a copy has moved each counter by what is expected. It is a frame of the sent one's shape,
    /// since it was opened.
    fn has_counters(&self, copy: &[u8]) -> bool {
        let mut at = 2;
        for expected in &self.expected[..self.expected_count] {
            let Some(length) = copy.get(at + 6..at + 8) else { return false };
            at += 10 + usize::from(u16::from_le_bytes([length[0], length[1]]) & 0x7FF);
            let counter = |bytes: &[u8]| Some(u16::from_le_bytes([*bytes.get(at)?, *bytes.get(at + 1)?]));
            let (Some(came), Some(sent)) = (counter(copy), counter(&self.sent[..self.sent_size])) else {
                return false;
            };
            if came.wrapping_sub(sent) != *expected {
                return false;
            }
            at += 2;
        }
        at == copy.len()
    }

    /// Has the trip end sooner, where one copy came that is enough: by its counters, or where none are
    /// expected since nothing has come for long at the other port. The other one has as long again as this
    /// one took, and a least time, unless nothing has come there for long.
    fn shorten(&mut self) {
        let Some(from) = SIDES.into_iter().find(|from| self.copies[*from as usize].size > 0) else { return };
        let copy = &self.copies[from as usize];
        let other = if copy.at == Side::A { Side::B } else { Side::A };
        let is_silent = self.ports[other as usize].counts.silent > SILENT;
        let suffices = match self.expected_count {
            0 => is_silent,
            _ => self.has_counters(self.opened(from)),
        };
        if self.is_enough || !suffices {
            return;
        }
        let more = if is_silent { copy.after } else { copy.after.max(FLOOR) };
        self.until = self.until.min(self.begun + copy.after + more);
        self.is_enough = true;
    }

    /// How many copies went out, and came back.
    fn out(&self) -> u32 {
        self.ports.iter().map(|port| u32::from(port.is_out)).sum()
    }

    fn back(&self) -> u32 {
        self.copies.iter().map(|copy| u32::from(copy.size > 0)).sum()
    }

    /// How the trip has ended by now, if it has.
    fn end_now(&self, now: Instant) -> End {
        let back = self.back();
        if back == self.out() || self.ports.iter().all(Port::is_served) {
            return if back > 0 { End::All } else { End::Nowhere };
        }
        match (now < self.until, self.is_enough) {
            (true, _) => End::UnderWay,
            (false, true) => End::Enough,
            (false, false) => End::Time,
        }
    }

    fn told(&self, now: Instant) -> Came {
        Came { ended: self.ended, took: now - self.begun, out: self.out(), back: self.back() }
    }

    /// Sends the frame that lies in `sent`, whose copies are awaited up to a time.
    fn begin(&mut self, size: usize, expected: usize, until: Instant) -> Result<Came, Fault> {
        (self.sent_size, self.expected_count) = (size, expected);
        (self.begun, self.until, self.is_enough, self.ended) = (Instant::now(), until, false, End::Nowhere);
        for from in SIDES {
            self.copies[from as usize].size = 0;
            let port = &mut self.ports[from as usize];
            (port.is_out, port.has_failed, port.first) = (false, false, None);
        }
        let sent = self.send_copy(Side::A).and_then(|()| self.send_copy(Side::B));
        self.trip = self.trip.wrapping_add(1);
        sent?;
        self.ended = if self.out() > 0 { End::UnderWay } else { End::Nowhere };
        Ok(self.told(self.begun))
    }

    /// Begins a trip, and waits for nothing: for loops of somebody else's; [`Net::trip`] does all of it.
    /// Whenever something is at a descriptor, and when [`Net::left`] says that no time is left, call
    /// [`Net::look`], until it answers that the trip has ended. A whole cycle so is [`Net::begin_cycle`].
    ///
    /// `expected` has by how much the counter of each datagram is expected to move; it is empty where none
    /// are expected: then one copy alone ends no trip, unless nothing has come for long at the other port. A
    /// frame that has no place for a number is `Full`, and bytes that are no frame are `NotSent`.
    pub fn send(&mut self, sent: &[u8], expected: &[u16], limit: Duration) -> Result<Came, Fault> {
        if sent.len() > FRAME_SIZE || expected.len() > DATAGRAMS {
            return Err(Fault::NoRoom);
        }
        self.sent[..sent.len()].copy_from_slice(sent);
        self.expected[..expected.len()].copy_from_slice(expected);
        self.count();
        self.begin(sent.len(), expected.len(), after(Instant::now(), limit))
    }

    /// Looks at these ports, and where the time is over at both.
    fn look_at(&mut self, ready: [bool; 2]) -> Came {
        let now = Instant::now();
        let was_under_way = self.ended == End::UnderWay;
        for at in SIDES {
            if ready[at as usize] || now >= self.until {
                self.take(at);
            }
        }
        if was_under_way {
            self.shorten();
            self.ended = self.end_now(now);
        }
        self.told(now)
    }

    /// Receives what waits at both ports, and waits for nothing. What is no copy of this trip is passed over.
    pub fn look(&mut self) -> Came {
        self.look_at([true; 2])
    }

    /// For how long copies of this trip are still awaited. A look may make it less.
    pub fn left(&self) -> Duration {
        match self.ended {
            End::UnderWay => self.until.saturating_duration_since(Instant::now()),
            _ => Duration::ZERO,
        }
    }

    /// Waits for the copies of a trip that has begun.
    fn wait_for(&mut self, mut came: Came) -> Came {
        while came.ended == End::UnderWay {
            let awaited = [self.ports[0].awaited(), self.ports[1].awaited()];
            came = self.look_at(sockets::wait(awaited, self.left()));
        }
        came
    }

    /// Sends a frame from both ports, and waits at both at once for its copies. The arguments are those of
    /// [`Net::send`].
    ///
    /// It ends as soon as each copy came that went out; or a copy came at each port that works; or one came
    /// that moved the counters as expected, and the other one has had as long again as this one took, and at
    /// least [`FLOOR`]; or the limit is over. Where nothing came at a port in [`SILENT`] cycles, there is no
    /// such least time for it; the first packet there ends that. Each trip counts as a cycle, but for those
    /// of [`Net::cycle`].
    pub fn trip(&mut self, sent: &[u8], expected: &[u16], limit: Duration) -> Result<Came, Fault> {
        let came = self.send(sent, expected, limit)?;
        Ok(self.wait_for(came))
    }

    /// Runs a whole cycle of these items by turns ([`Cycle`]), each frame as [`Net::trip`] does. `waiting` is
    /// as large as the image; `limit` is for how long copies of all frames together are awaited. The data of
    /// each broadcast read in the image are zeroed first. Where the verdict is good the image has the data of
    /// each item that reads; else it is as it was, but for these zeros.
    pub fn cycle(
        &mut self,
        items: &mut [Item],
        image: &mut [u8],
        waiting: &mut [u8],
        limit: Duration,
    ) -> Result<Ran, Fault> {
        let mut turns = self.begin_cycle(items, image, waiting, limit)?;
        while turns.is_under_way() {
            let awaited = [self.ports[0].awaited(), self.ports[1].awaited()];
            self.look_at(sockets::wait(awaited, self.left()));
            turns.go_on(self)?;
        }
        Ok(turns.ran)
    }

    /// Begins a cycle of these items, and waits for nothing: for loops of somebody else's; [`Net::cycle`]
    /// does all of it, by these very turns, and says what the arguments are. The first frame goes out.
    /// Whenever something is at a descriptor, and when [`Net::left`] says that no time is left, call
    /// [`Turns::look`], until it answers what the cycle came to. Meanwhile nothing else travels.
    pub fn begin_cycle<'a>(
        &mut self,
        items: &'a mut [Item],
        image: &'a mut [u8],
        waiting: &'a mut [u8],
        limit: Duration,
    ) -> Result<Turns<'a>, Fault> {
        let (begun, cycle) = (Instant::now(), Cycle::begin(self.form));
        let (verdict, ended, took) = (Verdict::Good, End::Nowhere, Duration::ZERO);
        let ran = Ran { verdict, frames: 0, missing: 0, ended, took };
        zero_broadcasts(items, image);
        self.count();
        let until = after(begun, limit);
        let mut turns = Turns { items, image, waiting, cycle, begun, until, ran, sent: 0 };
        if turns.is_under_way() {
            turns.send(self)?;
            turns.go_on(self)?;
        }
        Ok(turns)
    }

    /// Says where the cable of a line of so many slaves is broken: a broadcast read of AL status travels,
    /// alone in its frame. A copy that is lost costs all of the limit. Call it best once behind each cycle;
    /// one broken link shows here alone.
    pub fn locate(&mut self, slaves: usize, limit: Duration) -> Result<Located, Fault> {
        let probe = [Item::new(Kind::Brd, 0x0130, 0, 2, 0)];
        let size = frame(&probe, &[0; 2], 0, &mut self.sent)?.bytes;
        let came = self.begin(size, 0, after(Instant::now(), limit))?;
        self.wait_for(came);
        locate(self.form, &self.sent[..size], self.at(Side::A), self.at(Side::B), slaves)
    }

    /// Says in which state the slave with a station address is, and with which error: a frame goes out, and
    /// [`look`] tells of its copies. A copy that is lost costs all of the limit. It counts as no cycle.
    pub fn al_state(&mut self, station: u16, limit: Duration) -> Result<Seen, Fault> {
        let size = frame_of_look(station, &mut self.sent)?;
        let came = self.begin(size, 0, after(Instant::now(), limit))?;
        self.wait_for(came);
        look(self.form, station, self.opened(Side::A), self.opened(Side::B))
    }
}

impl Net {
    /// The frame of a turn lies in `sent`, and travels; where it has no bytes, nothing does.
    fn turn(&mut self, size: usize, limit: Duration) -> Result<[&[u8]; 2], Fault> {
        if size == 0 {
            return Ok([&[]; 2]);
        }
        self.count();
        let came = self.begin(size, 0, after(Instant::now(), limit))?;
        self.wait_for(came);
        Ok(SIDES.map(|from| self.opened(from)))
    }

    /// Takes one turn of a service that was begun with this line's form: a frame goes out, and
    /// [`Service::came`] tells of its copies. Between two cycles call it once, or without cycles until it has
    /// told what the slave answered. A copy that is lost costs all of the limit. A frame that has no place
    /// for a number is `Full`, and the service is as it was.
    pub fn serve(&mut self, service: &mut Service, limit: Duration) -> Result<Served, Fault> {
        let size = service.next_frame(&mut self.sent)?;
        let [a, b] = self.turn(size, limit)?;
        service.came(a, b)
    }

    /// Takes one turn of a start-up that was begun with this line's form, by the records and the objects of
    /// its slaves: a frame goes out, and [`Start::came`] tells of its copies. Call it until it is done.
    pub fn start(
        &mut self,
        start: &mut Start,
        line: &[Records],
        startup: &[Startup],
        limit: Duration,
    ) -> Result<Started, NotStarted> {
        let stage = start.stage().0;
        let failed = |why| NotStarted { stage, step: None, why };
        let size = start.next_frame(line, startup, &mut self.sent).map_err(failed)?;
        let [a, b] = self.turn(size, limit).map_err(failed)?;
        start.came(line, startup, a, b)
    }
}

/// A cycle by turns that has begun at a line ([`Net::begin_cycle`]).
#[derive(Debug)]
pub struct Turns<'a> {
    items: &'a mut [Item],
    image: &'a mut [u8],
    waiting: &'a mut [u8],
    cycle: Cycle,
    begun: Instant,
    until: Instant,
    ran: Ran,
    /// How many bytes of the frame that is under way stand in the line's room.
    sent: usize,
}

impl Turns<'_> {
    fn is_under_way(&self) -> bool {
        self.cycle.state() == State::UnderWay
    }

    /// Receives what waits at both ports of the line at which the cycle began, and waits for nothing. Where
    /// the trip of a frame has ended by it, the next one goes out. What the cycle came to is answered once it
    /// is over.
    pub fn look(&mut self, net: &mut Net) -> Result<Option<Ran>, Fault> {
        net.look();
        self.go_on(net)?;
        Ok((!self.is_under_way()).then_some(self.ran))
    }

    /// Sends the next frame.
    fn send(&mut self, net: &mut Net) -> Result<(), Fault> {
        let made = self.cycle.next_frame(self.items, self.image, &mut net.sent)?;
        let carried = &self.items[self.cycle.first()..self.cycle.first() + made.items];
        for (expected, item) in net.expected.iter_mut().zip(carried) {
            *expected = item.expected;
        }
        self.sent = made.bytes;
        net.begin(made.bytes, made.items, self.until)?;
        Ok(())
    }

    /// Takes what came of the frames whose trips have ended, and sends those behind them.
    fn go_on(&mut self, net: &mut Net) -> Result<(), Fault> {
        while self.is_under_way() && net.ended != End::UnderWay {
            let (sent, a, b) = (&net.sent[..self.sent], net.opened(Side::A), net.opened(Side::B));
            let turn = self.cycle.came(self.items, sent, a, b, self.waiting, self.image)?;
            self.ran.verdict = turn.verdict;
            self.ran.ended = net.ended;
            self.ran.frames += 1;
            self.ran.missing += u32::from(a.is_empty());
            self.ran.missing += u32::from(b.is_empty() && net.ports[1].socket.is_some());
            self.ran.took = self.begun.elapsed();
            if self.is_under_way() {
                self.send(net)?;
            }
        }
        Ok(())
    }
}

/// Zeros the data of each broadcast read in the image, which is due before each cycle: what comes back is
/// or-ed into what goes out. One whose data do not lie in the image is passed over; `frame` names it.
pub fn zero_broadcasts(items: &[Item], image: &mut [u8]) {
    for item in items.iter().filter(|item| item.kind == Kind::Brd as u16) {
        let begin = item.offset as usize;
        if let Some(data) = image.get_mut(begin..begin + usize::from(item.length)) {
            data.fill(0);
        }
    }
}

/// So long after a time, or a year where that is beyond what the clock can say.
fn after(time: Instant, limit: Duration) -> Instant {
    time.checked_add(limit).unwrap_or_else(|| time + Duration::from_secs(365 * 24 * 3600))
}

/// Lets time pass up to then, if it has not.
pub fn pause_until(time: Instant) {
    std::thread::sleep(time.saturating_duration_since(Instant::now()));
}
