//! What travels, over a line that is a thread here: five slaves whose inputs are the outputs of the same
//! frame, inverted in part, so that no answer of another frame looks right.

use rummymaple::net::{End, Net, Side, FLOOR};
use rummymaple::{AlState, Cable, Fault, Item, Kind, NotStarted, Records, Service};
use rummymaple::{Stage, Start, Step, Verdict};
use std::mem::ManuallyDrop;
use std::net::{Shutdown, SocketAddr, TcpStream, UdpSocket};
use std::os::fd::FromRawFd;
use std::sync::atomic::{AtomicBool, AtomicU32, Ordering::SeqCst};
use std::sync::Arc;
use std::thread::JoinHandle;
use std::time::{Duration, Instant};

const SLAVES: usize = 5;
const LIMIT: Duration = Duration::from_millis(200);

/// What the network of the line does.
#[derive(Default)]
struct Orders {
    /// The link at end B is broken.
    down: AtomicBool,
    /// What arrives at end A is lost.
    mute: AtomicBool,
    /// Each copy is handed on a second time, with the next trip and in front of that one's own.
    late: AtomicBool,
    /// The copy from end A is handed on so many milliseconds behind that from end B.
    slow: AtomicU32,
    ended: AtomicBool,
}

struct Line {
    ends: [UdpSocket; 2],
    orders: Arc<Orders>,
    speakers: [Option<SocketAddr>; 2],
    kept: Vec<(usize, Vec<u8>)>,
}

/// A line, and the ports of its ends.
struct Served {
    orders: Arc<Orders>,
    ports: [String; 2],
    thread: Option<JoinHandle<()>>,
}

impl Drop for Served {
    fn drop(&mut self) {
        self.orders.ended.store(true, SeqCst);
        self.thread.take().expect("a thread").join().expect("its end");
    }
}

fn serve() -> Served {
    let ends = [0, 1].map(|_| UdpSocket::bind("127.0.0.1:0").expect("a port"));
    let ports = [0, 1].map(|end| ends[end].local_addr().expect("an address").to_string());
    let orders = Arc::new(Orders::default());
    for end in &ends {
        end.set_nonblocking(true).expect("no call waits");
    }
    let mut line = Line { ends, orders: orders.clone(), speakers: [None; 2], kept: Vec::new() };
    Served { orders, ports, thread: Some(std::thread::spawn(move || line.run())) }
}

impl Line {
    fn run(&mut self) {
        while !self.orders.ended.load(SeqCst) {
            let mut bytes = [0; 1600];
            let mut idle = true;
            for end in 0..2 {
                if let Ok((size, from)) = self.ends[end].recv_from(&mut bytes) {
                    self.speakers[end] = Some(from);
                    self.take(end, &mut bytes[..size]);
                    idle = false;
                }
            }
            if idle {
                std::thread::sleep(Duration::from_micros(20));
            }
        }
    }

    fn hand_on(&self, end: usize, bytes: &[u8]) {
        if let Some(to) = self.speakers[end] {
            let _ = self.ends[end].send_to(bytes, to);
        }
    }

    fn take(&mut self, end: usize, bytes: &mut [u8]) {
        let down = self.orders.down.load(SeqCst);
        if end == 1 && down {
            return;
        }
        let arrival = if down { end } else { 1 - end };
        let is_lost = arrival == 0 && self.orders.mute.load(SeqCst);
        let slow = self.orders.slow.load(SeqCst);
        if end == 0 {
            pass(bytes);
            self.hand_on_kept();
        }
        if !is_lost && (slow == 0 || end == 1) {
            self.hand_on(arrival, bytes);
        }
        if self.orders.late.load(SeqCst) || (slow > 0 && end == 0) {
            self.kept.push((arrival, bytes.to_vec()));
        }
        if slow > 0 && end == 1 {
            std::thread::sleep(Duration::from_millis(slow.into()));
            self.hand_on_kept();
        }
    }

    fn hand_on_kept(&mut self) {
        for (at, kept) in std::mem::take(&mut self.kept) {
            self.hand_on(at, &kept);
        }
    }
}

/// A frame passes the slaves.
fn pass(bytes: &mut [u8]) {
    let (mut at, mut outputs) = (2, Vec::new());
    while at + 12 <= bytes.len() {
        let data = at + 10;
        let end = data + usize::from(u16::from_le_bytes([bytes[at + 6], bytes[at + 7]]) & 0x7FF);
        match bytes[at] {
            0 => return, // the number
            11 => outputs = bytes[data..end].to_vec(),
            10 => (data..end).for_each(|k| bytes[k] = outputs[k - data] ^ 0xA5),
            4 | 5 => {}
            _ => bytes[at + 2] += SLAVES as u8,
        }
        bytes[end] += SLAVES as u8;
        at = end + 2;
    }
}

/// Cycles with outputs of their own: how many were good, each with its own inputs.
fn cycles(net: &mut Net, count: usize, limit: Duration) -> (usize, Vec<End>) {
    let (mut image, mut waiting, mut ends) = ([0; 2 * SLAVES], [0; 2 * SLAVES], Vec::new());
    let mut items = [Item::new(Kind::Lwr, 0x10000, 0, 5, 5), Item::new(Kind::Lrd, 0x20000, 5, 5, 5)];
    let good = (0..count).filter(|k| {
        let outputs = [*k as u8, (*k >> 8) as u8, 3, 4, !*k as u8];
        image[..SLAVES].copy_from_slice(&outputs);
        let ran = net.cycle(&mut items, &mut image, &mut waiting, limit).expect("one frame");
        ends.push(ran.ended);
        let inputs = outputs.map(|byte| byte ^ 0xA5);
        assert!(ran.verdict != Verdict::Good || image[SLAVES..] == inputs, "cycle {k} has other inputs");
        ran.verdict == Verdict::Good
    });
    (good.count(), ends)
}

fn open(line: &Served) -> Net {
    Net::udp(&line.ports[0], Some(&line.ports[1])).expect("two ports")
}

/// So many of a hundred, where a machine may be busy.
fn most(count: usize, of: usize) {
    assert!(count * 100 >= of * 95, "{count} of {of}");
}

#[test]
fn a_whole_ring_is_good_and_told() {
    let line = serve();
    let mut net = open(&line);
    most(cycles(&mut net, 500, LIMIT).0, 500);
    let whole = (0..20).any(|_| net.locate(SLAVES, LIMIT).expect("a probe").cable == Cable::Whole);
    assert!(whole && net.copy(Side::A).expect("copy A").1 == Side::B);
}

#[test]
fn a_late_copy_is_never_taken() {
    let line = serve();
    line.orders.late.store(true, SeqCst);
    let mut net = open(&line);
    most(cycles(&mut net, 500, LIMIT).0, 500);
    assert!(net.counts(Side::B).passed_over >= 400, "{:?}", net.counts(Side::B));
}

#[test]
fn a_short_copy_ends_no_trip() {
    let line = serve();
    let mut net = open(&line);
    cycles(&mut net, 5, LIMIT);
    line.orders.slow.store(2, SeqCst);
    most(cycles(&mut net, 100, LIMIT).0, 100);
}

#[test]
fn a_port_where_nobody_listens_costs_no_cycle() {
    let line = serve();
    line.orders.down.store(true, SeqCst);
    let nobody = UdpSocket::bind("127.0.0.1:0").expect("a port");
    nobody.connect(nobody.local_addr().expect("its address")).expect("itself alone");
    let end = nobody.local_addr().expect("its address").to_string();
    let mut net = Net::udp(&line.ports[0], Some(&end)).expect("two ports");
    let (good, ends) = cycles(&mut net, 300, LIMIT);
    most(good, 300);
    most(ends.iter().filter(|end| **end == End::All).count(), 300);
    let counts = net.counts(Side::B);
    assert!(counts.failures >= 290 && counts.error == Some(111), "{counts:?}");
    assert_eq!(net.counts(Side::A).failures, 0);
}

#[test]
fn a_failing_send_costs_no_cycle() {
    let line = serve();
    line.orders.down.store(true, SeqCst);
    let mut net = open(&line);
    let port = net.descriptor(Side::B).expect("port B");
    // SAFETY: it is open as long as the ports are, and not closed here.
    let socket = ManuallyDrop::new(unsafe { TcpStream::from_raw_fd(port) });
    socket.shutdown(Shutdown::Write).expect("no sends any more");
    let (good, ends) = cycles(&mut net, 200, LIMIT);
    most(good, 200);
    most(ends.iter().filter(|end| **end == End::All).count(), 200);
    assert!(net.counts(Side::B).failures == 200 && net.counts(Side::B).error == Some(32));
}

#[test]
fn no_port_is_waited_for_before_the_other_one() {
    let line = serve();
    line.orders.mute.store(true, SeqCst);
    let mut net = open(&line);
    let begun = Instant::now();
    let (good, ends) = cycles(&mut net, 100, LIMIT);
    most(good, 100);
    most(ends.iter().filter(|end| **end == End::Enough).count(), 100);
    assert!(begun.elapsed() < 50 * LIMIT, "{:?}", begun.elapsed());
}

#[test]
fn a_silent_port_has_no_floor() {
    let line = serve();
    line.orders.down.store(true, SeqCst);
    let mut net = open(&line);
    let (good, ends) = cycles(&mut net, 150, LIMIT);
    most(good, 150);
    most(ends.iter().filter(|end| **end == End::Enough).count(), 150);
    assert!(net.counts(Side::B).silent == 150 && net.counts(Side::B).came == 0);
    assert!(net.copy(Side::A).is_some() && net.left() == Duration::ZERO && !FLOOR.is_zero());
}

#[test]
fn the_limit_is_kept() {
    let nobody = UdpSocket::bind("127.0.0.1:0").expect("a port"); // it hears, and says nothing
    let end = nobody.local_addr().expect("its address").to_string();
    let mut net = Net::udp(&end, None).expect("a port");
    let begun = Instant::now();
    let (good, ends) = cycles(&mut net, 5, Duration::from_millis(10));
    assert!(good == 0 && ends == [End::Time; 5] && begun.elapsed() >= Duration::from_millis(50));
}

#[test]
fn what_is_no_end_is_an_error() {
    for text in ["", "127.0.0.1", "127.0.0.1:70000", ":"] {
        assert!(Net::udp(text, None).is_err(), "{text}");
    }
    assert_eq!(Net::raw("no-such-link", None).expect_err("no interface").raw_os_error(), Some(19));
}

/// Runs a cycle by turns, with a pause between two of them; what it came to, and how many turns it took.
fn by_turns(net: &mut Net, image: &mut [u8; 2 * SLAVES], limit: Duration) -> (Verdict, u32, usize) {
    let mut waiting = [0; 2 * SLAVES];
    let mut items = [Item::new(Kind::Lwr, 0x10000, 0, 5, 5), Item::new(Kind::Lrd, 0x20000, 5, 5, 5)];
    let mut turns = net.begin_cycle(&mut items, image, &mut waiting, limit).expect("one frame");
    for count in 1.. {
        if let Some(ran) = turns.look(net).expect("a turn") {
            return (ran.verdict, ran.missing, count);
        }
        std::thread::sleep(Duration::from_micros(50));
    }
    unreachable!("a trip ends by its limit")
}

#[test]
fn a_cycle_by_turns_waits_for_nothing_and_is_as_one_that_waits() {
    let line = serve();
    let mut net = open(&line);
    cycles(&mut net, 5, LIMIT);
    let mut good = 0;
    for k in 0..200u8 {
        let outputs = [k, 1, 2, 3, !k];
        let mut image = [0; 2 * SLAVES];
        image[..SLAVES].copy_from_slice(&outputs);
        let (verdict, _missing, _turns) = by_turns(&mut net, &mut image, LIMIT);
        let inputs = outputs.map(|byte| byte ^ 0xA5);
        assert!(verdict != Verdict::Good || image[SLAVES..] == inputs, "cycle {k} has other inputs");
        good += usize::from(verdict == Verdict::Good);
    }
    most(good, 200);
}

#[test]
fn a_cycle_by_turns_ends_by_its_limit_where_nothing_comes() {
    let nobody = UdpSocket::bind("127.0.0.1:0").expect("a port that answers nothing");
    let end = nobody.local_addr().expect("its address").to_string();
    let mut net = Net::udp(&end, None).expect("one port");
    let (begun, mut image) = (Instant::now(), [7; 2 * SLAVES]);
    let (verdict, missing, turns) = by_turns(&mut net, &mut image, Duration::from_millis(30));
    assert!(verdict != Verdict::Good && missing == 1 && turns > 1, "{verdict:?} {missing} {turns}");
    assert!(begun.elapsed() >= Duration::from_millis(30) && image == [7; 2 * SLAVES]);
    assert_eq!(net.left(), Duration::ZERO);
}

#[test]
fn talks_travel_a_turn_at_a_time() {
    let line = serve();
    let mut net = open(&line);
    let slaves = [Records::default(); SLAVES];
    cycles(&mut net, 5, LIMIT);
    assert_eq!(net.al_state(0x1001, LIMIT), Err(Fault::BadAnswer)); // each slave counts
    let mut asked = Service::begin_state(net.form(), &slaves[0], AlState::Op, 64);
    assert_eq!(net.serve(&mut asked, LIMIT), Err(Fault::BadAnswer)); // each slave counts
    assert_eq!(net.serve(&mut asked, LIMIT), Err(Fault::NotUnderWay));
    let sent = net.counts(Side::A).sent;
    let mut nobody = Service::begin_read(net.form(), &slaves[0], 0x1018, 1, 0, 64);
    assert_eq!(net.serve(&mut nobody, LIMIT), Err(Fault::NoSlave)); // no mailboxes: nothing goes out
    assert_eq!(net.counts(Side::A).sent, sent);
    let mut start = Start::begin(net.form(), SLAVES as u16, None, Stage::Count, Stage::Op);
    assert!(!net.start(&mut start, &slaves, &[], LIMIT).expect("five slaves").is_done);
    assert_eq!((start.stage(), net.counts(Side::A).sent), ((Stage::Stations, 0), sent + 1));
    let wanted = NotStarted { stage: Stage::Stations, step: Some((0, Step::Station)), why: Fault::BadAnswer };
    assert_eq!(net.start(&mut start, &slaves, &[], LIMIT), Err(wanted));
    let wanted = NotStarted { step: None, why: Fault::NotUnderWay, ..wanted };
    assert_eq!(net.start(&mut start, &slaves, &[], LIMIT), Err(wanted));
}
