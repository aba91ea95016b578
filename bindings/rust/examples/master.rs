//! A master over UDP with a redundant ring: 1,000 cycles over a cable that breaks in between.
//!
//!     cargo run --offline --manifest-path bindings/rust/Cargo.toml --example master [PORT [WAIT]]
//!
//! It starts `ecat serve scenes/serve/bench.scene --control --set-up` (`./ecat`, or what ECAT names), a line of
//! five slaves in Op, breaks two of its links while it cycles and mends them, and prints each change: the
//! verdict, and where the cable is broken. With WAIT, the milliseconds for which a copy is awaited, it prints
//! each cycle, and its inputs. Run it at the top of the repository. The status is 0 where the line was short
//! for a while, and good at last.

use rummymaple::{frame, locate, open, seal, Cable, Cycle, Fault, Form, Item, Kind, State, Verdict};
use std::fs::File;
use std::io::{Read, Result, Write};
use std::net::UdpSocket;
use std::process::{Child, Command, Stdio};
use std::thread::sleep;
use std::time::{Duration, Instant, SystemTime};

const SLAVES: usize = 5;
const ROOM: usize = 1501;

/// The first trip of a run, for answers to another run may still come: drawn by chance, or where that cannot
/// be read the time.
fn first_trip() -> u64 {
    let mut drawn = [0; 8];
    match File::open("/dev/urandom").and_then(|mut chance| chance.read_exact(&mut drawn)) {
        Ok(()) => u64::from_le_bytes(drawn),
        Err(_) => SystemTime::UNIX_EPOCH.elapsed().map_or(0, |since| since.as_nanos() as u64),
    }
}

/// Sockets that are connected to both ends of the line, and the next trip.
struct Ports {
    sockets: [UdpSocket; 2],
    /// Trips count up, so that no number of their copies is used twice.
    trip: u64,
    /// How long a copy is awaited.
    wait: Duration,
}

/// What came at a port: the copy of a frame, opened, or none.
struct Arrived {
    bytes: [u8; ROOM],
    size: usize,
}

impl Arrived {
    fn copy(&self) -> &[u8] {
        &self.bytes[..self.size]
    }
}

impl Ports {
    fn connect(port: u16, wait: Duration) -> Result<Ports> {
        let to = |port| {
            let socket = UdpSocket::bind("127.0.0.1:0")?;
            socket.connect(("127.0.0.1", port))?;
            Ok::<_, std::io::Error>(socket)
        };
        Ok(Ports { sockets: [to(port)?, to(port + 1)?], trip: first_trip(), wait })
    }

    /// A frame goes out at both ports, each copy with its number, and this comes back. What is late is passed
    /// over, and each copy is taken once.
    fn travel(&mut self, sent: &[u8]) -> Result<[Arrived; 2]> {
        let begun = Instant::now();
        let numbers = [0, 1].map(|copy| self.trip.wrapping_mul(2) + copy);
        self.trip = self.trip.wrapping_add(1);
        let mut awaited = [true; 2];
        for (socket, number) in self.sockets.iter().zip(numbers) {
            let mut numbered = [0; ROOM];
            let size = seal(number, sent, &mut numbered).expect("a frame with a place for its number");
            let _ = socket.send(&numbered[..size]); // where it fails, the copy is lost
        }
        let mut arrived = [0, 1].map(|_| Arrived { bytes: [0; ROOM], size: 0 });
        for (socket, here) in self.sockets.iter().zip(&mut arrived) {
            let mut packet = [0; ROOM];
            while here.size == 0 && begun.elapsed() < 2 * self.wait {
                let rest = self.wait.saturating_sub(begun.elapsed()).max(Duration::from_millis(1));
                socket.set_read_timeout(Some(rest))?;
                let Ok(size) = socket.recv(&mut packet) else { break };
                for (number, awaited) in numbers.into_iter().zip(&mut awaited) {
                    if *awaited && here.size == 0 {
                        let opened = open(Form::Udp, number, sent, &packet[..size], &mut here.bytes);
                        here.size = opened.unwrap_or(0);
                        *awaited = here.size == 0;
                    }
                }
            }
        }
        Ok(arrived)
    }
}

/// One cycle as a state machine: its last verdict, or why nothing was joined.
fn cycle(
    ports: &mut Ports,
    items: &mut [Item],
    waiting: &mut [u8],
    image: &mut [u8],
) -> Result<std::result::Result<Verdict, Fault>> {
    let (mut sent, mut verdict) = ([0; ROOM], Verdict::Good);
    let mut cycle = Cycle::begin(Form::Udp);
    while cycle.state() == State::UnderWay {
        let made = match cycle.next_frame(items, image, &mut sent) {
            Ok(made) => made,
            Err(fault) => return Ok(Err(fault)),
        };
        let sent = &sent[..made.bytes];
        let [a, b] = ports.travel(sent)?;
        match cycle.came(items, sent, a.copy(), b.copy(), waiting, image) {
            Ok(turn) => verdict = turn.verdict,
            Err(fault) => return Ok(Err(fault)),
        }
    }
    Ok(Ok(verdict))
}

/// Where the cable is broken: by the copies of a broadcast read of AL status that is alone in its frame.
fn find_break(ports: &mut Ports) -> Result<std::result::Result<Cable, Fault>> {
    let mut sent = [0; ROOM];
    let probe = [Item::new(Kind::Brd, 0x0130, 0, 2, SLAVES as u16)];
    let made = match frame(&probe, &[0; 2], 0, &mut sent) {
        Ok(made) => made,
        Err(fault) => return Ok(Err(fault)),
    };
    let sent = &sent[..made.bytes];
    let [a, b] = ports.travel(sent)?;
    Ok(locate(Form::Udp, sent, a.copy(), b.copy(), SLAVES).map(|place| place.cable))
}

/// The line: its standard input takes commands.
fn serve(port: u16) -> Result<Child> {
    let program = std::env::var("ECAT").unwrap_or("./ecat".into());
    let scene = "scenes/serve/bench.scene";
    let words = ["serve", scene, "--control", "--set-up", "--port", &port.to_string()];
    Command::new(program).args(words).stdin(Stdio::piped()).stdout(Stdio::null()).spawn()
}

fn main() -> Result<()> {
    let word = |n| std::env::args().nth(n).and_then(|word| word.parse::<u16>().ok());
    let (port, wait) = (word(1).unwrap_or(34980), word(2));
    let mut line = serve(port)?;
    let mut commands = line.stdin.take().expect("a pipe");
    let mut ports = Ports::connect(port, Duration::from_millis(wait.unwrap_or(200).into()))?;
    let (count, inputs) = (SLAVES as u16, SLAVES as u32);
    let mut items = [
        Item::new(Kind::Lwr, 0x10000, 0, count, count),
        Item::new(Kind::Lrd, 0x20000, inputs, count, count),
    ];
    let (mut image, mut waiting) = ([0; 2 * SLAVES], [0; 2 * SLAVES]);
    let (mut before, mut short, begun) = (None, false, Instant::now());
    // Until one is good: the line is there, and has learnt who speaks at its ends.
    while cycle(&mut ports, &mut items, &mut waiting, &mut image)? != Ok(Verdict::Good)
        && begun.elapsed() < Duration::from_secs(10)
    {
        sleep(Duration::from_millis(20));
    }
    for k in 0..1000usize {
        if k % 200 == 0 && k > 0 {
            let command = ["link 2 down", "link 4 down", "link 4 up", "link 2 up"][k / 200 - 1];
            writeln!(commands, "{command}")?;
            commands.flush()?;
            sleep(Duration::from_millis(100));
        }
        image[..SLAVES].fill(k as u8);
        let verdict = cycle(&mut ports, &mut items, &mut waiting, &mut image)?;
        let told = (verdict, find_break(&mut ports)?);
        if wait.is_some() {
            let inputs: String = image[SLAVES..].iter().map(|byte| format!("{byte:02x}")).collect();
            println!("cycle {k}: {:?}, {:?}, inputs {inputs}", told.0, told.1);
        } else if before != Some(told) {
            println!("cycle {k}: {:?}, {:?}", told.0, told.1);
        }
        short |= matches!(told.0, Ok(Verdict::Short(_)));
        before = Some(told);
    }
    drop(commands);
    line.wait()?;
    std::process::exit(if short && before == Some((Ok(Verdict::Good), Ok(Cable::Whole))) { 0 } else { 1 })
}
