//! Cycles of a millisecond over a redundant line of five slaves, until Ctrl-C:
//!
//!     ./ecat serve scenes/serve/bench.scene --control --set-up
//!     cargo run --offline --manifest-path bindings/rust/Cargo.toml --features net --example cycle
//!
//! Its words are the line's ends, else 127.0.0.1:34980 and 34981. It prints what is known of the cable, which
//! `link 2 down` and `link 2 up`, told to `serve`, break and mend. What is not here: a start-up (`--set-up`).

use rummymaple::net::{pause_until, Net};
use rummymaple::{Item, Kind, Verdict};
use std::sync::atomic::{AtomicBool, Ordering};
use std::time::{Duration, Instant};

const SLAVES: usize = 5;
const PERIOD: Duration = Duration::from_millis(1);

static ENDED: AtomicBool = AtomicBool::new(false);

extern "C" fn end(_signal: i32) {
    ENDED.store(true, Ordering::Relaxed);
}

extern "C" {
    fn signal(number: i32, handler: extern "C" fn(i32)) -> usize;
}

fn main() -> std::io::Result<()> {
    for number in [2, 15] {
        // SAFETY: SIGINT and SIGTERM; the handler sets a flag alone.
        unsafe { signal(number, end) };
    }
    let word = |n, other: &str| std::env::args().nth(n).unwrap_or(other.into());
    let mut net = Net::udp(&word(1, "127.0.0.1:34980"), Some(&word(2, "127.0.0.1:34981")))?;
    let (count, inputs) = (SLAVES as u16, SLAVES as u32);
    let mut items = [
        Item::new(Kind::Lwr, 0x10000, 0, count, count),
        Item::new(Kind::Lrd, 0x20000, inputs, count, count),
    ];
    let (mut image, mut waiting) = ([0; 2 * SLAVES], [0; 2 * SLAVES]); // outputs, and inputs behind them
    let (mut good, mut short, mut over, mut next) = (0, 0, 0, Instant::now());
    let (mut seen, mut before) = (None, None);
    while !ENDED.load(Ordering::Relaxed) {
        image[..SLAVES].fill((good + short) as u8); // the outputs of this cycle
        let ran = net.cycle(&mut items, &mut image, &mut waiting, PERIOD / 2).expect("items of one frame");
        *match ran.verdict {
            Verdict::Good => &mut good, // image[SLAVES..] are the inputs of this cycle
            Verdict::Short(_) => &mut short,
            Verdict::Over(_) => &mut over,
        } += 1;
        let cable = net.locate(SLAVES, PERIOD * 3 / 10).expect("a broadcast read").cable;
        if seen.replace(cable) == Some(cable) && before.replace(cable) != seen {
            println!("cycle {}: {:?}, cable: {cable:?}", good + short + over, ran.verdict);
        } // two looks say so: no packet was lost
        next = Instant::now().max(next + PERIOD);
        pause_until(next);
    }
    println!("good {good}, short {short}, over {over}");
    Ok(())
}
