//! The proved core of an EtherCAT master, over plain data: `rummymaple.h` with Rust's types.
//!
//! What is proved is the library behind these calls; this crate turns its numbers into enums and its lengths
//! into slices, by hand. No call panics, takes memory or keeps anything.
//!
//! ```
//! use rummymaple::{frame, join, judge, locate, read, store};
//! use rummymaple::{Cable, Copies, Datagram, Fault, Form, Item, Kind, Verdict, Wrong};
//!
//! // One exchange of two bytes; a slave adds 3 to its counter.
//! let mut items = [Item::new(Kind::Lrw, 0x0001_0000, 0, 2, 3)];
//! let mut image = [0xAA, 0x55];
//! let (mut sent, mut joined) = ([0; 1500], [0; 1500]);
//! let made = frame(&items, &image, 0, &mut sent)?;
//! // Copy a comes back as the slave left it, copy b is lost.
//! let mut a = sent;
//! (a[12], a[13], a[14]) = (0x12, 0x34, 3);
//! let came = join(Form::Udp, &sent[..made.bytes], &a[..made.bytes], &[], &mut joined)?;
//! assert_eq!(came.copies, Copies::only_a());
//! assert_eq!(judge(&mut items, 0, &joined[..came.bytes])?, Verdict::Good);
//! store(&items, 0, &joined[..came.bytes], &mut image)?;
//! assert_eq!(image, [0x12, 0x34]);
//!
//! // Where the cable is broken, a broadcast read tells that came back at port A from one slave of three.
//! let states = [Item::new(Kind::Brd, 0x0130, 0, 2, 3)];
//! let probe = frame(&states, &image, 0, &mut sent)?;
//! let mut a = sent;
//! (a[4], a[14]) = (1, 1);
//! let told = locate(Form::Udp, &sent[..probe.bytes], &a[..probe.bytes], &[], 3)?;
//! assert_eq!(told.cable, Cable::First(1));
//!
//! // Whatever else came can be read by itself.
//! let mut found = [Datagram::default(); 124];
//! assert_eq!(read(Form::Udp, &a[..probe.bytes], &mut found)?, 1);
//! assert_eq!((found[0].data, found[0].length, found[0].counter), (12, 2, 1));
//! assert_eq!(read(Form::Udp, &a[..9], &mut found), Err(Fault::NoFrame(Wrong::Short, 9)));
//! # Ok::<(), rummymaple::Fault>(())
//! ```
//!
//! The feature `net` adds the module of that name: what travels. It is for Linux, takes `std`, and no prover
//! has looked at it.
#![no_std]

#[cfg(feature = "net")]
extern crate std;

mod mapping;
#[cfg(feature = "net")]
pub mod net;
mod numbers;
mod records;
mod talks;

pub use mapping::{check, check_item, covered, expected, shown};
pub use mapping::{Gap, NotShown, Outside, Party, Records, Unfit, WhyNotShown};
pub use numbers::{open, seal, single, NUMBER_LENGTH};
pub use records::{at, nth, FmmuRecord, NoRecord, SyncManagerRecord, Way};
pub use talks::{frame_of_look, look, NotStarted, Seen, Stage, Start, Started, Step};
pub use talks::{AlState, Object, Served, Service, Startup, Told, Value, MAX_STARTUP};

/// What an item does, by the standard's codes (IEC 61158-4-12).
#[derive(Clone, Copy, PartialEq, Eq, Debug)]
#[repr(u16)]
pub enum Kind {
    /// Reads the slave with a station address.
    Fprd = 4,
    /// Writes it.
    Fpwr = 5,
    /// Reads a register of all slaves; its data come back or-ed, with those that were sent too, and `store`
    /// puts them where they are sent from: **zero them in the image before each frame**, or bits that all
    /// slaves have cleared stay set.
    Brd = 7,
    /// Reads what FMMUs map to logical addresses.
    Lrd = 10,
    /// Writes it.
    Lwr = 11,
    /// Does both.
    Lrw = 12,
}

/// How packets are framed.
#[derive(Clone, Copy, PartialEq, Eq, Debug)]
#[repr(u32)]
pub enum Form {
    /// An Ethernet payload: bytes behind the frame are padding.
    Ethernet = 0,
    /// A UDP payload: it ends with the frame.
    Udp = 1,
}

/// One thing that is asked in each cycle.
#[derive(Clone, Copy, PartialEq, Eq, Debug)]
#[repr(C)]
pub struct Item {
    address: u32,
    offset: u32,
    length: u16,
    kind: u16,
    /// By how much its working counter has to move. **One that is to move by 0 is good where nothing came.**
    pub expected: u16,
    /// The working counter with which it goes out: 0 with numbers. Without them 2,048 times the number of the
    /// cycle, modulo 65,536, so that a copy up to fifteen cycles late shows.
    pub sent: u16,
    /// The working counter with which it came back; it has moved by `came.wrapping_sub(sent)`.
    pub came: u16,
    /// How many slaves a broadcast read passed; of other kinds 0.
    pub passed: u16,
}

impl Item {
    /// An item of this kind and address, with its data at `offset` in the process image.
    pub const fn new(kind: Kind, address: u32, offset: u32, length: u16, expected: u16) -> Item {
        let kind = kind as u16;
        Item { address, offset, length, kind, expected, sent: 0, came: 0, passed: 0 }
    }
}

/// What the working counters say.
#[derive(Clone, Copy, PartialEq, Eq, Debug)]
pub enum Verdict {
    /// Each has moved by what is expected.
    Good,
    /// The counter of this item has moved by less.
    Short(usize),
    /// It has moved by more.
    Over(usize),
}

/// What came back of one copy of a frame.
#[derive(Clone, Copy, PartialEq, Eq, Debug)]
pub enum Came {
    /// Nothing.
    Lost,
    /// A frame.
    Frame,
    /// Bytes that are no frame; the copy counts as lost.
    NoFrame,
}

/// What came back of both copies.
#[derive(Clone, Copy, PartialEq, Eq, Debug)]
pub struct Copies {
    /// Of copy a.
    pub a: Came,
    /// Of copy b.
    pub b: Came,
}

impl Copies {
    /// Copy a came back, and nothing of copy b.
    pub const fn only_a() -> Copies {
        Copies { a: Came::Frame, b: Came::Lost }
    }
}

/// A frame that was made.
#[derive(Clone, Copy, PartialEq, Eq, Debug)]
pub struct Made {
    /// How many bytes it has.
    pub bytes: usize,
    /// How many items it carries.
    pub items: usize,
}

/// A frame that was joined.
#[derive(Clone, Copy, PartialEq, Eq, Debug)]
pub struct Joined {
    /// How many bytes it has.
    pub bytes: usize,
    /// What came back of its copies.
    pub copies: Copies,
}

/// What is known of the links of a line, which are numbered from 0, before the first slave, to the number of
/// slaves, behind the last one.
#[derive(Clone, Copy, PartialEq, Eq, Debug)]
pub enum Cable {
    /// Nothing.
    Unknown,
    /// All links are up.
    Whole,
    /// This link is down, and no other: each slave is reached.
    One(usize),
    /// Both links are down, and none before or behind them: the slaves between them are cut off.
    Between(usize, usize),
    /// This link is down, and none before it; of those behind it nothing is known.
    First(usize),
    /// This link is down, and none behind it; of those before it nothing is known.
    Last(usize),
    /// No one set of links gives these packets: links changed meanwhile, a packet is late, or the line has
    /// another number of slaves.
    Changed,
}

/// Where the cable is broken.
#[derive(Clone, Copy, PartialEq, Eq, Debug)]
pub struct Located {
    /// What is known of the links.
    pub cable: Cable,
    /// What came at port A and at port B.
    pub copies: Copies,
}

/// A datagram of a frame that was read.
#[derive(Clone, Copy, PartialEq, Eq, Debug, Default)]
#[repr(C)]
pub struct Datagram {
    /// Where its data begin in the frame.
    pub data: usize,
    /// How many data bytes it has.
    pub length: usize,
    /// The logical address, or ADP plus 65,536 times ADO.
    pub address: u32,
    /// The working counter.
    pub counter: u16,
    /// The slaves' event requests, or-ed.
    pub irq: u16,
    /// The command by the standard's code, 0 to 14.
    pub command: u8,
    /// The master's number for it.
    pub index: u8,
    /// 1 where the frame turned round at a slave's closed port 0, else 0.
    pub circulating: u8,
}

/// How far a cycle, a service or a start-up is.
#[derive(Clone, Copy, PartialEq, Eq, Debug)]
pub enum State {
    /// Items are left, or another frame goes out.
    UnderWay,
    /// Each frame was good, and the image has their data; or what was asked is done.
    Done,
    /// A verdict ended it, and the image is as it was; or why it is not done was told.
    Ended,
}

/// A cycle as a state machine, for masters that want no loop of their own.
///
/// ```
/// use rummymaple::{Cycle, Form, Item, Kind, State, Verdict};
///
/// let mut items = [Item::new(Kind::Lrd, 0x0001_0000, 0, 2, 1)];
/// let (mut image, mut waiting, mut sent) = ([0; 2], [0; 2], [0; 1500]);
/// let mut cycle = Cycle::begin(Form::Udp);
/// while cycle.state() == State::UnderWay {
///     let made = cycle.next_frame(&items, &image, &mut sent)?;
///     // .. the frame goes out both ways, and copy b is lost ..
///     let mut a = sent;
///     (a[12], a[14]) = (0x12, 1);
///     let (sent, a) = (&sent[..made.bytes], &a[..made.bytes]);
///     let turn = cycle.came(&mut items, sent, a, &[], &mut waiting, &mut image)?;
///     assert_eq!(turn.verdict, Verdict::Good);
/// }
/// assert_eq!((cycle.state(), image), (State::Done, [0x12, 0]));
/// # Ok::<(), rummymaple::Fault>(())
/// ```
#[derive(Clone, Copy, PartialEq, Eq, Debug)]
#[repr(C)]
pub struct Cycle {
    first: usize,
    form: u32,
    state: u32,
}

/// What became of a frame of a cycle.
#[derive(Clone, Copy, PartialEq, Eq, Debug)]
pub struct Turn {
    /// What the working counters say; any but good has ended the cycle.
    pub verdict: Verdict,
    /// What came back of both copies.
    pub copies: Copies,
}

impl Cycle {
    /// A cycle whose packets are framed so.
    pub fn begin(form: Form) -> Cycle {
        // SAFETY: it takes a number.
        unsafe { rmp_cycle_begin(form as u32) }
    }

    /// How far it is.
    pub fn state(&self) -> State {
        match self.state {
            0 => State::UnderWay,
            1 => State::Done,
            _ => State::Ended,
        }
    }

    /// The first item that has no good answer yet.
    pub fn first(&self) -> usize {
        self.first
    }

    /// Puts the next frame at the front of `room`: again the last one, where that has no good answer yet.
    pub fn next_frame(&self, items: &[Item], image: &[u8], room: &mut [u8]) -> Result<Made, Fault> {
        // SAFETY: each pointer is that of a slice of that length; what is written is borrowed alone.
        let made = unsafe {
            let (n, size, room_size) = (items.len(), image.len(), room.len());
            rmp_cycle_next(self, items.as_ptr(), n, image.as_ptr(), size, room.as_mut_ptr(), room_size)
        };
        match made.code {
            0 => Ok(Made { bytes: made.bytes, items: made.items }),
            code => Err(fault(code, made.at)),
        }
    }

    /// Takes the packets that came back of the frame that was made last. The data wait in `waiting`, which is
    /// as large as the image and the same in each call of a cycle, until each frame is good.
    pub fn came(
        &mut self,
        items: &mut [Item],
        sent: &[u8],
        a: &[u8],
        b: &[u8],
        waiting: &mut [u8],
        image: &mut [u8],
    ) -> Result<Turn, Fault> {
        // SAFETY: each pointer is that of a slice of that length; what is written is borrowed alone.
        let told = unsafe {
            rmp_cycle_came(
                self,
                items.as_mut_ptr(),
                items.len(),
                sent.as_ptr(),
                sent.len(),
                a.as_ptr(),
                a.len(),
                b.as_ptr(),
                b.len(),
                waiting.as_mut_ptr(),
                waiting.len(),
                image.as_mut_ptr(),
                image.len(),
            )
        };
        let verdict = match told.code {
            0 => Verdict::Good,
            1 => Verdict::Short(told.at),
            2 => Verdict::Over(told.at),
            code => return Err(fault(code, told.at)),
        };
        Ok(Turn { verdict, copies: Copies { a: came(told.copy_a), b: came(told.copy_b) } })
    }
}

/// What is wrong with bytes that are no frame.
#[derive(Clone, Copy, PartialEq, Eq, Debug)]
pub enum Wrong {
    /// The bytes end before the frame does.
    Short,
    /// The header's type is not 1.
    BadType,
    /// A reserved bit is set.
    Reserved,
    /// The header states no datagrams.
    Empty,
    /// The header states more than 1,498 bytes of datagrams.
    TooLong,
    /// A command above 14.
    BadCommand,
    /// A datagram's data reach past the end of the frame.
    Overrun,
    /// The last datagram says that more follow.
    MoreAtEnd,
    /// Bytes are left behind the last datagram, or too few for one more.
    LeftOver,
    /// Bytes follow the frame in a UDP packet.
    Trailing,
}

/// Why a call did nothing.
#[derive(Clone, Copy, PartialEq, Eq, Debug)]
pub enum Fault {
    /// Packet a is not of the sent frame: this datagram differs first.
    StrangerA(usize),
    /// Packet b is not of the sent frame.
    StrangerB(usize),
    /// The frame does not fit the room for it, or the room where data wait is not as large as the image.
    NoRoom,
    /// What is said to be sent is no frame: this byte is the first at fault.
    NotSent(usize),
    /// What is said to be joined is no frame.
    NotJoined(usize),
    /// This datagram is not the answer of its item.
    OtherItem(usize),
    /// The bytes are no frame: what is wrong first, and at which byte.
    NoFrame(Wrong, usize),
    /// There are more than 256 items.
    TooMany,
    /// There is no item with the number at which the frame is to begin.
    NoItem,
    /// This item has no data, or more than 1,486 bytes.
    BadLength(usize),
    /// This item reaches past the addresses of its kind.
    BadRange(usize),
    /// The data of this item do not lie in the image.
    BadPlace(usize),
    /// The cycle, service or start-up is done or ended.
    NotUnderWay,
    /// The frame has no place for a number: fewer than 20 free bytes.
    Full,
    /// The packet has the number, but is no copy of the frame: this datagram is the first that differs by
    /// command, index, length or address.
    OtherFrame(usize),
    /// The packet is a frame, and has another number, or none: it is late, or not of this master.
    OtherNumber,
    /// The frame that is said to be sent does not begin with a broadcast read that goes out.
    NotBroadcast,
    /// There is no such command: its code is above 14.
    BadCommand,
    /// No slave answered, each of ten times in a row (of a step of a start-up: of twenty times; of a look:
    /// once), or the slave has no mailboxes.
    NoSlave,
    /// As many trips as were allowed brought no answer; of a look: no copy came.
    NoAnswer,
    /// The answer is none to what was asked, or more than one slave answered.
    BadAnswer,
    /// The slave has an error behind a request for a state, with this AL status code.
    Refused(u16),
    /// The slave ended the transfer, with this abort code.
    Aborted(u32),
    /// A packet is a frame, but not of the one that was made.
    Stranger,
    /// The numbers are those of no service or start-up, or there are not records of each slave.
    BadNumbers,
    /// Another number of slaves was counted, each of ten times; the last was this.
    OtherCount(u16),
    /// A number that the library of this crate does not have: another library was linked.
    Unknown(u32),
}

#[repr(C)]
struct Framed {
    bytes: usize,
    items: usize,
    at: usize,
    code: u32,
}

#[repr(C)]
struct JoinAnswer {
    bytes: usize,
    at: usize,
    code: u32,
    copy_a: u32,
    copy_b: u32,
}

#[repr(C)]
struct TurnAnswer {
    at: usize,
    code: u32,
    copy_a: u32,
    copy_b: u32,
}

#[repr(C)]
struct CableAnswer {
    first: usize,
    last: usize,
    at: usize,
    code: u32,
    cable: u32,
    copy_a: u32,
    copy_b: u32,
}

#[repr(C)]
struct Reading {
    count: usize,
    at: usize,
    code: u32,
}

#[repr(C)]
struct Answer {
    at: usize,
    code: u32,
}

extern "C" {
    fn rmp_frame(
        items: *const Item,
        n: usize,
        image: *const u8,
        image_size: usize,
        first: usize,
        room: *mut u8,
        room_size: usize,
    ) -> Framed;
    fn rmp_join(
        form: u32,
        sent: *const u8,
        sent_size: usize,
        a: *const u8,
        a_size: usize,
        b: *const u8,
        b_size: usize,
        room: *mut u8,
        room_size: usize,
    ) -> JoinAnswer;
    fn rmp_cycle_begin(form: u32) -> Cycle;
    fn rmp_cycle_next(
        cycle: *const Cycle,
        items: *const Item,
        n: usize,
        image: *const u8,
        image_size: usize,
        room: *mut u8,
        room_size: usize,
    ) -> Framed;
    fn rmp_cycle_came(
        cycle: *mut Cycle,
        items: *mut Item,
        n: usize,
        sent: *const u8,
        sent_size: usize,
        a: *const u8,
        a_size: usize,
        b: *const u8,
        b_size: usize,
        waiting: *mut u8,
        waiting_size: usize,
        image: *mut u8,
        image_size: usize,
    ) -> TurnAnswer;
    fn rmp_where(
        form: u32,
        sent: *const u8,
        sent_size: usize,
        a: *const u8,
        a_size: usize,
        b: *const u8,
        b_size: usize,
        slaves: usize,
    ) -> CableAnswer;
    fn rmp_read(
        form: u32,
        bytes: *const u8,
        size: usize,
        room: *mut Datagram,
        room_count: usize,
    ) -> Reading;
    fn rmp_judge(items: *mut Item, n: usize, first: usize, joined: *const u8, joined_size: usize)
        -> Answer;
    fn rmp_store(
        items: *const Item,
        n: usize,
        first: usize,
        joined: *const u8,
        joined_size: usize,
        image: *mut u8,
        image_size: usize,
    ) -> Answer;
}

/// What a code of a fault means, with its place, or the number that it tells.
fn fault(code: u32, at: usize) -> Fault {
    match code {
        3 => Fault::StrangerA(at),
        4 => Fault::StrangerB(at),
        5 => Fault::NoRoom,
        7 => Fault::NotSent(at),
        8 => Fault::NotJoined(at),
        9 => Fault::OtherItem(at),
        10 => Fault::TooMany,
        11 => Fault::NoItem,
        13 => Fault::BadLength(at),
        14 => Fault::BadRange(at),
        15 => Fault::BadPlace(at),
        16 => Fault::NoFrame(Wrong::Short, at),
        17 => Fault::NoFrame(Wrong::BadType, at),
        18 => Fault::NoFrame(Wrong::Reserved, at),
        19 => Fault::NoFrame(Wrong::Empty, at),
        20 => Fault::NoFrame(Wrong::TooLong, at),
        21 => Fault::NoFrame(Wrong::BadCommand, at),
        22 => Fault::NoFrame(Wrong::Overrun, at),
        23 => Fault::NoFrame(Wrong::MoreAtEnd, at),
        24 => Fault::NoFrame(Wrong::LeftOver, at),
        25 => Fault::NoFrame(Wrong::Trailing, at),
        26 => Fault::NotUnderWay,
        30 => Fault::Full,
        31 => Fault::OtherFrame(at),
        32 => Fault::OtherNumber,
        33 => Fault::NotBroadcast,
        34 => Fault::BadCommand,
        38 => Fault::NoSlave,
        39 => Fault::NoAnswer,
        40 => Fault::BadAnswer,
        41 => Fault::Refused(at as u16),
        42 => Fault::Aborted(at as u32),
        43 => Fault::Stranger,
        44 => Fault::BadNumbers,
        45 => Fault::OtherCount(at as u16),
        _ => Fault::Unknown(code),
    }
}

fn came(number: u32) -> Came {
    match number {
        0 => Came::Lost,
        1 => Came::Frame,
        _ => Came::NoFrame,
    }
}

/// Puts the frame that begins with item `first` at the front of `room`.
pub fn frame(items: &[Item], image: &[u8], first: usize, room: &mut [u8]) -> Result<Made, Fault> {
    // SAFETY: each pointer is that of a slice of that length, and the one that is written is borrowed alone.
    let made = unsafe {
        let (image_size, room_size) = (image.len(), room.len());
        rmp_frame(
            items.as_ptr(),
            items.len(),
            image.as_ptr(),
            image_size,
            first,
            room.as_mut_ptr(),
            room_size,
        )
    };
    match made.code {
        0 => Ok(Made { bytes: made.bytes, items: made.items }),
        code => Err(fault(code, made.at)),
    }
}

/// Joins the packets that came back of the frame `sent`; a packet of length 0 is a lost copy.
pub fn join(form: Form, sent: &[u8], a: &[u8], b: &[u8], room: &mut [u8]) -> Result<Joined, Fault> {
    // SAFETY: each pointer is that of a slice of that length, and the one that is written is borrowed alone.
    let joined = unsafe {
        rmp_join(
            form as u32,
            sent.as_ptr(),
            sent.len(),
            a.as_ptr(),
            a.len(),
            b.as_ptr(),
            b.len(),
            room.as_mut_ptr(),
            room.len(),
        )
    };
    match joined.code {
        0 => {
            let copies = Copies { a: came(joined.copy_a), b: came(joined.copy_b) };
            Ok(Joined { bytes: joined.bytes, copies })
        }
        code => Err(fault(code, joined.at)),
    }
}

/// Judges a joined frame, whose datagrams answer the items from `first` on, and writes what came back into
/// them.
pub fn judge(items: &mut [Item], first: usize, joined: &[u8]) -> Result<Verdict, Fault> {
    // SAFETY: each pointer is that of a slice of that length, and the one that is written is borrowed alone.
    let told = unsafe { rmp_judge(items.as_mut_ptr(), items.len(), first, joined.as_ptr(), joined.len()) };
    match told.code {
        0 => Ok(Verdict::Good),
        1 => Ok(Verdict::Short(told.at)),
        2 => Ok(Verdict::Over(told.at)),
        code => Err(fault(code, told.at)),
    }
}

/// Puts the data of a joined frame into the image, of each item that reads.
pub fn store(items: &[Item], first: usize, joined: &[u8], image: &mut [u8]) -> Result<(), Fault> {
    // SAFETY: each pointer is that of a slice of that length, and the one that is written is borrowed alone.
    let told = unsafe {
        let (joined_size, image_size) = (joined.len(), image.len());
        rmp_store(
            items.as_ptr(),
            items.len(),
            first,
            joined.as_ptr(),
            joined_size,
            image.as_mut_ptr(),
            image_size,
        )
    };
    match told.code {
        0 => Ok(()),
        code => Err(fault(code, told.at)),
    }
}

/// Says where the cable of a line of so many slaves is broken, by the packets that port A and port B received
/// of a frame that went out at both, each of length 0 where nothing came. The frame's first datagram is a
/// broadcast read, else it is a fault; what is told is so where it is the only one (docs/LIBRARY.md).
pub fn locate(form: Form, sent: &[u8], a: &[u8], b: &[u8], slaves: usize) -> Result<Located, Fault> {
    // SAFETY: each pointer is that of a slice of that length.
    let told = unsafe {
        let (sent, sent_size) = (sent.as_ptr(), sent.len());
        rmp_where(form as u32, sent, sent_size, a.as_ptr(), a.len(), b.as_ptr(), b.len(), slaves)
    };
    let cable = match (told.code, told.cable) {
        (0, 0) => Cable::Unknown,
        (0, 1) => Cable::Whole,
        (0, 2) => Cable::One(told.first),
        (0, 3) => Cable::Between(told.first, told.last),
        (0, 4) => Cable::First(told.first),
        (0, 5) => Cable::Last(told.last),
        (0, 6) => Cable::Changed,
        (0, kind) => return Err(Fault::Unknown(kind)),
        (code, _) => return Err(fault(code, told.at)),
    };
    Ok(Located { cable, copies: Copies { a: came(told.copy_a), b: came(told.copy_b) } })
}

/// Reads the bytes of a frame: puts its datagrams at the front of `room`, and answers how many they are. Room
/// for 124 suffices for each frame.
pub fn read(form: Form, bytes: &[u8], room: &mut [Datagram]) -> Result<usize, Fault> {
    // SAFETY: each pointer is that of a slice of that length, and the one that is written is borrowed alone.
    let told = unsafe {
        let (size, count) = (bytes.len(), room.len());
        rmp_read(form as u32, bytes.as_ptr(), size, room.as_mut_ptr(), count)
    };
    match told.code {
        0 => Ok(told.count),
        code => Err(fault(code, told.at)),
    }
}

const _: () = assert!(core::mem::size_of::<Item>() == 20);
const _: () = assert!(core::mem::size_of::<Datagram>() == 32);
const _: () = assert!(core::mem::size_of::<Cycle>() == 16);
const _: () = assert!(core::mem::size_of::<TurnAnswer>() == 24);
const _: () = assert!(core::mem::size_of::<CableAnswer>() == 40);
const _: () = assert!(core::mem::size_of::<Reading>() == 24);
const _: () = assert!(core::mem::size_of::<Framed>() == 32);
const _: () = assert!(core::mem::size_of::<JoinAnswer>() == 32);
const _: () = assert!(core::mem::size_of::<Answer>() == 16);
