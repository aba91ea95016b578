//! Before the first cycle: is the line mapped as a cycle needs it, and do the items fit it?

use crate::{fault, Answer, Fault, Item};

/// What a slave is mapped by: its registers as a master writes them or reads them back (IEC 61158-4-12).
#[derive(Clone, Copy, PartialEq, Eq, Debug, Default)]
#[repr(C)]
pub struct Records {
    /// The station address, which the slave has at 0x0010.
    pub station: u16,
    /// Its FMMU records, which it has from 0x0600 on.
    pub fmmus: [[u8; 16]; 8],
    /// Its sync manager records, which it has from 0x0800 on.
    pub sync_managers: [[u8; 8]; 8],
}

/// A slave's FMMU or sync manager, both numbered from 0.
#[derive(Clone, Copy, PartialEq, Eq, Debug)]
pub struct Party {
    /// The slave.
    pub slave: usize,
    /// Its FMMU or sync manager.
    pub number: usize,
}

/// Why a line is not mapped as a cycle needs it: the first rule that is broken, and the lowest address, or
/// bit (8 * byte + bit), at which it is.
#[derive(Clone, Copy, PartialEq, Eq, Debug)]
pub enum Unfit {
    /// These two slaves have one station address.
    TwinStation(usize, usize),
    /// This FMMU does not read or write, does both, or maps bits that are not there.
    BadFmmu(Party),
    /// Two areas of a slave share the byte at this address.
    AreasMeet(Party, Party, u16),
    /// This FMMU is at this address outside of each buffered area of its direction.
    OutsideArea(Party, u16),
    /// Two FMMUs of a slave write this bit of its memory.
    TwiceWritten(Party, Party, u64),
    /// Two FMMUs of the line read this logical bit.
    TwiceRead(Party, Party, u64),
    /// This logical bit is read from the first party's slave and written to the other's.
    ReadAndWritten(Party, Party, u64),
    /// There are so many slaves, which are more than 256.
    LongLine(usize),
    /// A rule that the library of this crate does not have: another library was linked.
    Unknown(u32),
}

/// Where an item may not go.
#[derive(Clone, Copy, PartialEq, Eq, Debug)]
pub enum Outside {
    /// It reads neither registers nor one buffered area that the master reads, at this slave.
    Read(usize),
    /// It does not write one buffered area that the master writes, at this slave.
    Write(usize),
    /// There is no such item.
    NoItem(Fault),
}

/// A logical bit that an FMMU maps and that no item asks for.
#[derive(Clone, Copy, PartialEq, Eq, Debug)]
pub struct Gap {
    /// The FMMU.
    pub fmmu: Party,
    /// Does the master write through it, or read?
    pub writes: bool,
    /// The logical bit, 8 * byte + bit.
    pub bit: u64,
}

/// Why the application of a slave is not shown what the items write.
#[derive(Clone, Copy, PartialEq, Eq, Debug)]
pub enum WhyNotShown {
    /// This item writes a byte of the area and not its last one.
    LeftBy(usize),
    /// No item writes the last byte of the area.
    NeverCompleted,
}

/// An area of outputs that FMMUs map and that the items do not hand to its application.
#[derive(Clone, Copy, PartialEq, Eq, Debug)]
pub struct NotShown {
    /// The sync manager of the area.
    pub sync_manager: Party,
    /// Why its application is not shown it.
    pub why: WhyNotShown,
}

#[repr(C)]
struct Mapping {
    slave: usize,
    number: usize,
    other_slave: usize,
    other_number: usize,
    place: u64,
    rule: u32,
}

#[repr(C)]
struct Expectation {
    counter: u32,
    code: u32,
}

#[repr(C)]
struct GapAnswer {
    at: usize,
    fmmu: usize,
    bit: u64,
    way: u32,
    code: u32,
}

#[repr(C)]
struct ShownAnswer {
    at: usize,
    sync_manager: usize,
    item: usize,
    code: u32,
}

extern "C" {
    fn rmp_check(line: *const Records, slaves: usize) -> Mapping;
    fn rmp_check_item(line: *const Records, slaves: usize, item: *const Item) -> Answer;
    fn rmp_expected(line: *const Records, slaves: usize, item: *const Item) -> Expectation;
    fn rmp_covered(line: *const Records, slaves: usize, items: *const Item, n: usize) -> GapAnswer;
    fn rmp_shown(line: *const Records, slaves: usize, items: *const Item, n: usize) -> ShownAnswer;
}

/// Is the line mapped as a cycle needs it? If not, the first fault: that of the first rule that is broken, of
/// the smallest numbers from left to right, and of the lowest address or bit.
///
/// ```
/// use rummymaple::{check, covered, expected, shown, Gap, Item, Kind, NotShown, Party, Records, Unfit};
/// use rummymaple::WhyNotShown;
///
/// // A slave with one byte of outputs at 0x1000, written from the logical byte 0x00010000.
/// let mut slave = Records { station: 0x1001, ..Records::default() };
/// slave.sync_managers[2] = [0x00, 0x10, 1, 0, 0x04, 0, 1, 0];
/// slave.fmmus[0] = [0, 0, 1, 0, 1, 0, 0, 7, 0x00, 0x10, 0, 2, 1, 0, 0, 0];
/// assert_eq!(check(&[slave]), Ok(()));
/// let write = Item::new(Kind::Lwr, 0x0001_0000, 0, 1, 1);
/// assert_eq!(expected(&[slave], &write), Ok(1));
/// assert_eq!(covered(&[slave], &[write]), Ok(None));
/// assert_eq!(shown(&[slave], &[write]), Ok(None));
/// let read = Item::new(Kind::Lrd, 0x0001_0000, 0, 1, 0);
/// let fmmu = Party { slave: 0, number: 0 };
/// assert_eq!(covered(&[slave], &[read]), Ok(Some(Gap { fmmu, writes: true, bit: 524288 })));
/// assert_eq!(check(&[slave, slave]), Err(Unfit::TwinStation(0, 1)));
///
/// // With two bytes of outputs, of which the second one is not written, its application is shown neither.
/// slave.sync_managers[2][2] = 2;
/// let sync_manager = Party { slave: 0, number: 2 };
/// let why = WhyNotShown::LeftBy(0);
/// assert_eq!(shown(&[slave], &[write]), Ok(Some(NotShown { sync_manager, why })));
/// let why = WhyNotShown::NeverCompleted;
/// assert_eq!(shown(&[slave], &[read]), Ok(Some(NotShown { sync_manager, why })));
/// ```
pub fn check(line: &[Records]) -> Result<(), Unfit> {
    // SAFETY: the pointer is that of a slice of that length.
    let found = unsafe { rmp_check(line.as_ptr(), line.len()) };
    let first = Party { slave: found.slave, number: found.number };
    let other = Party { slave: found.other_slave, number: found.other_number };
    match found.rule {
        0 => Ok(()),
        1 => Err(Unfit::TwinStation(first.slave, other.slave)),
        2 => Err(Unfit::BadFmmu(first)),
        3 => Err(Unfit::AreasMeet(first, other, found.place as u16)),
        4 => Err(Unfit::OutsideArea(first, found.place as u16)),
        5 => Err(Unfit::TwiceWritten(first, other, found.place)),
        6 => Err(Unfit::TwiceRead(first, other, found.place)),
        7 => Err(Unfit::ReadAndWritten(first, other, found.place)),
        8 => Err(Unfit::LongLine(found.place as usize)),
        rule => Err(Unfit::Unknown(rule)),
    }
}

/// Does the item go where a cycle may: a read of one slave into registers or into one buffered area that the
/// master reads, a write into one that it writes? All other items do.
pub fn check_item(line: &[Records], item: &Item) -> Result<(), Outside> {
    // SAFETY: the pointers are those of a slice of that length and of an item.
    let told = unsafe { rmp_check_item(line.as_ptr(), line.len(), item) };
    match told.code {
        0 => Ok(()),
        27 => Err(Outside::Read(told.at)),
        28 => Err(Outside::Write(told.at)),
        code => Err(Outside::NoItem(fault(code, told.at))),
    }
}

/// By how much the working counter of the item moves where every slave takes part.
pub fn expected(line: &[Records], item: &Item) -> Result<u16, Fault> {
    // SAFETY: the pointers are those of a slice of that length and of an item.
    let told = unsafe { rmp_expected(line.as_ptr(), line.len(), item) };
    match told.code {
        0 => Ok(told.counter as u16),
        code => Err(fault(code, 0)),
    }
}

/// The first logical bit that the line maps and that no item asks for.
pub fn covered(line: &[Records], items: &[Item]) -> Result<Option<Gap>, Fault> {
    // SAFETY: each pointer is that of a slice of that length.
    let told = unsafe { rmp_covered(line.as_ptr(), line.len(), items.as_ptr(), items.len()) };
    let fmmu = Party { slave: told.at, number: told.fmmu };
    match told.code {
        0 => Ok(None),
        29 => Ok(Some(Gap { fmmu, writes: told.way == 1, bit: told.bit })),
        code => Err(fault(code, told.at)),
    }
}

/// The first mapped area of outputs of which an item writes a byte and not the last one, or else of which no
/// item writes the last byte: a controller hands an area to its application when the last byte is written.
pub fn shown(line: &[Records], items: &[Item]) -> Result<Option<NotShown>, Fault> {
    // SAFETY: each pointer is that of a slice of that length.
    let told = unsafe { rmp_shown(line.as_ptr(), line.len(), items.as_ptr(), items.len()) };
    let sync_manager = Party { slave: told.at, number: told.sync_manager };
    let why = match told.code {
        0 => return Ok(None),
        35 => WhyNotShown::LeftBy(told.item),
        36 => WhyNotShown::NeverCompleted,
        code => return Err(fault(code, told.at)),
    };
    Ok(Some(NotShown { sync_manager, why }))
}

const _: () = assert!(core::mem::size_of::<Records>() == 194);
const _: () = assert!(core::mem::size_of::<Mapping>() == 48);
const _: () = assert!(core::mem::size_of::<Expectation>() == 8);
const _: () = assert!(core::mem::size_of::<GapAnswer>() == 32);
const _: () = assert!(core::mem::size_of::<ShownAnswer>() == 32);
