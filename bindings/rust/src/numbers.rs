//! Numbers, by what the copies of one trip are told from all others, late ones among them; and frames of one
//! datagram.

use crate::{fault, Fault, Form};

/// How many bytes of a frame its number takes.
pub const NUMBER_LENGTH: usize = 20;

#[repr(C)]
pub(crate) struct Written {
    bytes: usize,
    at: usize,
    code: u32,
}

extern "C" {
    fn rmp_seal(
        number: u64,
        sent: *const u8,
        sent_size: usize,
        room: *mut u8,
        room_size: usize,
    ) -> Written;
    fn rmp_single(
        command: u32,
        address: u32,
        payload: *const u8,
        payload_size: usize,
        room: *mut u8,
        room_size: usize,
    ) -> Written;
    fn rmp_open(
        form: u32,
        number: u64,
        sent: *const u8,
        sent_size: usize,
        packet: *const u8,
        packet_size: usize,
        room: *mut u8,
        room_size: usize,
    ) -> Written;
}

/// Puts the frame `sent` with a number behind it at the front of `room`, which is what goes out in its place,
/// and answers how many bytes it has: [`NUMBER_LENGTH`] more. Each copy that goes out gets a number of its
/// own, and none is used twice: trip t has 2 * t and 2 * t + 1 (docs/LIBRARY.md). A frame that has fewer free
/// bytes is `Full`.
///
/// ```
/// use rummymaple::{frame, open, seal, Fault, Form, Item, Kind};
///
/// let states = [Item::new(Kind::Brd, 0x0130, 0, 2, 3)];
/// let (mut sent, mut numbered, mut opened) = ([0; 1500], [0; 1500], [0; 1500]);
/// let made = frame(&states, &[0; 2], 0, &mut sent)?;
/// let sent = &sent[..made.bytes];
/// let size = seal(0x0123_4567_89AB_CDEE, sent, &mut numbered)?;
/// assert_eq!((size, numbered[0], numbered[9], numbered[16]), (36, 34, 0x80, 0)); // a NOP follows
/// assert_eq!(numbered[26..34], 0x0123_4567_89AB_CDEE_u64.to_le_bytes());
///
/// // Three slaves count, and what came is opened as what came of the frame.
/// (numbered[4], numbered[14]) = (3, 3);
/// let packet = &numbered[..size];
/// let size = open(Form::Udp, 0x0123_4567_89AB_CDEE, sent, packet, &mut opened)?;
/// assert_eq!((size, opened[0], opened[4], opened[9], opened[14]), (16, 14, 3, 0, 3));
///
/// // It is no copy that went out with another number.
/// assert_eq!(open(Form::Udp, 0x0123_4567_89AB_CDEF, sent, packet, &mut opened), Err(Fault::OtherNumber));
/// # Ok::<(), Fault>(())
/// ```
pub fn seal(number: u64, sent: &[u8], room: &mut [u8]) -> Result<usize, Fault> {
    // SAFETY: each pointer is that of a slice of that length, and the one that is written is borrowed alone.
    let told = unsafe { rmp_seal(number, sent.as_ptr(), sent.len(), room.as_mut_ptr(), room.len()) };
    answer(told)
}

/// Opens a packet that came back: where it is a copy of the frame `sent` that went out with this number, puts
/// what it is without it at the front of `room`, and answers how many bytes that has. Any other packet is a
/// fault and leaves `room` as it is: `OtherNumber` of a frame that is late or not of this master,
/// `OtherFrame` of one that has the number and is no copy, `NoFrame` of bytes that are none.
pub fn open(form: Form, number: u64, sent: &[u8], packet: &[u8], room: &mut [u8]) -> Result<usize, Fault> {
    // SAFETY: each pointer is that of a slice of that length, and the one that is written is borrowed alone.
    let told = unsafe {
        rmp_open(
            form as u32,
            number,
            sent.as_ptr(),
            sent.len(),
            packet.as_ptr(),
            packet.len(),
            room.as_mut_ptr(),
            room.len(),
        )
    };
    answer(told)
}

/// Puts the frame of one datagram at the front of `room`, and answers how many bytes it has: of the command
/// with this code, 0 to 14, with these data; `address` is the logical one, or ADP plus 65,536 times ADO. The
/// index and the working counter are 0.
///
/// ```
/// use rummymaple::{single, Fault};
///
/// // APWR of a station address, to the fourth slave.
/// let mut frame = [0; 1500];
/// assert_eq!(single(2, 0x0010_FFFD, &[0x04, 0x10], &mut frame), Ok(16));
/// assert_eq!(frame[2..8], [2, 0, 0xFD, 0xFF, 0x10, 0]);
/// assert_eq!(single(15, 0, &[0], &mut frame), Err(Fault::BadCommand));
/// ```
pub fn single(command: u8, address: u32, payload: &[u8], room: &mut [u8]) -> Result<usize, Fault> {
    // SAFETY: each pointer is that of a slice of that length, and the one that is written is borrowed alone.
    let told = unsafe {
        let (room_size, room) = (room.len(), room.as_mut_ptr());
        rmp_single(command.into(), address, payload.as_ptr(), payload.len(), room, room_size)
    };
    answer(told)
}

/// How many bytes were written, or why none were.
pub(crate) fn answer(told: Written) -> Result<usize, Fault> {
    match told.code {
        0 => Ok(told.bytes),
        code => Err(fault(code, told.at)),
    }
}

const _: () = assert!(core::mem::size_of::<Written>() == 24);
