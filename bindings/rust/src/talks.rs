//! Talks by turns, each as a state machine that waits for nothing: services with one slave beside the cycles,
//! and the start-up of a line. A frame goes out in each turn. And looks at the state of one slave.

use crate::numbers::{answer, Written};
use crate::{came, fault, Copies, Fault, Form, Records, State};

/// The most objects that are written to a slave at start-up.
pub const MAX_STARTUP: usize = 16;

/// No link is down.
const NO_LINK: u16 = 0xFFFF;

/// A state of a slave's application layer (IEC 61158-6-12, AL management).
#[derive(Clone, Copy, PartialEq, Eq, Debug)]
pub enum AlState {
    /// Init.
    Init = 1,
    /// Pre-Op.
    PreOp = 2,
    /// Safe-Op.
    SafeOp = 4,
    /// Op.
    Op = 8,
}

impl AlState {
    fn of(number: u32) -> Option<AlState> {
        [AlState::Init, AlState::PreOp, AlState::SafeOp, AlState::Op]
            .into_iter()
            .find(|state| *state as u32 == number)
    }
}

/// The value of an object.
#[derive(Clone, Copy, PartialEq, Eq, Debug)]
pub enum Value {
    /// Of one byte.
    One(u8),
    /// Of two bytes.
    Two(u16),
    /// Of four bytes.
    Four(u32),
}

impl Value {
    /// The number that it is.
    pub const fn number(self) -> u32 {
        match self {
            Value::One(number) => number as u32,
            Value::Two(number) => number as u32,
            Value::Four(number) => number,
        }
    }

    /// How many bytes it has.
    pub const fn size(self) -> u8 {
        match self {
            Value::One(_) => 1,
            Value::Two(_) => 2,
            Value::Four(_) => 4,
        }
    }
}

/// What a slave answered.
#[derive(Clone, Copy, PartialEq, Eq, Debug)]
pub enum Told {
    /// The object had this value.
    Value(Value),
    /// The value was written to the object.
    Written,
    /// The slave is in this state: in the one that it was asked for, or without an error in this one.
    In(AlState),
}

/// What became of a frame of a service.
#[derive(Clone, Copy, PartialEq, Eq, Debug)]
pub struct Served {
    /// What the slave answered; nothing where another frame goes out.
    pub told: Option<Told>,
    /// What came back of both copies.
    pub copies: Copies,
}

/// What is seen of a slave.
#[derive(Clone, Copy, PartialEq, Eq, Debug)]
pub struct Seen {
    /// The state that it is in; one that is none of these, as Bootstrap, counts as Init.
    pub state: AlState,
    /// The AL status code of an error that stands.
    pub error: Option<u16>,
    /// What came back of both copies.
    pub copies: Copies,
}

/// How far the mails of a transfer are.
#[derive(Clone, Copy, PartialEq, Eq, Debug)]
#[repr(C)]
struct Mail {
    station: u16,
    request_start: u16,
    request_length: u16,
    answer_start: u16,
    answer_length: u16,
    counter: u8,
    posted: u8,
    is_posted: u8,
    known: u8,
}

/// A service with one slave beside the cycles: an object is read or written by SDO, a state is asked for, or
/// an error is acknowledged. One frame goes out in each turn, so that a service goes on between two cycles.
/// Each call about a turn, or about a look, takes up to 64 KB of stack.
///
/// Of the slave's records its station and sync managers 0 and 1 are looked at, its mailboxes of requests and
/// of answers. `trips` is how many trips it may take at the most: 64 are plenty, and 4 are enough for an
/// object where nothing is lost. `number` is one more from one service with that slave to the next: the
/// counters of their mails follow it.
///
/// ```
/// use rummymaple::{AlState, Fault, Form, Records, Service, State, Told};
///
/// let slave = Records { station: 0x1001, ..Records::default() };
/// let mut room = [0; 1500];
/// let mut service = Service::begin_state(Form::Udp, &slave, AlState::Op, 64);
/// let told = loop {
///     let size = service.next_frame(&mut room)?;
///     // .. the frame goes out both ways; the slave counts, is in Op at once, and copy b is lost ..
///     let mut a = room;
///     if a[2] == 4 {
///         a[12] = 8;
///     }
///     a[size - 2] = 1;
///     if let Some(told) = service.came(&a[..size], &[])?.told {
///         break told;
///     }
/// };
/// assert_eq!((told, service.state()), (Told::In(AlState::Op), State::Done));
///
/// // It has no mailboxes: no frame goes out, and what comes of it says why.
/// let mut service = Service::begin_read(Form::Udp, &slave, 0x1018, 1, 0, 64);
/// assert_eq!(service.next_frame(&mut room), Ok(0));
/// assert_eq!(service.came(&[], &[]), Err(Fault::NoSlave));
/// # Ok::<(), Fault>(())
/// ```
#[derive(Clone, Copy, PartialEq, Eq, Debug)]
#[repr(C)]
pub struct Service {
    mail: Mail,
    index: u16,
    sub: u8,
    size: u8,
    al_state: u8,
    next: u8,
    value: u32,
    unanswered: u32,
    trips: u32,
    form: u32,
    state: u32,
}

/// An object that is written to a slave at start-up.
#[derive(Clone, Copy, PartialEq, Eq, Debug)]
#[repr(C)]
pub struct Object {
    value: u32,
    index: u16,
    sub: u8,
    size: u8,
}

impl Object {
    /// No object.
    pub const NONE: Object = Object { value: 0, index: 0, sub: 0, size: 0 };

    /// An object and the value that is written to it.
    pub const fn new(index: u16, sub: u8, value: Value) -> Object {
        Object { value: value.number(), index, sub, size: value.size() }
    }
}

/// The objects that are written to a slave in Pre-Op, before its process data are set, in their order.
#[derive(Clone, Copy, PartialEq, Eq, Debug)]
#[repr(C)]
pub struct Startup {
    /// The objects.
    pub objects: [Object; MAX_STARTUP],
}

impl Startup {
    /// No objects.
    pub const NONE: Startup = Startup { objects: [Object::NONE; MAX_STARTUP] };

    /// These objects, [`MAX_STARTUP`] of them at the most; nothing where they are more.
    pub fn of(objects: &[Object]) -> Option<Startup> {
        let mut startup = Startup::NONE;
        startup.objects.get_mut(..objects.len())?.copy_from_slice(objects);
        Some(startup)
    }
}

/// A stage of a start-up: each is done with all slaves before the next one begins.
#[derive(Clone, Copy, PartialEq, Eq, PartialOrd, Ord, Debug)]
pub enum Stage {
    /// The slaves are counted.
    Count = 0,
    /// Those behind the broken link are given their station addresses.
    Behind = 1,
    /// All others are.
    Stations = 2,
    /// Init is asked for, and errors that stand are acknowledged.
    Init = 3,
    /// Sync managers 0 and 1 are set, and Pre-Op is asked for.
    PreOp = 4,
    /// Objects are written, the other sync managers and the FMMUs are set, and Safe-Op is asked for.
    SafeOp = 5,
    /// Op is asked for.
    Op = 6,
}

/// All of them, by their numbers.
const STAGES: [Stage; 7] = [
    Stage::Count,
    Stage::Behind,
    Stage::Stations,
    Stage::Init,
    Stage::PreOp,
    Stage::SafeOp,
    Stage::Op,
];

/// What a start-up does with one slave.
#[derive(Clone, Copy, PartialEq, Eq, Debug)]
pub enum Step {
    /// It is given its station address.
    Station,
    /// This sync manager is written and read back.
    SyncManager(usize),
    /// This FMMU is written and read back.
    Fmmu(usize),
    /// This object of its [`Startup`] is written.
    Object(usize),
    /// This state is asked for.
    State(AlState),
}

/// Why a line was not brought up.
#[derive(Clone, Copy, PartialEq, Eq, Debug)]
pub struct NotStarted {
    /// In which stage.
    pub stage: Stage,
    /// With which slave, the first one being 0, and in which step; nothing where no step failed.
    pub step: Option<(usize, Step)>,
    /// Why.
    pub why: Fault,
}

/// What became of a frame of a start-up.
#[derive(Clone, Copy, PartialEq, Eq, Debug)]
pub struct Started {
    /// Is the last stage done with all slaves? Else another frame goes out.
    pub is_done: bool,
    /// What came back of both copies.
    pub copies: Copies,
}

/// The start-up of a line: slaves are counted, given their station addresses, mailboxes and process data, and
/// brought to Op, a frame in each turn.
///
/// The records of all slaves say, by their places, what each is to be told; the objects that are written to
/// them may be fewer. Both are the same in each call. A line may be brought to Pre-Op, its objects read by
/// services, and the start-up begun anew with [`Stage::SafeOp`].
///
/// ```
/// use rummymaple::{Fault, Form, NotStarted, Records, Stage, Start, State, Step};
///
/// let line = [Records { station: 0x1001, ..Records::default() }];
/// let mut room = [0; 1500];
/// let mut start = Start::begin(Form::Udp, 1, None, Stage::Count, Stage::Stations);
/// while start.state() == State::UnderWay {
///     let size = start.next_frame(&line, &[], &mut room)?;
///     // .. the frame goes out both ways, the slave counts, and copy b is lost ..
///     let mut a = room;
///     a[size - 2] = 1;
///     start.came(&line, &[], &a[..size], &[]).expect("a slave");
/// }
/// assert_eq!(room[2..8], [2, 0, 0, 0, 0x10, 0]); // APWR of the station address
///
/// // Two slaves take one address.
/// let mut start = Start::begin(Form::Udp, 1, None, Stage::Stations, Stage::Op);
/// let size = start.next_frame(&line, &[], &mut room)?;
/// room[size - 2] = 2;
/// let why = Fault::BadAnswer;
/// let wanted = NotStarted { stage: Stage::Stations, step: Some((0, Step::Station)), why };
/// assert_eq!(start.came(&line, &[], &room[..size], &[]), Err(wanted));
/// assert_eq!(start.next_frame(&line, &[], &mut room), Err(Fault::NotUnderWay));
/// # Ok::<(), Fault>(())
/// ```
#[derive(Clone, Copy, PartialEq, Eq, Debug)]
#[repr(C)]
pub struct Start {
    left: usize,
    mail: Mail,
    slaves: u16,
    down: u16,
    place: u16,
    stage: u8,
    last: u8,
    is_writing: u8,
    asked: u32,
    unanswered: u32,
    form: u32,
    state: u32,
}

#[repr(C)]
struct ServiceAnswer {
    number: u32,
    size: u32,
    code: u32,
    copy_a: u32,
    copy_b: u32,
}

#[repr(C)]
struct LookAnswer {
    state: u32,
    error: u32,
    code: u32,
    copy_a: u32,
    copy_b: u32,
}

#[repr(C)]
struct StartAnswer {
    place: usize,
    stage: u32,
    step: u32,
    part: u32,
    number: u32,
    code: u32,
    copy_a: u32,
    copy_b: u32,
}

extern "C" {
    fn rmp_read_begin(
        form: u32,
        records: *const Records,
        index: u16,
        sub: u8,
        number: u32,
        trips: u32,
    ) -> Service;
    fn rmp_write_begin(
        form: u32,
        records: *const Records,
        index: u16,
        sub: u8,
        size: u8,
        value: u32,
        number: u32,
        trips: u32,
    ) -> Service;
    fn rmp_state_begin(form: u32, records: *const Records, state: u8, trips: u32) -> Service;
    fn rmp_acknowledge_begin(form: u32, records: *const Records, trips: u32) -> Service;
    fn rmp_service_next(service: *const Service, room: *mut u8, room_size: usize) -> Written;
    fn rmp_service_came(
        service: *mut Service,
        a: *const u8,
        a_size: usize,
        b: *const u8,
        b_size: usize,
    ) -> ServiceAnswer;
    fn rmp_look_next(station: u16, room: *mut u8, room_size: usize) -> Written;
    fn rmp_look_came(
        form: u32,
        station: u16,
        a: *const u8,
        a_size: usize,
        b: *const u8,
        b_size: usize,
    ) -> LookAnswer;
    fn rmp_start_begin(form: u32, slaves: u16, down: u16, first: u8, last: u8) -> Start;
    fn rmp_start_next(
        start: *const Start,
        line: *const Records,
        slaves: usize,
        startup: *const Startup,
        startup_count: usize,
        room: *mut u8,
        room_size: usize,
    ) -> Written;
    fn rmp_start_came(
        start: *mut Start,
        line: *const Records,
        slaves: usize,
        startup: *const Startup,
        startup_count: usize,
        a: *const u8,
        a_size: usize,
        b: *const u8,
        b_size: usize,
    ) -> StartAnswer;
}

/// How far a talk is, by its number.
fn state_of(number: u32) -> State {
    match number {
        0 => State::UnderWay,
        1 => State::Done,
        _ => State::Ended,
    }
}

/// What came back of both copies.
fn copies(a: u32, b: u32) -> Copies {
    Copies { a: came(a), b: came(b) }
}

/// What a number and a size tell of a service that is done.
fn told(number: u32, size: u32) -> Told {
    match (size, AlState::of(number)) {
        (1, _) => Told::Value(Value::One(number as u8)),
        (2, _) => Told::Value(Value::Two(number as u16)),
        (4, _) => Told::Value(Value::Four(number)),
        (_, Some(state)) => Told::In(state),
        _ => Told::Written,
    }
}

impl Service {
    /// Begins the reading of an object, of one, two or four bytes.
    pub fn begin_read(
        form: Form,
        slave: &Records,
        index: u16,
        sub: u8,
        number: u32,
        trips: u32,
    ) -> Service {
        // SAFETY: it takes numbers, and the pointer is that of records.
        unsafe { rmp_read_begin(form as u32, slave, index, sub, number, trips) }
    }

    /// Begins the writing of a value to an object. Where packets are lost it may be written twice, and where
    /// the service ends without an answer it may be written yet.
    pub fn begin_write(
        form: Form,
        slave: &Records,
        index: u16,
        sub: u8,
        value: Value,
        number: u32,
        trips: u32,
    ) -> Service {
        let (size, value) = (value.size(), value.number());
        // SAFETY: it takes numbers, and the pointer is that of records.
        unsafe { rmp_write_begin(form as u32, slave, index, sub, size, value, number, trips) }
    }

    /// Begins that the slave is asked for a state, by which an error that stands is acknowledged, and that AL
    /// status is read until it is there. One in a state that is none of these, as Bootstrap, counts as in
    /// Init.
    pub fn begin_state(form: Form, slave: &Records, state: AlState, trips: u32) -> Service {
        // SAFETY: it takes numbers, and the pointer is that of records.
        unsafe { rmp_state_begin(form as u32, slave, state as u8, trips) }
    }

    /// Begins that an error of the slave is acknowledged in the state that it is in. One that is none of
    /// [`AlState`] counts as Init, and then Init is asked for.
    pub fn begin_acknowledge(form: Form, slave: &Records, trips: u32) -> Service {
        // SAFETY: it takes numbers, and the pointer is that of records.
        unsafe { rmp_acknowledge_begin(form as u32, slave, trips) }
    }

    /// How far it is.
    pub fn state(&self) -> State {
        state_of(self.state)
    }

    /// Puts the next frame at the front of `room`, and answers how many bytes it has: again the last one,
    /// until [`Service::came`] took what came of it. Where it has none, nothing goes out, and `came` says why
    /// where it is handed two empty packets: the slave has no mailboxes, or no trip is left.
    pub fn next_frame(&self, room: &mut [u8]) -> Result<usize, Fault> {
        // SAFETY: the pointer is that of a slice of that length, which is borrowed alone.
        answer(unsafe { rmp_service_next(self, room.as_mut_ptr(), room.len()) })
    }

    /// Takes the packets that came back of the frame that was made last, each empty where nothing came.
    /// `NoSlave`, `NoAnswer`, `BadAnswer`, `Refused` and `Aborted` have ended the service; any other fault
    /// leaves it as it is: behind `Stranger` call it again with other packets.
    ///
    /// A lost frame ends nothing: a question about a state that no slave answered is asked again, ten times
    /// in a row, and mails are sent again safely, whatever was lost.
    pub fn came(&mut self, a: &[u8], b: &[u8]) -> Result<Served, Fault> {
        // SAFETY: each pointer is that of a slice of that length.
        let found = unsafe { rmp_service_came(self, a.as_ptr(), a.len(), b.as_ptr(), b.len()) };
        let told = match found.code {
            0 => Some(told(found.number, found.size)),
            37 => None,
            code => return Err(fault(code, found.number as usize)),
        };
        Ok(Served { told, copies: copies(found.copy_a, found.copy_b) })
    }
}

/// Puts the frame at the front of `room` by which the state is read of the slave with a station address, and
/// answers how many bytes it has: what a [`look`] is at.
pub fn frame_of_look(station: u16, room: &mut [u8]) -> Result<usize, Fault> {
    // SAFETY: the pointer is that of a slice of that length, which is borrowed alone.
    answer(unsafe { rmp_look_next(station, room.as_mut_ptr(), room.len()) })
}

/// Tells what the packets show that came back of the frame of [`frame_of_look`], each empty where nothing
/// came: in which state the slave is, and with which error. `NoSlave`: no slave had answered; `NoAnswer`: no
/// copy came; `BadAnswer`: more than one slave answered. Of each slave it tells who is not in Op.
///
/// ```
/// use rummymaple::{frame_of_look, look, AlState, Fault, Form};
///
/// let mut room = [0; 1500];
/// let size = frame_of_look(0x1001, &mut room)?;
/// assert_eq!((size, &room[2..8]), (20, &[4, 0, 0x01, 0x10, 0x30, 0x01][..])); // FPRD of AL status
///
/// // The slave counts, in Safe-Op with an error, and copy b is lost.
/// let mut a = room;
/// (a[12], a[16], a[18]) = (0x14, 0x1D, 1);
/// let seen = look(Form::Udp, 0x1001, &a[..size], &[])?;
/// assert_eq!((seen.state, seen.error), (AlState::SafeOp, Some(0x1D)));
///
/// // Nobody does.
/// assert_eq!(look(Form::Udp, 0x1001, &room[..size], &[]), Err(Fault::NoSlave));
/// # Ok::<(), Fault>(())
/// ```
pub fn look(form: Form, station: u16, a: &[u8], b: &[u8]) -> Result<Seen, Fault> {
    // SAFETY: each pointer is that of a slice of that length.
    let found =
        unsafe { rmp_look_came(form as u32, station, a.as_ptr(), a.len(), b.as_ptr(), b.len()) };
    let error = match found.code {
        0 => None,
        41 => Some(found.error as u16),
        code => return Err(fault(code, 0)),
    };
    let state = AlState::of(found.state).unwrap_or(AlState::Init);
    Ok(Seen { state, error, copies: copies(found.copy_a, found.copy_b) })
}

/// The step that failed, and its slave.
fn step_of(found: &StartAnswer) -> Option<(usize, Step)> {
    let part = found.part as usize;
    let step = match found.step {
        1 => Step::Station,
        2 => Step::SyncManager(part),
        3 => Step::Fmmu(part),
        4 => Step::Object(part),
        5 => Step::State(AlState::of(found.part)?),
        _ => return None,
    };
    Some((found.place, step))
}

/// The stage with a number.
fn stage_of(number: u32) -> Stage {
    STAGES[(number as usize).min(STAGES.len() - 1)]
}

impl Start {
    /// Begins a start-up of so many slaves, 1 to 256 (its calls answer `BadNumbers` else), over a line of
    /// which this link is down, or none, as [`locate`](crate::locate) tells it (`Cable::One`). It goes from a
    /// stage, `Count`, or where the slaves have their station addresses one from `Init` on, to a last one.
    pub fn begin(form: Form, slaves: u16, down: Option<u16>, first: Stage, last: Stage) -> Start {
        // SAFETY: it takes numbers.
        unsafe {
            rmp_start_begin(form as u32, slaves, down.unwrap_or(NO_LINK), first as u8, last as u8)
        }
    }

    /// How far it is.
    pub fn state(&self) -> State {
        state_of(self.state)
    }

    /// The stage that is under way, and the place of the slave with which it is, the first one's being 0.
    pub fn stage(&self) -> (Stage, usize) {
        (stage_of(self.stage.into()), self.place.into())
    }

    /// Puts the next frame at the front of `room`, and answers how many bytes it has: again the last one,
    /// until [`Start::came`] took what came of it. Where it has none, nothing goes out in this turn, and
    /// `came` is handed two empty packets.
    pub fn next_frame(
        &self,
        line: &[Records],
        startup: &[Startup],
        room: &mut [u8],
    ) -> Result<usize, Fault> {
        // SAFETY: each pointer is that of a slice of that length; what is written is borrowed alone.
        answer(unsafe {
            let (slaves, objects, room_size) = (line.len(), startup.len(), room.len());
            rmp_start_next(
                self,
                line.as_ptr(),
                slaves,
                startup.as_ptr(),
                objects,
                room.as_mut_ptr(),
                room_size,
            )
        })
    }

    /// Takes the packets that came back of the frame that was made last, each empty where nothing came. The
    /// faults that end a service end it too, and so does `OtherCount`; any other leaves it as it is.
    ///
    /// A lost frame ends nothing: what no slave answered is asked again, twenty times in a step; slaves are
    /// counted ten times where they are not as many as they are to be; AL status is read a thousand times
    /// until a slave is in a state that it was asked for; and an object is written by 64 trips at the most.
    pub fn came(
        &mut self,
        line: &[Records],
        startup: &[Startup],
        a: &[u8],
        b: &[u8],
    ) -> Result<Started, NotStarted> {
        // SAFETY: each pointer is that of a slice of that length.
        let found = unsafe {
            let (slaves, objects) = (line.len(), startup.len());
            rmp_start_came(
                self,
                line.as_ptr(),
                slaves,
                startup.as_ptr(),
                objects,
                a.as_ptr(),
                a.len(),
                b.as_ptr(),
                b.len(),
            )
        };
        let is_done = match found.code {
            0 => true,
            37 => false,
            code => {
                let stage = stage_of(found.stage.max(self.stage.into())); // what ended nothing tells none
                let step = step_of(&found);
                return Err(NotStarted { stage, step, why: fault(code, found.number as usize) });
            }
        };
        Ok(Started { is_done, copies: copies(found.copy_a, found.copy_b) })
    }
}

const _: () = assert!(core::mem::size_of::<Mail>() == 14);
const _: () = assert!(core::mem::size_of::<Service>() == 40);
const _: () = assert!(core::mem::size_of::<ServiceAnswer>() == 20);
const _: () = assert!(core::mem::size_of::<LookAnswer>() == 20);
const _: () = assert!(core::mem::size_of::<Object>() == 8);
const _: () = assert!(core::mem::size_of::<Startup>() == 128);
const _: () = assert!(core::mem::size_of::<Start>() == 48);
const _: () = assert!(core::mem::size_of::<StartAnswer>() == 40);
