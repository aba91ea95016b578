//! Services and start-ups by turns, over two slaves in memory whose copies are lost.

use rummymaple::{AlState, Came, Copies, Fault, FmmuRecord, Form, NotStarted, Object, Records, Served};
use rummymaple::{Service, Stage, Start, Startup, State, Step, SyncManagerRecord, Told, Value, Way};
use std::mem::size_of;

const SLAVES: usize = 2;
const FULL: u8 = 8;

/// A slave: its memory, what is asked of it, and what its object 0x8000:1 holds (tools/library/pair.h).
struct Slave {
    memory: [u8; 0x2000],
    asked: u8,
    refuses: u8,
    counter: u8,
    object: u16,
}

struct Line {
    slaves: [Slave; SLAVES],
    /// So many of a thousand copies are lost.
    losses: u64,
    chance: u64,
    copies: [Vec<u8>; 2],
    trips: usize,
}

fn word(bytes: &[u8]) -> usize {
    usize::from(bytes[0]) | usize::from(bytes[1]) << 8
}

impl Slave {
    fn new() -> Slave {
        let mut memory = [0; 0x2000];
        memory[0x0130] = 1;
        Slave { memory, asked: 0, refuses: 0, counter: 0, object: 0 }
    }

    /// The record of the mailbox that begins there.
    fn mailbox(&self, ado: usize) -> Option<usize> {
        [0x0800, 0x0808].into_iter().find(|at| {
            let record = &self.memory[*at..at + 8];
            record[6] & 1 == 1 && record[4] & 3 == 2 && word(record) == ado
        })
    }

    /// A datagram reads or writes: whether it counts.
    fn touch(&mut self, writes: bool, ado: usize, data: &mut [u8]) -> bool {
        if let Some(at) = self.mailbox(ado) {
            let is_full = self.memory[at + 5] & FULL != 0;
            if writes != (self.memory[at + 4] & 4 != 0) || writes == is_full {
                return false;
            }
            self.memory[at + 5] ^= FULL;
        }
        if !writes {
            data.copy_from_slice(&self.memory[ado..ado + data.len()]);
            if ado == 0x0130 && self.asked != 0 {
                self.memory[ado] = std::mem::take(&mut self.asked);
            }
            return true;
        }
        let kept = [self.memory[0x0805], self.memory[0x080D]];
        self.memory[ado..ado + data.len()].copy_from_slice(data);
        for (at, status) in [0x0800, 0x0808].into_iter().zip(kept) {
            self.memory[at + 5] = if self.memory[at + 6] & 1 == 1 { status } else { 0 };
        }
        if ado == 0x0120 {
            self.control(data[0]);
        }
        true
    }

    fn control(&mut self, control: u8) {
        if control & 0x0F == self.refuses {
            self.memory[0x0130] |= 0x10;
            self.memory[0x0134] = 0x1D;
        } else {
            self.memory[0x0130] &= 0x0F;
            self.memory[0x0134] = 0;
            self.asked = control & 0x0F;
        }
    }

    /// A frame of one datagram passes.
    fn pass(&mut self, frame: &mut [u8]) {
        let (command, adp, ado) = (frame[2], word(&frame[4..]), word(&frame[6..]));
        let end = 12 + (word(&frame[8..]) & 0x7FF);
        let is_meant = match command {
            1 | 2 => adp == 0,
            7 | 8 => true,
            _ => adp == word(&self.memory[0x0010..]),
        };
        if matches!(command, 1 | 2 | 7 | 8) {
            frame[4..6].copy_from_slice(&(adp as u16).wrapping_add(1).to_le_bytes());
        }
        if is_meant && self.touch(matches!(command, 2 | 5 | 8), ado, &mut frame[12..end]) {
            frame[end] += 1;
        }
    }

    /// A mail that waits is answered, but for one that is sent again.
    fn answer(&mut self) {
        let (requests, answers) = (word(&self.memory[0x0800..]), word(&self.memory[0x0808..]));
        if self.memory[0x0805] & FULL == 0 || self.memory[0x080D] & FULL != 0 {
            return;
        }
        self.memory[0x0805] ^= FULL;
        let mut mail: [u8; 16] = self.memory[requests..requests + 16].try_into().expect("16 bytes");
        if mail[5] >> 4 == self.counter {
            return;
        }
        self.counter = mail[5] >> 4;
        mail[7] = 0x30;
        let told = match (mail[8], word(&mail[9..])) {
            (0x40, 0x8000) => [0x4B, self.object as u8, (self.object >> 8) as u8, 0, 0],
            (0x2B, 0x8000) => {
                self.object = word(&mail[12..]) as u16;
                [0x60, 0, 0, 0, 0]
            }
            _ => [0x80, 0, 0, 0x02, 0x06],
        };
        (mail[8], mail[12], mail[13], mail[14], mail[15]) = (told[0], told[1], told[2], told[3], told[4]);
        self.memory[answers..answers + 16].copy_from_slice(&mail);
        self.memory[0x080D] |= FULL;
    }
}

impl Line {
    fn new() -> Line {
        let slaves = [Slave::new(), Slave::new()];
        Line { slaves, losses: 0, chance: 88172645463325252, copies: [Vec::new(), Vec::new()], trips: 0 }
    }

    fn is_lost(&mut self) -> bool {
        self.chance ^= self.chance << 13;
        self.chance ^= self.chance >> 7;
        self.chance ^= self.chance << 17;
        (self.chance >> 33) % 1000 < self.losses
    }

    /// A trip over the whole ring: copy a passes the slaves, and copy b none.
    fn trip(&mut self, frame: &[u8]) {
        self.copies = [frame.to_vec(), frame.to_vec()];
        self.trips += usize::from(!frame.is_empty());
        if !frame.is_empty() && !self.is_lost() {
            self.slaves.iter_mut().for_each(|slave| slave.pass(&mut self.copies[0]));
        } else {
            self.copies[0].clear();
        }
        for copy in 0..2 {
            if self.is_lost() {
                self.copies[copy].clear();
            }
        }
        self.slaves.iter_mut().for_each(Slave::answer);
    }

    fn serve(&mut self, mut service: Service) -> Result<Told, Fault> {
        let mut room = [0; 1500];
        loop {
            let size = service.next_frame(&mut room)?;
            self.trip(&room[..size]);
            if let Some(told) = service.came(&self.copies[0], &self.copies[1])?.told {
                assert_eq!(service.state(), State::Done);
                return Ok(told);
            }
        }
    }

    fn start(&mut self, first: Stage, last: Stage, startup: &[Startup]) -> Result<(), NotStarted> {
        let (line, mut room) = (records(), [0; 1500]);
        let mut start = Start::begin(Form::Udp, SLAVES as u16, None, first, last);
        assert_eq!(start.stage(), (first, 0));
        while start.state() == State::UnderWay {
            let size = start.next_frame(&line, startup, &mut room).expect("a frame");
            self.trip(&room[..size]);
            let came = start.came(&line, startup, &self.copies[0], &self.copies[1])?;
            assert_eq!(came.is_done, start.state() == State::Done);
        }
        Ok(())
    }
}

/// Each has mailboxes, and a byte of inputs.
fn records() -> [Records; SLAVES] {
    [0, 1].map(|place| {
        let mut slave = Records { station: 0x1001 + place, ..Records::default() };
        let inputs = FmmuRecord::of_bytes(0x10000 + u32::from(place), 1, 0x1180, Way::Reads);
        slave.sync_managers[0] = SyncManagerRecord::mailbox(0x1000, 32, Way::Writes).bytes().expect("one");
        slave.sync_managers[1] = SyncManagerRecord::mailbox(0x1080, 32, Way::Reads).bytes().expect("one");
        slave.sync_managers[3] = SyncManagerRecord::buffered(0x1180, 1, Way::Reads).bytes().expect("one");
        slave.fmmus[5] = inputs.bytes().expect("an FMMU");
        slave
    })
}

fn read(slave: &Records, index: u16, number: u32) -> Service {
    Service::begin_read(Form::Udp, slave, index, 1, number, 64)
}

#[test]
fn structs_have_the_sizes_of_the_library() {
    assert_eq!((size_of::<Service>(), size_of::<Start>()), (40, 48));
    assert_eq!((size_of::<Object>(), size_of::<Startup>()), (8, 128));
}

#[test]
fn first_frames_are_as_the_standard_spells_them() {
    let (slave, mut room) = (records()[0], [0x5A; 64]);
    let state = Service::begin_state(Form::Udp, &slave, AlState::Op, 64);
    assert_eq!(state.next_frame(&mut room), Ok(16));
    assert_eq!(room[..16], [14, 0x10, 5, 0, 1, 0x10, 0x20, 1, 2, 0, 0, 0, 0x18, 0, 0, 0]);
    assert_eq!(room[16], 0x5A);
    let acknowledge = Service::begin_acknowledge(Form::Udp, &slave, 64);
    assert_eq!(acknowledge.next_frame(&mut room), Ok(20));
    assert_eq!(room[..12], [18, 0x10, 4, 0, 1, 0x10, 0x30, 1, 6, 0, 0, 0]);
    assert_eq!(read(&slave, 0x1018, 0).next_frame(&mut room), Ok(30));
    assert_eq!(room[..12], [28, 0x10, 4, 0, 1, 0x10, 0, 8, 16, 0, 0, 0]);
    let start = Start::begin(Form::Udp, 2, None, Stage::Count, Stage::Op);
    assert_eq!(start.next_frame(&records(), &[], &mut room), Ok(16));
    assert_eq!(room[..16], [14, 0x10, 7, 0, 0, 0, 0x30, 1, 2, 0, 0, 0, 0, 0, 0, 0]);
    room = [0x5A; 64];
    assert_eq!(state.next_frame(&mut room[..15]), Err(Fault::NoRoom));
    assert_eq!(start.next_frame(&records()[..1], &[], &mut room), Err(Fault::BadNumbers));
    let many = [Records::default(); 257];
    for slaves in [0, 257] {
        let start = Start::begin(Form::Udp, slaves as u16, None, Stage::Count, Stage::Op);
        assert_eq!(start.next_frame(&many[..slaves], &[], &mut room), Err(Fault::BadNumbers));
    }
    assert_eq!(room, [0x5A; 64]);
}

#[test]
fn a_stranger_leaves_a_service_as_it_is() {
    let (slave, mut room) = (records()[0], [0; 16]);
    let mut service = Service::begin_state(Form::Udp, &slave, AlState::Op, 64);
    let before = service;
    service.next_frame(&mut room).expect("a frame");
    let mut other = room;
    other[6] ^= 1;
    assert_eq!(service.came(&room, &other), Err(Fault::Stranger));
    assert_eq!(service, before);
    room[14] = 1;
    let copies = Copies { a: Came::Frame, b: Came::NoFrame };
    assert_eq!(service.came(&room, &other[..15]), Ok(Served { told: None, copies }));
}

#[test]
fn a_line_is_started_and_asked_whatever_is_lost() {
    let object = |number| Object::new(0x8000, 1, Value::Two(number));
    let startup = [Startup::of(&[object(0x1111), Object::NONE, object(7)]).expect("three objects")];
    let slaves = records();
    for losses in [0, 100] {
        let mut line = Line { losses, ..Line::new() };
        assert_eq!(line.start(Stage::Count, Stage::PreOp, &startup), Ok(()));
        assert_eq!((line.slaves[0].object, line.slaves[1].memory[0x0130]), (0, 2));
        assert_eq!(line.serve(read(&slaves[1], 0x8000, 0)), Ok(Told::Value(Value::Two(0))));
        assert_eq!(line.start(Stage::SafeOp, Stage::Op, &startup), Ok(()));
        for (slave, records) in line.slaves.iter().zip(&slaves) {
            assert_eq!(slave.memory[0x0130], 8);
            assert_eq!(slave.memory[0x0600..0x0680], records.fmmus.concat());
        }
        assert_eq!(line.slaves[0].object, 7);
        line.trips = 0;
        for number in 4..40 {
            let value = Value::Two(number as u16);
            let write = Service::begin_write(Form::Udp, &slaves[0], 0x8000, 1, value, 2 * number, 64);
            assert_eq!(line.serve(write), Ok(Told::Written));
            assert_eq!(line.serve(read(&slaves[0], 0x8000, 2 * number + 1)), Ok(Told::Value(value)));
        }
        assert!(losses > 0 || line.trips == 36 * 2 * 4, "{}", line.trips);
        assert_eq!(line.serve(read(&slaves[0], 0x9000, 80)), Err(Fault::Aborted(0x0602_0000)));
    }
}

#[test]
fn what_fails_is_told() {
    let slaves = records();
    let mut line = Line::new();
    line.slaves[1].refuses = 4;
    let why = Fault::Refused(0x1D);
    let wanted = NotStarted { stage: Stage::SafeOp, step: Some((1, Step::State(AlState::SafeOp))), why };
    assert_eq!(line.start(Stage::Count, Stage::Op, &[]), Err(wanted));
    let acknowledge = Service::begin_acknowledge(Form::Udp, &slaves[1], 64);
    assert_eq!(line.serve(acknowledge), Ok(Told::In(AlState::PreOp)));
    let state = |state| Service::begin_state(Form::Udp, &slaves[1], state, 64);
    assert_eq!(line.serve(state(AlState::SafeOp)), Err(why));
    assert_eq!(line.serve(state(AlState::Op)), Ok(Told::In(AlState::Op)));
    let nobody = Records { station: 0x2000, ..slaves[0] };
    let asked = line.trips;
    assert_eq!(line.serve(Service::begin_state(Form::Udp, &nobody, AlState::Op, 64)), Err(Fault::NoSlave));
    assert_eq!(line.trips, asked + 10);
    assert_eq!(line.serve(Service::begin_read(Form::Udp, &nobody, 0x8000, 1, 0, 5)), Err(Fault::NoAnswer));
    assert_eq!(line.trips, asked + 15);
    let bare = Records { station: 0x1001, ..Records::default() };
    assert_eq!(line.serve(read(&bare, 0x8000, 0)), Err(Fault::NoSlave));
    assert_eq!(line.trips, asked + 15);
    let objects = Startup::of(&[Object::new(0x9000, 1, Value::One(1))]).expect("an object");
    let why = Fault::Aborted(0x0602_0000);
    let wanted = NotStarted { stage: Stage::SafeOp, step: Some((0, Step::Object(0))), why };
    assert_eq!(line.start(Stage::Init, Stage::Op, &[objects]), Err(wanted));
    assert_eq!(Startup::of(&[Object::NONE; 17]), None);
}
