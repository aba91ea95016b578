//! Addresses, and FMMU and sync manager records by named fields: `rummymaple_help.h` in Rust. It calls
//! nothing of the library; written by hand and tried, no prover has looked at it.

/// The address of a datagram that goes to the slave with a station address (FPRD, FPWR), at a register or a
/// place in its memory: what [`Item::new`](crate::Item::new) and [`single`](crate::single) take.
///
/// ```
/// assert_eq!(rummymaple::at(0x1001, 0x0130), 0x0130_1001);
/// ```
pub const fn at(station: u16, ado: u16) -> u32 {
    station as u32 | (ado as u32) << 16
}

/// The address of a datagram that goes to the n-th slave from port A, counted from 0 (APRD, APWR), for
/// [`single`](crate::single).
///
/// ```
/// assert_eq!(rummymaple::nth(2, 0x0130), 0x0130_FFFE);
/// ```
pub const fn nth(n: u16, ado: u16) -> u32 {
    at(n.wrapping_neg(), ado)
}

/// From where to where data go, as the master sees it.
#[derive(Clone, Copy, PartialEq, Eq, Debug)]
pub enum Way {
    /// The slave's inputs: the master reads them.
    Reads = 1,
    /// The slave's outputs: the master writes them.
    Writes = 2,
}

/// Why a record cannot be written.
#[derive(Clone, Copy, PartialEq, Eq, Debug)]
pub enum NoRecord {
    /// It maps or keeps nothing, or more than 65,535 bytes.
    BadLength,
    /// A bit is above 7, or it ends past logical 2^32 or past address 0xFFFF.
    BadRange,
}

/// What one FMMU maps (IEC 61158-4-12, FMMU). Its record has the length in bytes and the last bit, both
/// counted from what stands here: a last bit that was forgotten is a common mistake. It is active.
#[derive(Clone, Copy, PartialEq, Eq, Debug)]
pub struct FmmuRecord {
    /// The logical address, in bytes.
    pub logical: u32,
    /// At which bit of the first logical byte it begins, 0 to 7.
    pub logical_bit: u8,
    /// How many bits it maps, 8 for each whole byte; at least 1.
    pub bits: u32,
    /// The address in the slave's memory, in bytes.
    pub physical: u16,
    /// At which bit of the first byte there it begins, 0 to 7.
    pub physical_bit: u8,
    /// From where to where the data go.
    pub way: Way,
}

impl FmmuRecord {
    /// One that maps so many whole bytes.
    pub const fn of_bytes(logical: u32, count: u16, physical: u16, way: Way) -> FmmuRecord {
        FmmuRecord { logical, logical_bit: 0, bits: count as u32 * 8, physical, physical_bit: 0, way }
    }

    /// The 16 bytes of the record, as a slave has them from 0x0600 + 16 * number on, and as
    /// [`Records`](crate::Records) has them. Whether it fits the line [`check`](crate::check) says.
    ///
    /// ```
    /// use rummymaple::{FmmuRecord, NoRecord, Way};
    ///
    /// let three_bits = FmmuRecord {
    ///     logical: 0x0001_0002,
    ///     logical_bit: 6,
    ///     bits: 3,
    ///     physical: 0x1100,
    ///     physical_bit: 1,
    ///     way: Way::Reads,
    /// };
    /// // Two logical bytes, the last one's bit 0 among them.
    /// let wanted = [2, 0, 1, 0, 2, 0, 6, 0, 0, 0x11, 1, 1, 1, 0, 0, 0];
    /// assert_eq!(three_bits.bytes(), Ok(wanted));
    /// let outputs = FmmuRecord::of_bytes(0x0001_0000, 4, 0x1000, Way::Writes);
    /// assert_eq!(outputs.bytes(), Ok([0, 0, 1, 0, 4, 0, 0, 7, 0, 0x10, 0, 2, 1, 0, 0, 0]));
    ///
    /// assert_eq!(FmmuRecord { bits: 0, ..outputs }.bytes(), Err(NoRecord::BadLength));
    /// assert_eq!(FmmuRecord { bits: 8 * 0xFFFF + 1, ..outputs }.bytes(), Err(NoRecord::BadLength));
    /// assert_eq!(FmmuRecord { logical_bit: 8, ..outputs }.bytes(), Err(NoRecord::BadRange));
    /// assert_eq!(FmmuRecord { physical_bit: 8, ..outputs }.bytes(), Err(NoRecord::BadRange));
    /// assert!(FmmuRecord { logical: 0xFFFF_FFFC, ..outputs }.bytes().is_ok());
    /// assert_eq!(FmmuRecord { logical: 0xFFFF_FFFD, ..outputs }.bytes(), Err(NoRecord::BadRange));
    /// assert!(FmmuRecord { physical: 0xFFFC, ..outputs }.bytes().is_ok());
    /// assert_eq!(FmmuRecord { physical: 0xFFFD, ..outputs }.bytes(), Err(NoRecord::BadRange));
    /// let at_the_end = FmmuRecord { physical: 0xFFFC, physical_bit: 1, ..outputs };
    /// assert_eq!(at_the_end.bytes(), Err(NoRecord::BadRange));
    /// ```
    pub fn bytes(&self) -> Result<[u8; 16], NoRecord> {
        let end = u64::from(self.logical_bit) + u64::from(self.bits);
        let length = match u16::try_from(end.div_ceil(8)) {
            Ok(length) if self.bits > 0 => length,
            _ => return Err(NoRecord::BadLength),
        };
        let behind = u64::from(self.logical) + u64::from(length);
        let held = (u64::from(self.physical_bit) + u64::from(self.bits)).div_ceil(8);
        if self.logical_bit > 7
            || self.physical_bit > 7
            || behind > 1 << 32
            || u64::from(self.physical) + held > 0x10000
        {
            return Err(NoRecord::BadRange);
        }
        let mut record = [0; 16];
        record[..4].copy_from_slice(&self.logical.to_le_bytes());
        record[4..6].copy_from_slice(&length.to_le_bytes());
        record[6] = self.logical_bit;
        record[7] = ((end - 1) % 8) as u8;
        record[8..10].copy_from_slice(&self.physical.to_le_bytes());
        record[10] = self.physical_bit;
        record[11] = self.way as u8;
        record[12] = 1;
        Ok(record)
    }
}

/// What one sync manager keeps (IEC 61158-4-12, sync manager). It is active.
#[derive(Clone, Copy, PartialEq, Eq, Debug)]
pub struct SyncManagerRecord {
    /// The address in the slave's memory, in bytes.
    pub start: u16,
    /// In bytes, at least 1; a buffered area takes three times its length of memory.
    pub length: u16,
    /// From where to where its data go: a mailbox that the master sends by is `Writes`.
    pub way: Way,
    /// A mailbox, and not buffered, as process data are.
    pub is_mailbox: bool,
    /// The slave's processor is told of each access (control, bit 5).
    pub interrupts: bool,
    /// It starts the watchdog of process data (control, bit 6).
    pub has_watchdog: bool,
}

impl SyncManagerRecord {
    /// One of process data, of which nobody is told, and without a watchdog.
    pub const fn buffered(start: u16, length: u16, way: Way) -> SyncManagerRecord {
        SyncManagerRecord { start, length, way, is_mailbox: false, interrupts: false, has_watchdog: false }
    }

    /// One of mails, of which the slave's processor is told.
    pub const fn mailbox(start: u16, length: u16, way: Way) -> SyncManagerRecord {
        SyncManagerRecord { start, length, way, is_mailbox: true, interrupts: true, has_watchdog: false }
    }

    /// The 8 bytes of the record, as a slave has them from 0x0800 + 8 * number on, and as
    /// [`Records`](crate::Records) has them.
    ///
    /// ```
    /// use rummymaple::{NoRecord, SyncManagerRecord, Way};
    ///
    /// let inputs = SyncManagerRecord::buffered(0x1100, 6, Way::Reads);
    /// assert_eq!(inputs.bytes(), Ok([0, 0x11, 6, 0, 0x00, 0, 1, 0]));
    /// let outputs = SyncManagerRecord::buffered(0x1000, 4, Way::Writes);
    /// let watched = SyncManagerRecord { has_watchdog: true, ..outputs };
    /// assert_eq!(watched.bytes(), Ok([0, 0x10, 4, 0, 0x44, 0, 1, 0]));
    /// let mails = SyncManagerRecord::mailbox(0x1800, 0x80, Way::Writes);
    /// assert_eq!(mails.bytes(), Ok([0, 0x18, 0x80, 0, 0x26, 0, 1, 0]));
    ///
    /// assert_eq!(SyncManagerRecord { length: 0, ..inputs }.bytes(), Err(NoRecord::BadLength));
    /// assert!(SyncManagerRecord { start: 0xFFFA, ..inputs }.bytes().is_ok());
    /// assert_eq!(SyncManagerRecord { start: 0xFFFB, ..inputs }.bytes(), Err(NoRecord::BadRange));
    /// ```
    pub fn bytes(&self) -> Result<[u8; 8], NoRecord> {
        if self.length == 0 {
            return Err(NoRecord::BadLength);
        }
        if u32::from(self.start) + u32::from(self.length) > 0x10000 {
            return Err(NoRecord::BadRange);
        }
        let writes = if self.way == Way::Writes { 0x04 } else { 0 };
        let mailbox = if self.is_mailbox { 0x02 } else { 0 };
        let mut record = [0; 8];
        record[..2].copy_from_slice(&self.start.to_le_bytes());
        record[2..4].copy_from_slice(&self.length.to_le_bytes());
        record[4] = writes | mailbox | u8::from(self.interrupts) << 5 | u8::from(self.has_watchdog) << 6;
        record[6] = 1;
        Ok(record)
    }
}
