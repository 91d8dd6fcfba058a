//! What the library exports, with the types of `refskold.h`, and its errors.

use std::ffi::c_void;
use std::fmt;
use std::io;

/// `REFSKOLD_VERSION` of the header that these types are of.
pub const VERSION: u32 = 5;

/// The bytes of the header of a sealed log, of the head in it, and of a seal.
pub const LOG_HEADER: usize = 64;
pub const LOG_HEAD: usize = 56;
pub const SEAL: usize = 8;

/// The header of the file of a sealed log that is written: its head, and behind that its last seal.
pub type Header = [u8; LOG_HEADER];

/// A handle of a mount, or of a recovery.
#[repr(C)]
pub struct Handle {
    at: *mut c_void,
    pub holds: u64,
}

impl Handle {
    pub const NONE: Handle = Handle {
        at: std::ptr::null_mut(),
        holds: 0,
    };
}

#[repr(C)]
#[derive(Default)]
pub struct Request {
    pub word: u32,
    pub perm: u32,
    pub unit: u32,
    pub count: u32,
    pub first: u32,
    pub unused: u32,
    pub trans: u64,
    pub block: u64,
    pub number: u64,
}

#[repr(C)]
pub struct Reply {
    pub word: u32,
    pub error: u32,
    pub number: u64,
    pub pieces: u32,
    pub held_count: u32,
    held: [u64; 64],
}

impl Reply {
    pub const NONE: Reply = Reply {
        word: 0,
        error: 0,
        number: 0,
        pieces: 0,
        held_count: 0,
        held: [0; 64],
    };

    /// The blocks that stay locked.
    pub fn held(&self) -> &[u64] {
        &self.held[..self.held_count as usize]
    }
}

#[repr(C)]
pub struct Plan {
    pub count: u32,
    pub unused: u32,
    pub blocks: [u64; 8],
}

/// What a mount tells of itself. Bytes are of the log, of the `log_bytes` that it was opened with.
#[repr(C)]
#[derive(Clone, Copy, Debug, Default, PartialEq, Eq)]
pub struct State {
    /// Open transactions, at most 32.
    pub transactions: u32,
    /// Busy blocks, at most 64.
    pub busy: u32,
    /// Blocks that are not busy, with their content in memory, at most 64.
    pub idle: u32,
    /// Blocks that the next checkpoint would have.
    pub committed: u32,
    /// Blocks of checkpoints that landed, which are not home.
    pub active: u32,
    /// Jobs that are owed, at most 2.
    pub owed: u32,
    /// Jobs that were taken and have not ended, at most 2.
    pub outstanding: u32,
    /// 1 where the mount is frozen, else 0.
    pub frozen: u32,
    /// Bytes that the text of the next checkpoint would have.
    pub cost: u32,
    /// Bytes kept for open transactions.
    pub granted: u32,
    /// Bytes in use: granted, the cost, and texts that are in flight, or landed from `least` on.
    pub used: u32,
    /// Bytes that are left.
    pub free: u32,
    /// The number of the checkpoint that is begun; 0 for none.
    pub flight: u64,
    /// The least number of a checkpoint that has an active block; 0 for none.
    pub least: u64,
}

#[repr(C)]
#[derive(Default)]
pub struct Told {
    pub texts: u64,
    pub rest: u64,
    pub blocks: u64,
    pub size: u64,
    pub at: u64,
    pub file: u64,
    pub older: u64,
    pub end: u64,
}

/// The fields of the header of a file of a sealed log.
#[repr(C)]
#[derive(Default)]
pub struct Fields {
    pub generation: u64,
    pub salt: u64,
    pub block_size: u32,
    pub log_bytes: u32,
    pub link: [u8; SEAL],
    pub name: [u8; 16],
}

#[rustfmt::skip]
unsafe extern "C" {
    pub fn refskold_abi_version() -> u32;
    pub fn refskold_abi_open(mount: *mut Handle, last: u32, log_bytes: u32, blocks: u64) -> i32;
    pub fn refskold_abi_open_sized(mount: *mut Handle, last: u32, log_bytes: u32, blocks: u64, size: u32) -> i32;
    pub fn refskold_abi_close(mount: *mut Handle);
    pub fn refskold_abi_shut(mount: *mut Handle) -> i32;
    pub fn refskold_abi_stat(mount: *mut Handle, state: *mut State) -> i32;
    pub fn refskold_abi_call(
        mount: *mut Handle, request: *const Request, data: *const u8, data_len: usize, answered: u32, content: *const u8,
        content_len: usize, reply: *mut Reply, room: *mut u8, room_len: usize,
    ) -> i32;
    pub fn refskold_abi_alloc(mount: *mut Handle, unit: u32, count: u32, perm: u32, trans: *mut u64) -> i32;
    pub fn refskold_abi_read(mount: *mut Handle, trans: u64, block: u64) -> i32;
    pub fn refskold_abi_log(mount: *mut Handle, trans: u64, block: u64, first: u32, data: *const u8, data_len: usize) -> i32;
    pub fn refskold_abi_take(mount: *mut Handle, kind: u32, serial: *mut u64) -> i32;
    pub fn refskold_abi_begin(mount: *mut Handle, serial: u64, reply: *mut Reply) -> i32;
    pub fn refskold_abi_piece(mount: *mut Handle, index: u32, room: *mut u8, room_len: usize) -> i32;
    pub fn refskold_abi_seal(mount: *mut Handle, log: *mut u8, log_len: usize) -> i32;
    pub fn refskold_abi_end(mount: *mut Handle, serial: u64, taken: u32, synced: u32, reply: *mut Reply) -> i32;
    pub fn refskold_abi_plan(mount: *mut Handle, plan: *mut Plan) -> i32;
    pub fn refskold_abi_home(mount: *mut Handle, index: u32, room: *mut u8, room_len: usize) -> i32;
    pub fn refskold_abi_flush(mount: *mut Handle, serial: u64, count: u32, written: u32, synced: u32, reply: *mut Reply) -> i32;
    pub fn refskold_abi_log_open_files(recovery: *mut Handle, one: *const u8, one_len: usize, other: *const u8, other_len: usize, told: *mut Told) -> i32;
    pub fn refskold_abi_log_feed(recovery: *mut Handle, piece: *const u8, piece_len: usize) -> i32;
    pub fn refskold_abi_log_end(recovery: *mut Handle, told: *mut Told) -> i32;
    pub fn refskold_abi_log_close(recovery: *mut Handle);
    pub fn refskold_abi_log_block(recovery: *mut Handle, index: u64, block: *mut u64) -> i32;
    pub fn refskold_abi_log_lay(recovery: *mut Handle, block: u64, content: *mut u8, content_len: usize) -> i32;
    pub fn refskold_abi_log_header(log: *mut u8, log_len: usize, fields: *const Fields) -> i32;
    pub fn refskold_abi_log_read(log: *const u8, log_len: usize, fields: *mut Fields) -> i32;
}

/// Words of requests, as `enum refskold_word` has them.
pub mod word {
    pub const GET: u32 = 1;
    pub const READ: u32 = 2;
    pub const VIEW: u32 = 3;
    pub const HOLD: u32 = 5;
    pub const UNHOLD: u32 = 6;
    pub const RELSE: u32 = 7;
    pub const JOIN: u32 = 8;
    pub const RELEASE: u32 = 9;
    pub const INVAL: u32 = 10;
    pub const COMMIT: u32 = 11;
    pub const ROLL: u32 = 12;
    pub const CANCEL: u32 = 13;
    pub const FORCE: u32 = 14;
    pub const FORCE_TO: u32 = 15;
    pub const PUSH: u32 = 16;
    pub const SHUTDOWN: u32 = 17;
    pub const FREEZE: u32 = 18;
    pub const THAW: u32 = 19;
    pub const UNMOUNT: u32 = 20;
}

/// What replies tell, as `enum refskold_told` has it.
pub mod told {
    pub const ABORTED: u32 = 6;
    pub const WAIT: u32 = 7;
    pub const FREE: u32 = 10;
    pub const BEGUN: u32 = 13;
    pub const LANDED: u32 = 14;
}

pub const CHECKPOINT: u32 = 0;
pub const FLUSH: u32 = 1;
pub const UNASKED: u32 = 0;
pub const CONTENT: u32 = 1;
pub const FAILED_READ: u32 = 2;
pub const ASKS: i32 = 1;
pub const EBUSY: i32 = 16;
pub const EIO: i32 = 5;
pub const EEXIST: i32 = 17;

/// Why a mount is shut.
#[derive(Clone, Copy, Debug, PartialEq, Eq)]
pub enum Reason {
    /// A read failed in a transaction that had changed something.
    MetaIoError,
    /// A checkpoint failed.
    LogIoError,
    /// `shutdown`.
    ForceUmount,
    /// A transaction that had changed something was cancelled.
    CorruptIncore,
}

impl Reason {
    pub(crate) fn of(number: i32) -> Option<Reason> {
        match number {
            1 => Some(Reason::MetaIoError),
            2 => Some(Reason::LogIoError),
            3 => Some(Reason::ForceUmount),
            4 => Some(Reason::CorruptIncore),
            _ => None,
        }
    }
}

/// A refusal: an errno of Linux. Of a commit or a roll that gave its leg up `held` are the blocks that stay held.
#[derive(Clone, Debug, PartialEq, Eq)]
pub struct Fault {
    pub errno: i32,
    pub held: Vec<u64>,
}

impl Fault {
    pub(crate) fn new(errno: i32) -> Fault {
        Fault { errno, held: Vec::new() }
    }

    /// Of an error of a device.
    pub(crate) fn of(error: &io::Error) -> Fault {
        let by_kind = if error.kind() == io::ErrorKind::AlreadyExists { EEXIST } else { EIO };
        Fault::new(error.raw_os_error().unwrap_or(by_kind))
    }
}

impl fmt::Display for Fault {
    fn fmt(&self, to: &mut fmt::Formatter<'_>) -> fmt::Result {
        io::Error::from_raw_os_error(self.errno).fmt(to)
    }
}

impl std::error::Error for Fault {}

impl From<Fault> for io::Error {
    fn from(fault: Fault) -> io::Error {
        io::Error::from_raw_os_error(fault.errno)
    }
}

/// A status that is no error.
pub fn judged(status: i32) -> Result<i32, Fault> {
    if status < 0 {
        Err(Fault::new(-status))
    } else {
        Ok(status)
    }
}
