//! Recovery: what a log says is laid over a home device.

use crate::abi::{self, judged, Fault, Handle, Told};
use crate::mount::Devices;
use crate::BLOCK_BYTES;
use std::fmt;
use std::io;

/// Why a log was not recovered.
#[derive(Debug)]
pub enum LogFault {
    /// A field breaks its rule, as no crash leaves one: at which byte.
    Broken(u64),
    /// A text says something else of the size of a block than those before it: at which byte it begins.
    Mixed(u64),
    /// Of a sealed log: the texts of a file, LOG (0) or LOG.1 (1), end at a byte where more were written and synced.
    Rotten { file: u64, at: u64 },
    /// The two files are no log.
    Strange,
    /// The log is of another volume, which has this name.
    Other([u8; 16]),
    /// The log is of blocks of another size.
    Size(usize),
    /// Memory was refused, or a block has another size.
    Refused(Fault),
    /// A device failed.
    Device(io::Error),
}

impl fmt::Display for LogFault {
    fn fmt(&self, to: &mut fmt::Formatter<'_>) -> fmt::Result {
        match self {
            LogFault::Broken(at) => write!(to, "the log is broken at byte {at}"),
            LogFault::Mixed(at) => write!(to, "the text at byte {at} says another size of a block"),
            LogFault::Rotten { file, at } => write!(to, "the log's file {file} is rotten at byte {at}"),
            LogFault::Strange => write!(to, "the two files are no log"),
            LogFault::Other(name) => write!(to, "the log is of another volume, '{}'", String::from_utf8_lossy(name).trim_end_matches('\0')),
            LogFault::Size(size) => write!(to, "the log is of blocks of {size} bytes"),
            LogFault::Refused(fault) => fault.fmt(to),
            LogFault::Device(error) => error.fmt(to),
        }
    }
}

impl std::error::Error for LogFault {}

impl From<Fault> for LogFault {
    fn from(fault: Fault) -> LogFault {
        LogFault::Refused(fault)
    }
}

impl From<io::Error> for LogFault {
    fn from(error: io::Error) -> LogFault {
        LogFault::Device(error)
    }
}

/// What was recovered.
#[derive(Clone, Copy, Debug, PartialEq, Eq)]
pub struct Recovered {
    /// Whole texts, one for each checkpoint.
    pub texts: u64,
    /// Bytes behind them, which are no whole text, as a crash leaves them.
    pub rest: u64,
    /// Blocks of which the texts say something.
    pub blocks: u64,
    /// Of how many bytes each is.
    pub block_bytes: usize,
    /// Which file of the log is to be emptied first, and synced before the other one is.
    pub older: usize,
}

/// A handle that gives back what it holds.
struct Held(Handle);

// SAFETY: as of a mount
unsafe impl Send for Held {}

impl Drop for Held {
    fn drop(&mut self) {
        // SAFETY: the handle is this one's, and holds something or nothing
        unsafe { abi::refskold_abi_log_close(&mut self.0) }
    }
}

/// What the texts of a log say.
pub struct Recovery {
    held: Held,
    told: Recovered,
}

impl Recovery {
    /// Gathers what the texts of a bare log say, which comes in pieces, in order.
    pub fn of<P: AsRef<[u8]>>(pieces: impl IntoIterator<Item = io::Result<P>>) -> Result<Recovery, LogFault> {
        let (mut held, mut told) = (Held(Handle::NONE), Told::default());
        for piece in pieces {
            let piece = piece?;
            let piece = piece.as_ref();
            // SAFETY: the handle is this one's, and the pointer is to so many bytes
            judged(unsafe { abi::refskold_abi_log_feed(&mut held.0, piece.as_ptr(), piece.len()) })?;
        }
        // SAFETY: the handle is this one's, and what is told is written to its place
        let status = unsafe { abi::refskold_abi_log_end(&mut held.0, &mut told) };
        Recovery::gathered(held, status, &told)
    }

    /// Gathers what the two files of a sealed log say; or a bare one, which the first has.
    pub fn of_files(one: &[u8], other: &[u8]) -> Result<Recovery, LogFault> {
        let (mut held, mut told) = (Held(Handle::NONE), Told::default());
        // SAFETY: the handle is this one's, each pointer is to so many bytes, and what is told is written to its place
        let status = unsafe { abi::refskold_abi_log_open_files(&mut held.0, one.as_ptr(), one.len(), other.as_ptr(), other.len(), &mut told) };
        Recovery::gathered(held, status, &told)
    }

    fn gathered(held: Held, status: i32, told: &Told) -> Result<Recovery, LogFault> {
        match judged(status)? {
            0 => {}
            1 => return Err(LogFault::Broken(told.at)),
            2 => return Err(LogFault::Mixed(told.at)),
            3 => return Err(LogFault::Rotten { file: told.file, at: told.at }),
            _ => return Err(LogFault::Strange),
        }
        let block_bytes = if told.size == 0 { BLOCK_BYTES } else { told.size as usize };
        Ok(Recovery {
            held,
            told: Recovered {
                texts: told.texts,
                rest: told.rest,
                blocks: told.blocks,
                block_bytes,
                older: told.older as usize,
            },
        })
    }

    /// What is told of the log.
    pub fn told(&self) -> Recovered {
        self.told
    }

    /// Which block is at a place, from 0, of those of which the texts say something.
    pub fn block(&mut self, place: u64) -> Result<u64, Fault> {
        let mut block = 0;
        // SAFETY: the handle is this one's, and the block is written to its place
        judged(unsafe { abi::refskold_abi_log_block(&mut self.held.0, place, &mut block) })?;
        Ok(block)
    }

    /// Lays what the texts say of a block over what the home device has of it.
    pub fn lay(&mut self, block: u64, content: &mut [u8]) -> Result<(), Fault> {
        // SAFETY: the handle is this one's, and the pointer is to so many bytes
        judged(unsafe { abi::refskold_abi_log_lay(&mut self.held.0, block, content.as_mut_ptr(), content.len()) })?;
        Ok(())
    }

    /// Lays all of it over a home device of blocks of this size, and syncs that. Then the log may be emptied. Where it fails, do it again from the first block on.
    pub fn lay_over(mut self, devices: &mut impl Devices, block_bytes: usize) -> Result<Recovered, LogFault> {
        let told = self.told();
        if told.texts > 0 && told.block_bytes != block_bytes {
            return Err(LogFault::Size(told.block_bytes));
        }
        let mut content = vec![0; block_bytes];
        for place in 0..told.blocks {
            let block = self.block(place)?;
            devices.read(block, &mut content)?;
            self.lay(block, &mut content)?;
            devices.write(block, &content)?;
        }
        devices.sync()?;
        Ok(told)
    }
}

/// Lays a bare log over a home device, as [`Recovery::lay_over`] does.
pub fn recover<P: AsRef<[u8]>>(devices: &mut impl Devices, pieces: impl IntoIterator<Item = io::Result<P>>, block_bytes: usize) -> Result<Recovered, LogFault> {
    Recovery::of(pieces)?.lay_over(devices, block_bytes)
}
