//! A home device in a file, and its log in two.

use crate::abi::{Fault, Header};
use crate::log::{name_of, take, SealedLog};
use crate::mount::{Devices, Geometry};
use crate::recovery::{LogFault, Recovered, Recovery};
use std::fs::File;
use std::io;
use std::os::unix::fs::FileExt;
use std::path::Path;

/// A home device and a sealed log in files, LOG and LOG.1, which are made where they are missing, and locked until they are dropped. A block past the end of the
/// home file is zeros.
pub struct Files {
    home: File,
    log: SealedLog,
    block_bytes: usize,
}

impl Files {
    /// The files, of blocks of this size. `WouldBlock` where another program has one of them; `NotFound` where one file of a sealed log is missing.
    pub fn open(home: impl AsRef<Path>, log: impl AsRef<Path>, block_bytes: usize) -> io::Result<Files> {
        Files::open_by(home.as_ref(), log.as_ref(), block_bytes, false)
    }

    /// The same; but a log that names another volume is recovered too, and one of which a file is missing.
    pub fn open_any(home: impl AsRef<Path>, log: impl AsRef<Path>, block_bytes: usize) -> io::Result<Files> {
        Files::open_by(home.as_ref(), log.as_ref(), block_bytes, true)
    }

    fn open_by(home: &Path, log: &Path, block_bytes: usize, takes_any: bool) -> io::Result<Files> {
        Ok(Files {
            home: take(home)?,
            log: SealedLog::open(log, name_of(home), takes_any)?,
            block_bytes,
        })
    }

    /// Lays the log over the home file, syncs that, and empties the log. To be called before each mount.
    pub fn recover(&mut self) -> Result<Recovered, LogFault> {
        let [one, other] = self.log.read()?;
        let block_bytes = self.block_bytes;
        let recovered = Recovery::of_files(&one, &other)?.lay_over(self, block_bytes)?;
        self.log.empty(recovered.older)?;
        Ok(recovered)
    }

    /// Empties the log, once all that it says is home: after a mount was unmounted.
    pub fn empty_log(&mut self) -> io::Result<()> {
        self.log.empty(self.log.older())
    }
}

impl Devices for Files {
    fn read(&mut self, block: u64, mut into: &mut [u8]) -> io::Result<()> {
        let mut at = block * self.block_bytes as u64;
        while !into.is_empty() {
            match self.home.read_at(into, at)? {
                0 => {
                    into.fill(0);
                    break;
                }
                length => {
                    at += length as u64;
                    into = &mut into[length..];
                }
            }
        }
        Ok(())
    }

    fn write(&mut self, block: u64, content: &[u8]) -> io::Result<()> {
        self.home.write_all_at(content, block * self.block_bytes as u64)
    }

    fn sync(&mut self) -> io::Result<()> {
        self.home.sync_all()
    }

    fn begin_log(&mut self, geometry: &Geometry) -> io::Result<()> {
        self.log.begin(geometry)
    }

    fn append_text(&mut self, text: &[u8], seal: &mut dyn FnMut(&mut Header) -> Result<(), Fault>) -> io::Result<()> {
        self.log.append(text, seal)
    }
}
