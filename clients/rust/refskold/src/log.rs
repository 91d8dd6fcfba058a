//! A sealed log in two files, LOG and LOG.1, which are written by turns (docs/use/checkpoint-format.md).

use crate::abi::{self, judged, Fault, Fields, Header};
use crate::mount::Geometry;
use crate::recovery::LogFault;
use std::fs::{File, OpenOptions};
use std::io::{self, ErrorKind, Read, Seek};
use std::os::fd::AsRawFd;
use std::os::unix::ffi::OsStrExt;
use std::os::unix::fs::FileExt;
use std::path::{Path, PathBuf};

unsafe extern "C" {
    fn flock(descriptor: i32, operation: i32) -> i32;
}

/// `LOCK_EX | LOCK_NB`
const LOCK_NOW: i32 = 2 | 4;

/// What the header of a file of a sealed log begins with.
const MAGIC: &[u8] = b"XCL1";

/// Opens a file, which is made where it is missing, and locks it as `xth` does. Its name is safe then.
pub(crate) fn take(path: &Path) -> io::Result<File> {
    let file = OpenOptions::new().read(true).write(true).create(true).truncate(false).open(path)?;
    // SAFETY: the descriptor is of a file that is open
    if unsafe { flock(file.as_raw_fd(), LOCK_NOW) } != 0 {
        return Err(io::Error::last_os_error());
    }
    let folder = path.parent().filter(|folder| !folder.as_os_str().is_empty()).unwrap_or(Path::new("."));
    File::open(folder)?.sync_all()?;
    Ok(file)
}

/// SipHash-1-3 of bytes, with keys of 0, the high byte first.
fn sum_of(data: &[u8]) -> [u8; 8] {
    fn mix(v: &mut [u64; 4]) {
        v[0] = v[0].wrapping_add(v[1]);
        v[2] = v[2].wrapping_add(v[3]);
        v[1] = v[1].rotate_left(13) ^ v[0];
        v[3] = v[3].rotate_left(16) ^ v[2];
        v[0] = v[0].rotate_left(32).wrapping_add(v[3]);
        v[2] = v[2].wrapping_add(v[1]);
        v[1] = v[1].rotate_left(17) ^ v[2];
        v[3] = v[3].rotate_left(21) ^ v[0];
        v[2] = v[2].rotate_left(32);
    }
    let mut v = [0x736f_6d65_7073_6575, 0x646f_7261_6e64_6f6d, 0x6c79_6765_6e65_7261, 0x7465_6462_7974_6573];
    let mut padded = data.to_vec();
    padded.resize(data.len() / 8 * 8 + 7, 0);
    padded.push(data.len() as u8);
    for part in padded.chunks(8) {
        let word = part.iter().rev().fold(0, |word, byte| word << 8 | u64::from(*byte));
        v[3] ^= word;
        mix(&mut v);
        v[0] ^= word;
    }
    v[2] ^= 0xff;
    for _ in 0..3 {
        mix(&mut v);
    }
    (v[0] ^ v[1] ^ v[2] ^ v[3]).to_be_bytes()
}

/// The name that a volume's log has: the last one of the home file's path, or of a longer one the first 8 bytes and a sum of all.
pub(crate) fn name_of(home: &Path) -> [u8; 16] {
    let last = home.file_name().unwrap_or_default().as_bytes();
    let mut name = [0; 16];
    if last.len() <= name.len() {
        name[..last.len()].copy_from_slice(last);
    } else {
        name[..8].copy_from_slice(&last[..8]);
        name[8..].copy_from_slice(&sum_of(last));
    }
    name
}

/// Refuses a log of which this file is missing, where the other one is of a sealed log and may have a text.
fn refuse_missing(missing: &Path, other: &Path) -> io::Result<()> {
    if missing.exists() || !other.exists() {
        return Ok(());
    }
    let mut front = Vec::new();
    File::open(other)?.take(abi::LOG_HEADER as u64 + 1).read_to_end(&mut front)?;
    if front.len() > abi::LOG_HEADER && front.starts_with(MAGIC) {
        let what = format!("{}: the other file of the log is missing", missing.display());
        return Err(io::Error::new(ErrorKind::NotFound, what));
    }
    Ok(())
}

/// Both files, which are locked. A life begins in files that are empty.
pub(crate) struct SealedLog {
    files: [File; 2],
    name: [u8; 16],
    takes_any: bool,
    /// Which file is written, and its header, whose end is its last seal.
    newer: usize,
    header: Header,
    fields: Fields,
    /// Where its texts end, and their bytes alone.
    end: u64,
    texts: u64,
}

impl SealedLog {
    /// The files, which are made where they are missing.
    pub(crate) fn open(path: &Path, name: [u8; 16], takes_any: bool) -> io::Result<SealedLog> {
        let mut other = path.as_os_str().to_owned();
        other.push(".1");
        let paths = [path.to_owned(), PathBuf::from(other)];
        if !takes_any {
            refuse_missing(&paths[0], &paths[1])?;
            refuse_missing(&paths[1], &paths[0])?;
        }
        let files = [take(&paths[0])?, take(&paths[1])?];
        for file in &files {
            if !file.metadata()?.is_file() {
                return Err(io::Error::new(ErrorKind::InvalidInput, "a log is a plain file"));
            }
        }
        Ok(SealedLog {
            files,
            name,
            takes_any,
            newer: 0,
            header: [0; abi::LOG_HEADER],
            fields: Fields::default(),
            end: 0,
            texts: 0,
        })
    }

    /// What both files have. The log of another volume is refused; a file with no more than a header has no text, and its name may be of long before.
    pub(crate) fn read(&self) -> Result<[Vec<u8>; 2], LogFault> {
        let mut contents = [Vec::new(), Vec::new()];
        for (mut file, content) in self.files.iter().zip(&mut contents) {
            file.rewind()?;
            file.read_to_end(content)?;
            let mut fields = Fields::default();
            // SAFETY: the pointer is to so many bytes, and the fields are written to their place
            let is_told = content.len() > abi::LOG_HEADER && unsafe { abi::refskold_abi_log_read(content.as_ptr(), abi::LOG_HEADER, &mut fields) } == 0;
            if is_told && fields.name != self.name && !self.takes_any {
                return Err(LogFault::Other(fields.name));
            }
        }
        Ok(contents)
    }

    /// Begins a life, of a mount of this size. That the files are empty is made safe first: who emptied them may have been killed then.
    pub(crate) fn begin(&mut self, geometry: &Geometry) -> io::Result<()> {
        for file in &self.files {
            if file.metadata()?.len() > 0 {
                return Err(io::Error::new(ErrorKind::AlreadyExists, "the log is not empty: recover it first"));
            }
        }
        self.empty(0)?;
        let mut salt = [0; 8];
        File::open("/dev/urandom")?.read_exact(&mut salt)?;
        self.fields = Fields {
            salt: u64::from_ne_bytes(salt),
            block_size: geometry.block_bytes() as u32,
            log_bytes: geometry.log_bytes,
            name: self.name,
            ..Fields::default()
        };
        self.begin_file(0, [0; abi::SEAL])
    }

    /// Begins a file that is empty. Its header is safe before a text stands behind it.
    fn begin_file(&mut self, which: usize, link: [u8; abi::SEAL]) -> io::Result<()> {
        self.fields.generation += 1;
        self.fields.link = link;
        // SAFETY: the header has so many bytes
        judged(unsafe { abi::refskold_abi_log_header(self.header.as_mut_ptr(), abi::LOG_HEADER, &self.fields) })?;
        self.files[which].write_all_at(&self.header, 0)?;
        self.files[which].sync_data()?;
        (self.newer, self.end, self.texts) = (which, abi::LOG_HEADER as u64, 0);
        Ok(())
    }

    fn last_seal(&self) -> [u8; abi::SEAL] {
        let mut seal = [0; abi::SEAL];
        seal.copy_from_slice(&self.header[abi::LOG_HEAD..]);
        seal
    }

    /// Writes the text of a checkpoint, and behind it its seal, which `seal` makes in the header; and syncs both. Where the texts of the file would be more than
    /// the mount's log it is the other file's turn: of what that has nothing is wanted any more, since the mount never needs more than that, and no block
    /// counts as home before it is synced.
    pub(crate) fn append(&mut self, text: &[u8], seal: &mut dyn FnMut(&mut Header) -> Result<(), Fault>) -> io::Result<()> {
        if self.texts + text.len() as u64 > u64::from(self.fields.log_bytes) {
            let older = 1 - self.newer;
            self.empty_file(older)?;
            self.begin_file(older, self.last_seal())?;
        }
        seal(&mut self.header)?;
        let sealed = [text, &self.last_seal()].concat();
        self.files[self.newer].write_all_at(&sealed, self.end)?;
        self.files[self.newer].sync_data()?;
        self.end += sealed.len() as u64;
        self.texts += text.len() as u64;
        Ok(())
    }

    fn empty_file(&self, which: usize) -> io::Result<()> {
        self.files[which].set_len(0)?;
        self.files[which].sync_all()
    }

    /// Empties both files, once all that they say is home: the older one first, since the newer one alone says what came last.
    pub(crate) fn empty(&mut self, older: usize) -> io::Result<()> {
        self.empty_file(older)?;
        self.empty_file(1 - older)
    }

    /// Which file is the older one of this life.
    pub(crate) fn older(&self) -> usize {
        1 - self.newer
    }
}

#[cfg(test)]
mod tests {
    use super::*;

    #[test]
    fn names_are_those_that_the_format_says() {
        assert_eq!(sum_of(b"").map(u64::from), [0xd1, 0xfb, 0xa7, 0x62, 0x15, 0x0c, 0x53, 0x2c]);
        assert_eq!(sum_of(b"abc").map(u64::from), [0xc0, 0x3b, 0xc3, 0xa0, 0x04, 0x26, 0x30, 0xf2]);
        assert_eq!(&name_of(Path::new("a/home")), b"home\0\0\0\0\0\0\0\0\0\0\0\0");
        assert_eq!(&name_of(Path::new("a/sixteen-bytes.xy")), b"sixteen-bytes.xy");
        let long = name_of(Path::new("a/seventeen-bytes.x"));
        assert_eq!((&long[..8], &long[8..]), (&b"seventee"[..], &sum_of(b"seventeen-bytes.x")[..]));
    }
}
