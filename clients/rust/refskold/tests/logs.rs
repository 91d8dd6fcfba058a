//! Sealed logs in two files: killed, torn, turned, refused, and bare ones of before. What is recovered is compared with what `xth` makes of it, where `XTH` names it.

mod folder;

use folder::Folder;
use refskold::{Devices, Fault, Files, Geometry, LogFault, Mount};
use std::error::Error;
use std::fs;
use std::io::{self, BufRead, BufReader, ErrorKind, Write};
use std::os::unix::fs::FileExt;
use std::path::Path;
use std::process::{Command, Output, Stdio};
use std::sync::{Mutex, MutexGuard, PoisonError};

const BLOCKS: u64 = 16;
const SIZE: usize = 4_096;
const SMALL: Geometry = Geometry {
    log_bytes: 65_536,
    blocks: BLOCKS,
    size: None,
    last: 0,
};
/// The texts of whole blocks that one file has before it is the other one's turn, and what each takes in the file.
const TEXTS: u64 = 65_536 / 4_144;
const SEALED: u64 = 4_144 + 8;
const HEADER: u64 = 64;

type Tested = Result<(), Box<dyn Error>>;

/// Keeps other tests out: a process that one of them starts has the locks of this one's files until it runs its program.
fn alone() -> MutexGuard<'static, ()> {
    static ONE: Mutex<()> = Mutex::new(());
    ONE.lock().unwrap_or_else(PoisonError::into_inner)
}

/// The block that a change writes, whole.
fn content(number: u64) -> Vec<u8> {
    number.to_be_bytes().repeat(SIZE / 8)
}

/// One change that is forced; each eighth brings all home.
fn write<D: Devices>(mount: &mut Mount<D>, number: u64) -> Result<(), Fault> {
    let trans = mount.alloc(4_148, 1, false)?;
    mount.get(trans, number % BLOCKS)?;
    mount.log(trans, number % BLOCKS, 0, &content(number))?;
    mount.commit(trans)?;
    mount.force()?;
    if number % 8 == 0 {
        mount.push()?;
    }
    Ok(())
}

/// Leaves a volume with so many changes.
fn left(folder: &Folder, count: u64) -> Tested {
    let mut files = folder.files(SIZE)?;
    files.recover()?;
    let mut mount = Mount::open(files, SMALL)?;
    (1..=count).try_for_each(|number| write(&mut mount, number))?;
    Ok(())
}

/// Whether a home device has these changes.
fn has(files: &mut Files, count: u64) -> io::Result<bool> {
    for block in 0..BLOCKS {
        let (mut room, last) = (vec![0; SIZE], (0..=count).rev().find(|number| number % BLOCKS == block));
        files.read(block, &mut room)?;
        if room != content(last.unwrap_or(0)) {
            return Ok(false);
        }
    }
    Ok(true)
}

fn copied(from: &Folder, name: &str) -> io::Result<Folder> {
    let folder = Folder::new(name);
    for file in ["home", "log", "log.1"] {
        match fs::copy(from.0.join(file), folder.0.join(file)) {
            Err(error) if error.kind() != ErrorKind::NotFound => return Err(error),
            _ => {}
        }
    }
    Ok(folder)
}

fn xth(words: &[&str], folder: &Folder) -> io::Result<Option<Output>> {
    let Some(program) = std::env::var_os("XTH") else { return Ok(None) };
    Command::new(program).args(words).current_dir(&folder.0).output().map(Some)
}

/// What is left has all changes up to one of these two: what is recovered here and what `xth` recovers, which is the same.
fn recovers(folder: &Folder, name: &str, least: u64, most: u64) -> Tested {
    let by_xth = copied(folder, &format!("{name}-by-xth"))?;
    let ran = xth(&["recover", "home", "log", "--cut"], &by_xth)?;
    let mut files = folder.files(SIZE)?;
    files.recover()?;
    let found = (least..=most).find(|count| has(&mut files, *count).is_ok_and(|has| has));
    assert!(found.is_some(), "{name}: not {least} to {most} changes");
    if let Some(ran) = ran {
        assert!(ran.status.success(), "{name}: {}", String::from_utf8_lossy(&ran.stderr));
        assert_eq!(fs::read(by_xth.0.join("home"))?, fs::read(folder.0.join("home"))?, "{name}");
    }
    for file in ["log", "log.1"] {
        assert_eq!(fs::metadata(folder.0.join(file))?.len(), 0);
    }
    Ok(())
}

/// What a process of this program does that is to be killed: it recovers, and then tells each change once it is on the log.
#[test]
fn writer() -> Tested {
    let Some(path) = std::env::var_os("REFSKOLD_WRITER") else { return Ok(()) };
    let path = Path::new(&path);
    let mut files = Files::open(path.join("home"), path.join("log"), SIZE)?;
    files.recover()?;
    let mut mount = Mount::open(files, SMALL)?;
    for number in 1.. {
        write(&mut mount, number)?;
        let mut out = io::stdout().lock();
        writeln!(out, "\ntold {number}")?;
        out.flush()?;
    }
    Ok(())
}

#[test]
fn a_writer_is_killed() -> Tested {
    let _alone = alone();
    for wanted in [1, TEXTS, TEXTS + 1, 3 * TEXTS] {
        let folder = Folder::new(&format!("killed{wanted}"));
        let mut writer = Command::new(std::env::current_exe()?);
        let writer = writer.args(["--exact", "writer", "--nocapture"]).env("REFSKOLD_WRITER", &folder.0);
        let mut writer = writer.stdout(Stdio::piped()).spawn()?;
        let (mut told, mut killed) = (0, Ok(()));
        for line in BufReader::new(writer.stdout.take().ok_or("no pipe")?).lines() {
            if let Some(number) = line?.strip_prefix("told ") {
                told = number.parse()?;
                if told == wanted {
                    killed = writer.kill();
                }
            }
        }
        killed?;
        writer.wait()?;
        assert!(told >= wanted);
        recovers(&folder, &format!("killed{wanted}"), told, told + 1)?;
    }
    Ok(())
}

/// A file that is emptied, that has a part of its header, its header, the one of two turns before, or a part of its first text, has no text; the other one counts.
#[test]
fn a_turn_is_broken_off() -> Tested {
    let _alone = alone();
    let folder = Folder::new("turned");
    left(&folder, TEXTS)?;
    let before = fs::read(folder.0.join("log"))?;
    recovers(&copied(&folder, "turn0")?, "turn0", TEXTS, TEXTS)?;
    let folder = Folder::new("twice-turned");
    left(&folder, 2 * TEXTS + 1)?;
    for length in [0, 10, HEADER, HEADER + SEALED - 1, HEADER + SEALED] {
        let (name, is_whole) = (format!("turn-{length}"), length == HEADER + SEALED);
        let copy = copied(&folder, &name)?;
        fs::OpenOptions::new().write(true).open(copy.0.join("log"))?.set_len(length)?;
        let count = 2 * TEXTS + u64::from(is_whole);
        recovers(&copy, &name, count, count)?;
    }
    let copy = copied(&folder, "old-header")?;
    fs::write(copy.0.join("log"), &before[..HEADER as usize])?;
    recovers(&copy, "old-header", 2 * TEXTS, 2 * TEXTS)
}

#[test]
fn a_rotten_text_is_told() -> Tested {
    let _alone = alone();
    let folder = Folder::new("rotten");
    left(&folder, 3)?;
    let log = fs::OpenOptions::new().write(true).open(folder.0.join("log"))?;
    log.write_all_at(b"rot", HEADER + SEALED + 100)?;
    match folder.files(SIZE)?.recover() {
        Err(LogFault::Rotten { file: 0, at }) => assert_eq!(at, HEADER + SEALED),
        other => panic!("{other:?}"),
    }
    if let Some(ran) = xth(&["recover", "home", "log"], &folder)? {
        assert_eq!((ran.status.code(), ran.stdout), (Some(3), format!("fault {}\n", HEADER + SEALED).into_bytes()));
    }
    Ok(())
}

#[test]
fn logs_of_others_are_refused() -> Tested {
    let _alone = alone();
    let folder = Folder::new("others");
    left(&folder, TEXTS + 1)?;
    for file in ["log", "log.1"] {
        let copy = copied(&folder, &format!("lacks-{file}"))?;
        fs::remove_file(copy.0.join(file))?;
        assert_eq!(copy.files(SIZE).err().map(|error| error.kind()), Some(ErrorKind::NotFound));
        assert!(!copy.0.join(file).exists());
    }
    let other = folder.0.join("another.home");
    fs::rename(folder.0.join("home"), &other)?;
    let mut files = Files::open(&other, folder.0.join("log"), SIZE)?;
    for _ in 0..3 {
        assert!(matches!(files.recover(), Err(LogFault::Other(name)) if &name == b"home\0\0\0\0\0\0\0\0\0\0\0\0"));
    }
    drop(files);
    if let Some(ran) = xth(&["recover", "another.home", "log"], &folder)? {
        assert_eq!(ran.stderr, b"fault: the log of 'home', not of 'another.home'\n");
    }
    let mut files = Files::open_any(&other, folder.0.join("log"), SIZE)?;
    files.recover()?;
    assert!(has(&mut files, TEXTS + 1)?);
    Ok(())
}

#[test]
fn a_bare_log_is_recovered_and_the_next_one_sealed() -> Tested {
    let _alone = alone();
    struct Bare(fs::File);
    impl Devices for Bare {
        fn read(&mut self, _: u64, into: &mut [u8]) -> io::Result<()> {
            into.fill(0);
            Ok(())
        }
        fn write(&mut self, _: u64, _: &[u8]) -> io::Result<()> {
            Ok(())
        }
        fn sync(&mut self) -> io::Result<()> {
            Ok(())
        }
        fn append(&mut self, piece: &[u8]) -> io::Result<()> {
            self.0.write_all(piece)
        }
        fn sync_log(&mut self) -> io::Result<()> {
            self.0.sync_data()
        }
    }
    let folder = Folder::new("bare");
    fs::write(folder.0.join("home"), b"")?;
    let mut mount = Mount::open(Bare(fs::File::create(folder.0.join("log"))?), SMALL)?;
    (1..=3).try_for_each(|number| write(&mut mount, number))?;
    recovers(&folder, "bare", 3, 3)?;
    left(&folder, 1)?;
    assert!(fs::read(folder.0.join("log"))?.starts_with(b"XCL1"));
    if let Some(ran) = xth(&["logdump", "log"], &folder)? {
        assert!(ran.stdout.starts_with(b"c1 1\n"));
    }
    let unread = Mount::open(folder.files(SIZE)?, SMALL);
    assert_eq!(unread.err().map(|fault| fault.errno), Some(17));
    Ok(())
}
