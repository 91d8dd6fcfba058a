//! Mounts and recovery over the C library, in files and over devices that fail. `XTH` names the program `xth`, which then reads the same logs.

mod folder;

use folder::Folder;
use refskold::{recover, Committed, Devices, Fault, Geometry, LogFault, Mount, Reason, Recovery, State};
use std::collections::BTreeMap;
use std::io::{self, ErrorKind};
use std::process::Command;

const SMALL: Geometry = Geometry {
    log_bytes: 65_536,
    blocks: 1_024,
    size: None,
    last: 0,
};

#[derive(Clone, Copy, PartialEq, Eq)]
enum Failing {
    Nothing,
    Read,
    Write,
    Sync,
    Append,
    SyncLog,
}

/// Devices in memory, of which one call may fail.
struct InMemory {
    home: BTreeMap<u64, Vec<u8>>,
    log: Vec<u8>,
    failing: Failing,
}

impl InMemory {
    fn new() -> InMemory {
        InMemory {
            home: BTreeMap::new(),
            log: Vec::new(),
            failing: Failing::Nothing,
        }
    }

    fn judge(&self, call: Failing) -> io::Result<()> {
        if self.failing == call {
            Err(io::Error::from(ErrorKind::Other))
        } else {
            Ok(())
        }
    }
}

impl Devices for InMemory {
    fn read(&mut self, block: u64, into: &mut [u8]) -> io::Result<()> {
        self.judge(Failing::Read)?;
        match self.home.get(&block) {
            Some(content) => into.copy_from_slice(content),
            None => into.fill(0),
        }
        Ok(())
    }

    fn write(&mut self, block: u64, content: &[u8]) -> io::Result<()> {
        self.judge(Failing::Write)?;
        self.home.insert(block, content.to_vec());
        Ok(())
    }

    fn sync(&mut self) -> io::Result<()> {
        self.judge(Failing::Sync)
    }

    fn append(&mut self, piece: &[u8]) -> io::Result<()> {
        self.judge(Failing::Append)?;
        self.log.extend_from_slice(piece);
        Ok(())
    }

    fn sync_log(&mut self) -> io::Result<()> {
        self.judge(Failing::SyncLog)
    }
}

/// One transaction that writes bytes in a block.
fn change<D: Devices>(mount: &mut Mount<D>, block: u64, first: u32, data: &[u8]) -> Result<Committed, Fault> {
    let trans = mount.alloc(5_000, 1, false)?;
    mount.read(trans, block)?;
    mount.log(trans, block, first, data)?;
    mount.commit(trans)
}

/// What a block has.
fn seen<D: Devices>(mount: &mut Mount<D>, block: u64) -> Result<Vec<u8>, Fault> {
    let trans = mount.alloc(1, 1, false)?;
    mount.read(trans, block)?;
    let content = mount.view(trans, block)?;
    mount.cancel(trans)?;
    Ok(content)
}

fn errno<T>(result: Result<T, Fault>) -> i32 {
    result.err().map_or(0, |fault| fault.errno)
}

const EIO: i32 = 5;
const EAGAIN: i32 = 11;
const EBUSY: i32 = 16;
const ENODEV: i32 = 19;
const EINVAL: i32 = 22;

#[test]
fn the_library_is_of_these_types() {
    assert_eq!(refskold::version(), refskold::VERSION);
}

#[test]
fn a_change_goes_to_the_log_and_home() -> Result<(), Fault> {
    let mut mount = Mount::open(InMemory::new(), SMALL)?;
    assert_eq!(change(&mut mount, 7, 100, b"hello")?, Committed { number: 1, held: vec![] });
    assert_eq!(&seen(&mut mount, 7)?[100..105], b"hello");
    assert!(mount.devices().log.is_empty());
    mount.force()?;
    assert_eq!(mount.devices().log.len(), 176);
    assert!(mount.devices().home.is_empty());
    mount.push()?;
    assert_eq!(&mount.devices().home[&7][100..105], b"hello");
    mount.unmount()?;
    assert_eq!(errno(mount.alloc(5_000, 1, false)), ENODEV);
    Ok(())
}

#[test]
fn a_mount_tells_of_itself() -> Result<(), Fault> {
    let mut mount = Mount::open(InMemory::new(), SMALL)?;
    let empty = State {
        free: SMALL.log_bytes,
        ..State::default()
    };
    assert_eq!(mount.stat()?, empty);
    let trans = mount.alloc(5_000, 2, true)?;
    let State {
        transactions,
        granted,
        used,
        free,
        ..
    } = mount.stat()?;
    assert_eq!((transactions, granted, used, free), (1, 10_000, 10_000, SMALL.log_bytes - 10_000));
    mount.cancel(trans)?;
    change(&mut mount, 7, 100, b"hello")?;
    let State {
        busy, committed, cost, used, ..
    } = mount.stat()?;
    assert_eq!((busy, committed, cost, used), (1, 1, 176, 176));
    mount.force()?;
    let State { busy, active, least, used, .. } = mount.stat()?;
    assert_eq!((busy, active, least, used), (1, 1, 1, 176));
    mount.push()?;
    mount.freeze()?;
    assert_eq!(mount.stat()?, State { idle: 1, frozen: 1, ..empty });
    mount.unmount()?;
    assert_eq!(errno(mount.stat()), ENODEV);
    Ok(())
}

#[test]
fn blocks_have_the_size_that_is_said() -> Result<(), Box<dyn std::error::Error>> {
    for size in [512, 1_024, 2_048, 4_096] {
        let mut mount = Mount::open(InMemory::new(), Geometry { size: Some(size), ..SMALL })?;
        change(&mut mount, 3, size - 2, b"ab")?;
        assert_eq!(seen(&mut mount, 3)?.len(), size as usize);
        assert_eq!(errno(change(&mut mount, 4, size - 1, b"ab")), EINVAL);
        mount.force()?;
        let log = mount.devices().log.clone();
        let mut devices = InMemory::new();
        let told = recover(&mut devices, [Ok(&log)], size as usize)?;
        assert_eq!((told.texts, told.rest, told.blocks, told.block_bytes), (1, 0, 1, size as usize));
        assert_eq!(&devices.home[&3][size as usize - 2..], b"ab");
        assert!(matches!(recover(&mut devices, [Ok(&log)], 2 * size as usize), Err(LogFault::Size(_))));
    }
    assert_eq!(errno(Mount::open(InMemory::new(), Geometry { size: Some(600), ..SMALL })), EINVAL);
    assert_eq!(errno(Mount::open(InMemory::new(), Geometry { log_bytes: 65_535, ..SMALL })), EINVAL);
    Ok(())
}

#[test]
fn legs_roll_and_blocks_are_held() -> Result<(), Fault> {
    let mut mount = Mount::open(InMemory::new(), SMALL)?;
    let trans = mount.alloc(5_000, 2, true)?;
    mount.get(trans, 1)?;
    mount.log(trans, 1, 0, &[1; 4_096])?;
    mount.hold(trans, 1)?;
    assert_eq!(mount.roll(trans)?, Committed { number: 1, held: vec![1] });
    mount.join(trans, 1)?;
    mount.log(trans, 1, 1, &[2])?;
    assert_eq!(mount.commit(trans)?.held, []);
    assert_eq!(seen(&mut mount, 1)?[..3], [1, 2, 1]);
    assert_eq!(errno(mount.release(1)), EINVAL);
    mount.force_to(1)?;
    assert_eq!(errno(mount.force_to(9)), EINVAL);
    Ok(())
}

#[test]
fn blocks_are_locked() -> Result<(), Fault> {
    let mut mount = Mount::open(InMemory::new(), SMALL)?;
    let (one, other) = (mount.alloc(5_000, 1, false)?, mount.alloc(5_000, 1, false)?);
    mount.read(one, 1)?;
    assert_eq!(errno(mount.read(other, 1)), EAGAIN);
    mount.read(one, 1)?;
    assert!(!mount.relse(one, 1)?);
    assert!(mount.relse(one, 1)?);
    mount.read(other, 1)?;
    assert_eq!((mount.cancel(one)?, mount.cancel(other)?), (vec![], vec![]));
    mount.freeze()?;
    assert_eq!(errno(mount.alloc(5_000, 1, false)), EAGAIN);
    assert_eq!(errno(mount.freeze()), EBUSY);
    mount.thaw()?;
    let trans = mount.alloc(5_000, 1, false)?;
    mount.read(trans, 2)?;
    mount.hold(trans, 2)?;
    mount.unhold(trans, 2)?;
    mount.inval(trans, 2)?;
    mount.commit(trans)?;
    mount.force()
}

#[test]
fn a_shut_mount_gives_back_what_is_held() -> Result<(), Fault> {
    let mut mount = Mount::open(InMemory::new(), SMALL)?;
    let trans = mount.alloc(5_000, 1, false)?;
    mount.read(trans, 2)?;
    mount.hold(trans, 2)?;
    mount.log(trans, 2, 0, b"x")?;
    assert_eq!(mount.shut(), None);
    mount.shutdown()?;
    assert_eq!(mount.shut(), Some(Reason::ForceUmount));
    assert_eq!(mount.commit(trans), Err(Fault { errno: EIO, held: vec![2] }));
    mount.release(2)
}

#[test]
fn devices_may_fail() -> Result<(), Fault> {
    for failing in [Failing::Append, Failing::SyncLog] {
        let mut mount = Mount::open(InMemory::new(), SMALL)?;
        change(&mut mount, 1, 0, b"x")?;
        mount.devices().failing = failing;
        assert_eq!(errno(mount.force()), EIO);
        assert_eq!(mount.shut(), Some(Reason::LogIoError));
    }
    let mut mount = Mount::open(InMemory::new(), SMALL)?;
    let trans = mount.alloc(5_000, 1, false)?;
    mount.read(trans, 1)?;
    mount.log(trans, 1, 0, b"x")?;
    mount.devices().failing = Failing::Read;
    assert_eq!(errno(mount.read(trans, 2)), EIO);
    assert_eq!(mount.shut(), Some(Reason::MetaIoError));
    for failing in [Failing::Write, Failing::Sync] {
        let mut mount = Mount::open(InMemory::new(), SMALL)?;
        change(&mut mount, 1, 0, b"x")?;
        mount.force()?;
        mount.devices().failing = failing;
        mount.push()?;
        assert_eq!(errno(mount.unmount()), EBUSY);
        mount.devices().failing = Failing::Nothing;
        mount.push()?;
        mount.unmount()?;
        assert_eq!(mount.devices().home[&1][0], b'x');
    }
    Ok(())
}

#[test]
fn a_mount_goes_to_another_thread() -> Result<(), Fault> {
    let mut mount = Mount::open(InMemory::new(), SMALL)?;
    change(&mut mount, 7, 0, b"from here")?;
    let worker = std::thread::spawn(move || mount.force().and_then(|()| mount.push()).map(|()| mount));
    let mut mount = worker.join().expect("a thread")?;
    assert_eq!(&mount.devices().home[&7][..9], b"from here");
    mount.unmount()
}

#[test]
fn logs_are_read_whole_and_in_pieces() -> Result<(), Box<dyn std::error::Error>> {
    let mut mount = Mount::open(InMemory::new(), SMALL)?;
    for count in 0..3 {
        change(&mut mount, 1, 0, &[count])?;
        mount.force()?;
    }
    let log = mount.devices().log.clone();
    for cut in [0, 1, 175, 176, 300, log.len()] {
        let told = Recovery::of([Ok(&log[..cut])])?.told();
        assert_eq!((told.texts, told.rest), ((cut / 176) as u64, (cut % 176) as u64));
    }
    let mut pieces = Recovery::of(log.chunks(7).map(Ok))?;
    let mut content = [9; 4_096];
    pieces.lay(1, &mut content)?;
    assert_eq!((pieces.block(0)?, content[0], content[127], content[128]), (1, 2, 0, 9));
    assert_eq!(errno(pieces.block(1)), EINVAL);
    let mut broken = log.clone();
    broken[176..180].copy_from_slice(b"none");
    assert!(matches!(Recovery::of([Ok(&broken)]), Err(LogFault::Broken(176))));
    Ok(())
}

#[test]
fn what_was_forced_outlives_a_crash() -> Result<(), Box<dyn std::error::Error>> {
    let folder = Folder::new("crash");
    for (last, size) in [(0, None), (1, Some(512))] {
        let geometry = Geometry { size, last, ..SMALL };
        let mut files = folder.files(geometry.block_bytes())?;
        files.recover()?;
        let mut mount = Mount::open(files, geometry)?;
        change(&mut mount, 5, 10, b"kept")?;
        mount.force()?;
        change(&mut mount, 5, 20, b"lost")?;
        drop(mount);
        if let Some(xth) = std::env::var_os("XTH") {
            let printed = Command::new(xth).arg("logdump").arg(folder.0.join("log")).output()?.stdout;
            let wanted: &[u8] = if size.is_some() { b"c1 1 512\n" } else { b"c1 1\n" };
            assert!(printed.starts_with(wanted));
        }
        let mut files = folder.files(geometry.block_bytes())?;
        assert_eq!(files.recover()?.texts, 1);
        let mut content = vec![0; geometry.block_bytes()];
        files.read(5, &mut content)?;
        assert_eq!(&content[10..24], b"kept\0\0\0\0\0\0\0\0\0\0");
        assert_eq!(std::fs::metadata(folder.0.join("log"))?.len(), 0);
    }
    Ok(())
}

#[test]
fn files_are_locked() -> io::Result<()> {
    let folder = Folder::new("locked");
    let files = folder.files(4_096)?;
    assert_eq!(folder.open(4_096).err().map(|error| error.kind()), Some(ErrorKind::WouldBlock));
    if let Some(xth) = std::env::var_os("XTH") {
        let ran = Command::new(xth).arg("recover").arg(folder.0.join("home")).arg(folder.0.join("log")).output()?;
        assert_eq!(ran.status.code(), Some(1));
        assert!(ran.stderr.ends_with(b": in use\n"));
    }
    drop(files);
    folder.files(4_096).map(drop)
}
