//! A small run of a mount over the C library, by the crate of clients/rust.
//!
//!     flags="--edition 2021 -O -L native=$(tools/lib)/lib"
//!     rustc $flags --crate-type lib --crate-name refskold clients/rust/refskold/src/lib.rs -o librefskold.rlib
//!     rustc $flags --extern refskold=librefskold.rlib -l static=refskold examples/embed/refskold.rs -o mount

use refskold::{Devices, Geometry, Mount};
use std::collections::BTreeMap;
use std::io;

/// Devices in memory.
#[derive(Default)]
struct InMemory {
    home: BTreeMap<u64, Vec<u8>>,
    log: Vec<u8>,
}

impl Devices for InMemory {
    fn read(&mut self, block: u64, into: &mut [u8]) -> io::Result<()> {
        match self.home.get(&block) {
            Some(content) => into.copy_from_slice(content),
            None => into.fill(0),
        }
        Ok(())
    }

    fn write(&mut self, block: u64, content: &[u8]) -> io::Result<()> {
        self.home.insert(block, content.to_vec());
        Ok(())
    }

    fn sync(&mut self) -> io::Result<()> {
        Ok(())
    }

    fn append(&mut self, piece: &[u8]) -> io::Result<()> {
        self.log.extend_from_slice(piece);
        Ok(())
    }

    fn sync_log(&mut self) -> io::Result<()> {
        Ok(())
    }
}

/// One change, from its transaction to the home device, by two threads.
fn main() -> Result<(), Box<dyn std::error::Error>> {
    let geometry = Geometry { log_bytes: 65_536, blocks: 1_024, size: None, last: 0 };
    let mut mount = Mount::open(InMemory::default(), geometry)?;
    let trans = mount.alloc(5_000, 1, false)?;
    mount.read(trans, 7)?;
    mount.log(trans, 7, 100, b"hello")?;
    println!("seen: {}", String::from_utf8_lossy(&mount.view(trans, 7)?[100..105]));
    let committed = mount.commit(trans)?;
    println!("checkpoint {}, {} held", committed.number, committed.held.len());
    let worker = std::thread::spawn(move || mount.force().and_then(|()| mount.push()).map(|()| mount));
    let mut mount = worker.join().expect("a thread")?;
    let devices = mount.devices();
    println!("log: {} bytes, home: {}", devices.log.len(), String::from_utf8_lossy(&devices.home[&7][100..105]));
    println!("refused: {}", mount.cancel(trans).err().ok_or("a cancelled transaction")?);
    mount.unmount()?;
    Ok(())
}
