//! A folder for the files of a volume, which is gone at the end.

use refskold::Files;
use std::io::{self, ErrorKind};
use std::path::PathBuf;

pub struct Folder(pub PathBuf);

impl Folder {
    pub fn new(name: &str) -> Folder {
        let path = std::env::temp_dir().join(format!("refskold-{name}-{}", std::process::id()));
        std::fs::create_dir(&path).expect("a folder");
        Folder(path)
    }

    pub fn open(&self, block_bytes: usize) -> io::Result<Files> {
        Files::open(self.0.join("home"), self.0.join("log"), block_bytes)
    }

    /// The files, once no process that another test starts has them too, as one has until it runs its program.
    pub fn files(&self, block_bytes: usize) -> io::Result<Files> {
        for _ in 0..1_000 {
            match self.open(block_bytes) {
                Err(error) if error.kind() == ErrorKind::WouldBlock => std::thread::sleep(std::time::Duration::from_millis(10)),
                opened => return opened,
            }
        }
        self.open(block_bytes)
    }
}

impl Drop for Folder {
    fn drop(&mut self) {
        let _ = std::fs::remove_dir_all(&self.0);
    }
}
