//! A mount.

use crate::abi::{self, judged, told, word, Fault, Handle, Header, Plan, Reason, Reply, Request, State};
use crate::BLOCK_BYTES;
use std::io;

/// What a mount writes to. Each call says by its error that the device failed; which error does not matter to the mount.
///
/// A bare log has `append` and `sync_log`. A sealed one, as that of [`Files`](crate::Files), has `begin_log` and `append_text` in their place.
pub trait Devices {
    /// Reads a block of the home device into a room of its size.
    fn read(&mut self, block: u64, into: &mut [u8]) -> io::Result<()>;
    /// Writes a block of the home device.
    fn write(&mut self, block: u64, content: &[u8]) -> io::Result<()>;
    /// Syncs the home device.
    fn sync(&mut self) -> io::Result<()>;
    /// Adds a piece to the log.
    fn append(&mut self, _piece: &[u8]) -> io::Result<()> {
        Err(io::ErrorKind::Unsupported.into())
    }
    /// Syncs the log.
    fn sync_log(&mut self) -> io::Result<()> {
        Err(io::ErrorKind::Unsupported.into())
    }
    /// Begins the log of a mount of this size.
    fn begin_log(&mut self, _geometry: &Geometry) -> io::Result<()> {
        Ok(())
    }
    /// Writes the text of a checkpoint to the log, and syncs it. Behind it stands its seal, where the log is sealed: `seal` makes it at the end of the header.
    fn append_text(&mut self, text: &[u8], _seal: &mut dyn FnMut(&mut Header) -> Result<(), Fault>) -> io::Result<()> {
        for piece in text.chunks(BLOCK_BYTES) {
            self.append(piece)?;
        }
        self.sync_log()
    }
}

/// How large a mount is.
#[derive(Clone, Copy, Debug, PartialEq, Eq)]
pub struct Geometry {
    /// The log bytes that may be in use, 65,536 to 16,777,216.
    pub log_bytes: u32,
    /// The blocks of the home device.
    pub blocks: u64,
    /// The bytes of a block, 512 to 4,096, which each text of the log says; without it a block has 4,096.
    pub size: Option<u32>,
    /// The last life of the volume, 0 at first.
    pub last: u32,
}

impl Geometry {
    /// The bytes of a block.
    pub fn block_bytes(&self) -> usize {
        self.size.map_or(BLOCK_BYTES, |size| size as usize)
    }
}

/// What a commit or a roll tells.
#[derive(Clone, Debug, PartialEq, Eq)]
pub struct Committed {
    /// The checkpoint that the changes will be in; 0 where there are none.
    pub number: u64,
    /// The blocks that stay held.
    pub held: Vec<u64>,
}

/// A mount over devices, which are its own.
pub struct Mount<D> {
    handle: Handle,
    devices: D,
    block_bytes: usize,
    /// A checkpoint that was taken, and for want of memory not begun.
    taken: Option<u64>,
}

// SAFETY: the library keeps nothing of a thread, and a mount owns all that its handle points to. The pointer in it keeps it from being `Sync`
unsafe impl<D: Send> Send for Mount<D> {}

impl<D> Drop for Mount<D> {
    fn drop(&mut self) {
        // SAFETY: the handle is this mount's, and holds a mount or none
        unsafe { abi::refskold_abi_close(&mut self.handle) }
    }
}

impl<D: Devices> Mount<D> {
    /// A new mount, of the life after the last: over a home device that has all that was committed, and an empty log. EEXIST where it is not.
    pub fn open(devices: D, geometry: Geometry) -> Result<Self, Fault> {
        let Geometry { log_bytes, blocks, size, last } = geometry;
        let mut mount = Mount {
            handle: Handle::NONE,
            devices,
            block_bytes: geometry.block_bytes(),
            taken: None,
        };
        // SAFETY: the handle holds none
        let status = unsafe {
            match size {
                Some(size) => abi::refskold_abi_open_sized(&mut mount.handle, last, log_bytes, blocks, size),
                None => abi::refskold_abi_open(&mut mount.handle, last, log_bytes, blocks),
            }
        };
        judged(status)?;
        mount.devices.begin_log(&geometry).map_err(|error| Fault::of(&error))?;
        Ok(mount)
    }

    /// The devices.
    pub fn devices(&mut self) -> &mut D {
        &mut self.devices
    }

    /// Why the mount is shut, if it is.
    pub fn shut(&mut self) -> Option<Reason> {
        // SAFETY: the handle is this mount's
        Reason::of(unsafe { abi::refskold_abi_shut(&mut self.handle) })
    }

    /// What it tells of itself.
    pub fn stat(&mut self) -> Result<State, Fault> {
        let mut state = State::default();
        // SAFETY: the handle is this mount's, and the state is written to its place
        judged(unsafe { abi::refskold_abi_stat(&mut self.handle, &mut state) })?;
        Ok(state)
    }

    fn call(&mut self, request: &Request, data: &[u8], answered: u32, content: &[u8], room: &mut [u8]) -> Result<(i32, Reply), Fault> {
        let mut reply = Reply::NONE;
        // SAFETY: each pointer is to so many bytes, and none is null
        let status = unsafe {
            abi::refskold_abi_call(
                &mut self.handle,
                request,
                data.as_ptr(),
                data.len(),
                answered,
                content.as_ptr(),
                content.len(),
                &mut reply,
                room.as_mut_ptr(),
                room.len(),
            )
        };
        match judged(status) {
            Ok(status) => Ok((status, reply)),
            Err(fault) if reply.word == told::ABORTED => Err(Fault {
                held: reply.held().to_vec(),
                ..fault
            }),
            Err(fault) => Err(fault),
        }
    }

    fn ask(&mut self, request: Request) -> Result<Reply, Fault> {
        Ok(self.call(&request, &[], abi::UNASKED, &[], &mut [])?.1)
    }

    fn ask_of(&mut self, word: u32, trans: u64, block: u64) -> Result<Reply, Fault> {
        self.ask(Request {
            word,
            trans,
            block,
            ..Request::default()
        })
    }

    fn ask_all(&mut self, word: u32) -> Result<Reply, Fault> {
        self.ask_of(word, 0, 0)
    }

    /// Opens a transaction of so many legs, each of which may log so many bytes: its number.
    pub fn alloc(&mut self, unit: u32, legs: u32, rolls: bool) -> Result<u64, Fault> {
        let mut trans = 0;
        // SAFETY: the handle is this mount's, and the number is written to its place
        judged(unsafe { abi::refskold_abi_alloc(&mut self.handle, unit, legs, rolls.into(), &mut trans) })?;
        Ok(trans)
    }

    /// Locks a block without its content: it is to be written whole first.
    pub fn get(&mut self, trans: u64, block: u64) -> Result<(), Fault> {
        self.ask_of(word::GET, trans, block).map(drop)
    }

    /// Locks a block with its content, which the home device is asked for where it is not in memory.
    pub fn read(&mut self, trans: u64, block: u64) -> Result<(), Fault> {
        // SAFETY: the handle is this mount's
        if judged(unsafe { abi::refskold_abi_read(&mut self.handle, trans, block) })? != abi::ASKS {
            return Ok(());
        }
        let request = Request {
            word: word::READ,
            trans,
            block,
            ..Request::default()
        };
        let mut room = [0; BLOCK_BYTES];
        let content = &mut room[..self.block_bytes];
        match self.devices.read(block, content) {
            Ok(()) => self.call(&request, &[], abi::CONTENT, content, &mut [])?,
            Err(_) => self.call(&request, &[], abi::FAILED_READ, &[], &mut [])?,
        };
        Ok(())
    }

    /// What the transaction sees of its block.
    pub fn view(&mut self, trans: u64, block: u64) -> Result<Vec<u8>, Fault> {
        let mut room = vec![0; self.block_bytes];
        let request = Request {
            word: word::VIEW,
            trans,
            block,
            ..Request::default()
        };
        self.call(&request, &[], abi::UNASKED, &[], &mut room)?;
        Ok(room)
    }

    /// Writes bytes in a block of the transaction.
    pub fn log(&mut self, trans: u64, block: u64, first: u32, data: &[u8]) -> Result<(), Fault> {
        // SAFETY: the handle is this mount's, and the pointer is to so many bytes
        judged(unsafe { abi::refskold_abi_log(&mut self.handle, trans, block, first, data.as_ptr(), data.len()) })?;
        Ok(())
    }

    /// Lets a block stay locked when the leg ends.
    pub fn hold(&mut self, trans: u64, block: u64) -> Result<(), Fault> {
        self.ask_of(word::HOLD, trans, block).map(drop)
    }

    /// Takes a hold back.
    pub fn unhold(&mut self, trans: u64, block: u64) -> Result<(), Fault> {
        self.ask_of(word::UNHOLD, trans, block).map(drop)
    }

    /// Gives one lock of a block back: whether it is unlocked now.
    pub fn relse(&mut self, trans: u64, block: u64) -> Result<bool, Fault> {
        Ok(self.ask_of(word::RELSE, trans, block)?.word == told::FREE)
    }

    /// Takes a held block into a transaction.
    pub fn join(&mut self, trans: u64, block: u64) -> Result<(), Fault> {
        self.ask_of(word::JOIN, trans, block).map(drop)
    }

    /// Gives a held block up.
    pub fn release(&mut self, block: u64) -> Result<(), Fault> {
        self.ask_of(word::RELEASE, 0, block).map(drop)
    }

    /// Gives a block up for good, as a freed one.
    pub fn inval(&mut self, trans: u64, block: u64) -> Result<(), Fault> {
        self.ask_of(word::INVAL, trans, block).map(drop)
    }

    fn committed(&mut self, word: u32, trans: u64) -> Result<Committed, Fault> {
        let reply = self.ask_of(word, trans, 0)?;
        Ok(Committed {
            number: reply.number,
            held: reply.held().to_vec(),
        })
    }

    /// Ends a transaction and commits its changes.
    pub fn commit(&mut self, trans: u64) -> Result<Committed, Fault> {
        self.committed(word::COMMIT, trans)
    }

    /// Commits the changes of a transaction that goes on with its next leg.
    pub fn roll(&mut self, trans: u64) -> Result<Committed, Fault> {
        self.committed(word::ROLL, trans)
    }

    /// Ends a transaction and gives its changes up, which shuts the mount where there are some: the blocks that stay held.
    pub fn cancel(&mut self, trans: u64) -> Result<Vec<u64>, Fault> {
        Ok(self.committed(word::CANCEL, trans)?.held)
    }

    /// Brings all that is committed to the log.
    pub fn force(&mut self) -> Result<(), Fault> {
        self.force_by(Request {
            word: word::FORCE,
            ..Request::default()
        })
    }

    /// Brings all up to a checkpoint to the log.
    pub fn force_to(&mut self, number: u64) -> Result<(), Fault> {
        self.force_by(Request {
            word: word::FORCE_TO,
            number,
            ..Request::default()
        })
    }

    fn force_by(&mut self, request: Request) -> Result<(), Fault> {
        while self.call(&request, &[], abi::UNASKED, &[], &mut [])?.1.word == told::WAIT {
            if !self.checkpoint()? {
                return Err(Fault::new(abi::EBUSY));
            }
        }
        Ok(())
    }

    /// Brings home all that is on the log. Of blocks that a device has not taken, some wait: then this ends, and may be called again.
    pub fn push(&mut self) -> Result<(), Fault> {
        self.ask_all(word::PUSH)?;
        while self.flush()? > 0 {}
        Ok(())
    }

    /// Shuts the mount: it takes no more changes.
    pub fn shutdown(&mut self) -> Result<(), Fault> {
        self.ask_all(word::SHUTDOWN).map(drop)
    }

    /// Keeps transactions from being opened, until `thaw`.
    pub fn freeze(&mut self) -> Result<(), Fault> {
        self.ask_all(word::FREEZE).map(drop)
    }

    pub fn thaw(&mut self) -> Result<(), Fault> {
        self.ask_all(word::THAW).map(drop)
    }

    /// Ends a mount of which nothing is left to do; else it goes on, and this says why.
    pub fn unmount(&mut self) -> Result<(), Fault> {
        self.ask_all(word::UNMOUNT).map(drop)
    }

    fn take(&mut self, kind: u32) -> Result<Option<u64>, Fault> {
        let mut serial = 0;
        // SAFETY: the handle is this mount's, and the serial is written to its place
        let taken = judged(unsafe { abi::refskold_abi_take(&mut self.handle, kind, &mut serial) })?;
        Ok((taken == 1).then_some(serial))
    }

    /// Does the checkpoint that is owed: whether one was. EIO where the log failed, and the mount is shut.
    pub fn checkpoint(&mut self) -> Result<bool, Fault> {
        let serial = match self.taken {
            Some(serial) => serial,
            None => match self.take(abi::CHECKPOINT)? {
                Some(serial) => serial,
                None => return Ok(false),
            },
        };
        let mut reply = Reply::NONE;
        self.taken = Some(serial);
        // SAFETY: the handle is this mount's, and the reply is written to its place; so below
        judged(unsafe { abi::refskold_abi_begin(&mut self.handle, serial, &mut reply) })?;
        self.taken = None;
        if reply.word != told::BEGUN {
            return Ok(true);
        }
        let is_safe = self.append(reply.pieces)?;
        let taken = if is_safe { reply.pieces } else { 0 };
        judged(unsafe { abi::refskold_abi_end(&mut self.handle, serial, taken, is_safe.into(), &mut reply) })?;
        if reply.word == told::LANDED {
            Ok(true)
        } else {
            Err(Fault::new(abi::EIO))
        }
    }

    /// Writes the checkpoint that is begun to the log: whether that is synced.
    fn append(&mut self, pieces: u32) -> Result<bool, Fault> {
        let (mut text, mut room) = (Vec::new(), [0; BLOCK_BYTES]);
        for index in 0..pieces {
            // SAFETY: the handle is this mount's, and the room has so many bytes
            let length = judged(unsafe { abi::refskold_abi_piece(&mut self.handle, index, room.as_mut_ptr(), room.len()) })?;
            text.extend_from_slice(&room[..length as usize]);
        }
        let handle = &mut self.handle;
        let mut seal = |header: &mut Header| {
            // SAFETY: the handle is this mount's, and the header has so many bytes
            judged(unsafe { abi::refskold_abi_seal(handle, header.as_mut_ptr(), header.len()) }).map(drop)
        };
        Ok(self.devices.append_text(&text, &mut seal).is_ok())
    }

    /// Does the flush that is owed: how many blocks it brought home.
    pub fn flush(&mut self) -> Result<u64, Fault> {
        let Some(serial) = self.take(abi::FLUSH)? else { return Ok(0) };
        let (mut plan, mut room, mut written) = (
            Plan {
                count: 0,
                unused: 0,
                blocks: [0; 8],
            },
            [0; BLOCK_BYTES],
            0,
        );
        // SAFETY: the handle is this mount's, and what is written has its place and length; so below
        judged(unsafe { abi::refskold_abi_plan(&mut self.handle, &mut plan) })?;
        for place in 0..plan.count {
            let content = &mut room[..self.block_bytes];
            judged(unsafe { abi::refskold_abi_home(&mut self.handle, place, content.as_mut_ptr(), content.len()) })?;
            written |= u32::from(self.devices.write(plan.blocks[place as usize], content).is_ok()) << place;
        }
        let (mut reply, synced) = (Reply::NONE, self.devices.sync().is_ok());
        let status = unsafe { abi::refskold_abi_flush(&mut self.handle, serial, plan.count, written, synced.into(), &mut reply) };
        judged(if status == -abi::EIO { 0 } else { status })?; // what a device has not taken waits, and is no fault
        Ok(reply.number)
    }
}
