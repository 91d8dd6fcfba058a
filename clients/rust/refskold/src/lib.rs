//! A mount of Refskold inside a program, over its C library.
//!
//! A [`Mount`] owns its devices, a home device and a log: [`Files`], or what implements [`Devices`]. It goes to another thread, and is never used by two at once:
//!
//! ```
//! fn is_sent<T: Send>() {}
//! is_sent::<refskold::Mount<refskold::Files>>();
//! ```
//!
//! ```compile_fail
//! fn is_shared<T: Sync>() {}
//! is_shared::<refskold::Mount<refskold::Files>>();
//! ```
//!
//! What is dropped is ended as by a crash, and [`Mount::unmount`] is the orderly end. After a crash [`recover`] lays the log over the home device, before the next mount.

mod abi;
mod files;
mod log;
mod mount;
mod recovery;

pub use abi::{Fault, Header, Reason, State, VERSION};
pub use files::Files;
pub use mount::{Committed, Devices, Geometry, Mount};
pub use recovery::{recover, LogFault, Recovered, Recovery};

/// The bytes of a block, where no other size is said.
pub const BLOCK_BYTES: usize = 4096;

/// What `REFSKOLD_VERSION` is of the library that is linked: [`VERSION`], where it belongs to these types.
pub fn version() -> u32 {
    // SAFETY: it takes nothing
    unsafe { abi::refskold_abi_version() }
}
