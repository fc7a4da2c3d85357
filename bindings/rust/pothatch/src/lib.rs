//! The proved join and rekey software of a 6TiSCH thermostat, and the matching half of its programming fixture.
//!
//! Every function calls the function of the proved library (`libpothatch.a`) that [`sys`] declares and adds no rule of its own. Types fix
//! the lengths, and `&mut` rules out the overlaps that the C interface forbids. A refused call returns a [`Refusal`] and leaves the state
//! and the destination as they were.
//!
//! [`Node`], [`Ledger`], [`Proxy`] and [`Serial`] are states. They are neither `Copy` nor `Clone`: a copy of a node or proxy would use
//! frame counters and nonces twice. `image` and `from_image` store and load one; store the new image *before* the frame or the option body
//! leaves the board (a ledger's, with its memory, before the address does), and never return to an older one. A link key that left a node's
//! active set and comes back counts from 0 again: a JRC must never hand out a key value twice.
//!
//! ```
//! use pothatch::{Ledger, Refusal, PLACE};
//!
//! let mut memory = [0; 100 * PLACE];
//! let mut ledger = Ledger::open(0x1000, 100, &memory)?;
//! assert_eq!(ledger.grant(&mut memory, &[0x00, 0x12, 0x4b, 0x00, 0x14, 0xb5, 0xd3, 0x01])?, 0x1000);
//! assert_eq!(Ledger::open(0x11000, 100, &memory).err(), Some(Refusal::Range));
//! # Ok::<(), Refusal>(())
//! ```
//!
//! A configuration is filled in by hand: a parameter is written only if its report is [`TAKEN`], and a lease only if `leased` is 1. Members
//! of several bytes are big-endian: [`number`] reads them, [`put`] writes them.
//!
//! ```
//! use pothatch::{put, Configuration, Refusal, Version, PAYLOAD_MOST, TAKEN};
//!
//! let mut c = Configuration::new();
//! (c.address.report, c.address.leased) = (TAKEN, 1);
//! put(&mut c.address.bytes, 0x1234)?;
//! put(&mut c.address.lease, 3600)?;
//! let mut payload = [0; PAYLOAD_MOST];
//! let n = c.write(Version::Draft, &mut payload)?;
//! assert_eq!(&payload[..n], [0xa1, 0x03, 0x82, 0x42, 0x12, 0x34, 0x19, 0x0e, 0x10]);
//! # Ok::<(), Refusal>(())
//! ```
#![no_std]
#![warn(missing_docs)]

/// What every struct of bytes has.
macro_rules! image {
    ($name:ident, $size:literal) => {
        const _: () = assert!(core::mem::size_of::<$name>() == $size && core::mem::align_of::<$name>() == 1);

        impl $name {
            /// All 0, as a refused call returns it: not an image, so every call refuses it.
            pub const fn zeroed() -> $name {
                // SAFETY: every member is a byte or made of bytes.
                unsafe { core::mem::zeroed() }
            }

            /// The struct as bytes.
            pub const fn as_bytes(&self) -> &[u8; $size] {
                // SAFETY: the struct has this size and alignment 1, and no padding.
                unsafe { &*(self as *const $name as *const [u8; $size]) }
            }

            #[allow(dead_code)]
            pub(crate) fn as_bytes_mut(&mut self) -> &mut [u8; $size] {
                // SAFETY: as above; every byte is allowed in every member.
                unsafe { &mut *(self as *mut $name as *mut [u8; $size]) }
            }
        }

        /// Shows the name alone: the members may be keys.
        impl core::fmt::Debug for $name {
            fn fmt(&self, f: &mut core::fmt::Formatter<'_>) -> core::fmt::Result {
                f.debug_struct(stringify!($name)).finish_non_exhaustive()
            }
        }
    };
}

mod calls;
mod refusal;
pub mod sys;

pub use calls::*;
pub use refusal::Refusal;
pub use sys::{
    Address, Attempt, Configuration, CountedSet, Faults, FrameKey, Key, KeySet, Ledger, List, Node, Octets, Pledge, Proxy, Rate, Replayed,
    Reports, Request, Serial,
};
pub use sys::{ABSENT, DISCARDED, TAKEN};
pub use sys::{BODY, PAYLOAD_MOST, PLACE, REQUEST_MOST, TAG};

impl core::fmt::Display for Refusal {
    fn fmt(&self, f: &mut core::fmt::Formatter<'_>) -> core::fmt::Result {
        write!(f, "{} {}: {}", self.number(), self.name(), self.meaning())
    }
}

impl core::error::Error for Refusal {}
