//! A second, independent implementation of the MBIM scope: payload readers
//! and writers, fragments, byte streams, the version handshake, PIN entry, signal readings
//! and the replay of traces. It answers every input without a panic; only `flat`, `rows` and
//! `replay` allocate.

mod bytes;
mod pair;

pub mod assembler;
pub mod assembly_memory;
pub mod cutter;
pub mod data_class;
pub mod device_services;
pub mod door;
pub mod flat;
pub mod handshake;
pub mod memory;
pub mod message;
pub mod packet_service;
pub mod payload;
pub mod pin;
pub mod pin_entry;
pub mod pin_memory;
pub mod refusal;
pub mod registration;
pub mod replay;
pub mod rows;
pub mod signal_quality;
pub mod signal_state;
pub mod stream;
pub mod stream_memory;
pub mod trace;
pub mod version;
pub mod version_info;

pub use pair::ZeroSize;

/// The most information bytes a message may carry, and so the most a payload may have.
pub const MAX_INFORMATION: usize = 4096;

/// A service id: 16 bytes in printed order.
pub type ServiceId = [u8; 16];
