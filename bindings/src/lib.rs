//! The control messages of MBIM with extensions 2.0, for hosts and for modems: a safe wrapper of the
//! static library. Nothing here allocates, and no input makes it panic.
//!
//! A function gives its answer or a [`Refusal`]: a number of [`refusals`] and a place. A refused call
//! writes nothing. Only a [`Stream`] tells more beside a refusal: how many bytes it took.
//! Versions are BCD numbers, [`VERSION_1_00`] or [`VERSION_2_00`]; other numbers are refused. A
//! record's member that only the other version has is 0 when read, and a writer doesn't look at it.

#![deny(unsafe_code)]

#[allow(unsafe_code)]
pub mod c;
mod ends;
mod messages;
mod payloads;
mod pins;
pub mod refusals;

pub use c::{
    DeviceService, DeviceServices, MessageHeader, PacketService, Pin, PinInfo, Pins, Refusal,
    Registration, RsrpSnr, Secret, ServiceElement, ServiceId, ServiceList, SetPin, SignalState,
    VersionInfo,
};
pub use ends::{Action, Event, Host, Modem, Next, Taken};
pub use messages::{
    judge, next_transaction, Assembly, Fed, Fragments, Kind, Received, Stream, Whole,
};
pub use payloads::{bars, rsrp, snr, Position, Reading, Texts, ZeroSize};
pub use pins::{pin_type, Entered, PinTable, PinTexts};

/// Versions of the extensions, and the one MBIM version beside them.
pub const VERSION_1_00: u16 = 0x0100;
pub const VERSION_2_00: u16 = 0x0200;
pub const MBIM_1_00: u16 = 0x0100;

/// Room that is enough for a message's information or any payload, and for its fragments.
pub const MOST_INFORMATION: usize = 4096;
pub const MOST_CUT: usize = 6004;

/// The message types that are never fragmented.
pub const OPEN: u32 = 1;
pub const CLOSE: u32 = 2;
pub const HOST_ERROR: u32 = 4;
pub const OPEN_DONE: u32 = 0x8000_0001;
pub const CLOSE_DONE: u32 = 0x8000_0002;
pub const FUNCTION_ERROR: u32 = 0x8000_0004;

/// The message types that come in fragments.
pub const COMMAND: u32 = 3;
pub const COMMAND_DONE: u32 = 0x8000_0003;
pub const INDICATE_STATUS: u32 = 0x8000_0007;

/// The types of a command.
pub const QUERY: u32 = 0;
pub const SET: u32 = 1;

/// CIDs of Basic Connect, and VERSION of the extensions.
pub const PIN: u32 = 4;
pub const REGISTER_STATE: u32 = 9;
pub const PACKET_SERVICE: u32 = 10;
pub const SIGNAL_STATE: u32 = 11;
pub const DEVICE_SERVICES: u32 = 16;
pub const VERSION: u32 = 15;

/// HSPA as a packet service tells it: HSDPA (8h) and HSUPA (10h), the one pair of class bits that its
/// class may have.
pub const DATA_CLASS_HSPA: u32 = 0x18;

pub const BASIC_CONNECT: ServiceId =
    ServiceId::from_words(0x33CC89A2, 0x4F8BBBBC, 0x3E13B0B6, 0xDFE6AAC2);
pub const EXTENSIONS: ServiceId =
    ServiceId::from_words(0xC5DC013D, 0x054DF5FE, 0xF7BE3A0D, 0xAF9A8E05);

impl ServiceId {
    const fn from_words(word0: u32, word1: u32, word2: u32, word3: u32) -> ServiceId {
        ServiceId { word0, word1, word2, word3 }
    }

    /// The id of 16 bytes in printed order.
    pub fn from_bytes(bytes: [u8; 16]) -> ServiceId {
        c::service_id(&bytes)
    }
}

impl Refusal {
    /// The name of its number in [`refusals`].
    pub fn name(&self) -> &'static str {
        refusals::name(self.number)
    }

    /// What an answer holds beside no refusal.
    fn or<T>(self, answer: T) -> Result<T, Refusal> {
        if self.number == refusals::NO_REFUSAL {
            return Ok(answer);
        }
        Err(self)
    }
}

impl std::fmt::Display for Refusal {
    fn fmt(&self, f: &mut std::fmt::Formatter) -> std::fmt::Result {
        write!(f, "refused, {} {} at {}", self.number, self.name(), self.place)
    }
}

impl std::error::Error for Refusal {}
