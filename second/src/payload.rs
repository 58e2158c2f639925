//! Which payload an assembled message shows, by its service and CID.

use crate::message::{
    Header, CID, COMMAND, COMMAND_DONE, INDICATE_STATUS, MESSAGE_TYPE, SERVICE, SET,
    STATUS_FAILURE, STATUS_SUCCESS,
};
use crate::refusal::{Refusal, UNKNOWN_KIND};
use crate::ServiceId;

/// a289cc33-bcbb-8b4f-b6b0-133ec2aae6df
pub const BASIC_CONNECT: ServiceId = [
    0xa2, 0x89, 0xcc, 0x33, 0xbc, 0xbb, 0x8b, 0x4f, 0xb6, 0xb0, 0x13, 0x3e, 0xc2, 0xaa, 0xe6, 0xdf,
];
/// 3d01dcc5-fef5-4d05-0d3a-bef7058e9aaf
pub const EXTENSIONS: ServiceId = [
    0x3d, 0x01, 0xdc, 0xc5, 0xfe, 0xf5, 0x4d, 0x05, 0x0d, 0x3a, 0xbe, 0xf7, 0x05, 0x8e, 0x9a, 0xaf,
];

/// CIDs of Basic Connect.
pub const CID_PIN: u32 = 4;
pub const CID_REGISTER_STATE: u32 = 9;
pub const CID_PACKET_SERVICE: u32 = 10;
pub const CID_SIGNAL_STATE: u32 = 11;
pub const CID_DEVICE_SERVICES: u32 = 16;
/// CID of the extensions.
pub const CID_VERSION: u32 = 15;

/// The known payloads.
#[derive(Clone, Copy, Debug, PartialEq, Eq)]
pub enum Kind {
    RegisterState,
    PacketService,
    SignalState,
    DeviceServices,
    Version,
    SetPin,
    PinInfo,
}

/// The payload of a service and CID: the service is judged first. On PIN's CID it is the
/// one of the replies.
#[inline]
pub fn kind(service: &ServiceId, cid: u32) -> Result<Kind, Refusal> {
    if *service == BASIC_CONNECT {
        match cid {
            CID_PIN => Ok(Kind::PinInfo),
            CID_REGISTER_STATE => Ok(Kind::RegisterState),
            CID_PACKET_SERVICE => Ok(Kind::PacketService),
            CID_SIGNAL_STATE => Ok(Kind::SignalState),
            CID_DEVICE_SERVICES => Ok(Kind::DeviceServices),
            _ => Err(Refusal::new(UNKNOWN_KIND, CID)),
        }
    } else if *service == EXTENSIONS {
        match cid {
            CID_VERSION => Ok(Kind::Version),
            _ => Err(Refusal::new(UNKNOWN_KIND, CID)),
        }
    } else {
        Err(Refusal::new(UNKNOWN_KIND, SERVICE))
    }
}

/// The payload that a message shows; `None` where it shows none. An indication shows
/// its kind's, and a type that has no payload at all is 3 at 0.
#[inline]
pub fn shown(header: &Header) -> Result<Option<Kind>, Refusal> {
    let kind = || kind(&header.service, header.cid);
    match header.message_type {
        COMMAND => kind().map(|kind| command_shows(kind, header.word)),
        COMMAND_DONE => kind().map(|kind| done_shows(kind, header.word)),
        INDICATE_STATUS => kind().map(Some),
        _ => Err(Refusal::new(UNKNOWN_KIND, MESSAGE_TYPE)),
    }
}

/// A COMMAND shows its payload on VERSION and, as a set, on PIN.
#[inline]
fn command_shows(kind: Kind, command_type: u32) -> Option<Kind> {
    match kind {
        Kind::Version => Some(kind),
        Kind::PinInfo => (command_type == SET).then_some(Kind::SetPin),
        _ => None,
    }
}

/// A DONE shows its payload with status 0 and, on PIN, with status 2.
#[inline]
fn done_shows(kind: Kind, status: u32) -> Option<Kind> {
    let is_failed_entry = kind == Kind::PinInfo && status == STATUS_FAILURE;
    (status == STATUS_SUCCESS || is_failed_entry).then_some(kind)
}

#[cfg(test)]
mod tests {
    use super::*;

    fn header(message_type: u32, service: ServiceId, cid: u32, word: u32) -> Header {
        Header { message_type, transaction: 1, service, cid, word }
    }

    #[test]
    fn service_comes_before_cid() {
        assert_eq!(kind(&[0; 16], 0), Err(Refusal::new(3, 20)));
        assert_eq!(kind(&BASIC_CONNECT, 15), Err(Refusal::new(3, 36)));
        assert_eq!(kind(&EXTENSIONS, 16), Err(Refusal::new(3, 36)));
        assert_eq!(kind(&EXTENSIONS, 15), Ok(Kind::Version));
        let known: Vec<_> = (0..20).filter(|cid| kind(&BASIC_CONNECT, *cid).is_ok()).collect();
        assert_eq!(known, [4, 9, 10, 11, 16]);
        assert_eq!(kind(&EXTENSIONS, 4), Err(Refusal::new(3, 36)));
    }

    #[test]
    fn who_shows_a_payload() {
        let signal = |message_type, word| shown(&header(message_type, BASIC_CONNECT, 11, word));
        assert_eq!(signal(COMMAND, 0), Ok(None));
        assert_eq!(signal(COMMAND_DONE, 0), Ok(Some(Kind::SignalState)));
        assert_eq!(signal(COMMAND_DONE, 9), Ok(None));
        assert_eq!(signal(INDICATE_STATUS, 9), Ok(Some(Kind::SignalState)));
        for word in [0, 1] {
            let version = shown(&header(COMMAND, EXTENSIONS, 15, word));
            assert_eq!(version, Ok(Some(Kind::Version)));
        }
    }

    #[test]
    fn sets_and_failed_replies_show_theirs_on_pin_alone() {
        let pin = |message_type, word| shown(&header(message_type, BASIC_CONNECT, 4, word));
        for word in [0, 2, 3, 0x101, u32::MAX] {
            assert_eq!(pin(COMMAND, word), Ok(None));
        }
        assert_eq!(pin(COMMAND, 1), Ok(Some(Kind::SetPin)));
        for status in [1, 3, 9, 0x102, u32::MAX] {
            assert_eq!(pin(COMMAND_DONE, status), Ok(None));
        }
        for word in [0, 2] {
            assert_eq!(pin(COMMAND_DONE, word), Ok(Some(Kind::PinInfo)));
            assert_eq!(pin(INDICATE_STATUS, word), Ok(Some(Kind::PinInfo)));
        }
        for (service, cid) in [(BASIC_CONNECT, 9), (BASIC_CONNECT, 16), (EXTENSIONS, 15)] {
            assert_eq!(shown(&header(COMMAND_DONE, service, cid, 2)), Ok(None));
        }
        assert_eq!(shown(&header(COMMAND, BASIC_CONNECT, 9, 1)), Ok(None));
    }

    #[test]
    fn unknown_comes_before_no_payload() {
        let unknown = shown(&header(COMMAND_DONE, BASIC_CONNECT, 1, 9));
        assert_eq!(unknown, Err(Refusal::new(3, 36)));
        let unknown = shown(&header(COMMAND, [0; 16], 1, 0));
        assert_eq!(unknown, Err(Refusal::new(3, 20)));
    }
}
