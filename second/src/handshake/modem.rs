//! The modem's end of the handshake.

use crate::device_services;
use crate::message::{Header, COMMAND, MESSAGE_TYPE, QUERY, TRANSACTION};
use crate::payload::{self, Kind, CID_VERSION, EXTENSIONS};
use crate::refusal::{
    require, Refusal, OUTPUT_TOO_SMALL, OUTSIDE_TABLE, UNKNOWN_KIND, VERSION_OUTSIDE_TABLE,
};
use crate::version::Version;
use crate::version_info;

pub use crate::message::STATUS_NO_DEVICE_SUPPORT;

/// A modem and where its handshake stands.
#[derive(Clone, Copy, Debug, PartialEq, Eq)]
pub struct Modem {
    native: Version,
    advertised: Version,
    lists_version: bool,
    state: State,
}

#[derive(Clone, Copy, Debug, PartialEq, Eq)]
pub enum State {
    /// Before the reply to DEVICE_SERVICES.
    Start,
    /// After it; the first command of another CID is still to come.
    Listed,
    Settled {
        version: Version,
    },
}

/// What a command brought.
#[derive(Clone, Copy, Debug, PartialEq, Eq)]
pub enum CommandAnswer {
    /// Status 0 as far as the handshake goes, for a command of this kind.
    Serve { kind: Kind },
    /// Status 0 to VERSION; its 4 bytes stand at the start of the output.
    Version { version: Version },
    /// This status to a PIN entry; the 12 bytes of PIN_INFO stand at the start of the
    /// output. Only a modem with a table of PINs answers so.
    Pin { status: u32 },
    /// As far as the handshake goes it would be served, but what stands at this
    /// place, its service or its CID, is not known: this status.
    Unknown { status: u32, place: usize },
    /// Status 9, nothing changed.
    Failed { status: u32 },
    /// No command, or output too small; nothing changed.
    Refused(Refusal),
}

pub(super) const FAILED: CommandAnswer = CommandAnswer::Failed { status: STATUS_NO_DEVICE_SUPPORT };

impl Modem {
    /// A modem at its start that serves this list of services. A number outside the
    /// table, or advertised above native, is 12; then the whole list is judged.
    pub fn make(native: u16, advertised: u16, services: &[u8]) -> Result<Modem, Refusal> {
        let native = Version::from_bcd(native)?;
        let advertised = Version::from_bcd(advertised)?;
        require(advertised <= native, VERSION_OUTSIDE_TABLE, 0)?;
        let lists_version = device_services::listed(services, &EXTENSIONS, CID_VERSION)?;
        Ok(Modem { native, advertised, lists_version, state: State::Start })
    }

    pub fn native(&self) -> Version {
        self.native
    }

    pub fn advertised(&self) -> Version {
        self.advertised
    }

    pub fn lists_version(&self) -> bool {
        self.lists_version
    }

    pub fn state(&self) -> State {
        self.state
    }

    /// The version that the modem settled at.
    pub fn version(&self) -> Option<Version> {
        match self.state {
            State::Settled { version } => Some(version),
            _ => None,
        }
    }

    pub fn open(&mut self) {
        self.state = State::Start;
    }

    pub fn close(&mut self) {
        self.state = State::Start;
    }

    /// Takes a message: 3 unless it is a COMMAND, 9 for transaction 0, then what its
    /// kind wants. The output is written for an answered VERSION only.
    pub fn receive(
        &mut self,
        header: &Header,
        information: &[u8],
        out: &mut [u8],
    ) -> CommandAnswer {
        if let Err(refusal) = judge(header) {
            return CommandAnswer::Refused(refusal);
        }
        let kind = payload::kind(&header.service, header.cid);
        match kind {
            Ok(Kind::DeviceServices) => self.services(),
            Ok(Kind::Version) => self.answer_version(header.word, information, out),
            _ => self.other(kind),
        }
    }

    /// DEVICE_SERVICES is served whenever it comes.
    fn services(&mut self) -> CommandAnswer {
        if self.state == State::Start {
            self.state = State::Listed;
        }
        CommandAnswer::Serve { kind: Kind::DeviceServices }
    }

    fn answer_version(
        &mut self,
        command_type: u32,
        payload: &[u8],
        out: &mut [u8],
    ) -> CommandAnswer {
        let asked_well = command_type == QUERY && self.lists_version;
        if self.state != State::Listed || !asked_well {
            return FAILED;
        }
        let Ok(host_native) = version_info::read(payload) else {
            return FAILED;
        };
        let version = self.advertised.max(self.native.min(host_native));
        let Some(room) = out.first_chunk_mut::<{ version_info::LENGTH }>() else {
            let refusal = Refusal::new(OUTPUT_TOO_SMALL, version_info::LENGTH);
            return CommandAnswer::Refused(refusal);
        };
        *room = version_info::bytes(version);
        self.state = State::Settled { version };
        CommandAnswer::Version { version }
    }

    /// Any other command, of a known CID or not.
    fn other(&mut self, kind: Result<Kind, Refusal>) -> CommandAnswer {
        match (self.state, self.advertised) {
            (State::Start, _) | (State::Listed, Version::V2) => FAILED,
            (State::Listed, Version::V1) => {
                self.state = State::Settled { version: Version::V1 };
                serve(kind)
            }
            (State::Settled { .. }, _) => serve(kind),
        }
    }
}

/// A modem takes commands only, and no reply to transaction 0 could be cut.
fn judge(header: &Header) -> Result<(), Refusal> {
    require(header.message_type == COMMAND, UNKNOWN_KIND, MESSAGE_TYPE)?;
    require(header.transaction != 0, OUTSIDE_TABLE, TRANSACTION)
}

fn serve(kind: Result<Kind, Refusal>) -> CommandAnswer {
    match kind {
        Ok(kind) => CommandAnswer::Serve { kind },
        Err(refusal) => {
            CommandAnswer::Unknown { status: STATUS_NO_DEVICE_SUPPORT, place: refusal.place }
        }
    }
}

#[cfg(test)]
mod tests {
    use super::*;
    use crate::device_services::Element;
    use crate::payload::BASIC_CONNECT;
    use crate::ServiceId;

    const ASK_V1: [u8; 4] = [0, 1, 0, 1];
    const ASK_V2: [u8; 4] = [0, 1, 0, 2];
    const SIGNAL: CommandAnswer = CommandAnswer::Serve { kind: Kind::SignalState };

    fn list(cids: &[u32]) -> Vec<u8> {
        let mut out = [0; 100];
        let element =
            Element { device_service_id: EXTENSIONS, dss_payload: 0, max_dss_instances: 0, cids };
        let length = device_services::write(0, &[element], &mut out).unwrap();
        out[..length].to_vec()
    }

    fn make(native: u16, advertised: u16) -> Modem {
        Modem::make(native, advertised, &list(&[15])).unwrap()
    }

    fn command(service: ServiceId, cid: u32, word: u32) -> Header {
        Header { message_type: COMMAND, transaction: 1, service, cid, word }
    }

    fn serve_list(modem: &mut Modem) {
        let answer = modem.receive(&command(BASIC_CONNECT, 16, 1), &[1], &mut []);
        assert_eq!(answer, CommandAnswer::Serve { kind: Kind::DeviceServices });
    }

    fn listed(native: u16, advertised: u16) -> Modem {
        let mut modem = make(native, advertised);
        serve_list(&mut modem);
        modem
    }

    fn ask(modem: &mut Modem, payload: &[u8]) -> CommandAnswer {
        modem.receive(&command(EXTENSIONS, 15, 0), payload, &mut [0; 4])
    }

    fn signal(modem: &mut Modem) -> CommandAnswer {
        modem.receive(&command(BASIC_CONNECT, 11, 0), &[], &mut [])
    }

    #[test]
    fn numbers_outside_the_table_or_advertised_above_native() {
        let refused = Err(Refusal::new(12, 0));
        assert_eq!(Modem::make(0x0300, 0x0100, &[]), refused);
        assert_eq!(Modem::make(0x0200, 0x0300, &[]), refused);
        assert_eq!(Modem::make(0x0100, 0x0200, &[]), refused);
    }

    #[test]
    fn the_list_is_judged_and_says_whether_version_is_in_it() {
        assert_eq!(Modem::make(0x0200, 0x0100, &[]), Err(Refusal::new(1, 0)));
        let bad = [33, 0, 0, 0, 0, 0, 0, 0];
        assert_eq!(Modem::make(0x0200, 0x0100, &bad), Err(Refusal::new(15, 0)));
        for (offset, size, number) in [(13, 32, 6), (17, 32, 17), (52, 0, 8), (0, 0, 8)] {
            let mut bad = list(&[15]);
            bad[8] = offset;
            bad[12] = size;
            assert_eq!(Modem::make(0x0200, 0x0100, &bad), Err(Refusal::new(number, 8)));
        }
        let modem = |cids: &[u32]| Modem::make(0x0200, 0x0200, &list(cids)).unwrap();
        assert!(modem(&[14, 15]).lists_version());
        assert!(!modem(&[14, 16]).lists_version());
    }

    #[test]
    fn its_own_list_is_judged_in_full() {
        let element = Element {
            device_service_id: EXTENSIONS,
            dss_payload: 0,
            max_dss_instances: 0,
            cids: &[15],
        };
        let mut list = [0; 88];
        assert_eq!(device_services::write(0, &[element; 2], &mut list), Ok(list.len()));
        assert!(Modem::make(0x0200, 0x0200, &list).unwrap().lists_version());
        list[16] += 1;
        assert!(device_services::ask(&list, &EXTENSIONS, CID_VERSION).unwrap().is_some());
        assert_eq!(Modem::make(0x0200, 0x0200, &list), Err(Refusal::new(17, 16)));
    }

    #[test]
    fn only_a_command_with_a_transaction_is_taken() {
        let mut modem = listed(0x0200, 0x0100);
        let before = modem;
        let good = command(BASIC_CONNECT, 11, 0);
        for message_type in [0, 1, 0x8000_0003, 0x8000_0007] {
            let header = Header { message_type, transaction: 0, ..good };
            let answer = modem.receive(&header, &[], &mut []);
            assert_eq!(answer, CommandAnswer::Refused(Refusal::new(3, 0)));
        }
        let header = Header { transaction: 0, ..good };
        let answer = modem.receive(&header, &[], &mut []);
        assert_eq!(answer, CommandAnswer::Refused(Refusal::new(9, 8)));
        assert_eq!(modem, before);
    }

    #[test]
    fn before_the_list_everything_else_fails() {
        let mut modem = make(0x0200, 0x0100);
        let before = modem;
        assert_eq!(ask(&mut modem, &ASK_V2), FAILED);
        assert_eq!(signal(&mut modem), FAILED);
        assert_eq!(modem.receive(&command([0; 16], 0, 0), &[], &mut []), FAILED);
        assert_eq!(modem, before);
    }

    #[test]
    fn the_larger_of_advertised_and_the_lower_native() {
        let version = |version| CommandAnswer::Version { version };
        assert_eq!(ask(&mut listed(0x0200, 0x0100), &ASK_V2), version(Version::V2));
        assert_eq!(ask(&mut listed(0x0200, 0x0100), &ASK_V1), version(Version::V1));
        assert_eq!(ask(&mut listed(0x0100, 0x0100), &ASK_V2), version(Version::V1));
        assert_eq!(ask(&mut listed(0x0200, 0x0200), &ASK_V1), version(Version::V2));
    }

    #[test]
    fn a_version_that_fails_changes_nothing() {
        let mut modem = listed(0x0200, 0x0100);
        let before = modem;
        let set = modem.receive(&command(EXTENSIONS, 15, 1), &ASK_V2, &mut [0; 4]);
        assert_eq!(set, FAILED);
        assert_eq!(ask(&mut modem, &[0; 4]), FAILED);
        assert_eq!(ask(&mut modem, &[]), FAILED);
        let mut small = [9; 3];
        let query = command(EXTENSIONS, 15, 0);
        let refused = modem.receive(&query, &ASK_V2, &mut small);
        assert_eq!(refused, CommandAnswer::Refused(Refusal::new(11, 4)));
        assert_eq!((modem, small), (before, [9; 3]));
        assert_eq!(modem.receive(&query, &[], &mut small), FAILED);
        let mut unlisted = Modem::make(0x0200, 0x0200, &list(&[])).unwrap();
        serve_list(&mut unlisted);
        assert_eq!(ask(&mut unlisted, &ASK_V2), FAILED);
    }

    #[test]
    fn another_first_command() {
        let mut waiting = listed(0x0200, 0x0200);
        let before = waiting;
        assert_eq!(signal(&mut waiting), FAILED);
        assert_eq!(waiting, before);
        let mut modem = listed(0x0200, 0x0100);
        let unknown = modem.receive(&command(EXTENSIONS, 16, 0), &[], &mut []);
        assert_eq!(unknown, CommandAnswer::Unknown { status: 9, place: 36 });
        assert_eq!(modem.version(), Some(Version::V1));
        let unknown = modem.receive(&command([0; 16], 16, 0), &[], &mut []);
        assert_eq!(unknown, CommandAnswer::Unknown { status: 9, place: 20 });
        assert_eq!(ask(&mut modem, &ASK_V2), FAILED);
        assert_eq!(signal(&mut modem), SIGNAL);
    }

    #[test]
    fn pin_is_another_command_set_or_query() {
        for command_type in [0, 1] {
            let pin = command(BASIC_CONNECT, 4, command_type);
            let ask = |modem: &mut Modem| modem.receive(&pin, &[1], &mut []);
            assert_eq!(ask(&mut make(0x0200, 0x0100)), FAILED);
            assert_eq!(ask(&mut listed(0x0200, 0x0200)), FAILED);
            let mut modem = listed(0x0200, 0x0100);
            assert_eq!(ask(&mut modem), CommandAnswer::Serve { kind: Kind::PinInfo });
            assert_eq!(modem.version(), Some(Version::V1));
        }
    }

    #[test]
    fn a_settled_modem_goes_back_at_open_and_close() {
        let mut modem = listed(0x0200, 0x0200);
        ask(&mut modem, &ASK_V2);
        assert_eq!(ask(&mut modem, &ASK_V2), FAILED);
        assert_eq!(signal(&mut modem), SIGNAL);
        serve_list(&mut modem);
        assert_eq!(modem.version(), Some(Version::V2));
        modem.open();
        assert_eq!(modem, make(0x0200, 0x0200));
        ask(&mut listed(0x0200, 0x0200), &ASK_V2);
        modem.close();
        assert_eq!(modem.state(), State::Start);
    }
}
