//! The host's end of the handshake.

use crate::device_services;
use crate::message::{Header, COMMAND_DONE};
use crate::payload::{self, Kind, CID_VERSION, EXTENSIONS};
use crate::refusal::{Refusal, ABOVE_HOST, OUTPUT_TOO_SMALL, VERSION_NOT_LISTED};
use crate::version::Version;
use crate::version_info;

/// A host and where its handshake stands.
#[derive(Clone, Copy, Debug, PartialEq, Eq)]
pub struct Host {
    native: Version,
    state: State,
}

#[derive(Clone, Copy, Debug, PartialEq, Eq)]
pub enum State {
    Closed,
    /// Opened; the list of services is still to come.
    Opened {
        advertised: Version,
    },
    /// The list named VERSION; its reply is still to come.
    Awaiting {
        advertised: Version,
    },
    Settled {
        version: Version,
    },
}

/// The command that the host may send next.
#[derive(Clone, Copy, Debug, PartialEq, Eq)]
pub enum NextCommand {
    /// None: closed.
    Nothing,
    /// DEVICE_SERVICES.
    Services,
    /// VERSION; its 4 bytes stand at the start of the output.
    Version,
    /// Any; the host is settled at this version.
    Free(Version),
}

/// What a reply brought.
#[derive(Clone, Copy, Debug, PartialEq, Eq)]
pub enum ReplyAnswer {
    Unchanged,
    AsksVersion,
    Settled(Version),
    /// Refused; the host is as before.
    Refused(Refusal),
}

impl Host {
    /// A closed host of this native version.
    pub fn make(native: u16) -> Result<Host, Refusal> {
        let native = Version::from_bcd(native)?;
        Ok(Host { native, state: State::Closed })
    }

    pub fn native(&self) -> Version {
        self.native
    }

    pub fn state(&self) -> State {
        self.state
    }

    /// The version that the host settled at.
    pub fn version(&self) -> Option<Version> {
        match self.state {
            State::Settled { version } => Some(version),
            _ => None,
        }
    }

    /// Back to the start, with what the modem advertises. A refusal leaves the host as it was.
    pub fn open(&mut self, advertised: u16) -> Result<(), Refusal> {
        let advertised = Version::from_bcd(advertised)?;
        self.state = State::Opened { advertised };
        Ok(())
    }

    pub fn close(&mut self) {
        self.state = State::Closed;
    }

    /// The next command. The output is written for VERSION only.
    pub fn next_command(&self, out: &mut [u8]) -> Result<NextCommand, Refusal> {
        match self.state {
            State::Closed => Ok(NextCommand::Nothing),
            State::Opened { .. } => Ok(NextCommand::Services),
            State::Settled { version } => Ok(NextCommand::Free(version)),
            State::Awaiting { .. } => {
                let room = out.first_chunk_mut::<{ version_info::LENGTH }>();
                let small = Refusal::new(OUTPUT_TOO_SMALL, version_info::LENGTH);
                *room.ok_or(small)? = version_info::bytes(self.native);
                Ok(NextCommand::Version)
            }
        }
    }

    /// Takes a message. Only a DONE of DEVICE_SERVICES or VERSION is a reply that
    /// the handshake looks at, whatever its transaction is.
    pub fn receive(&mut self, header: &Header, information: &[u8]) -> ReplyAnswer {
        if header.message_type != COMMAND_DONE {
            return ReplyAnswer::Unchanged;
        }
        match payload::kind(&header.service, header.cid) {
            Ok(Kind::DeviceServices) => self.services_reply(header.word, information),
            Ok(Kind::Version) => self.version_reply(header.word, information),
            _ => ReplyAnswer::Unchanged,
        }
    }

    /// A reply to DEVICE_SERVICES. If the status is 0, its payload is asked for VERSION in every
    /// state, and refused where that is: what stands behind VERSION isn't looked at.
    fn services_reply(&mut self, status: u32, payload: &[u8]) -> ReplyAnswer {
        if status != 0 {
            return ReplyAnswer::Unchanged;
        }
        match device_services::ask(payload, &EXTENSIONS, CID_VERSION) {
            Err(refusal) => ReplyAnswer::Refused(refusal),
            Ok(found) => match self.state {
                State::Opened { advertised } => self.take_list(advertised, found.is_some()),
                _ => ReplyAnswer::Unchanged,
            },
        }
    }

    /// A reply to VERSION. Its payload is read in every state, if the status is 0.
    fn version_reply(&mut self, status: u32, payload: &[u8]) -> ReplyAnswer {
        let answered = match status {
            0 => version_info::read(payload).map(Some),
            _ => Ok(None),
        };
        match (answered, self.state) {
            (Err(refusal), _) => ReplyAnswer::Refused(refusal),
            (Ok(Some(answered)), State::Awaiting { advertised }) => {
                self.settle(advertised.max(answered))
            }
            (Ok(None), State::Awaiting { advertised }) => self.settle(advertised),
            _ => ReplyAnswer::Unchanged,
        }
    }

    /// A list that has its answer, at a host just opened: 13, 14, then VERSION or 1.00.
    fn take_list(&mut self, advertised: Version, listed: bool) -> ReplyAnswer {
        if advertised > self.native {
            ReplyAnswer::Refused(Refusal::new(ABOVE_HOST, 0))
        } else if advertised == Version::V2 && !listed {
            ReplyAnswer::Refused(Refusal::new(VERSION_NOT_LISTED, 0))
        } else if self.native == Version::V2 && listed {
            self.state = State::Awaiting { advertised };
            ReplyAnswer::AsksVersion
        } else {
            self.settle(Version::V1)
        }
    }

    fn settle(&mut self, version: Version) -> ReplyAnswer {
        self.state = State::Settled { version };
        ReplyAnswer::Settled(version)
    }
}

#[cfg(test)]
mod tests {
    use super::*;
    use crate::device_services::Element;

    const ANSWER_V1: [u8; 4] = [0, 1, 0, 1];
    const ANSWER_V2: [u8; 4] = [0, 1, 0, 2];

    fn list(cids: &[u32]) -> Vec<u8> {
        let mut out = [0; 100];
        let element =
            Element { device_service_id: EXTENSIONS, dss_payload: 0, max_dss_instances: 0, cids };
        let length = device_services::write(0, &[element], &mut out).unwrap();
        out[..length].to_vec()
    }

    fn opened(native: u16, advertised: u16) -> Host {
        let mut host = Host::make(native).unwrap();
        host.open(advertised).unwrap();
        host
    }

    fn awaiting(advertised: u16) -> Host {
        let mut host = opened(0x0200, advertised);
        assert_eq!(host.services_reply(0, &list(&[15])), ReplyAnswer::AsksVersion);
        host
    }

    #[test]
    fn numbers_outside_the_table() {
        assert_eq!(Host::make(0x0300), Err(Refusal::new(12, 0)));
        let mut host = awaiting(0x0100);
        let before = host;
        assert_eq!(host.open(0), Err(Refusal::new(12, 0)));
        assert_eq!(host, before);
    }

    #[test]
    fn commands_by_state() {
        let mut out = [9; 5];
        let mut host = Host::make(0x0200).unwrap();
        assert_eq!(host.next_command(&mut out), Ok(NextCommand::Nothing));
        host.open(0x0100).unwrap();
        assert_eq!(host.next_command(&mut out), Ok(NextCommand::Services));
        assert_eq!(out, [9; 5]);
        host.services_reply(0, &list(&[15]));
        assert_eq!(host.next_command(&mut out[..3]), Err(Refusal::new(11, 4)));
        assert_eq!(out, [9; 5]);
        assert_eq!(host.next_command(&mut out), Ok(NextCommand::Version));
        assert_eq!(out, [0, 1, 0, 2, 9]);
        host.version_reply(0, &ANSWER_V2);
        assert_eq!(host.next_command(&mut []), Ok(NextCommand::Free(Version::V2)));
        host.close();
        assert_eq!(host.next_command(&mut []), Ok(NextCommand::Nothing));
    }

    #[test]
    fn thirteen_before_fourteen_and_a_later_list_counts() {
        let refused = |number| ReplyAnswer::Refused(Refusal::new(number, 0));
        assert_eq!(opened(0x0100, 0x0200).services_reply(0, &list(&[])), refused(13));
        let mut host = opened(0x0200, 0x0200);
        assert_eq!(host.services_reply(0, &list(&[14])), refused(14));
        assert_eq!(host, opened(0x0200, 0x0200));
        assert_eq!(host.services_reply(0, &list(&[15])), ReplyAnswer::AsksVersion);
    }

    #[test]
    fn the_larger_of_advertised_and_answered() {
        let settled = ReplyAnswer::Settled;
        assert_eq!(awaiting(0x0100).version_reply(0, &ANSWER_V1), settled(Version::V1));
        assert_eq!(awaiting(0x0100).version_reply(0, &ANSWER_V2), settled(Version::V2));
        assert_eq!(awaiting(0x0200).version_reply(0, &ANSWER_V1), settled(Version::V2));
        assert_eq!(awaiting(0x0200).version_reply(9, &[]), settled(Version::V2));
        assert_eq!(awaiting(0x0100).version_reply(2, &ANSWER_V2), settled(Version::V1));
    }

    #[test]
    fn refused_replies_change_nothing() {
        let mut host = awaiting(0x0100);
        let before = host;
        assert_eq!(host.version_reply(0, &[0]), ReplyAnswer::Refused(Refusal::new(1, 1)));
        assert_eq!(host.services_reply(0, &[]), ReplyAnswer::Refused(Refusal::new(1, 0)));
        assert_eq!(host, before);
    }

    #[test]
    fn a_list_with_an_offset_fault_changes_nothing() {
        for (offset, size, number) in [(13, 32, 6), (17, 32, 17), (52, 0, 8), (0, 0, 8)] {
            let mut list = list(&[15]);
            list[8] = offset;
            list[12] = size;
            let refused = ReplyAnswer::Refused(Refusal::new(number, 8));
            for before in [opened(0x0200, 0x0200), opened(0x0100, 0x0200), awaiting(0x0100)] {
                let mut host = before;
                assert_eq!(host.services_reply(0, &list), refused);
                assert_eq!(host, before);
            }
        }
    }

    /// Three elements with VERSION in the second one, and a fault in the one of this number.
    fn faulty(number: usize) -> Vec<u8> {
        let element = |device_service_id, cids| Element {
            device_service_id,
            dss_payload: 0,
            max_dss_instances: 0,
            cids,
        };
        let elements =
            [element(EXTENSIONS, &[14]), element(EXTENSIONS, &[15]), element([0; 16], &[])];
        let mut out = [0; 124];
        assert_eq!(device_services::write(0, &elements, &mut out), Ok(out.len()));
        out[8 + 8 * number] += 1;
        out.to_vec()
    }

    #[test]
    fn a_fault_behind_version_is_not_seen() {
        let list = faulty(2);
        for advertised in [0x0100, 0x0200] {
            let mut host = opened(0x0200, advertised);
            assert_eq!(host.services_reply(0, &list), ReplyAnswer::AsksVersion);
            assert_eq!(host, awaiting(advertised));
        }
        let mut host = opened(0x0100, 0x0100);
        assert_eq!(host.services_reply(0, &list), ReplyAnswer::Settled(Version::V1));
        let mut host = opened(0x0100, 0x0200);
        assert_eq!(host.services_reply(0, &list), ReplyAnswer::Refused(Refusal::new(13, 0)));
        assert_eq!(host, opened(0x0100, 0x0200));
    }

    #[test]
    fn a_fault_before_version_or_at_it_comes_before_13_and_14() {
        for number in [0, 1] {
            let refused = ReplyAnswer::Refused(Refusal::new(17, 8 + 8 * number));
            for (native, advertised) in
                [(0x0100, 0x0100), (0x0100, 0x0200), (0x0200, 0x0100), (0x0200, 0x0200)]
            {
                let mut host = opened(native, advertised);
                assert_eq!(host.services_reply(0, &faulty(number)), refused);
                assert_eq!(host, opened(native, advertised));
            }
        }
        let mut unlisted = list(&[14]);
        unlisted[12] -= 1;
        let refused = ReplyAnswer::Refused(Refusal::new(8, 8));
        assert_eq!(opened(0x0200, 0x0200).services_reply(0, &unlisted), refused);
    }

    #[test]
    fn a_list_that_changes_nothing_is_refused_where_the_question_refuses() {
        let closed = Host::make(0x0200).unwrap();
        let [mut one, mut two] = [awaiting(0x0100); 2];
        one.version_reply(0, &ANSWER_V1);
        two.version_reply(0, &ANSWER_V2);
        for before in [closed, awaiting(0x0100), awaiting(0x0200), one, two] {
            let mut host = before;
            assert_eq!(host.services_reply(0, &faulty(2)), ReplyAnswer::Unchanged);
            for number in [0, 1] {
                let refused = ReplyAnswer::Refused(Refusal::new(17, 8 + 8 * number));
                assert_eq!(host.services_reply(0, &faulty(number)), refused);
                assert_eq!(host.services_reply(9, &faulty(number)), ReplyAnswer::Unchanged);
            }
            assert_eq!(host, before);
        }
    }

    #[test]
    fn replies_that_nobody_awaits_change_nothing() {
        let closed = Host::make(0x0200).unwrap();
        let mut settled = awaiting(0x0100);
        settled.version_reply(0, &ANSWER_V1);
        for before in [closed, opened(0x0200, 0x0100), settled] {
            let mut host = before;
            assert_eq!(host.version_reply(0, &ANSWER_V2), ReplyAnswer::Unchanged);
            assert_eq!(host.version_reply(9, &ANSWER_V2), ReplyAnswer::Unchanged);
            assert_eq!(host.services_reply(9, &[]), ReplyAnswer::Unchanged);
            let refusal = Refusal::new(2, 5);
            assert_eq!(host.version_reply(0, &[0; 5]), ReplyAnswer::Refused(refusal));
            assert_eq!(host, before);
        }
        for before in [closed, awaiting(0x0100), settled] {
            let mut host = before;
            assert_eq!(host.services_reply(0, &list(&[])), ReplyAnswer::Unchanged);
            assert_eq!(host, before);
        }
    }

    #[test]
    fn only_a_done_of_either_cid_is_a_reply() {
        let basic = crate::payload::BASIC_CONNECT;
        let header = |message_type, service, cid| Header {
            message_type,
            transaction: 0,
            service,
            cid,
            word: 0,
        };
        let mut host = opened(0x0200, 0x0100);
        let before = host;
        for (message_type, service, cid) in [
            (3, basic, 16),
            (0x8000_0007, basic, 16),
            (1, basic, 16),
            (COMMAND_DONE, basic, 11),
            (COMMAND_DONE, basic, 15),
            (COMMAND_DONE, EXTENSIONS, 16),
            (COMMAND_DONE, [0; 16], 15),
        ] {
            let answer = host.receive(&header(message_type, service, cid), &[]);
            assert_eq!(answer, ReplyAnswer::Unchanged);
            assert_eq!(host, before);
        }
        let services = header(COMMAND_DONE, basic, 16);
        assert_eq!(host.receive(&services, &[]), ReplyAnswer::Refused(Refusal::new(1, 0)));
        assert_eq!(host.receive(&services, &list(&[15])), ReplyAnswer::AsksVersion);
        let version = header(COMMAND_DONE, EXTENSIONS, 15);
        assert_eq!(host.receive(&version, &ANSWER_V2), ReplyAnswer::Settled(Version::V2));
    }

    #[test]
    fn without_version_both_run_1_00() {
        let mut host = opened(0x0200, 0x0100);
        let answer = host.services_reply(0, &list(&[]));
        assert_eq!(answer, ReplyAnswer::Settled(Version::V1));
        let mut host = opened(0x0100, 0x0100);
        let answer = host.services_reply(0, &list(&[15]));
        assert_eq!(answer, ReplyAnswer::Settled(Version::V1));
        host.open(0x0100).unwrap();
        assert_eq!(host, opened(0x0100, 0x0100));
    }
}
