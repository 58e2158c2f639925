//! The version handshake, each end by itself: the host and the modem, which may have a
//! table of PINs.

pub mod host;
pub mod modem;
pub mod pins;

pub use host::{Host, NextCommand, ReplyAnswer};
pub use modem::{CommandAnswer, Modem};

#[cfg(test)]
mod tests {
    use super::*;
    use crate::device_services::{self, Element};
    use crate::message::{Header, COMMAND, COMMAND_DONE};
    use crate::payload::{BASIC_CONNECT, CID_DEVICE_SERVICES, CID_VERSION, EXTENSIONS};
    use crate::version::Version;
    use crate::ServiceId;

    fn list(lists_version: bool) -> Vec<u8> {
        let element = |device_service_id, cids| Element {
            device_service_id,
            dss_payload: 0,
            max_dss_instances: 0,
            cids,
        };
        let elements = [element(BASIC_CONNECT, &[4, 9, 10, 11, 16]), element(EXTENSIONS, &[15])];
        let count = if lists_version { 2 } else { 1 };
        let mut out = [0; 200];
        let length = device_services::write(0, &elements[..count], &mut out).unwrap();
        out[..length].to_vec()
    }

    fn command(service: ServiceId, cid: u32) -> Header {
        Header { message_type: COMMAND, transaction: 1, service, cid, word: 0 }
    }

    /// The good reply to a command.
    fn done(header: &Header) -> Header {
        Header { message_type: COMMAND_DONE, ..*header }
    }

    /// The whole run from ends just opened; the version of both, or the refusal's number.
    fn run(host_native: u16, native: u16, advertised: u16, lists: bool) -> Result<Version, u32> {
        let list = list(lists);
        let mut host = Host::make(host_native).unwrap();
        let mut modem = Modem::make(native, advertised, &list).unwrap();
        host.open(advertised).unwrap();
        modem.open();
        let mut out = [0; 4];
        assert_eq!(host.next_command(&mut out), Ok(NextCommand::Services));
        let services = command(BASIC_CONNECT, CID_DEVICE_SERVICES);
        let served = modem.receive(&services, &[], &mut []);
        assert!(matches!(served, CommandAnswer::Serve { .. }));
        match host.receive(&done(&services), &list) {
            ReplyAnswer::Refused(refusal) => return Err(refusal.number),
            ReplyAnswer::AsksVersion => {
                assert_eq!(host.next_command(&mut out), Ok(NextCommand::Version));
                let version = command(EXTENSIONS, CID_VERSION);
                let served = modem.receive(&version, &{ out }, &mut out);
                assert!(matches!(served, CommandAnswer::Version { .. }));
                host.receive(&done(&version), &out);
            }
            _ => {
                let served = modem.receive(&command(BASIC_CONNECT, 11), &[], &mut []);
                assert!(matches!(served, CommandAnswer::Serve { .. }));
            }
        }
        assert_eq!(host.version(), modem.version());
        Ok(host.version().unwrap())
    }

    #[test]
    fn every_run_of_the_rule() {
        let (one, two) = (0x0100, 0x0200);
        for lists in [false, true] {
            assert_eq!(run(one, one, one, lists), Ok(Version::V1));
            assert_eq!(run(one, two, one, lists), Ok(Version::V1));
            assert_eq!(run(two, one, one, lists), Ok(Version::V1));
            assert_eq!(run(one, two, two, lists), Err(13));
        }
        assert_eq!(run(two, two, one, false), Ok(Version::V1));
        assert_eq!(run(two, two, one, true), Ok(Version::V2));
        assert_eq!(run(two, two, two, false), Err(14));
        assert_eq!(run(two, two, two, true), Ok(Version::V2));
    }
}
