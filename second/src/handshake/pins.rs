//! The modem's end with a table of PINs.

use super::modem::{CommandAnswer, Modem, FAILED};
use crate::bytes::put;
use crate::message::{Header, SET};
use crate::payload::Kind;
use crate::pin_entry::Pins;
use crate::refusal::Refusal;
use crate::{pin, pin_memory};

/// Takes a message as the modem does, but an entry that the handshake lets through is answered by
/// the table. Too little room for its payload leaves both as they were.
pub fn receive(
    modem: &mut Modem,
    pins: &mut Pins,
    header: &Header,
    information: &[u8],
    out: &mut [u8],
) -> CommandAnswer {
    let mut modem_after = *modem;
    let mut answer = modem_after.receive(header, information, out);
    if is_entry(header, answer) {
        let mut pins_after = *pins;
        match enter(&mut pins_after, information, out) {
            Ok(entered) => answer = entered,
            Err(refusal) => return CommandAnswer::Refused(refusal),
        }
        *pins = pins_after;
    }
    *modem = modem_after;
    answer
}

/// Takes a message as `receive` does, with the table in lent memory. That is looked at only for
/// an entry that the handshake lets through, and then it is judged first.
pub fn receive_lent(
    modem: &mut Modem,
    memory: &mut [u8],
    header: &Header,
    information: &[u8],
    out: &mut [u8],
) -> CommandAnswer {
    let mut modem_after = *modem;
    let answer = modem_after.receive(header, information, out);
    if !is_entry(header, answer) {
        *modem = modem_after;
        return answer;
    }
    let mut pins = match pin_memory::read(memory) {
        Ok(pins) => pins,
        Err(refusal) => return CommandAnswer::Refused(refusal),
    };
    let answer = receive(modem, &mut pins, header, information, out);
    if matches!(answer, CommandAnswer::Pin { .. }) {
        put(memory, 0, &pin_memory::bytes(&pins));
    }
    answer
}

/// Whether a message that the modem answers so is an entry: a set on PIN, which it would serve.
fn is_entry(header: &Header, answer: CommandAnswer) -> bool {
    header.word == SET && answer == (CommandAnswer::Serve { kind: Kind::PinInfo })
}

/// The answer to an entry: status 9 where its payload is refused or the table doesn't support it,
/// else the table's. Only the latter wants room: 11.
fn enter(pins: &mut Pins, payload: &[u8], out: &mut [u8]) -> Result<CommandAnswer, Refusal> {
    let Ok(reply) = pins.enter(payload) else {
        return Ok(FAILED);
    };
    match reply.info {
        None => Ok(CommandAnswer::Failed { status: reply.status }),
        Some(info) => {
            pin::write_info(&info, out)?;
            Ok(CommandAnswer::Pin { status: reply.status })
        }
    }
}

#[cfg(test)]
mod tests {
    use super::*;
    use crate::message::COMMAND;
    use crate::payload::{BASIC_CONNECT, CID_PIN, EXTENSIONS};
    use crate::pin_entry::{Given, ROWS};
    use crate::version::Version;
    use crate::ServiceId;

    /// SET_PIN without texts for PIN1, whose secret is empty, and for Custom, whose is not.
    const RIGHT: [u8; 24] = with_type(2);
    const WRONG: [u8; 24] = with_type(1);
    /// An empty list of services.
    const NO_SERVICES: [u8; 8] = [0; 8];

    const fn with_type(pin_type: u8) -> [u8; 24] {
        let mut payload = [0; 24];
        payload[0] = pin_type;
        payload
    }

    fn table() -> Pins {
        let mut given = [Given::default(); ROWS];
        given[1] = Given { present: 1, enabled: 1, starting_tries: 3, ..Given::default() };
        given[0] = Given { secret_length: 2, ..given[1] };
        Pins::make(&given).unwrap()
    }

    fn command(service: ServiceId, cid: u32, word: u32) -> Header {
        Header { message_type: COMMAND, transaction: 1, service, cid, word }
    }

    fn set() -> Header {
        command(BASIC_CONNECT, CID_PIN, SET)
    }

    /// A modem that has sent its list, advertised 1.00.
    fn listed() -> Modem {
        let mut modem = Modem::make(0x0200, 0x0100, &NO_SERVICES).unwrap();
        modem.receive(&command(BASIC_CONNECT, 16, 0), &[], &mut []);
        modem
    }

    #[test]
    fn an_entry_settles_the_modem_and_reaches_the_table() {
        let (mut modem, mut pins, mut out) = (listed(), table(), [9; 14]);
        let answer = receive(&mut modem, &mut pins, &set(), &WRONG, &mut out);
        assert_eq!(answer, CommandAnswer::Pin { status: 2 });
        assert_eq!(out, [1, 0, 0, 0, 1, 0, 0, 0, 2, 0, 0, 0, 9, 9]);
        assert_eq!(modem.version(), Some(Version::V1));
        assert_eq!(pins.rows[0].tries, 2);
        let answer = receive(&mut modem, &mut pins, &set(), &RIGHT, &mut out);
        assert_eq!(answer, CommandAnswer::Pin { status: 0 });
        assert_eq!(out[..12], [0; 12]);
        assert!(pins.rows[1].entered);
    }

    #[test]
    fn too_little_room_leaves_modem_and_table() {
        for payload in [RIGHT, WRONG] {
            let (mut modem, mut pins, mut out) = (listed(), table(), [9; 11]);
            let answer = receive(&mut modem, &mut pins, &set(), &payload, &mut out);
            assert_eq!(answer, CommandAnswer::Refused(Refusal::new(11, 12)));
            assert_eq!((modem, pins, out), (listed(), table(), [9; 11]));
        }
    }

    #[test]
    fn status_9_of_the_table_wants_no_room_and_settles() {
        let mut change = RIGHT;
        change[4] = 3;
        let mut stray = RIGHT;
        stray[16] = 24;
        for payload in [&change[..], &stray, &with_type(3), &with_type(18), &RIGHT[..23], &[]] {
            let (mut modem, mut pins) = (listed(), table());
            assert_eq!(receive(&mut modem, &mut pins, &set(), payload, &mut []), FAILED);
            assert_eq!(modem.version(), Some(Version::V1));
            assert_eq!(pins, table());
        }
    }

    #[test]
    fn before_the_list_and_before_version_the_table_is_not_reached() {
        let start = Modem::make(0x0200, 0x0100, &NO_SERVICES).unwrap();
        let mut waiting = Modem::make(0x0200, 0x0200, &NO_SERVICES).unwrap();
        waiting.receive(&command(BASIC_CONNECT, 16, 0), &[], &mut []);
        for before in [start, waiting] {
            let (mut modem, mut pins) = (before, table());
            assert_eq!(receive(&mut modem, &mut pins, &set(), &WRONG, &mut []), FAILED);
            assert_eq!((modem, pins), (before, table()));
        }
    }

    #[test]
    fn what_is_no_set_on_pin_is_answered_as_without_a_table() {
        let of = |cid, word| command(BASIC_CONNECT, cid, word);
        let others = [of(4, 0), of(4, 2), of(9, 1), of(16, 1), of(5, 1), of(0x104, 1)];
        let services = [command(EXTENSIONS, 4, 1), command([0; 16], 4, 1)];
        let done = Header { message_type: 0x8000_0003, ..set() };
        let no_transaction = Header { transaction: 0, ..set() };
        for header in others.into_iter().chain(services).chain([done, no_transaction]) {
            let (mut modem, mut pins, mut alone) = (listed(), table(), listed());
            let answer = receive(&mut modem, &mut pins, &header, &WRONG, &mut [0; 12]);
            assert_eq!(answer, alone.receive(&header, &WRONG, &mut [0; 12]));
            assert_eq!((modem, pins), (alone, table()));
        }
    }

    #[test]
    fn a_table_in_lent_memory_answers_the_same() {
        let entries = [&WRONG[..], &RIGHT, &RIGHT, &with_type(3), &[]];
        for (command_type, room) in [(SET, 12), (SET, 11), (0, 12)] {
            let header = command(BASIC_CONNECT, CID_PIN, command_type);
            let (mut modem, mut pins, mut lent) = (listed(), table(), listed());
            let mut memory = [&pin_memory::bytes(&pins)[..], &[9]].concat();
            for entry in entries {
                let (mut out, mut lent_out) = ([9; 12], [9; 12]);
                let answer = receive(&mut modem, &mut pins, &header, entry, &mut out[..room]);
                let lent_room = &mut lent_out[..room];
                let lent_answer = receive_lent(&mut lent, &mut memory, &header, entry, lent_room);
                assert_eq!((lent_answer, lent_out, lent), (answer, out, modem));
                assert_eq!(memory[..748], pin_memory::bytes(&pins));
                assert_eq!(memory[748], 9);
            }
        }
    }

    #[test]
    fn memory_is_judged_only_for_an_entry_and_then_first() {
        let mut bad = pin_memory::bytes(&table());
        bad[44] = 2;
        for (memory, refusal) in [(&bad[..747], (11, 748)), (&bad, (10, 44))] {
            let (mut modem, mut lent) = (listed(), memory.to_vec());
            let refused = CommandAnswer::Refused(Refusal::new(refusal.0, refusal.1));
            for entry in [&RIGHT[..], &[]] {
                assert_eq!(receive_lent(&mut modem, &mut lent, &set(), entry, &mut []), refused);
                assert_eq!((modem, &lent[..]), (listed(), memory));
            }
            let query = command(BASIC_CONNECT, CID_PIN, 0);
            let answer = receive_lent(&mut modem, &mut lent, &query, &RIGHT, &mut []);
            assert_eq!(answer, CommandAnswer::Serve { kind: Kind::PinInfo });
            modem.open();
            assert_eq!(receive_lent(&mut modem, &mut lent, &set(), &RIGHT, &mut []), FAILED);
            assert_eq!(&lent[..], memory);
        }
    }
}
