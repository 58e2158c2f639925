//! The text of a replay, as docs/replay.md has it: rows for each line of a trace.

use crate::message::{
    Header, Whole, CLOSE, CLOSE_DONE, COMMAND, COMMAND_DONE, FUNCTION_ERROR, HOST_ERROR,
    INDICATE_STATUS, OPEN, OPEN_DONE,
};
use crate::payload;
use crate::rows::{self, Hex, Table};
use crate::trace::{Answer, Event, Sender, Trace};
use crate::version::Version;

/// The first row, which names the columns.
pub const HEADER: &str = "line\telapsed\tsender\tfield\tvalue\tplace\n";

/// A replay so far.
#[derive(Default)]
pub struct Replay {
    trace: Trace,
    lines: u64,
}

impl Replay {
    pub fn new() -> Replay {
        Replay::default()
    }

    /// Puts the rows of the next line, given with its line feed, behind the text.
    pub fn line(&mut self, line: &[u8], text: &mut String) {
        self.lines += 1;
        let number = self.lines;
        match self.trace.step(line) {
            Err(refusal) => {
                let start = format!("{number}\t\t\t");
                Table { start: &start, text }.refused("bad line", refusal);
            }
            Ok(event) => {
                let start = format!("{number}\t{}\t{}\t", event.elapsed, letter(event.sender));
                answer_rows(&event, &mut Table { start: &start, text });
            }
        }
    }
}

const fn letter(sender: Sender) -> char {
    match sender {
        Sender::Host => 'H',
        Sender::Device => 'D',
    }
}

fn answer_rows(event: &Event, table: &mut Table) {
    match event.answer {
        Answer::PieceRefused(refusal) => table.refused("piece refused", refusal),
        Answer::WholeRefused(refusal) => table.refused("whole refused", refusal),
        Answer::Whole(whole) => whole_rows(&whole, table),
        Answer::Pending { message_type, transaction, dropped } => {
            first_rows("pending", message_type, transaction, dropped, table);
        }
        Answer::Complete { header, information, dropped } => {
            first_rows("complete", header.message_type, header.transaction, dropped, table);
            header_rows(&header, information.len(), table);
            payload_rows(&header, event.version, information, table);
        }
    }
}

fn first_rows(field: &str, message_type: u32, transaction: u32, dropped: bool, table: &mut Table) {
    table.row(field, type_word(message_type));
    if dropped {
        table.row("dropped", 1);
    }
    table.row("TransactionId", transaction);
}

fn whole_rows(whole: &Whole, table: &mut Table) {
    first_rows("whole", whole.message_type, whole.transaction, false, table);
    match whole.message_type {
        OPEN => table.row("MaxControlTransfer", whole.word),
        OPEN_DONE | CLOSE_DONE => table.row("Status", whole.word),
        HOST_ERROR | FUNCTION_ERROR => table.row("ErrorStatusCode", whole.word),
        _ => (),
    }
}

fn header_rows(header: &Header, length: usize, table: &mut Table) {
    table.row("DeviceServiceId", Hex(&header.service));
    table.row("CID", header.cid);
    match header.message_type {
        COMMAND => table.row("CommandType", header.word),
        COMMAND_DONE => table.row("Status", header.word),
        _ => (),
    }
    table.row("InformationBufferLength", length);
}

/// The payload that a message shows, if it shows one.
fn payload_rows(header: &Header, version: Version, information: &[u8], table: &mut Table) {
    let listed = match payload::shown(header) {
        Err(refusal) => Err(refusal),
        Ok(None) => {
            table.row("payload", "none");
            Ok(())
        }
        Ok(Some(kind)) => {
            table.row(rows::kind_word(kind), rows::version_word(version));
            rows::list(kind, version, information, table)
        }
    };
    if let Err(refusal) = listed {
        table.refused("refused", refusal);
    }
}

/// The word of a type. Every message that comes through has one.
const fn type_word(message_type: u32) -> &'static str {
    match message_type {
        OPEN => "OPEN",
        CLOSE => "CLOSE",
        COMMAND => "COMMAND",
        HOST_ERROR => "HOST_ERROR",
        OPEN_DONE => "OPEN_DONE",
        CLOSE_DONE => "CLOSE_DONE",
        COMMAND_DONE => "COMMAND_DONE",
        FUNCTION_ERROR => "FUNCTION_ERROR",
        INDICATE_STATUS => "INDICATE_STATUS",
        _ => "",
    }
}

#[cfg(test)]
mod tests {
    use super::*;

    /// The rows of a trace, without the first one.
    fn replayed(trace: &[&str]) -> String {
        let mut replay = Replay::new();
        let mut text = String::new();
        for line in trace {
            replay.line(line.as_bytes(), &mut text);
        }
        text
    }

    const SERVICE: &str = "3d01dcc5fef54d050d3abef7058e9aaf";

    /// A reply to VERSION in two fragments of 48 and 24 bytes.
    fn version_reply() -> [String; 2] {
        let head = "0300008030000000050000000200000000000000";
        let first = format!("4294967290\tD\t{head}{SERVICE}0f0000000000000004000000\n");
        let last = "4\tD\t030000801800000005000000020000000100000000010002\n".to_string();
        [first, last]
    }

    #[test]
    fn a_version_reply_around_a_bad_line() {
        let [first, last] = version_reply();
        let wanted = [
            "1\t0\tD\tpending\tCOMMAND_DONE",
            "1\t0\tD\tTransactionId\t5",
            "2\t\t\tbad line\t19\t4",
            "3\t10\tD\tcomplete\tCOMMAND_DONE",
            "3\t10\tD\tTransactionId\t5",
            &format!("3\t10\tD\tDeviceServiceId\t{SERVICE}"),
            "3\t10\tD\tCID\t15",
            "3\t10\tD\tStatus\t0",
            "3\t10\tD\tInformationBufferLength\t4",
            "3\t10\tD\tversion\t1.00",
            "3\t10\tD\tbcdMBIMVersion\t256",
            "3\t10\tD\tbcdMBIMExtendedVersion\t512",
            "",
        ];
        assert_eq!(replayed(&[&first, "0\tD\tx\n", &last]), wanted.join("\n"));
    }

    #[test]
    fn what_a_piece_may_come_to() {
        let [first, last] = version_reply();
        let open = "5\tH\t01000000100000000100000040000000\n";
        let close = "5\tH\t020000000c00000002000000\n";
        let error = "5\tD\t04000080100000000200000001000000\n";
        let short = "5\tD\t04000080\n";
        let wanted = [
            "1\t0\tH\twhole\tOPEN",
            "1\t0\tH\tTransactionId\t1",
            "1\t0\tH\tMaxControlTransfer\t64",
            "2\t0\tH\twhole\tCLOSE",
            "2\t0\tH\tTransactionId\t2",
            "3\t0\tD\twhole\tFUNCTION_ERROR",
            "3\t0\tD\tTransactionId\t2",
            "3\t0\tD\tErrorStatusCode\t1",
            "4\t0\tD\twhole refused\t1\t4",
            "5\t4294967285\tD\tpending\tCOMMAND_DONE",
            "5\t4294967285\tD\tTransactionId\t5",
            "6\t0\tD\tpending\tCOMMAND_DONE",
            "6\t0\tD\tdropped\t1",
            "6\t0\tD\tTransactionId\t5",
            "7\t11\tH\tpiece refused\t1\t0",
            "",
        ];
        let lines = [open, close, error, short, &first, &first, "5\tH\t\n"];
        assert_eq!(replayed(&lines), wanted.join("\n"));
        let stray = "1\t0\tD\tpiece refused\t4\t16\n";
        assert_eq!(replayed(&[&last]), stray);
    }

    /// The rows behind the message's own, of a message in one fragment from the device.
    fn shown(message_type: &str, service: &str, cid: u8, word: &str, payload: &str) -> String {
        let (service, size) = (service.replace('-', ""), payload.len() / 2);
        let length = 44 + word.len() / 2 + size;
        let head = format!("{message_type}{length:02x}000000070000000100000000000000{service}");
        let line = format!("1\tD\t{head}{cid:02x}000000{word}{size:02x}000000{payload}\n");
        let text = replayed(&[&line]);
        let (_, rows) = text.split_once("BufferLength\t").expect(&text);
        let (_, rows) = rows.split_once('\n').expect(&text);
        rows.replace("1\t0\tD\t", "")
    }

    const BASIC: &str = "a289cc33-bcbb-8b4f-b6b0-133ec2aae6df";
    const DONE: &str = "03000080";
    const COMMAND_TYPE: &str = "03000000";
    const INDICATE: &str = "07000080";

    #[test]
    fn what_a_message_may_show() {
        let zero = "00000000";
        let packet = "00000000020000002000000080f0fa020000000080d1f00800000000";
        let rows = "packet_service\t1.00\nNwError\t0\nPacketServiceState\t2\n\
            HighestAvailableDataClass\t32\nUplinkSpeed\t50000000\nDownlinkSpeed\t150000000\n";
        assert_eq!(shown(DONE, BASIC, 10, zero, packet), rows);
        assert_eq!(shown(INDICATE, BASIC, 10, "", packet), rows);
        let refused = "packet_service\t1.00\nrefused\t1\t0\n";
        assert_eq!(shown(DONE, BASIC, 10, zero, ""), refused);
        assert_eq!(shown(DONE, BASIC, 10, "02000000", packet), "payload\tnone\n");
        assert_eq!(shown(COMMAND_TYPE, BASIC, 10, zero, packet), "payload\tnone\n");
        assert_eq!(shown(DONE, BASIC, 15, "09000000", packet), "refused\t3\t36\n");
        assert_eq!(shown(DONE, &"0".repeat(32), 10, zero, packet), "refused\t3\t20\n");
    }

    #[test]
    fn pin_shows_its_two_payloads() {
        let info = "020000000100000003000000";
        let rows = "pin_info\t1.00\nPinType\t2\nPinState\t1\nRemainingAttempts\t3\n";
        assert_eq!(shown(DONE, BASIC, 4, "02000000", info), rows);
        assert_eq!(shown(DONE, BASIC, 4, "09000000", info), "payload\tnone\n");
        let set = "0200000000000000180000000400000000000000000000003100Ab00";
        let rows = "set_pin\t1.00\nPinType\t2\nPinOperation\t0\nPin\t3100ab00\nNewPin\t\n";
        assert_eq!(shown(COMMAND_TYPE, BASIC, 4, "01000000", set), rows);
        assert_eq!(shown(COMMAND_TYPE, BASIC, 4, "00000000", set), "payload\tnone\n");
        // The new text has size 0 and an offset: strictly a fault.
        let stray = "0200000000000000180000000400000018000000000000003100ab00";
        let refused = "set_pin\t1.00\nrefused\t18\t16\n";
        assert_eq!(shown(COMMAND_TYPE, BASIC, 4, "01000000", stray), refused);
    }
}
