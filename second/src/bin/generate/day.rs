//! The trace of a station's day: from open to close at transfer size 64, mostly indications of
//! the signal, with the damage that a long serial line does.

use crate::damage::words;
use crate::random::Random;
use crate::records::written;
use crate::traces::{fragments, line};
use second::cutter::next_transaction;
use second::device_services::{self, Element};
use second::message::{
    Header, CLOSE, CLOSE_DONE, COMMAND, COMMAND_DONE, HOST_ERROR, INDICATE_STATUS, OPEN, OPEN_DONE,
    QUERY, SET, STATUS_FAILURE, STATUS_SUCCESS,
};
use second::packet_service::{self, Form, PacketService};
use second::payload::{
    BASIC_CONNECT, CID_DEVICE_SERVICES, CID_PACKET_SERVICE, CID_PIN, CID_REGISTER_STATE,
    CID_SIGNAL_STATE, CID_VERSION, EXTENSIONS,
};
use second::pin::{self, PinInfo, SetPin, ENTER, LOCKED, PIN_TYPE_NONE, UNLOCKED};
use second::registration::{self, Registration};
use second::signal_state::{self, RsrpSnr, SignalState, RSRP_UNKNOWN, SNR_UNKNOWN};
use second::trace::Sender;
use second::version::Version;
use second::version_info;

const TRANSFER_SIZE: usize = 64;
const DAY: u32 = 86_400_000;
const HOUR: u32 = 3_600_000;
/// The counter at the day's beginning: it goes on at 0 in the afternoon.
const BEGINNING: u32 = u32::MAX - 15 * HOUR - 1_234_567;

/// MBIM_ERROR_FRAGMENT_OUT_OF_SEQUENCE
const OUT_OF_SEQUENCE: u32 = 2;
/// MBIMPinTypePin1
const PIN1: u32 = 2;
const HOME: u32 = 3;
const ROAMING: u32 = 4;
const SEARCHING: u32 = 2;
const LTE: u32 = 0x20;
const FIVE_G: u32 = 0x40;

pub fn all() -> Vec<u8> {
    let mut day = Day { random: Random::new(86_400), time: 0, transaction: 0, text: Vec::new() };
    day.open();
    day.enter_pin();
    day.register();
    day.signal_until(6 * HOUR);
    day.cut_line();
    day.signal_until(9 * HOUR);
    day.lost_fragment();
    day.signal_until(12 * HOUR);
    day.roam();
    day.signal_until(14 * HOUR);
    day.lost_end();
    day.signal_until(17 * HOUR);
    day.run_together();
    day.signal_until(19 * HOUR);
    day.flipped_letter();
    day.signal_until(21 * HOUR);
    day.carriage_return();
    day.signal_until(DAY - HOUR / 2);
    day.close();
    day.text
}

struct Day {
    random: Random,
    /// Milliseconds since the day's beginning.
    time: u32,
    transaction: u32,
    text: Vec<u8>,
}

impl Day {
    fn wait(&mut self, least: u32, more: usize) {
        self.time += least + self.random.below(more) as u32;
    }

    fn line(&mut self, sender: Sender, piece: &[u8]) -> Vec<u8> {
        self.wait(1, 7);
        line(BEGINNING.wrapping_add(self.time), sender, piece)
    }

    fn send(&mut self, sender: Sender, piece: &[u8]) {
        let line = self.line(sender, piece);
        self.text.extend(line);
    }

    fn send_all(&mut self, sender: Sender, pieces: &[Vec<u8>]) {
        for piece in pieces {
            self.send(sender, piece);
        }
    }

    /// A command and its reply.
    fn ask(&mut self, cid: u32, command_type: u32, command: &[u8], reply: (u32, &[u8])) {
        self.transaction = next_transaction(self.transaction);
        self.wait(200, 900);
        let command = self.message(COMMAND, cid, command_type, command);
        self.send_all(Sender::Host, &command);
        self.wait(5, 60);
        let reply = self.message(COMMAND_DONE, cid, reply.0, reply.1);
        self.send_all(Sender::Device, &reply);
    }

    fn indicate(&mut self, cid: u32, information: &[u8]) {
        let pieces = self.message(INDICATE_STATUS, cid, 0, information);
        self.send_all(Sender::Device, &pieces);
    }

    fn message(&self, message_type: u32, cid: u32, word: u32, information: &[u8]) -> Vec<Vec<u8>> {
        let transaction = if message_type == INDICATE_STATUS { 0 } else { self.transaction };
        let service = if cid == CID_VERSION { EXTENSIONS } else { BASIC_CONNECT };
        let header = Header { message_type, transaction, service, cid, word };
        fragments(&header, TRANSFER_SIZE, information)
    }

    fn open(&mut self) {
        self.transaction = next_transaction(self.transaction);
        self.send(Sender::Host, &words(&[OPEN, 16, self.transaction, TRANSFER_SIZE as u32]));
        self.wait(900, 400);
        self.send(Sender::Device, &words(&[OPEN_DONE, 16, self.transaction, STATUS_SUCCESS]));
        self.ask(CID_DEVICE_SERVICES, QUERY, &[], (STATUS_SUCCESS, &services()));
        let version = version_info::bytes(Version::V2);
        self.ask(CID_VERSION, QUERY, &version, (STATUS_SUCCESS, &version));
    }

    /// The PIN is asked for, given wrongly, and given rightly.
    fn enter_pin(&mut self) {
        let locked = |attempts| {
            let info = PinInfo { pin_type: PIN1, pin_state: LOCKED, remaining_attempts: attempts };
            written(|out| pin::write_info(&info, out))
        };
        self.ask(CID_PIN, QUERY, &[], (STATUS_SUCCESS, &locked(3)));
        self.wait(9_000, 5_000);
        self.ask(CID_PIN, SET, &entry("4711"), (STATUS_FAILURE, &locked(2)));
        self.wait(9_000, 5_000);
        let info = PinInfo { pin_type: PIN_TYPE_NONE, pin_state: UNLOCKED, remaining_attempts: 0 };
        let entered = written(|out| pin::write_info(&info, out));
        self.ask(CID_PIN, SET, &entry("4712"), (STATUS_SUCCESS, &entered));
    }

    fn register(&mut self) {
        self.ask(CID_REGISTER_STATE, QUERY, &[], (STATUS_SUCCESS, &searching()));
        self.wait(4_000, 3_000);
        self.indicate(CID_REGISTER_STATE, &at_home());
        // MBIMPacketServiceActionAttach
        self.ask(CID_PACKET_SERVICE, SET, &words(&[0]), (STATUS_SUCCESS, &attaching()));
        self.wait(1_000, 900);
        self.indicate(CID_PACKET_SERVICE, &attached(LTE));
        let signal = self.signal();
        self.ask(CID_SIGNAL_STATE, QUERY, &[], (STATUS_SUCCESS, &signal));
    }

    /// Indications of the signal at irregular times, and a few other things.
    fn signal_until(&mut self, end: u32) {
        while self.time < end {
            match self.random.below(24) {
                0 => {
                    let signal = self.signal();
                    self.ask(CID_SIGNAL_STATE, QUERY, &[], (STATUS_SUCCESS, &signal));
                }
                1 => self.indicate(CID_PACKET_SERVICE, &attached(FIVE_G)),
                2 => self.indicate(CID_PACKET_SERVICE, &attached(LTE)),
                3 => self.ask(CID_REGISTER_STATE, QUERY, &[], (STATUS_SUCCESS, &at_home())),
                _ => {
                    let signal = self.signal();
                    self.indicate(CID_SIGNAL_STATE, &signal);
                }
            }
            self.wait(30_000, 2_400_000);
        }
    }

    /// Better by night than by day.
    fn signal(&mut self) -> Vec<u8> {
        let is_night = !(7..20).contains(&(self.time / HOUR));
        let rsrp = (if is_night { 66 } else { 58 }) + self.random.below(13) as u32;
        let snr = (if is_night { 70 } else { 62 }) + self.random.below(17) as u32;
        let lte = entry_of(rsrp, snr, LTE);
        let five_g = match self.random.below(6) {
            0 => entry_of(RSRP_UNKNOWN, SNR_UNKNOWN, FIVE_G),
            _ => entry_of(rsrp - 9, snr + 4, FIVE_G),
        };
        let entries = [lte, five_g];
        let count = 1 + usize::from(self.random.below(5) == 0);
        let record = SignalState {
            rssi: 99,
            error_rate: 99,
            signal_strength_interval: 30,
            rssi_threshold: 0,
            error_rate_threshold: 0,
            rsrp_snr: Some(&entries[..count]),
        };
        written(|out| signal_state::write(&record, out))
    }

    /// The fragments of the next indication of the signal, as lines.
    fn signal_lines(&mut self) -> Vec<Vec<u8>> {
        let signal = self.signal();
        let pieces = self.message(INDICATE_STATUS, CID_SIGNAL_STATE, 0, &signal);
        pieces.iter().map(|piece| self.line(Sender::Device, piece)).collect()
    }

    /// The first fragment's line ends early, so the second one has nothing to join.
    fn cut_line(&mut self) {
        let mut lines = self.signal_lines();
        let length = lines[0].len() - 44;
        lines[0].truncate(length);
        lines[0].push(b'\n');
        self.text.extend(lines.concat());
        self.wait(60_000, 600_000);
    }

    /// A reply without its second fragment: the last one is refused, the host says so and asks
    /// again.
    fn lost_fragment(&mut self) {
        self.transaction = next_transaction(self.transaction);
        let query = self.message(COMMAND, CID_REGISTER_STATE, QUERY, &[]);
        self.send_all(Sender::Host, &query);
        self.wait(5, 60);
        let mut reply = self.message(COMMAND_DONE, CID_REGISTER_STATE, STATUS_SUCCESS, &at_home());
        reply.remove(1);
        self.send_all(Sender::Device, &reply);
        self.wait(20, 60);
        self.send(Sender::Host, &words(&[HOST_ERROR, 16, self.transaction, OUT_OF_SEQUENCE]));
        self.ask(CID_REGISTER_STATE, QUERY, &[], (STATUS_SUCCESS, &at_home()));
        self.wait(60_000, 600_000);
    }

    /// Away for an hour.
    fn roam(&mut self) {
        self.indicate(CID_REGISTER_STATE, &searching());
        self.wait(15_000, 9_000);
        let away = registered(ROAMING, "26299", "Harbour Radio", "Roaming");
        self.indicate(CID_REGISTER_STATE, &away);
        self.wait(1_000, 900);
        self.indicate(CID_PACKET_SERVICE, &attached(LTE));
        self.signal_until(13 * HOUR);
        self.indicate(CID_REGISTER_STATE, &searching());
        self.wait(15_000, 9_000);
        self.indicate(CID_REGISTER_STATE, &at_home());
        self.wait(60_000, 600_000);
    }

    /// An indication without its end: the next one drops it.
    fn lost_end(&mut self) {
        let lines = self.signal_lines();
        self.text.extend(&lines[0]);
        self.wait(60_000, 600_000);
        let lines = self.signal_lines();
        self.text.extend(lines.concat());
        self.wait(60_000, 600_000);
    }

    /// A line feed is lost, so two lines are one.
    fn run_together(&mut self) {
        let mut lines = self.signal_lines();
        lines[0].pop();
        self.text.extend(lines.concat());
        self.wait(60_000, 600_000);
    }

    /// A digit has become a letter that is none.
    fn flipped_letter(&mut self) {
        let mut lines = self.signal_lines();
        let last = lines.len() - 1;
        lines[last][40] = b'p';
        self.text.extend(lines.concat());
        self.wait(60_000, 600_000);
    }

    fn carriage_return(&mut self) {
        let mut lines = self.signal_lines();
        let last = lines.len() - 1;
        lines[last].pop();
        lines[last].extend(b"\r\n");
        self.text.extend(lines.concat());
        self.wait(60_000, 600_000);
    }

    fn close(&mut self) {
        self.transaction = next_transaction(self.transaction);
        self.time = self.time.max(DAY - 900);
        self.send(Sender::Host, &words(&[CLOSE, 12, self.transaction]));
        self.wait(300, 200);
        self.send(Sender::Device, &words(&[CLOSE_DONE, 16, self.transaction, STATUS_SUCCESS]));
    }
}

fn utf16(text: &str) -> Vec<u8> {
    text.encode_utf16().flat_map(u16::to_le_bytes).collect()
}

fn services() -> Vec<u8> {
    let element = |device_service_id, cids| Element {
        device_service_id,
        dss_payload: 0,
        max_dss_instances: 0,
        cids,
    };
    let basic =
        [CID_PIN, CID_REGISTER_STATE, CID_PACKET_SERVICE, CID_SIGNAL_STATE, CID_DEVICE_SERVICES];
    let elements = [element(BASIC_CONNECT, &basic), element(EXTENSIONS, &[CID_VERSION])];
    written(|out| device_services::write(0, &elements, out))
}

/// A SET_PIN that enters PIN1.
fn entry(text: &str) -> Vec<u8> {
    let text = utf16(text);
    let record = SetPin { pin_type: PIN1, pin_operation: ENTER, pin: &text[..], new_pin: &[] };
    written(|out| pin::write_set(&record, out))
}

fn searching() -> Vec<u8> {
    registered(SEARCHING, "", "", "")
}

fn at_home() -> Vec<u8> {
    registered(HOME, "26201", "Turtle Coast", "")
}

fn registered(state: u32, id: &str, name: &str, roaming: &str) -> Vec<u8> {
    let [id, name, roaming] = [id, name, roaming].map(utf16);
    let record = Registration {
        nw_error: 0,
        register_state: state,
        register_mode: 1,
        available_data_class: if state == SEARCHING { 0 } else { LTE | FIVE_G },
        cellular_class: 1,
        provider_id: &id[..],
        provider_name: &name,
        roaming_text: &roaming,
        registration_flag: 2,
        preferred_data_class: Some(LTE | FIVE_G),
    };
    written(|out| registration::write(&record, out))
}

fn attaching() -> Vec<u8> {
    packets(1, 0, 0, [0, 0])
}

fn attached(class: u32) -> Vec<u8> {
    match class {
        FIVE_G => packets(2, class, 1, [50_000_000, 150_000_000]),
        _ => packets(2, class, 0, [25_000_000, 75_000_000]),
    }
}

fn packets(state: u32, class: u32, range: u32, [uplink, downlink]: [u64; 2]) -> Vec<u8> {
    let record = PacketService {
        nw_error: 0,
        packet_service_state: state,
        uplink_speed: uplink,
        downlink_speed: downlink,
        form: Form::V2 { current_data_class: class, frequency_range: range },
    };
    written(|out| packet_service::write(&record, out))
}

fn entry_of(rsrp: u32, snr: u32, system_type: u32) -> RsrpSnr {
    RsrpSnr { rsrp, snr, rsrp_threshold: 2, snr_threshold: 4, system_type }
}
