//! Questions and answers as numbers and bytes, as docs/samples.md has them.
//! Lent outputs are filled with one byte first, and what must stay untouched is checked.

mod stream;

use crate::assembler::Assembler;
use crate::bytes::word;
use crate::device_services::{self, DeviceServices, Element, Position, Shown};
use crate::door::{self, Received};
use crate::handshake::{host, modem, pins};
use crate::handshake::{CommandAnswer, Host, Modem, NextCommand, ReplyAnswer};
use crate::message::{self, Header, Whole};
use crate::packet_service::{self, Form, PacketService};
use crate::pair::{Range, ZeroSize};
use crate::payload::{self, Kind};
use crate::pin::{self, PinInfo, SetPin};
use crate::pin_entry::{Given as GivenPin, Pins, MOST_SECRET, ROWS};
use crate::refusal::{require, Refusal, OUTPUT_TOO_SMALL};
use crate::registration::{self, Registration};
use crate::signal_quality::{self, Reading};
use crate::signal_state::{self, Entries, RsrpSnr, SignalState};
use crate::stream::Stream;
use crate::version::{Version, MBIM};
use crate::{assembly_memory, cutter, pin_memory, stream_memory, version_info, ServiceId};

/// The numbers of the questions.
pub mod question {
    pub const VERSION_READ: u32 = 1;
    pub const VERSION_WRITE: u32 = 2;
    pub const PACKET_READ: u32 = 3;
    pub const PACKET_WRITE: u32 = 4;
    pub const REGISTRATION_READ: u32 = 5;
    pub const REGISTRATION_WRITE: u32 = 6;
    pub const SIGNAL_READ: u32 = 7;
    pub const SIGNAL_WRITE: u32 = 8;
    pub const SERVICES_READ: u32 = 9;
    pub const ELEMENT: u32 = 10;
    pub const SERVICE_CIDS: u32 = 11;
    pub const LISTED: u32 = 12;
    pub const SERVICES_WRITE: u32 = 13;
    pub const WHOLE_MESSAGE: u32 = 14;
    pub const WHOLE_WRITE: u32 = 15;
    pub const RECEIVE: u32 = 16;
    pub const EMPTY_ASSEMBLY: u32 = 17;
    pub const SHOW_ASSEMBLY: u32 = 18;
    pub const CUT: u32 = 19;
    pub const NEXT_TRANSACTION: u32 = 20;
    pub const PAYLOAD_KIND: u32 = 21;
    pub const MAKE_HOST: u32 = 22;
    pub const HOST_OPEN: u32 = 23;
    pub const HOST_CLOSE: u32 = 24;
    pub const HOST_NEXT: u32 = 25;
    pub const HOST_RECEIVE: u32 = 26;
    pub const MAKE_MODEM: u32 = 27;
    pub const MODEM_OPEN: u32 = 28;
    pub const MODEM_CLOSE: u32 = 29;
    pub const MODEM_RECEIVE: u32 = 30;
    pub const SHOW_HOST: u32 = 31;
    pub const SHOW_MODEM: u32 = 32;
    pub const RSRP: u32 = 33;
    pub const SNR: u32 = 34;
    pub const BARS: u32 = 35;
    pub const REGISTRATION_READ_WITH: u32 = 36;
    pub const SIGNAL_READ_WITH: u32 = 37;
    pub const SERVICES_READ_WITH: u32 = 38;
    pub const ELEMENT_WITH: u32 = 39;
    pub const SERVICE_CIDS_WITH: u32 = 40;
    pub const LISTED_WITH: u32 = 41;
    pub const SET_PIN_READ: u32 = 42;
    pub const SET_PIN_READ_WITH: u32 = 43;
    pub const SET_PIN_WRITE: u32 = 44;
    pub const PIN_INFO_READ: u32 = 45;
    pub const PIN_INFO_WRITE: u32 = 46;
    pub const MAKE_PINS: u32 = 47;
    pub const PIN_ENTRY: u32 = 48;
    pub const PIN_RECEIVE: u32 = 49;
    pub const SHOW_PINS: u32 = 50;
    pub const ASK_CID: u32 = 51;
    pub const ASK_CID_WITH: u32 = 52;
    pub const STREAM_FEED: u32 = 53;
    pub const STREAM_RESET: u32 = 54;
    pub const SHOW_STREAM: u32 = 55;
}

/// What a lent output holds before the call.
const FILL: u8 = 0xAA;
const FILL_WORD: u32 = 0xAAAA_AAAA;

/// How many bytes of memory an assembly, a modem, a table of PINs and a stream take.
pub const ASSEMBLY_SIZE: u64 = crate::memory::ASSEMBLY_SIZE as u64;
pub const MODEM_SIZE: u64 = crate::memory::MODEM_SIZE as u64;
pub const PINS_SIZE: u64 = pin_memory::PINS_SIZE as u64;
pub const STREAM_SIZE: u64 = stream_memory::STREAM_SIZE as u64;

/// The stream with the assembly, the host, the modem and the table of PINs that stand between questions.
#[derive(Default)]
pub struct Second {
    stream: Stream,
    host: Option<Host>,
    modem: Option<Modem>,
    pins: Option<Pins>,
}

/// An answer: 0 and what belongs to it, or a refusal's number and place.
/// What is no question (unknown number, no host, modem or table) has no numbers.
#[derive(Clone, Debug, Default, PartialEq, Eq)]
pub struct Answer {
    pub numbers: Vec<u64>,
    pub output: Vec<u8>,
}

type Flat = Result<Answer, Refusal>;

impl Second {
    pub fn new() -> Second {
        Second::default()
    }

    pub fn ask(&mut self, question: u32, arguments: &[u64], input: &[u8]) -> Answer {
        let asked = Asked { arguments, input };
        let answer = match question {
            question::RECEIVE..=question::SHOW_ASSEMBLY => {
                ask_assembly(&mut self.stream.assembler, question, &asked)
            }
            question::STREAM_FEED..=question::SHOW_STREAM => {
                stream::ask(&mut self.stream, question, &asked)
            }
            question::MAKE_HOST => make_host(&mut self.host, &asked),
            question::MAKE_MODEM => make_modem(&mut self.modem, &asked),
            question::HOST_OPEN..=question::HOST_RECEIVE | question::SHOW_HOST => {
                self.host.as_mut().map_or(none(), |host| ask_host(host, question, &asked))
            }
            question::MODEM_OPEN..=question::MODEM_RECEIVE | question::SHOW_MODEM => {
                self.modem.as_mut().map_or(none(), |modem| ask_modem(modem, question, &asked))
            }
            question::MAKE_PINS..=question::SHOW_PINS => self.ask_pins(question, &asked),
            _ => ask_stateless(question, &asked),
        };
        answer.unwrap_or_else(refused)
    }

    fn ask_pins(&mut self, question: u32, asked: &Asked) -> Flat {
        match (question, &mut self.pins, &mut self.modem) {
            (question::MAKE_PINS, pins, _) => make_pins(pins, asked),
            (question::PIN_ENTRY, Some(pins), _) => pin_entry(pins, asked),
            (question::PIN_RECEIVE, Some(pins), Some(modem)) => pin_receive(modem, pins, asked),
            (question::SHOW_PINS, Some(pins), _) => {
                with_output(&[], pin_memory::bytes(pins).to_vec())
            }
            _ => none(),
        }
    }
}

/// The questions that depend on nothing but their line.
fn ask_stateless(question: u32, asked: &Asked) -> Flat {
    match question {
        question::VERSION_READ => version_read(asked),
        question::VERSION_WRITE => version_write(asked),
        question::PACKET_READ => packet_read(asked),
        question::PACKET_WRITE => packet_write(asked),
        question::REGISTRATION_READ => registration_read(asked),
        question::REGISTRATION_WRITE => registration_write(asked),
        question::SIGNAL_READ => signal_read(asked),
        question::SIGNAL_WRITE => signal_write(asked),
        question::SERVICES_READ => services_read(asked),
        question::ELEMENT => element(asked),
        question::SERVICE_CIDS => service_cids(asked),
        question::LISTED => listed(asked),
        question::SERVICES_WRITE => services_write(asked),
        question::WHOLE_MESSAGE => whole_message(asked),
        question::WHOLE_WRITE => whole_write(asked),
        question::CUT => cut(asked),
        question::NEXT_TRANSACTION => plain(&[cutter::next_transaction(asked.word(0)).into()]),
        question::PAYLOAD_KIND => payload_kind(asked),
        question::RSRP => reading(signal_quality::rsrp(asked.word(0))?),
        question::SNR => reading(signal_quality::snr(asked.word(0))?),
        question::BARS => bars(asked),
        question::SET_PIN_READ => set_pin_shown(pin::read_set(asked.input)?),
        question::SET_PIN_WRITE => set_pin_write(asked),
        question::PIN_INFO_READ => plain(&pin_info_numbers(pin::read_info(asked.input)?)),
        question::PIN_INFO_WRITE => pin_info_write(asked),
        question::ASK_CID => ask_cid(asked),
        _ => ask_with(question, asked),
    }
}

/// The readers' questions that say what a size of 0 is.
fn ask_with(question: u32, asked: &Asked) -> Flat {
    match question {
        question::REGISTRATION_READ_WITH => registration_read_with(asked),
        question::SIGNAL_READ_WITH => signal_read_with(asked),
        question::SERVICES_READ_WITH => services_read_with(asked),
        question::ELEMENT_WITH => element_with(asked),
        question::SERVICE_CIDS_WITH => service_cids_with(asked),
        question::LISTED_WITH => listed_with(asked),
        question::SET_PIN_READ_WITH => {
            set_pin_shown(pin::read_set_with(asked.zero_size(0)?, asked.input)?)
        }
        question::ASK_CID_WITH => ask_cid_with(asked),
        _ => none(),
    }
}

/// Arguments and input of a question. Numbers that are not there are 0.
struct Asked<'a> {
    arguments: &'a [u64],
    input: &'a [u8],
}

impl<'a> Asked<'a> {
    fn number(&self, place: usize) -> u64 {
        self.arguments.get(place).copied().unwrap_or(0)
    }

    fn word(&self, place: usize) -> u32 {
        self.number(place) as u32
    }

    fn half(&self, place: usize) -> u16 {
        self.number(place) as u16
    }

    /// The message whose type, transaction, CID and word stand from a place on, with
    /// the service at the front of the input, and the information after that.
    fn message(&self, place: usize) -> (Header, &'a [u8]) {
        let (service, information) = self.service();
        let header = Header {
            message_type: self.word(place),
            transaction: self.word(place + 1),
            service,
            cid: self.word(place + 2),
            word: self.word(place + 3),
        };
        (header, information)
    }

    fn version(&self, place: usize) -> Result<Version, Refusal> {
        Version::from_bcd(self.half(place))
    }

    fn zero_size(&self, place: usize) -> Result<ZeroSize, Refusal> {
        ZeroSize::from_number(self.word(place))
    }

    /// The service at the front of the input, and what comes after it.
    fn service(&self) -> (ServiceId, &'a [u8]) {
        match self.input.split_first_chunk::<16>() {
            Some((service, rest)) => (*service, rest),
            None => ([0; 16], &[]),
        }
    }
}

fn refused(refusal: Refusal) -> Answer {
    let numbers = vec![refusal.number.into(), refusal.place as u64];
    Answer { numbers, output: Vec::new() }
}

fn none() -> Flat {
    Ok(Answer::default())
}

fn plain(numbers: &[u64]) -> Flat {
    with_output(numbers, Vec::new())
}

fn with_output(numbers: &[u64], output: Vec<u8>) -> Flat {
    let mut all = vec![0];
    all.extend_from_slice(numbers);
    Ok(Answer { numbers: all, output })
}

/// Lends an output of this room and gives what was written at its front.
fn lend<T>(
    room: u64,
    call: impl FnOnce(&mut [u8]) -> Result<(T, usize), Refusal>,
) -> Result<(T, Vec<u8>), Refusal> {
    let mut out = vec![FILL; room as usize];
    let answer = call(&mut out);
    let written = answer.as_ref().map_or(0, |(_, written)| *written);
    let untouched = &out[written..];
    assert!(untouched.iter().all(|byte| *byte == FILL), "output touched");
    out.truncate(written);
    answer.map(|(answer, _)| (answer, out))
}

/// A writer's answer: its length and its bytes.
fn written(room: u64, call: impl FnOnce(&mut [u8]) -> Result<usize, Refusal>) -> Flat {
    let (length, output) = lend(room, |out| call(out).map(|length| (length, length)))?;
    with_output(&[length as u64], output)
}

fn version_read(asked: &Asked) -> Flat {
    let version = version_info::read(asked.input)?;
    plain(&[MBIM.into(), version.bcd().into()])
}

fn version_write(asked: &Asked) -> Flat {
    let (mbim, extension) = (asked.half(1), asked.half(2));
    written(asked.number(0), |out| version_info::write(mbim, extension, out))
}

fn packet_read(asked: &Asked) -> Flat {
    let version = asked.version(0)?;
    let record = packet_service::read(version, asked.input)?;
    let (highest, current, frequency_range) = match record.form {
        Form::V1 { highest_available_data_class } => (highest_available_data_class, 0, 0),
        Form::V2 { current_data_class, frequency_range } => {
            (0, current_data_class, frequency_range)
        }
    };
    plain(&[
        version.bcd().into(),
        record.nw_error.into(),
        record.packet_service_state.into(),
        highest.into(),
        current.into(),
        frequency_range.into(),
        record.uplink_speed,
        record.downlink_speed,
    ])
}

fn packet_write(asked: &Asked) -> Flat {
    let form = match asked.version(1)? {
        Version::V1 => Form::V1 { highest_available_data_class: asked.word(4) },
        Version::V2 => {
            Form::V2 { current_data_class: asked.word(5), frequency_range: asked.word(6) }
        }
    };
    let record = PacketService {
        nw_error: asked.word(2),
        packet_service_state: asked.word(3),
        uplink_speed: asked.number(7),
        downlink_speed: asked.number(8),
        form,
    };
    written(asked.number(0), |out| packet_service::write(&record, out))
}

fn registration_read(asked: &Asked) -> Flat {
    registration_shown(registration::read(asked.version(0)?, asked.input)?)
}

fn registration_read_with(asked: &Asked) -> Flat {
    let (version, zero_size) = (asked.version(0)?, asked.zero_size(1)?);
    registration_shown(registration::read_with(version, zero_size, asked.input)?)
}

fn registration_shown(record: Registration<Range>) -> Flat {
    let mut numbers = vec![
        record.version().bcd().into(),
        record.nw_error.into(),
        record.register_state.into(),
        record.register_mode.into(),
        record.available_data_class.into(),
        record.cellular_class.into(),
        record.registration_flag.into(),
        record.preferred_data_class.unwrap_or(0).into(),
    ];
    for text in [record.provider_id, record.provider_name, record.roaming_text] {
        numbers.extend([u64::from(text.offset), u64::from(text.size)]);
    }
    plain(&numbers)
}

fn registration_write(asked: &Asked) -> Flat {
    let version = asked.version(1)?;
    let (provider_id, rest) = split(asked.input, asked.number(9));
    let (provider_name, rest) = split(rest, asked.number(10));
    let (roaming_text, _) = split(rest, asked.number(11));
    let record = Registration {
        nw_error: asked.word(2),
        register_state: asked.word(3),
        register_mode: asked.word(4),
        available_data_class: asked.word(5),
        cellular_class: asked.word(6),
        provider_id,
        provider_name,
        roaming_text,
        registration_flag: asked.word(7),
        preferred_data_class: match version {
            Version::V1 => None,
            Version::V2 => Some(asked.word(8)),
        },
    };
    written(asked.number(0), |out| registration::write(&record, out))
}

/// The first bytes, as many as there are of this size, and the rest.
fn split(bytes: &[u8], size: u64) -> (&[u8], &[u8]) {
    bytes.split_at(bytes.len().min(size as usize))
}

fn signal_read(asked: &Asked) -> Flat {
    let version = asked.version(0)?;
    signal_shown(version, signal_state::read(version, asked.input)?)
}

fn signal_read_with(asked: &Asked) -> Flat {
    let (version, zero_size) = (asked.version(0)?, asked.zero_size(1)?);
    signal_shown(version, signal_state::read_with(version, zero_size, asked.input)?)
}

fn signal_shown(version: Version, record: SignalState<Entries>) -> Flat {
    let count = record.rsrp_snr.map_or(0, |entries| entries.count());
    let mut numbers = vec![
        version.bcd().into(),
        record.rssi.into(),
        record.error_rate.into(),
        record.signal_strength_interval.into(),
        record.rssi_threshold.into(),
        record.error_rate_threshold.into(),
        count as u64,
    ];
    for entry in record.rsrp_snr.iter().flat_map(|entries| entries.iter()) {
        let thresholds = [entry.rsrp_threshold, entry.snr_threshold];
        let [a, b] = thresholds.map(u64::from);
        numbers.extend([entry.rsrp.into(), entry.snr.into(), a, b, entry.system_type.into()]);
    }
    plain(&numbers)
}

fn signal_write(asked: &Asked) -> Flat {
    let entries = signal_entries(asked);
    let rsrp_snr = match asked.version(1)? {
        Version::V1 => None,
        Version::V2 => Some(entries.as_slice()),
    };
    let record = SignalState {
        rssi: asked.word(2),
        error_rate: asked.word(3),
        signal_strength_interval: asked.word(4),
        rssi_threshold: asked.word(5),
        error_rate_threshold: asked.word(6),
        rsrp_snr,
    };
    written(asked.number(0), |out| signal_state::write(&record, out))
}

/// As many entries as the count says; one above the limit stands for all above it.
fn signal_entries(asked: &Asked) -> Vec<RsrpSnr> {
    let count = asked.number(7).min(signal_state::MAX_ENTRIES as u64 + 1) as usize;
    let entry = |number: usize| RsrpSnr {
        rsrp: asked.word(8 + 5 * number),
        snr: asked.word(9 + 5 * number),
        rsrp_threshold: asked.word(10 + 5 * number),
        snr_threshold: asked.word(11 + 5 * number),
        system_type: asked.word(12 + 5 * number),
    };
    (0..count).map(entry).collect()
}

fn services_read(asked: &Asked) -> Flat {
    services_shown(device_services::read(asked.input)?)
}

fn services_read_with(asked: &Asked) -> Flat {
    services_shown(device_services::read_with(asked.zero_size(0)?, asked.input)?)
}

fn services_shown(services: DeviceServices) -> Flat {
    plain(&[services.count() as u64, services.max_dss_sessions().into()])
}

fn element(asked: &Asked) -> Flat {
    let (input, number) = (asked.input, asked.word(1));
    shown(asked.number(0), |list| device_services::element(input, number, list))
}

fn element_with(asked: &Asked) -> Flat {
    let (input, number, zero_size) = (asked.input, asked.word(1), asked.zero_size(2)?);
    let call = |list: &mut [u32]| device_services::element_with(zero_size, input, number, list);
    shown(asked.number(0), call)
}

fn service_cids(asked: &Asked) -> Flat {
    let (service, payload) = asked.service();
    shown(asked.number(0), |list| device_services::first_of_service(payload, &service, list))
}

fn service_cids_with(asked: &Asked) -> Flat {
    let ((service, payload), zero_size) = (asked.service(), asked.zero_size(1)?);
    let first = device_services::first_of_service_with;
    shown(asked.number(0), |list| first(zero_size, payload, &service, list))
}

/// Lends a list of this room and answers the element with the CIDs put into it.
fn shown(room: u64, call: impl FnOnce(&mut [u32]) -> Result<Option<Shown>, Refusal>) -> Flat {
    let mut list = vec![FILL_WORD; room as usize];
    let answer = call(&mut list);
    let count = match &answer {
        Ok(Some(shown)) => shown.cid_count,
        _ => 0,
    };
    let untouched = &list[count..];
    assert!(untouched.iter().all(|word| *word == FILL_WORD), "list touched");
    let Some(shown) = answer? else {
        return plain(&[0]);
    };
    let fields = [shown.dss_payload, shown.max_dss_instances, count as u32];
    let mut numbers = vec![1];
    numbers.extend(service_numbers(&shown.device_service_id));
    numbers.extend(fields.iter().chain(&list[..count]).map(|number| u64::from(*number)));
    plain(&numbers)
}

/// A service as four numbers.
fn service_numbers(service: &ServiceId) -> [u64; 4] {
    [0, 4, 8, 12].map(|place| word(service, place).into())
}

fn listed(asked: &Asked) -> Flat {
    let (service, payload) = asked.service();
    let listed = device_services::listed(payload, &service, asked.word(0))?;
    plain(&[listed.into()])
}

fn listed_with(asked: &Asked) -> Flat {
    let ((service, payload), zero_size) = (asked.service(), asked.zero_size(1)?);
    let listed = device_services::listed_with(zero_size, payload, &service, asked.word(0))?;
    plain(&[listed.into()])
}

fn ask_cid(asked: &Asked) -> Flat {
    let (service, payload) = asked.service();
    found(device_services::ask(payload, &service, asked.word(0))?)
}

fn ask_cid_with(asked: &Asked) -> Flat {
    let ((service, payload), zero_size) = (asked.service(), asked.zero_size(1)?);
    found(device_services::ask_with(zero_size, payload, &service, asked.word(0))?)
}

fn found(position: Option<Position>) -> Flat {
    match position {
        Some(position) => plain(&[1, position.element as u64, position.cid as u64]),
        None => plain(&[0, 0, 0]),
    }
}

/// An element as the arguments give it.
struct Given {
    service: ServiceId,
    dss_payload: u32,
    max_dss_instances: u32,
    cids: Vec<u32>,
}

impl Given {
    fn element(&self) -> Element<'_> {
        Element {
            device_service_id: self.service,
            dss_payload: self.dss_payload,
            max_dss_instances: self.max_dss_instances,
            cids: &self.cids,
        }
    }
}

fn services_write(asked: &Asked) -> Flat {
    let given = given_elements(asked);
    let elements: Vec<Element> = given.iter().map(Given::element).collect();
    written(asked.number(0), |out| device_services::write(asked.word(2), &elements, out))
}

/// As many elements as the count says; one above the limit stands for all above it.
fn given_elements(asked: &Asked) -> Vec<Given> {
    let count = asked.number(1).min(device_services::MAX_ELEMENTS as u64 + 1) as usize;
    let mut services = asked.input.chunks_exact(16);
    let mut place = 3;
    let mut elements = Vec::new();
    for _ in 0..count {
        let cid_count = asked.number(place + 2);
        let service = services.next().and_then(|bytes| bytes.try_into().ok());
        elements.push(Given {
            service: service.unwrap_or([0; 16]),
            dss_payload: asked.word(place),
            max_dss_instances: asked.word(place + 1),
            cids: given_cids(asked, place + 3, cid_count),
        });
        place += 3 + cid_count.min(device_services::MAX_CIDS as u64) as usize;
    }
    elements
}

/// As many CIDs as the count says; one above the limit stands for all above it.
fn given_cids(asked: &Asked, from: usize, cid_count: u64) -> Vec<u32> {
    let count = cid_count.min(device_services::MAX_CIDS as u64 + 1) as usize;
    (from..from + count).map(|place| asked.word(place)).collect()
}

fn whole_message(asked: &Asked) -> Flat {
    let whole = message::whole(asked.input)?;
    plain(&[whole.message_type, whole.transaction, whole.word].map(u64::from))
}

fn whole_write(asked: &Asked) -> Flat {
    let whole =
        Whole { message_type: asked.word(1), transaction: asked.word(2), word: asked.word(3) };
    written(asked.number(0), |out| message::write_whole(&whole, out))
}

fn ask_assembly(assembler: &mut Assembler, question: u32, asked: &Asked) -> Flat {
    match question {
        question::RECEIVE => receive(assembler, asked),
        question::EMPTY_ASSEMBLY => {
            *assembler = Assembler::new();
            plain(&[])
        }
        _ => with_output(&[], assembly_memory::bytes(assembler).to_vec()),
    }
}

/// Memory of this size is judged before the piece.
fn receive(assembler: &mut Assembler, asked: &Asked) -> Flat {
    judge_memory(asked.number(1), ASSEMBLY_SIZE)?;
    let call = |out: &mut [u8]| {
        let received = door::receive(assembler, asked.input, out)?;
        Ok((received, written_by(received)))
    };
    let (received, information) = lend(asked.number(0), call)?;
    with_output(&received_numbers(received), information)
}

/// How many bytes of output a received piece wrote.
fn written_by(received: Received) -> usize {
    match received {
        Received::Complete { length, .. } => length,
        _ => 0,
    }
}

/// The numbers of a received piece.
fn received_numbers(received: Received) -> [u64; 11] {
    let (case, dropped, header) = received_header(received);
    let [first, second, third, fourth] = service_numbers(&header.service);
    [
        case.into(),
        dropped.into(),
        header.message_type.into(),
        header.transaction.into(),
        first,
        second,
        third,
        fourth,
        header.cid.into(),
        header.word.into(),
        written_by(received) as u64,
    ]
}

/// The case's number, whether something was dropped, and what is known of the message.
fn received_header(received: Received) -> (u32, bool, Header) {
    let header = |message_type, transaction, word| Header {
        message_type,
        transaction,
        service: [0; 16],
        cid: 0,
        word,
    };
    match received {
        Received::Whole(whole) => {
            (1, false, header(whole.message_type, whole.transaction, whole.word))
        }
        Received::Pending { message_type, transaction, dropped } => {
            (2, dropped, header(message_type, transaction, 0))
        }
        Received::Complete { header, dropped, .. } => (3, dropped, header),
    }
}

fn judge_memory(size: u64, needed: u64) -> Result<(), Refusal> {
    require(size >= needed, OUTPUT_TOO_SMALL, needed as usize)
}

fn cut(asked: &Asked) -> Flat {
    let (header, information) = asked.message(2);
    let size = asked.number(1) as usize;
    let call = |out: &mut [u8]| cutter::cut(&header, size, information, out);
    let (count, output) = lend(asked.number(0), call)?;
    with_output(&[count.into(), output.len() as u64], output)
}

fn payload_kind(asked: &Asked) -> Flat {
    let header = Header {
        message_type: asked.word(0),
        transaction: 0,
        service: asked.service().0,
        cid: asked.word(1),
        word: asked.word(2),
    };
    plain(&[payload::shown(&header)?.map_or(0, kind_number)])
}

fn kind_number(kind: Kind) -> u64 {
    match kind {
        Kind::RegisterState => 1,
        Kind::PacketService => 2,
        Kind::SignalState => 3,
        Kind::DeviceServices => 4,
        Kind::Version => 5,
        Kind::SetPin => 6,
        Kind::PinInfo => 7,
    }
}

fn set_pin_shown(record: SetPin<Range>) -> Flat {
    let (pin, new_pin) = (record.pin, record.new_pin);
    let texts = [pin.offset, pin.size, new_pin.offset, new_pin.size].map(u64::from);
    plain(&[&[record.pin_type, record.pin_operation].map(u64::from)[..], &texts].concat())
}

fn set_pin_write(asked: &Asked) -> Flat {
    let (pin, rest) = split(asked.input, asked.number(3));
    let (new_pin, _) = split(rest, asked.number(4));
    let record = SetPin { pin_type: asked.word(1), pin_operation: asked.word(2), pin, new_pin };
    written(asked.number(0), |out| pin::write_set(&record, out))
}

fn pin_info_numbers(info: PinInfo) -> [u64; 3] {
    [info.pin_type, info.pin_state, info.remaining_attempts].map(u64::from)
}

fn pin_info_write(asked: &Asked) -> Flat {
    let info = PinInfo {
        pin_type: asked.word(1),
        pin_state: asked.word(2),
        remaining_attempts: asked.word(3),
    };
    written(asked.number(0), |out| pin::write_info(&info, out))
}

fn reading(reading: Reading) -> Flat {
    let (case, value) = match reading {
        Reading::Dbm(value) => (1, value),
        Reading::Db(value) => (2, value),
        Reading::BelowRange(value) => (3, value),
        Reading::Unknown => return plain(&[4, 0]),
    };
    plain(&[case, (value * 2.0 + 1000.0) as u64])
}

fn bars(asked: &Asked) -> Flat {
    match signal_quality::bars(asked.word(0))? {
        Some(bars) => plain(&[1, bars.into()]),
        None => plain(&[0, 0]),
    }
}

fn make_host(host: &mut Option<Host>, asked: &Asked) -> Flat {
    *host = Some(Host::make(asked.half(0))?);
    plain(&[])
}

/// The memory is judged last.
fn make_modem(modem: &mut Option<Modem>, asked: &Asked) -> Flat {
    let made = Modem::make(asked.half(0), asked.half(1), asked.input)?;
    judge_memory(asked.number(2), MODEM_SIZE)?;
    *modem = Some(made);
    plain(&[])
}

fn ask_host(host: &mut Host, question: u32, asked: &Asked) -> Flat {
    match question {
        question::HOST_OPEN => {
            host.open(asked.half(0))?;
            plain(&[1, 0])
        }
        question::HOST_CLOSE => {
            host.close();
            plain(&[])
        }
        question::HOST_NEXT => next_command(host, asked),
        question::HOST_RECEIVE => {
            let (header, information) = asked.message(0);
            reply(host.receive(&header, information))
        }
        question::SHOW_HOST => memory(&host_numbers(host)),
        _ => none(),
    }
}

fn next_command(host: &Host, asked: &Asked) -> Flat {
    let call = |out: &mut [u8]| {
        let next = host.next_command(out)?;
        let length = if next == NextCommand::Version { version_info::LENGTH } else { 0 };
        Ok((next, length))
    };
    let (next, output) = lend(asked.number(0), call)?;
    match next {
        NextCommand::Nothing => plain(&[0, 0, 0]),
        NextCommand::Services => plain(&[1, 0, 0]),
        NextCommand::Version => with_output(&[2, 0, output.len() as u64], output),
        NextCommand::Free(version) => plain(&[3, version.bcd().into(), 0]),
    }
}

fn reply(answer: ReplyAnswer) -> Flat {
    match answer {
        ReplyAnswer::Unchanged => plain(&[0, 0]),
        ReplyAnswer::AsksVersion => plain(&[2, 0]),
        ReplyAnswer::Settled(version) => plain(&[3, version.bcd().into()]),
        ReplyAnswer::Refused(refusal) => Err(refusal),
    }
}

pub(crate) fn host_numbers(host: &Host) -> [u16; 3] {
    let (stage, version) = match host.state() {
        host::State::Closed => (0, 0),
        host::State::Opened { advertised } => (1, advertised.bcd()),
        host::State::Awaiting { advertised } => (2, advertised.bcd()),
        host::State::Settled { version } => (3, version.bcd()),
    };
    [host.native().bcd(), stage, version]
}

/// The memory of an end, which is numbers of 16 bits.
fn memory(numbers: &[u16]) -> Flat {
    with_output(&[], numbers.iter().flat_map(|number| number.to_le_bytes()).collect())
}

fn ask_modem(modem: &mut Modem, question: u32, asked: &Asked) -> Flat {
    match question {
        question::MODEM_OPEN => {
            modem.open();
            plain(&[])
        }
        question::MODEM_CLOSE => {
            modem.close();
            plain(&[])
        }
        question::MODEM_RECEIVE => modem_receive(modem, asked),
        question::SHOW_MODEM => memory(&modem_numbers(modem)),
        _ => none(),
    }
}

fn modem_receive(modem: &mut Modem, asked: &Asked) -> Flat {
    let (header, information) = asked.message(1);
    let call = |out: &mut [u8]| answered(modem.receive(&header, information, out));
    let (answer, output) = lend(asked.number(0), call)?;
    command_shown(modem, answer, output)
}

fn pin_receive(modem: &mut Modem, pins: &mut Pins, asked: &Asked) -> Flat {
    let (header, information) = asked.message(1);
    let call = |out: &mut [u8]| answered(pins::receive(modem, pins, &header, information, out));
    let (answer, output) = lend(asked.number(0), call)?;
    command_shown(modem, answer, output)
}

/// The answer to a command, and how many bytes of output it wrote.
fn answered(answer: CommandAnswer) -> Result<(CommandAnswer, usize), Refusal> {
    match answer {
        CommandAnswer::Refused(refusal) => Err(refusal),
        CommandAnswer::Version { .. } => Ok((answer, version_info::LENGTH)),
        CommandAnswer::Pin { .. } => Ok((answer, pin::INFO_LENGTH)),
        _ => Ok((answer, 0)),
    }
}

fn command_shown(modem: &Modem, answer: CommandAnswer, output: Vec<u8>) -> Flat {
    let (action, status, kind, place) = match answer {
        CommandAnswer::Serve { kind } => (1, 0, kind_number(kind), 0),
        CommandAnswer::Failed { status } => (3, status, 0, 0),
        CommandAnswer::Unknown { status, place } => (4, status, 0, place as u64),
        CommandAnswer::Pin { status } => (5, status, 0, 0),
        _ => (2, 0, 0, 0),
    };
    let version = modem.version().map_or(0, Version::bcd);
    let length = output.len() as u64;
    with_output(&[action, status.into(), kind, version.into(), place, length], output)
}

/// The memory is judged last.
fn make_pins(pins: &mut Option<Pins>, asked: &Asked) -> Flat {
    let made = Pins::make(&given_pins(asked))?;
    judge_memory(asked.number(0), PINS_SIZE)?;
    *pins = Some(made);
    plain(&[])
}

/// The rows of a table as the arguments give them, with their secrets from the input.
fn given_pins(asked: &Asked) -> [GivenPin; ROWS] {
    let mut secrets = asked.input.chunks_exact(MOST_SECRET);
    let mut rows = [GivenPin::default(); ROWS];
    for (number, row) in rows.iter_mut().enumerate() {
        let [present, enabled, starting_tries, secret_length] =
            [1, 2, 3, 4].map(|place| asked.word(4 * number + place));
        let secret = secrets.next().and_then(|bytes| bytes.try_into().ok());
        let secret = secret.unwrap_or([0; MOST_SECRET]);
        *row = GivenPin { present, enabled, starting_tries, secret_length, secret };
    }
    rows
}

fn pin_entry(pins: &mut Pins, asked: &Asked) -> Flat {
    let reply = pins.enter(asked.input)?;
    let status = [reply.status, reply.info.is_some().into()].map(u64::from);
    plain(&[&status[..], &pin_info_numbers(reply.info.unwrap_or_default())].concat())
}

pub(crate) fn modem_numbers(modem: &Modem) -> [u16; 5] {
    let (stage, version) = match modem.state() {
        modem::State::Start => (0, 0),
        modem::State::Listed => (1, 0),
        modem::State::Settled { version } => (2, version.bcd()),
    };
    let (native, advertised) = (modem.native().bcd(), modem.advertised().bcd());
    [native, advertised, modem.lists_version().into(), stage, version]
}

#[cfg(test)]
mod tests {
    use super::*;

    fn numbers(asked: u32, arguments: &[u64], input: &[u8]) -> Vec<u64> {
        Second::new().ask(asked, arguments, input).numbers
    }

    #[test]
    fn versions_outside_the_table_come_first() {
        for asked in [question::PACKET_READ, question::REGISTRATION_READ, question::SIGNAL_READ] {
            assert_eq!(numbers(asked, &[0x0300], &[]), [12, 0]);
        }
        for asked in [question::PACKET_WRITE, question::REGISTRATION_WRITE, question::SIGNAL_WRITE]
        {
            assert_eq!(numbers(asked, &[0, 0, 9, 9, 9, 9, 9, 9, 9, 9], &[]), [12, 0]);
        }
    }

    #[test]
    fn what_is_no_choice_comes_after_the_version_and_before_the_payload() {
        for asked in [question::REGISTRATION_READ_WITH, question::SIGNAL_READ_WITH] {
            for choice in [0, 1, 2, u64::from(u32::MAX)] {
                assert_eq!(numbers(asked, &[0x0300, choice], &[]), [12, 0]);
            }
            for choice in [2, 256, u64::from(u32::MAX)] {
                assert_eq!(numbers(asked, &[0x0200, choice], &[]), [9, 0]);
            }
        }
        for choice in [2, 256, u64::from(u32::MAX)] {
            assert_eq!(numbers(question::SERVICES_READ_WITH, &[choice], &[]), [9, 0]);
            assert_eq!(numbers(question::ELEMENT_WITH, &[4, 0, choice], &[]), [9, 0]);
            assert_eq!(numbers(question::SERVICE_CIDS_WITH, &[4, choice], &[]), [9, 0]);
            assert_eq!(numbers(question::LISTED_WITH, &[15, choice], &[]), [9, 0]);
            assert_eq!(numbers(question::ASK_CID_WITH, &[15, choice], &[]), [9, 0]);
        }
    }

    /// The same question without a choice, and with each.
    fn each_way(asked: [u32; 2], arguments: &[u64], input: &[u8]) -> [Vec<u64>; 3] {
        let with = |choice| numbers(asked[1], &[arguments, &[choice]].concat(), input);
        [numbers(asked[0], arguments, input), with(0), with(1)]
    }

    #[test]
    fn a_size_of_0_beside_an_offset_by_each_choice() {
        let registration = [question::REGISTRATION_READ, question::REGISTRATION_READ_WITH];
        let mut payload = [0; 52];
        payload[36] = 53;
        let shown = [vec![0, 0x0200], vec![0; 13]].concat();
        let answers = each_way(registration, &[0x0200], &payload);
        assert_eq!(answers, [shown.clone(), shown, vec![18, 36]]);
        let signal = [question::SIGNAL_READ, question::SIGNAL_READ_WITH];
        let mut payload = [0; 28];
        payload[20] = 3;
        let shown = [vec![0, 0x0200], vec![0; 6]].concat();
        let answers = each_way(signal, &[0x0200], &payload);
        assert_eq!(answers, [shown.clone(), shown, vec![18, 20]]);
    }

    #[test]
    fn an_element_of_size_0_by_each_choice() {
        let list = [1, 0, 0, 0, 0, 0, 0, 0, 52, 0, 0, 0, 0, 0, 0, 0];
        let after_service = [&[0; 16][..], &list].concat();
        for (asked, arguments, input) in [
            ([question::SERVICES_READ, question::SERVICES_READ_WITH], &[][..], &list[..]),
            ([question::ELEMENT, question::ELEMENT_WITH], &[4, 0], &list),
            ([question::SERVICE_CIDS, question::SERVICE_CIDS_WITH], &[4], &after_service),
            ([question::LISTED, question::LISTED_WITH], &[15], &after_service),
            ([question::ASK_CID, question::ASK_CID_WITH], &[15], &after_service),
        ] {
            assert_eq!(each_way(asked, arguments, input), [[8, 8], [8, 8], [18, 8]]);
        }
    }

    #[test]
    fn a_cid_is_found_at_its_place() {
        let ask = [question::ASK_CID, question::ASK_CID_WITH];
        let written = [200, 3, 0, 0, 0, 0, 0, 0, 3, 7, 15, 15, 0, 0, 1, 15];
        let services = [[1; 16], [2; 16], [2; 16]].concat();
        let list = Second::new().ask(question::SERVICES_WRITE, &written, &services).output;
        let after_service = [&[2; 16][..], &list].concat();
        assert_eq!(each_way(ask, &[15], &after_service), [[0, 1, 1, 1]; 3]);
        assert_eq!(each_way(ask, &[7], &after_service), [[0, 1, 1, 0]; 3]);
        assert_eq!(each_way(ask, &[8], &after_service), [[0, 0, 0, 0]; 3]);
        let mut stray = after_service;
        stray[16 + 28] = 0;
        assert_eq!(each_way(ask, &[15], &stray), [[0, 1, 1, 1]; 3]);
        assert_eq!(each_way(ask, &[8], &stray), [[8, 24], [8, 24], [18, 24]]);
        assert_eq!(each_way(ask, &[15], &[2; 16]), [[1, 0]; 3]);
    }

    #[test]
    fn a_stray_offset_of_a_pin_by_each_choice() {
        let set_pin = [question::SET_PIN_READ, question::SET_PIN_READ_WITH];
        let mut payload = [0; 24];
        payload[..9].copy_from_slice(&[2, 0, 0, 0, 1, 0, 0, 0, 24]);
        let shown = vec![0, 2, 1, 0, 0, 0, 0];
        let answers = each_way(set_pin, &[], &payload);
        assert_eq!(answers, [shown.clone(), shown, vec![18, 8]]);
        for choice in [2, 256, u64::from(u32::MAX)] {
            assert_eq!(numbers(question::SET_PIN_READ_WITH, &[choice], &[]), [9, 0]);
        }
    }

    #[test]
    fn pin_payloads_are_written_as_they_are_read() {
        let arguments = [88, 17, 3, 2, 4];
        let set = Second::new().ask(question::SET_PIN_WRITE, &arguments, &[1, 2, 3, 4, 5, 6]);
        assert_eq!(set.numbers, [0, 32]);
        assert_eq!(set.output[24..], [1, 2, 0, 0, 3, 4, 5, 6]);
        let read = numbers(question::SET_PIN_READ, &[], &set.output);
        assert_eq!(read, [0, 17, 3, 24, 2, 28, 4]);
        let info = Second::new().ask(question::PIN_INFO_WRITE, &[12, 2, 1, 3], &[]);
        assert_eq!(info.numbers, [0, 12]);
        assert_eq!(numbers(question::PIN_INFO_READ, &[], &info.output), [0, 2, 1, 3]);
    }

    /// Makes a table of Custom and PIN1 with three tries each; PIN1's secret is empty.
    fn make_pins(second: &mut Second, size: u64, present: u64) -> Vec<u64> {
        let arguments = [size, present, 1, 3, 2, 1, 1, 3];
        second.ask(question::MAKE_PINS, &arguments, &[7; 32]).numbers
    }

    #[test]
    fn a_table_of_pins_stands_from_question_to_question() {
        let mut second = Second::new();
        for asked in [question::PIN_ENTRY, question::PIN_RECEIVE, question::SHOW_PINS] {
            assert!(second.ask(asked, &[], &[]).numbers.is_empty());
        }
        assert_eq!(make_pins(&mut second, PINS_SIZE, 1), [0]);
        let made = second.ask(question::SHOW_PINS, &[], &[]).output;
        assert_eq!(made.len(), 748);
        assert_eq!(made[..15], [1, 1, 0, 2, 3, 0, 0, 0, 3, 0, 0, 0, 7, 7, 0]);
        assert_eq!(make_pins(&mut second, 0, 2), [9, 0]);
        assert_eq!(make_pins(&mut second, 747, 1), [11, 748]);
        let mut enter = |pin_type| {
            let mut payload = [0; 24];
            payload[0] = pin_type;
            second.ask(question::PIN_ENTRY, &[], &payload).numbers
        };
        assert_eq!(enter(1), [0, 2, 1, 1, 1, 2]);
        assert_eq!(enter(2), [0, 0, 1, 0, 0, 0]);
        assert_eq!(enter(2), [0, 2, 1, 0, 0, 0]);
        assert_eq!(enter(3), [0, 9, 0, 0, 0, 0]);
        assert_eq!(second.ask(question::PIN_ENTRY, &[], &[]).numbers, [1, 0]);
        let shown = second.ask(question::SHOW_PINS, &[], &[]).output;
        assert_eq!([shown[4], shown[44 + 2]], [2, 1]);
    }

    #[test]
    fn a_modem_answers_entries_with_its_table() {
        let mut second = Second::new();
        second.ask(question::MAKE_MODEM, &[0x0200, 0x0100, MODEM_SIZE], &[0; 8]);
        make_pins(&mut second, PINS_SIZE, 1);
        let mut input = [0; 40];
        input[..16].copy_from_slice(&payload::BASIC_CONNECT);
        input[16] = 1;
        let mut ask =
            |room, cid, word| second.ask(question::PIN_RECEIVE, &[room, 3, 1, cid, word], &input);
        assert_eq!(ask(0, 4, 1).numbers, [0, 3, 9, 0, 0, 0, 0]);
        assert_eq!(ask(0, 16, 0).numbers, [0, 1, 0, 4, 0, 0, 0]);
        assert_eq!(ask(11, 4, 1).numbers, [11, 12]);
        let entered = ask(20, 4, 1);
        assert_eq!(entered.numbers, [0, 5, 2, 0, 0x0100, 0, 12]);
        assert_eq!(entered.output, [1, 0, 0, 0, 1, 0, 0, 0, 2, 0, 0, 0]);
        assert_eq!(ask(0, 4, 0).numbers, [0, 1, 0, 7, 0x0100, 0, 0]);
    }

    #[test]
    fn counts_above_the_limits_need_no_more_arguments() {
        let signal = [0, 0x0200, 99, 0, 0, 0, 0, u32::MAX.into()];
        assert_eq!(numbers(question::SIGNAL_WRITE, &signal, &[]), [8, 20]);
        assert_eq!(numbers(question::SERVICES_WRITE, &[0, 33, 0], &[]), [15, 0]);
        let services = [0, 1, 0, 0, 0, u32::MAX.into()];
        assert_eq!(numbers(question::SERVICES_WRITE, &services, &[0; 16]), [8, 8]);
    }

    #[test]
    fn readings_are_twice_the_value_and_a_thousand() {
        assert_eq!(numbers(question::RSRP, &[1], &[]), [0, 1, 688]);
        assert_eq!(numbers(question::RSRP, &[0], &[]), [0, 3, 688]);
        assert_eq!(numbers(question::SNR, &[2], &[]), [0, 2, 955]);
        assert_eq!(numbers(question::SNR, &[128], &[]), [0, 4, 0]);
        assert_eq!(numbers(question::BARS, &[99], &[]), [0, 0, 0]);
    }

    #[test]
    fn an_empty_assembly_is_all_zero() {
        let shown = Second::new().ask(question::SHOW_ASSEMBLY, &[], &[]);
        assert_eq!(shown.numbers, [0]);
        assert_eq!(shown.output, [0; 4144]);
    }

    #[test]
    fn a_refused_make_leaves_the_one_before() {
        let mut second = Second::new();
        assert!(second.ask(question::SHOW_HOST, &[], &[]).numbers.is_empty());
        second.ask(question::MAKE_HOST, &[0x0200], &[]);
        assert_eq!(second.ask(question::MAKE_HOST, &[0x0300], &[]).numbers, [12, 0]);
        assert_eq!(second.ask(question::SHOW_HOST, &[], &[]).output, [0, 2, 0, 0, 0, 0]);
    }
}
