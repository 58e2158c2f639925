//! The questions of docs/samples.md, answered by the static library. Outputs are filled first,
//! and what must stay untouched is looked at; so is every member beside a refusal.

use crate::lent::{Lent, FILL};
use culvertroost::c::{self, *};
use second::flat::{question as q, Answer};

/// The memory that is lent for the assembly, the stream beside it, the host, the modem and the table of PINs.
pub struct Library {
    assembly: [u8; ASSEMBLY_SIZE],
    stream: [u8; STREAM_SIZE],
    host: Option<[u8; HOST_SIZE]>,
    modem: Option<[u8; MODEM_SIZE]>,
    pins: Option<[u8; PINS_SIZE]>,
}

/// Why there is no answer: a refusal, or something that the header rules out.
pub enum Stop {
    Refused(Refusal),
    Wrong(&'static str),
}

type Flat = Result<Answer, Stop>;

impl Library {
    pub fn new() -> Library {
        let (assembly, stream) = ([0; ASSEMBLY_SIZE], [0; STREAM_SIZE]);
        Library { assembly, stream, host: None, modem: None, pins: None }
    }

    /// The answer, or what the library did that it must not.
    pub fn ask(&mut self, question: u32, arguments: &[u64], input: &[u8]) -> Result<Answer, &str> {
        let input: Box<[u8]> = input.into(); // nothing behind it, for valgrind to see
        let asked = Asked { arguments, input: &input };
        let answer = match question {
            q::RECEIVE => receive(&mut self.assembly, &asked),
            q::EMPTY_ASSEMBLY => empty(&mut self.assembly),
            q::SHOW_ASSEMBLY => with_output(&[], self.assembly.to_vec()),
            q::STREAM_FEED => stream_feed(&mut self.stream, &mut self.assembly, &asked),
            q::STREAM_RESET => stream_reset(&mut self.stream, &mut self.assembly, &asked),
            q::SHOW_STREAM => with_output(&[], self.stream.to_vec()),
            q::MAKE_HOST => make_host(&mut self.host, &asked),
            q::MAKE_MODEM => make_modem(&mut self.modem, &asked),
            q::HOST_OPEN..=q::HOST_RECEIVE | q::SHOW_HOST => match &mut self.host {
                Some(host) => ask_host(host, question, &asked),
                None => none(),
            },
            q::MODEM_OPEN..=q::MODEM_RECEIVE | q::SHOW_MODEM => match &mut self.modem {
                Some(modem) => ask_modem(modem, question, &asked),
                None => none(),
            },
            q::MAKE_PINS => make_pins(&mut self.pins, &asked),
            q::PIN_ENTRY..=q::SHOW_PINS => match (&mut self.pins, &mut self.modem) {
                (Some(pins), Some(modem)) if question == q::PIN_RECEIVE => {
                    pin_receive(modem, pins, &asked)
                }
                (Some(pins), _) => ask_pins(pins, question, &asked),
                _ => none(),
            },
            _ => ask_stateless(question, &asked),
        };
        match answer {
            Ok(answer) => Ok(answer),
            Err(Stop::Refused(refusal)) => Ok(refused(refusal)),
            Err(Stop::Wrong(what)) => Err(what),
        }
    }
}

fn ask_stateless(question: u32, asked: &Asked) -> Flat {
    match question {
        q::VERSION_READ => version_read(asked),
        q::VERSION_WRITE => version_write(asked),
        q::PACKET_READ => packet_read(asked),
        q::PACKET_WRITE => packet_write(asked),
        q::REGISTRATION_READ => registration_read(asked),
        q::REGISTRATION_WRITE => registration_write(asked),
        q::SIGNAL_READ => signal_read(asked),
        q::SIGNAL_WRITE => signal_write(asked),
        q::SERVICES_READ => services_read(asked),
        q::ELEMENT => element(asked),
        q::SERVICE_CIDS => service_cids(asked),
        q::LISTED => listed(asked),
        q::ASK_CID => ask_cid(asked),
        q::SERVICES_WRITE => services_write(asked),
        q::WHOLE_MESSAGE => whole_message(asked),
        q::WHOLE_WRITE => whole_write(asked),
        q::CUT => cut(asked),
        q::NEXT_TRANSACTION => plain(&[c::transaction_next(asked.word(0)).into()]),
        q::PAYLOAD_KIND => payload_kind(asked),
        q::RSRP => reading(c::rsrp(asked.word(0))),
        q::SNR => reading(c::snr(asked.word(0))),
        q::BARS => bars(asked),
        q::SET_PIN_READ => set_pin_shown(c::set_pin_read(asked.input)),
        q::SET_PIN_WRITE => set_pin_write(asked),
        q::PIN_INFO_READ => plain(&info_words(accepted(c::pin_info_read(asked.input))?.info)),
        q::PIN_INFO_WRITE => pin_info_write(asked),
        _ => ask_with(question, asked),
    }
}

/// The readers' questions that say what a size of 0 is.
fn ask_with(question: u32, asked: &Asked) -> Flat {
    match question {
        q::REGISTRATION_READ_WITH => registration_read_with(asked),
        q::SIGNAL_READ_WITH => signal_read_with(asked),
        q::SERVICES_READ_WITH => services_read_with(asked),
        q::ELEMENT_WITH => element_with(asked),
        q::SERVICE_CIDS_WITH => service_cids_with(asked),
        q::LISTED_WITH => listed_with(asked),
        q::ASK_CID_WITH => ask_cid_with(asked),
        q::SET_PIN_READ_WITH => set_pin_shown(c::set_pin_read_with(asked.word(0), asked.input)),
        _ => none(),
    }
}

/// Arguments and input of a question. Numbers that are not there are 0.
struct Asked<'a> {
    arguments: &'a [u64],
    input: &'a [u8],
}

impl<'a> Asked<'a> {
    fn number(&self, place: usize) -> u64 {
        self.arguments.get(place).copied().unwrap_or(0)
    }

    fn word(&self, place: usize) -> u32 {
        self.number(place) as u32
    }

    fn half(&self, place: usize) -> u16 {
        self.number(place) as u16
    }

    /// The service at the front of the input, and what comes after it.
    fn service(&self) -> (ServiceId, &'a [u8]) {
        let (service, rest) = self.input.split_at(self.input.len().min(16));
        (c::service_id(service), rest)
    }

    /// The message whose type, transaction, CID and word stand from a place on, with the service at
    /// the front of the input, and the information after that.
    fn message(&self, place: usize) -> (MessageHeader, &'a [u8]) {
        let (service, information) = self.service();
        let message = MessageHeader {
            message_type: self.word(place),
            transaction: self.word(place + 1),
            service,
            cid: self.word(place + 2),
            word: self.word(place + 3),
        };
        (message, information)
    }
}

fn refused(refusal: Refusal) -> Answer {
    let numbers = vec![refusal.number.into(), refusal.place];
    Answer { numbers, output: Vec::new() }
}

fn none() -> Flat {
    Ok(Answer::default())
}

fn plain(numbers: &[u64]) -> Flat {
    with_output(numbers, Vec::new())
}

fn with_output(numbers: &[u64], output: Vec<u8>) -> Flat {
    let numbers = [&[0], numbers].concat();
    Ok(Answer { numbers, output })
}

fn words(numbers: &[u32]) -> Vec<u64> {
    numbers.iter().map(|number| u64::from(*number)).collect()
}

fn service_words(service: ServiceId) -> [u32; 4] {
    let ServiceId { word0, word1, word2, word3 } = service;
    [word0, word1, word2, word3]
}

// ---- refusals and lent outputs

/// An answer with a refusal in it.
pub trait Refusable: Copy + PartialEq {
    fn refusal(&self) -> Refusal;
    /// The answer that holds this refusal and nothing else.
    fn refused(refusal: Refusal) -> Self;
}

macro_rules! refusable {
    ($($answer:ident),*) => {
        $(impl Refusable for $answer {
            fn refusal(&self) -> Refusal {
                self.refusal
            }

            fn refused(refusal: Refusal) -> Self {
                $answer { refusal, ..$answer::default() }
            }
        })*
    };
}

refusable!(WrittenAnswer, VersionInfoAnswer, PacketServiceAnswer, RegistrationAnswer);
refusable!(SignalStateAnswer, ReadingAnswer, BarsAnswer, DeviceServicesAnswer, ElementAnswer);
refusable!(ListedAnswer, PositionAnswer, WholeAnswer, CutAnswer, KindAnswer, ReceiveAnswer);
refusable!(HostAnswer, AskAnswer, ModemAnswer, SetPinAnswer, PinInfoAnswer, PinAnswer);

impl Refusable for Refusal {
    fn refusal(&self) -> Refusal {
        *self
    }

    fn refused(refusal: Refusal) -> Refusal {
        refusal
    }
}

/// The answer, if it is none of a refusal.
pub fn accepted<T: Refusable>(answer: T) -> Result<T, Stop> {
    let refusal = answer.refusal();
    match refusal {
        Refusal { number: 0, place: 0 } => Ok(answer),
        Refusal { number: 0, .. } => Err(Stop::Wrong("a place without a refusal")),
        _ if refusal.name() == "?" => Err(Stop::Wrong("no number of a refusal")),
        _ if answer != T::refused(refusal) => Err(Stop::Wrong("members beside a refusal")),
        _ => Err(Stop::Refused(refusal)),
    }
}

/// Lends an output of this room and gives what was written at its front.
fn lend<T: Refusable>(
    room: u64,
    call: impl FnOnce(&mut [u8]) -> T,
    length: impl FnOnce(&T) -> u64,
) -> Result<(T, Vec<u8>), Stop> {
    let mut out = Lent::filled(room as usize);
    let answer = call(out.memory());
    let written = length(&answer) as usize;
    if !out.holds_past(written) {
        return Err(Stop::Wrong("output touched"));
    }
    Ok((accepted(answer)?, out.bytes()[..written].to_vec()))
}

/// A writer's answer: its length and its bytes.
fn written(room: u64, call: impl FnOnce(&mut [u8]) -> WrittenAnswer) -> Flat {
    let (answer, output) = lend(room, call, |answer| answer.length)?;
    with_output(&[answer.length], output)
}

/// Calls with a copy of the memory between guards; a refused call must leave it as it was.
fn keep<T: Refusable>(memory: &mut [u8], call: impl FnOnce(&mut [u8]) -> T) -> Result<T, Stop> {
    let mut lent = Lent::holding(memory);
    let answer = call(lent.memory());
    if !lent.guards_hold() {
        return Err(Stop::Wrong("bytes beside the memory touched"));
    }
    if answer.refusal().number != 0 && lent.bytes() != memory {
        return Err(Stop::Wrong("memory touched by a refused call"));
    }
    memory.copy_from_slice(lent.bytes());
    Ok(answer)
}

// ---- payloads

fn version_read(asked: &Asked) -> Flat {
    let info = accepted(c::version_info_read(asked.input))?.info;
    plain(&[info.bcd_mbim_version.into(), info.bcd_mbim_extended_version.into()])
}

fn version_write(asked: &Asked) -> Flat {
    let info =
        VersionInfo { bcd_mbim_version: asked.half(1), bcd_mbim_extended_version: asked.half(2) };
    written(asked.number(0), |out| c::version_info_write(info, out))
}

fn packet_read(asked: &Asked) -> Flat {
    let info = accepted(c::packet_service_read(asked.half(0), asked.input))?.info;
    plain(&[
        info.version.into(),
        info.nw_error.into(),
        info.packet_service_state.into(),
        info.highest_available_data_class.into(),
        info.current_data_class.into(),
        info.frequency_range.into(),
        info.uplink_speed,
        info.downlink_speed,
    ])
}

fn packet_write(asked: &Asked) -> Flat {
    let info = PacketService {
        version: asked.half(1),
        nw_error: asked.word(2),
        packet_service_state: asked.word(3),
        highest_available_data_class: asked.word(4),
        current_data_class: asked.word(5),
        frequency_range: asked.word(6),
        uplink_speed: asked.number(7),
        downlink_speed: asked.number(8),
    };
    written(asked.number(0), |out| c::packet_service_write(info, out))
}

fn registration_read(asked: &Asked) -> Flat {
    registration_shown(c::registration_read(asked.half(0), asked.input))
}

fn registration_read_with(asked: &Asked) -> Flat {
    registration_shown(c::registration_read_with(asked.half(0), asked.word(1), asked.input))
}

fn registration_shown(answer: RegistrationAnswer) -> Flat {
    let RegistrationAnswer { info, texts, .. } = accepted(answer)?;
    let mut numbers = words(&[
        info.version.into(),
        info.nw_error,
        info.register_state,
        info.register_mode,
        info.available_data_class,
        info.cellular_class,
        info.registration_flag,
        info.preferred_data_class,
    ]);
    for text in [texts.provider_id, texts.provider_name, texts.roaming_text] {
        numbers.extend(words(&[text.start, text.length]));
    }
    plain(&numbers)
}

fn registration_write(asked: &Asked) -> Flat {
    let info = Registration {
        version: asked.half(1),
        nw_error: asked.word(2),
        register_state: asked.word(3),
        register_mode: asked.word(4),
        available_data_class: asked.word(5),
        cellular_class: asked.word(6),
        registration_flag: asked.word(7),
        preferred_data_class: asked.word(8),
    };
    let (id, rest) = split(asked.input, asked.number(9));
    let (name, rest) = split(rest, asked.number(10));
    let (roaming, _) = split(rest, asked.number(11));
    written(asked.number(0), |out| c::registration_write(info, id, name, roaming, out))
}

/// The first bytes, as many as there are of this size, and the rest.
fn split(bytes: &[u8], size: u64) -> (&[u8], &[u8]) {
    bytes.split_at(bytes.len().min(size as usize))
}

fn signal_read(asked: &Asked) -> Flat {
    signal_shown(c::signal_state_read(asked.half(0), asked.input))
}

fn signal_read_with(asked: &Asked) -> Flat {
    signal_shown(c::signal_state_read_with(asked.half(0), asked.word(1), asked.input))
}

fn signal_shown(answer: SignalStateAnswer) -> Flat {
    let info = accepted(answer)?.info;
    let (entries, rest) = info.entries.split_at(info.entries.len().min(info.count as usize));
    if rest.iter().any(|entry| *entry != RsrpSnr::default()) {
        return Err(Stop::Wrong("entries past the count"));
    }
    let mut numbers = words(&[
        info.version.into(),
        info.rssi,
        info.error_rate,
        info.signal_strength_interval,
        info.rssi_threshold,
        info.error_rate_threshold,
        info.count,
    ]);
    for entry in entries {
        let RsrpSnr { rsrp, snr, rsrp_threshold, snr_threshold, system_type } = *entry;
        numbers.extend(words(&[rsrp, snr, rsrp_threshold, snr_threshold, system_type]));
    }
    plain(&numbers)
}

fn signal_write(asked: &Asked) -> Flat {
    let mut info = SignalState {
        version: asked.half(1),
        rssi: asked.word(2),
        error_rate: asked.word(3),
        signal_strength_interval: asked.word(4),
        rssi_threshold: asked.word(5),
        error_rate_threshold: asked.word(6),
        count: asked.word(7),
        ..SignalState::default()
    };
    for (number, entry) in info.entries.iter_mut().enumerate() {
        let at = 8 + 5 * number;
        *entry = RsrpSnr {
            rsrp: asked.word(at),
            snr: asked.word(at + 1),
            rsrp_threshold: asked.word(at + 2),
            snr_threshold: asked.word(at + 3),
            system_type: asked.word(at + 4),
        };
    }
    written(asked.number(0), |out| c::signal_state_write(info, out))
}

fn set_pin_shown(answer: SetPinAnswer) -> Flat {
    let SetPinAnswer { info, texts, .. } = accepted(answer)?;
    let SetPinTexts { pin, new_pin } = texts;
    let ranges = [pin.start, pin.length, new_pin.start, new_pin.length];
    plain(&words(&[&[info.pin_type, info.pin_operation], &ranges[..]].concat()))
}

fn set_pin_write(asked: &Asked) -> Flat {
    let info = SetPin { pin_type: asked.word(1), pin_operation: asked.word(2) };
    let (pin, rest) = split(asked.input, asked.number(3));
    let (new_pin, _) = split(rest, asked.number(4));
    written(asked.number(0), |out| c::set_pin_write(info, pin, new_pin, out))
}

fn info_words(info: PinInfo) -> Vec<u64> {
    words(&[info.pin_type, info.pin_state, info.remaining_attempts])
}

fn pin_info_write(asked: &Asked) -> Flat {
    let info = PinInfo {
        pin_type: asked.word(1),
        pin_state: asked.word(2),
        remaining_attempts: asked.word(3),
    };
    written(asked.number(0), |out| c::pin_info_write(info, out))
}

fn reading(answer: ReadingAnswer) -> Flat {
    let ReadingAnswer { kind, value, .. } = accepted(answer)?;
    let unknown = kind == 4;
    if unknown && value != 0.0 {
        return Err(Stop::Wrong("a value of an unknown reading"));
    }
    plain(&[kind.into(), if unknown { 0 } else { (value * 2.0 + 1000.0) as u64 }])
}

fn bars(asked: &Asked) -> Flat {
    let BarsAnswer { reading, bars, .. } = accepted(c::bars(asked.word(0)))?;
    plain(&words(&[reading, bars]))
}

// ---- device services

fn services_read(asked: &Asked) -> Flat {
    services_shown(c::device_services_read(asked.input))
}

fn services_read_with(asked: &Asked) -> Flat {
    services_shown(c::device_services_read_with(asked.word(0), asked.input))
}

fn services_shown(answer: DeviceServicesAnswer) -> Flat {
    let info = accepted(answer)?.info;
    plain(&words(&[info.device_services_count, info.max_dss_sessions]))
}

fn element(asked: &Asked) -> Flat {
    let (number, payload) = (asked.word(1), asked.input);
    shown(asked.number(0), |list| c::device_services_element(payload, number, list))
}

fn element_with(asked: &Asked) -> Flat {
    let (number, zero_size, payload) = (asked.word(1), asked.word(2), asked.input);
    let call = |list: &mut [u32]| c::device_services_element_with(zero_size, payload, number, list);
    shown(asked.number(0), call)
}

fn service_cids(asked: &Asked) -> Flat {
    let (service, payload) = asked.service();
    shown(asked.number(0), |list| c::device_services_cids(payload, service, list))
}

fn service_cids_with(asked: &Asked) -> Flat {
    let ((service, payload), zero_size) = (asked.service(), asked.word(1));
    let call = |list: &mut [u32]| c::device_services_cids_with(zero_size, payload, service, list);
    shown(asked.number(0), call)
}

const FILL_WORD: u32 = u32::from_ne_bytes([FILL; 4]);
const GUARD_WORDS: usize = 8;

/// Lends a list of this room between guards and answers the element with the CIDs put into it.
fn shown(room: u64, call: impl FnOnce(&mut [u32]) -> ElementAnswer) -> Flat {
    let end = GUARD_WORDS + room as usize;
    let mut list = vec![FILL_WORD; end + GUARD_WORDS];
    let answer = call(&mut list[GUARD_WORDS..end]);
    let count = answer.element.cid_count as usize;
    let (front, rest) = list.split_at(GUARD_WORDS);
    let (cids, rest) = rest.split_at(rest.len().min(count));
    if front.iter().chain(rest).any(|word| *word != FILL_WORD) {
        return Err(Stop::Wrong("list touched"));
    }
    let ElementAnswer { listed, element, .. } = accepted(answer)?;
    match listed {
        0 if element == DeviceService::default() => plain(&[0]),
        1 if count <= room as usize => {
            let service = service_words(element.device_service_id);
            let fields = [element.dss_payload, element.max_dss_instances, element.cid_count];
            plain(&words(&[&[listed], &service[..], &fields, cids].concat()))
        }
        _ => Err(Stop::Wrong("members of an element")),
    }
}

fn listed(asked: &Asked) -> Flat {
    let (service, payload) = asked.service();
    is_listed(c::device_services_listed(payload, service, asked.word(0)))
}

fn listed_with(asked: &Asked) -> Flat {
    let ((service, payload), cid, zero_size) = (asked.service(), asked.word(0), asked.word(1));
    is_listed(c::device_services_listed_with(zero_size, payload, service, cid))
}

fn is_listed(answer: ListedAnswer) -> Flat {
    plain(&[accepted(answer)?.listed.into()])
}

fn ask_cid(asked: &Asked) -> Flat {
    let (service, payload) = asked.service();
    position(c::device_services_ask(payload, service, asked.word(0)))
}

fn ask_cid_with(asked: &Asked) -> Flat {
    let ((service, payload), cid, zero_size) = (asked.service(), asked.word(0), asked.word(1));
    position(c::device_services_ask_with(zero_size, payload, service, cid))
}

fn position(answer: PositionAnswer) -> Flat {
    let PositionAnswer { listed, element_number, cid_number, .. } = accepted(answer)?;
    plain(&words(&[listed, element_number, cid_number]))
}

fn services_write(asked: &Asked) -> Flat {
    let mut list = culvertroost::ServiceList::empty();
    list.device_services_count = asked.word(1);
    list.max_dss_sessions = asked.word(2);
    let mut services = asked.input.chunks_exact(16);
    let mut at = 3;
    for element in &mut list.elements {
        let cid_count = asked.word(at + 2);
        element.fields = DeviceService {
            device_service_id: c::service_id(services.next().unwrap_or_default()),
            dss_payload: asked.word(at),
            max_dss_instances: asked.word(at + 1),
            cid_count,
        };
        let count = MOST_CIDS.min(cid_count as usize);
        for (number, cid) in element.cids[..count].iter_mut().enumerate() {
            *cid = asked.word(at + 3 + number);
        }
        at += 3 + count;
    }
    written(asked.number(0), |out| c::device_services_write(list, out))
}

// ---- messages

fn whole_message(asked: &Asked) -> Flat {
    let whole = accepted(c::message_judge(asked.input))?;
    plain(&words(&[whole.message_type, whole.transaction, whole.word]))
}

fn whole_write(asked: &Asked) -> Flat {
    let (message_type, transaction, word) = (asked.word(1), asked.word(2), asked.word(3));
    written(asked.number(0), |out| c::message_write(message_type, transaction, word, out))
}

fn cut(asked: &Asked) -> Flat {
    let (message, information) = asked.message(2);
    let size = asked.number(1) as usize;
    let call = |out: &mut [u8]| c::message_cut(message, size, information, out);
    let (answer, output) = lend(asked.number(0), call, |answer| answer.length)?;
    with_output(&[answer.count.into(), output.len() as u64], output)
}

fn payload_kind(asked: &Asked) -> Flat {
    let message = MessageHeader {
        message_type: asked.word(0),
        transaction: 0,
        service: asked.service().0,
        cid: asked.word(1),
        word: asked.word(2),
    };
    plain(&[accepted(c::payload_kind(message))?.kind.into()])
}

/// Lends the front of the memory, as much as the question says. A refused fragment must leave it all
/// zero; too little memory and a whole message must leave it as it was.
fn receive(assembly: &mut [u8; ASSEMBLY_SIZE], asked: &Asked) -> Flat {
    let size = ASSEMBLY_SIZE.min(asked.number(1) as usize);
    let memory = &mut assembly[..size];
    let mut lent = Lent::holding(memory);
    let call = |out: &mut [u8]| c::receive(lent.memory(), asked.input, out);
    let answer = lend(asked.number(0), call, |answer| answer.length);
    if !lent.guards_hold() {
        return Err(Stop::Wrong("bytes beside the memory touched"));
    }
    let untouched = size < ASSEMBLY_SIZE || is_whole(asked.input);
    if untouched && lent.bytes() != memory {
        return Err(Stop::Wrong("memory touched"));
    }
    memory.copy_from_slice(lent.bytes());
    if answer.is_err() && !untouched && memory.iter().any(|byte| *byte != 0) {
        return Err(Stop::Wrong("a refused piece left something"));
    }
    let (answer, information) = answer?;
    with_output(&received(answer), information)
}

fn received(answer: ReceiveAnswer) -> Vec<u64> {
    let ReceiveAnswer { received, dropped, message, length, .. } = answer;
    let MessageHeader { message_type, transaction, service, cid, word } = message;
    let head = [received, dropped, message_type, transaction];
    let numbers = [&head[..], &service_words(service), &[cid, word]].concat();
    [&words(&numbers)[..], &[length]].concat()
}

/// Whether a piece has the type of a message that is never fragmented.
pub fn is_whole(piece: &[u8]) -> bool {
    piece.len() >= 4 && WHOLE.contains(&u32_at(piece, 0))
}

pub const WHOLE: [u32; 6] = [
    culvertroost::OPEN,
    culvertroost::CLOSE,
    culvertroost::HOST_ERROR,
    culvertroost::OPEN_DONE,
    culvertroost::CLOSE_DONE,
    culvertroost::FUNCTION_ERROR,
];

fn empty(assembly: &mut [u8; ASSEMBLY_SIZE]) -> Flat {
    accepted(keep(assembly, c::assembly_empty)?)?;
    plain(&[])
}

pub fn u32_at(bytes: &[u8], at: usize) -> u32 {
    u32::from_le_bytes([bytes[at], bytes[at + 1], bytes[at + 2], bytes[at + 3]])
}

// ---- the byte stream

/// Lends the fronts of both memories, as much of each as the question says.
fn stream_feed(
    stream: &mut [u8; STREAM_SIZE],
    assembly: &mut [u8; ASSEMBLY_SIZE],
    asked: &Asked,
) -> Flat {
    let (stream, assembly) = (lent_part(stream, asked, 1), lent_part(assembly, asked, 2));
    let (mut lent, mut lent_assembly) = (Lent::holding(stream), Lent::holding(assembly));
    let mut out = Lent::filled(asked.number(0) as usize);
    let answer = c::stream_feed(lent.memory(), lent_assembly.memory(), asked.input, out.memory());
    if !lent.guards_hold() || !lent_assembly.guards_hold() {
        return Err(Stop::Wrong("bytes beside a memory touched"));
    }
    let written = answer.piece.length as usize;
    if !out.holds_past(written) {
        return Err(Stop::Wrong("output touched"));
    }
    let is_idle = answer.piece.refusal.number != 0 && answer.taken == 0;
    if is_idle && (lent.bytes() != stream || lent_assembly.bytes() != assembly) {
        return Err(Stop::Wrong("memory touched by a call that takes nothing"));
    }
    stream.copy_from_slice(lent.bytes());
    assembly.copy_from_slice(lent_assembly.bytes());
    stream_fed(answer, out.bytes()[..written].to_vec())
}

/// As much of a memory as the question says at this place.
fn lent_part<'a>(memory: &'a mut [u8], asked: &Asked, place: usize) -> &'a mut [u8] {
    let size = memory.len().min(asked.number(place) as usize);
    &mut memory[..size]
}

/// The piece's numbers, refused or not, and beside them how many bytes were taken and whether the stream has
/// ended, which is told by one refusal.
fn stream_fed(answer: StreamAnswer, output: Vec<u8>) -> Flat {
    let StreamAnswer { piece, taken, ended } = answer;
    let refusal = match accepted(piece) {
        Ok(_) => vec![0],
        Err(Stop::Refused(refusal)) => refused(refusal).numbers,
        Err(wrong) => return Err(wrong),
    };
    if ended > 1 || ended == 1 && refusal != [2, 4] {
        return Err(Stop::Wrong("ended by another refusal"));
    }
    let numbers = [&refusal[..], &received(piece), &[taken, ended.into()]].concat();
    Ok(Answer { numbers, output })
}

fn stream_reset(
    stream: &mut [u8; STREAM_SIZE],
    assembly: &mut [u8; ASSEMBLY_SIZE],
    asked: &Asked,
) -> Flat {
    let (stream, assembly) = (lent_part(stream, asked, 0), lent_part(assembly, asked, 1));
    let mut kept = Ok(Refusal::default());
    let answer = keep(stream, |stream| {
        kept = keep(assembly, |assembly| c::stream_reset(stream, assembly));
        kept.as_ref().copied().unwrap_or_default()
    })?;
    kept?;
    accepted(answer)?;
    plain(&[])
}

// ---- the two ends

/// Lends the front of the end's memory, so many bytes. A refused `make` leaves the one before, or none.
fn make<const N: usize>(
    end: &mut Option<[u8; N]>,
    size: usize,
    call: impl FnOnce(&mut [u8]) -> Refusal,
) -> Flat {
    let mut memory = end.unwrap_or([FILL; N]);
    accepted(keep(&mut memory[..size.min(N)], call)?)?;
    *end = Some(memory);
    plain(&[])
}

fn make_host(host: &mut Option<[u8; HOST_SIZE]>, asked: &Asked) -> Flat {
    make(host, HOST_SIZE, |memory| c::host_make(memory, asked.half(0)))
}

fn make_modem(modem: &mut Option<[u8; MODEM_SIZE]>, asked: &Asked) -> Flat {
    let (native, advertised, size) = (asked.half(0), asked.half(1), asked.number(2) as usize);
    make(modem, size, |memory| c::modem_make(memory, native, advertised, asked.input))
}

fn ask_host(host: &mut [u8; HOST_SIZE], question: u32, asked: &Asked) -> Flat {
    let (message, information) = asked.message(0);
    match question {
        q::HOST_OPEN => event(keep(host, |memory| c::host_open(memory, asked.half(0)))?),
        q::HOST_CLOSE => close(keep(host, c::host_close)?),
        q::HOST_NEXT => next_command(host, asked),
        q::HOST_RECEIVE => {
            event(keep(host, |memory| c::host_receive(memory, message, information))?)
        }
        _ => with_output(&[], host.to_vec()),
    }
}

fn event(answer: HostAnswer) -> Flat {
    let HostAnswer { event, version, .. } = accepted(answer)?;
    plain(&[event.into(), version.into()])
}

fn close(answer: HostAnswer) -> Flat {
    let HostAnswer { event, version, .. } = accepted(answer)?;
    match (event, version) {
        (0, 0) => plain(&[]),
        _ => Err(Stop::Wrong("an event of a close")),
    }
}

fn next_command(host: &[u8; HOST_SIZE], asked: &Asked) -> Flat {
    let call = |out: &mut [u8]| c::host_next_command(host, out);
    let (answer, output) = lend(asked.number(0), call, |answer| answer.length)?;
    let AskAnswer { command, version, length, .. } = answer;
    with_output(&[command.into(), version.into(), length], output)
}

fn ask_modem(modem: &mut [u8; MODEM_SIZE], question: u32, asked: &Asked) -> Flat {
    match question {
        q::MODEM_OPEN => {
            accepted(keep(modem, c::modem_open)?)?;
            plain(&[])
        }
        q::MODEM_CLOSE => {
            accepted(keep(modem, c::modem_close)?)?;
            plain(&[])
        }
        q::MODEM_RECEIVE => modem_receive(modem, asked),
        _ => with_output(&[], modem.to_vec()),
    }
}

fn modem_receive(modem: &mut [u8; MODEM_SIZE], asked: &Asked) -> Flat {
    let (message, information) = asked.message(1);
    let mut kept = Ok(ModemAnswer::default());
    let call = |out: &mut [u8]| {
        kept = keep(modem, |memory| c::modem_receive(memory, message, information, out));
        kept.as_ref().copied().unwrap_or_default()
    };
    let lent = lend(asked.number(0), call, |answer| answer.length);
    kept?;
    modem_shown(lent?)
}

fn modem_shown((answer, output): (ModemAnswer, Vec<u8>)) -> Flat {
    let ModemAnswer { action, status, kind, version, place, length, .. } = answer;
    let numbers = [action.into(), status.into(), kind.into(), version.into(), place, length];
    with_output(&numbers, output)
}

// ---- the table of PINs

/// The front of the memory, and the numbers and secrets of all rows.
fn make_pins(pins: &mut Option<[u8; PINS_SIZE]>, asked: &Asked) -> Flat {
    let mut made = Pins::default();
    let mut secrets = asked.input.chunks(MOST_PIN);
    for (number, row) in made.rows.iter_mut().enumerate() {
        let at = 1 + 4 * number;
        row.present = asked.word(at);
        row.enabled = asked.word(at + 1);
        row.starting_tries = asked.word(at + 2);
        row.secret_length = asked.word(at + 3);
        let secret = secrets.next().unwrap_or_default();
        row.secret.0[..secret.len()].copy_from_slice(secret);
    }
    make(pins, asked.number(0) as usize, |memory| c::pin_make(memory, made))
}

fn ask_pins(pins: &mut [u8; PINS_SIZE], question: u32, asked: &Asked) -> Flat {
    match question {
        q::PIN_ENTRY => entered(keep(pins, |memory| c::pin_enter(memory, asked.input))?),
        q::SHOW_PINS => with_output(&[], pins.to_vec()),
        _ => none(),
    }
}

fn entered(answer: PinAnswer) -> Flat {
    let PinAnswer { status, shown, info, .. } = accepted(answer)?;
    if shown == 0 && info != PinInfo::default() {
        return Err(Stop::Wrong("PIN_INFO that is not shown"));
    }
    plain(&[&words(&[status, shown])[..], &info_words(info)].concat())
}

fn pin_receive(modem: &mut [u8; MODEM_SIZE], pins: &mut [u8; PINS_SIZE], asked: &Asked) -> Flat {
    let (message, information) = asked.message(1);
    let mut kept = Ok(ModemAnswer::default());
    let call = |out: &mut [u8]| {
        let mut table = Ok(ModemAnswer::default());
        kept = keep(modem, |modem| {
            table = keep(pins, |pins| c::pin_receive(modem, pins, message, information, out));
            table.as_ref().copied().unwrap_or_default()
        });
        if table.is_err() {
            kept = table;
        }
        kept.as_ref().copied().unwrap_or_default()
    };
    let lent = lend(asked.number(0), call, |answer| answer.length);
    kept?;
    modem_shown(lent?)
}
