//! What is read, written, received and cut: one good payload of each kind, and messages of the second
//! program's making.

use crate::plain;
use culvertroost::c;
use second::message::{Header, COMMAND, SET};
use second::payload::{BASIC_CONNECT, CID_DEVICE_SERVICES, CID_PIN};
use second::pin::{PinInfo, SetPin};
use second::registration::Registration;
use second::signal_state::RsrpSnr;

/// Transfer sizes.
pub const TRANSFERS: [usize; 3] = [64, 512, 4096];
/// The CIDs of each element.
pub const CIDS: [u32; 8] = [1, 2, 3, 4, 5, 6, 7, 8];

pub struct Inputs {
    pub version: Vec<u8>,
    pub packet: Vec<u8>,
    pub registration: Vec<u8>,
    pub signal: Vec<u8>,
    pub services: Vec<u8>,
    /// The same as two lists.
    pub service_fields: [u32; 7 * 8],
    pub service_cids: [u32; 8 * 8],
    pub last_service: [u8; 16],
    /// A wrong text for PIN1, and what it is answered.
    pub set_pin: Vec<u8>,
    pub pin_info: Vec<u8>,
}

fn words(numbers: &[u32]) -> Vec<u8> {
    numbers.iter().flat_map(|number| number.to_le_bytes()).collect()
}

/// Entries with known readings.
pub fn entries(count: usize) -> Vec<RsrpSnr> {
    let entry =
        RsrpSnr { rsrp: 60, snr: 50, rsrp_threshold: 0, snr_threshold: 0, system_type: 0x20 };
    vec![entry; count]
}

/// The header of a query of the services list, or of a reply with status 0.
pub fn header(message_type: u32) -> Header {
    let (service, cid) = (BASIC_CONNECT, CID_DEVICE_SERVICES);
    Header { message_type, transaction: 1, service, cid, word: 0 }
}

/// The header of a PIN entry.
pub fn entry_header() -> Header {
    Header { cid: CID_PIN, word: SET, ..header(COMMAND) }
}

/// The same as `header`, as the library takes it.
pub fn message(message_type: u32) -> c::MessageHeader {
    message_of(&header(message_type))
}

pub fn message_of(header: &Header) -> c::MessageHeader {
    c::MessageHeader {
        message_type: header.message_type,
        transaction: header.transaction,
        service: c::service_id(&header.service),
        cid: header.cid,
        word: header.word,
    }
}

/// What a writer of the second program gives.
fn written(write: impl Fn(&mut [u8]) -> Result<usize, second::refusal::Refusal>) -> Vec<u8> {
    let mut out = vec![0u8; 4096];
    let length = write(&mut out).expect("a record within the tables");
    out.truncate(length);
    out
}

/// A registration with the first of its three texts.
pub fn registration(texts: usize) -> Vec<u8> {
    let mut record = registration_record();
    if texts < 3 {
        record.roaming_text = &[];
    }
    if texts < 2 {
        record.provider_name = &[];
    }
    written(|out| plain::registration_write(&record, out))
}

pub fn signal(count: usize) -> Vec<u8> {
    written(|out| plain::signal_write(&entries(count), out))
}

/// A list in which element `n`, from 1, has the service whose bytes are all `n`.
pub fn services(count: usize, cids: &[u32]) -> Vec<u8> {
    written(|out| plain::services_write(count, cids, out))
}

/// The fragments of a message, as the second program cuts it.
pub fn cut(size: usize, information: &[u8]) -> Vec<Vec<u8>> {
    let mut stream = vec![0u8; 8192];
    let (_, length) =
        plain::cut(size, information, &mut stream).expect("a message within the limits");
    stream[..length].chunks(size).map(<[u8]>::to_vec).collect()
}

impl Inputs {
    pub fn new() -> Inputs {
        let mut inputs = Inputs {
            version: vec![0, 1, 0, 2],
            packet: words(&[0, 2, 0x40, 50_000_000, 0, 150_000_000, 0, 1]),
            registration: registration(3),
            signal: signal(16),
            services: services(8, &CIDS),
            service_fields: [0; 7 * 8],
            service_cids: [0; 8 * 8],
            last_service: [8; 16],
            set_pin: written(|out| plain::set_pin_write(&set_pin_record(), out)),
            pin_info: written(|out| plain::pin_info_write(&pin_info_record(), out)),
        };
        let (fields, cids) = (&mut inputs.service_fields, &mut inputs.service_cids);
        plain::services_all(&inputs.services, fields, cids).expect("a list within the rules");
        inputs.check();
        inputs
    }

    /// Nothing that is measured is a refusal.
    fn check(&self) {
        assert_eq!(c::version_info_read(&self.version).refusal.number, 0);
        assert_eq!(c::packet_service_read(0x0200, &self.packet).refusal.number, 0);
        assert_eq!(c::registration_read(0x0200, &self.registration).refusal.number, 0);
        assert_eq!(c::signal_state_read(0x0200, &self.signal).refusal.number, 0);
        let id = c::service_id(&self.last_service);
        assert_eq!(c::device_services_listed(&self.services, id, 8).listed, 1);
        assert_eq!(c::device_services_ask(&self.services, id, 8).listed, 1);
        let mut out = [0; 4096];
        let (fields, cids) = (&self.service_fields, &self.service_cids);
        assert_eq!(c::device_services_write_all(0, fields, cids, &mut out).refusal.number, 0);
        assert!(out.starts_with(&self.services));
        assert_eq!(c::set_pin_read(&self.set_pin).refusal.number, 0);
        assert_eq!(c::pin_info_read(&self.pin_info).refusal.number, 0);
        assert_eq!(c::pin_enter(&mut pin_memory(), &self.set_pin).info.pin_state, 1);
    }

    /// The information of a message: at most 128 fragments carry it.
    pub fn information(&self, size: usize) -> Vec<u8> {
        vec![5; if size == TRANSFERS[2] { 4048 } else { 4000 }]
    }

    /// Its fragments.
    pub fn pieces(&self, size: usize) -> Vec<Vec<u8>> {
        cut(size, &self.information(size))
    }
}

/// PIN1 with 8 characters, and as many for a new one.
pub fn set_pin_record() -> SetPin<&'static [u8]> {
    SetPin { pin_type: 2, pin_operation: 0, pin: &[1; 16], new_pin: &[2; 16] }
}

pub fn pin_info_record() -> PinInfo {
    PinInfo { pin_type: 2, pin_state: 1, remaining_attempts: 3 }
}

/// The memory of a table in which all types are enabled, with tries for all calls and another secret of
/// that length.
pub fn pin_memory() -> [u8; c::PINS_SIZE] {
    let mut memory = [0; c::PINS_SIZE];
    let secret = c::Secret([3; c::MOST_PIN]);
    let row =
        c::Pin { present: 1, enabled: 1, starting_tries: u32::MAX, secret_length: 16, secret };
    assert_eq!(c::pin_make(&mut memory, c::Pins { rows: [row; c::PIN_TYPES] }).number, 0);
    memory
}

/// The record of `registration`.
pub fn registration_record() -> Registration<&'static [u8]> {
    Registration {
        nw_error: 0,
        register_state: 3,
        register_mode: 1,
        available_data_class: 0x20,
        cellular_class: 1,
        provider_id: &[1; 10],
        provider_name: &[2; 40],
        roaming_text: &[3; 126],
        registration_flag: 0,
        preferred_data_class: Some(0x20),
    }
}

/// The list of `services`, as the library's writer takes it.
pub fn service_list() -> c::ServiceList {
    let fields = |number: u8| c::DeviceService {
        device_service_id: c::service_id(&[number; 16]),
        dss_payload: 0,
        max_dss_instances: 0,
        cid_count: 8,
    };
    let mut all = [0; c::MOST_CIDS];
    all[..8].copy_from_slice(&CIDS);
    let mut number = 0;
    let elements = [(); c::MOST_SERVICES].map(|()| {
        number += 1;
        c::ServiceElement { fields: fields(number), cids: all }
    });
    c::ServiceList { device_services_count: 8, max_dss_sessions: 0, elements }
}
