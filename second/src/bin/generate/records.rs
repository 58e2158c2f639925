//! Random payloads of each kind, good ones and damaged ones.

use crate::damage::{resized, with_words, STRAYS};
use crate::random::Random;
use second::data_class::{self, HSPA};
use second::device_services::{self, Element};
use second::packet_service::{self, Form, PacketService};
use second::payload::{Kind, BASIC_CONNECT, EXTENSIONS};
use second::pin::{self, PinInfo, SetPin};
use second::refusal::Refusal;
use second::registration::{self, Registration};
use second::signal_state::{self, RsrpSnr, SignalState};
use second::version::Version;
use second::{version_info, MAX_INFORMATION};

/// Numbers at and around the limits of tables, sizes and offsets.
const EDGES: [u32; 28] = [
    0,
    1,
    2,
    3,
    4,
    5,
    6,
    7,
    8,
    16,
    17,
    18,
    24,
    27,
    28,
    31,
    32,
    33,
    48,
    52,
    99,
    127,
    128,
    129,
    4096,
    0x8000_0000,
    0xFFFF_FFFC,
    u32::MAX,
];

/// What a writer writes.
pub fn written(write: impl FnOnce(&mut [u8]) -> Result<usize, Refusal>) -> Vec<u8> {
    let mut out = vec![0; MAX_INFORMATION];
    let length = write(&mut out).expect("a good record");
    out.truncate(length);
    out
}

/// A good payload.
pub fn good(random: &mut Random, kind: Kind, version: Version) -> Vec<u8> {
    match kind {
        Kind::RegisterState => registration(random, version),
        Kind::PacketService => packet_service(random, version),
        Kind::SignalState => signal_state(random, version),
        Kind::DeviceServices => device_services(random),
        Kind::Version => {
            version_info::bytes(random.pick(&[Version::V1, Version::V2, Version::V2])).to_vec()
        }
        Kind::SetPin => set_pin(random),
        Kind::PinInfo => pin_info(random),
    }
}

/// A payload with something changed; it may still be a good one.
pub fn damaged(random: &mut Random, kind: Kind, payload: &[u8]) -> Vec<u8> {
    let length = payload.len();
    let word = random.below(length.min(60) / 4) * 4;
    match random.below(9) {
        0 => resized(payload, random.below(length + 1)),
        8 => contradiction(kind, payload),
        1 => resized(payload, length + 1 + random.below(8)),
        2 | 3 => pair(random, kind, payload),
        4..=6 if length >= 4 => with_words(payload, &[(word, random.pick(&EDGES))]),
        _ => {
            let mut payload = payload.to_vec();
            if let Some(byte) = payload.get_mut(random.below(length)) {
                *byte ^= 1 << random.below(8);
            }
            payload
        }
    }
}

/// A state without a class, or Rssi beside other codes; most payloads with both contradict then.
fn contradiction(kind: Kind, payload: &[u8]) -> Vec<u8> {
    match kind {
        Kind::RegisterState | Kind::PacketService => with_words(payload, &[(4, 1)]),
        Kind::SignalState => with_words(payload, &[(0, 20)]),
        _ => payload.to_vec(),
    }
}

/// Another pair: size 0 with an offset, a misaligned one, or one around a limit.
fn pair(random: &mut Random, kind: Kind, payload: &[u8]) -> Vec<u8> {
    let fields: &[usize] = match kind {
        Kind::RegisterState => &[20, 28, 36],
        Kind::SignalState => &[20],
        Kind::DeviceServices | Kind::SetPin => &[8, 16],
        _ => &[0],
    };
    let field = random.pick(fields);
    if payload.len() < field + 8 {
        return payload.to_vec();
    }
    let misaligned = random.pick(&[53, 54, 55, 57]);
    let (offset, size) = match random.below(3) {
        0 => (random.pick(&STRAYS), 0),
        1 => (misaligned, random.pick(&[2, 4, 12, 28])),
        _ => (random.pick(&EDGES), random.pick(&EDGES)),
    };
    with_words(payload, &[(field, offset), (field + 4, size)])
}

/// Some text of at most this many bytes.
fn text(random: &mut Random, limit: usize) -> Vec<u8> {
    let some = random.below(limit / 2) * 2;
    let length = random.pick(&[0, limit, some]);
    random.bytes(length)
}

fn registration(random: &mut Random, version: Version) -> Vec<u8> {
    let register_state = random.below(7) as u32;
    let class = random.word() & data_class::mask(version);
    let (id, name) = (text(random, 12), text(random, 40));
    let roaming = text(random, 126);
    let record = Registration {
        nw_error: random.pick(&EDGES),
        register_state,
        register_mode: random.below(3) as u32,
        available_data_class: if (3..=5).contains(&register_state) { class } else { 0 },
        cellular_class: random.below(4) as u32,
        provider_id: &id[..],
        provider_name: &name,
        roaming_text: &roaming,
        registration_flag: random.below(4) as u32,
        preferred_data_class: match version {
            Version::V1 => None,
            Version::V2 => Some(random.word() & data_class::MASK_V2),
        },
    };
    written(|out| registration::write(&record, out))
}

fn packet_service(random: &mut Random, version: Version) -> Vec<u8> {
    let state = random.below(5) as u32;
    let class = random.pick(&[0, 1, 8, 0x10, HSPA, 0x20, 0x20_0000, 0x8000_0000]);
    let form = match version {
        Version::V1 => Form::V1 { highest_available_data_class: class },
        Version::V2 if state == 2 => {
            let range = random.below(4) as u32;
            let (class, range) = random.pick(&[(class, 0), (0x40, range), (0x80, range)]);
            Form::V2 { current_data_class: class, frequency_range: range }
        }
        Version::V2 => Form::V2 { current_data_class: 0, frequency_range: 0 },
    };
    let record = PacketService {
        nw_error: random.pick(&EDGES),
        packet_service_state: state,
        uplink_speed: random.pick(&[0, 50_000_000, u64::MAX, 10_000_000_000]),
        downlink_speed: random.next(),
        form,
    };
    written(|out| packet_service::write(&record, out))
}

fn signal_state(random: &mut Random, version: Version) -> Vec<u8> {
    let count = random.pick(&[0, 1, 1, 2, 3, 16]);
    let entries: Vec<RsrpSnr> = (0..count)
        .map(|_| RsrpSnr {
            rsrp: random.below(128) as u32,
            snr: random.below(129) as u32,
            rsrp_threshold: random.pick(&EDGES),
            snr_threshold: random.pick(&EDGES),
            system_type: random.pick(&[0x20, 0x40, 0x80, 0x8000_0000]),
        })
        .collect();
    let has_entries = version == Version::V2 && count > 0;
    let record = SignalState {
        rssi: if has_entries { 99 } else { random.below(32) as u32 },
        error_rate: random.pick(&[0, 3, 7, 99]),
        signal_strength_interval: random.pick(&EDGES),
        rssi_threshold: random.pick(&EDGES),
        error_rate_threshold: random.pick(&EDGES),
        rsrp_snr: (version == Version::V2).then_some(&entries[..]),
    };
    written(|out| signal_state::write(&record, out))
}

fn device_services(random: &mut Random) -> Vec<u8> {
    let most = random.pick(&[4, 4, 4, 20]);
    let count = if most == 20 { 28 + random.below(5) } else { random.below(4) };
    let lists: Vec<Vec<u32>> = (0..count)
        .map(|_| (0..random.below(most)).map(|_| random.pick(&EDGES)).collect())
        .collect();
    let element = |cids| Element {
        device_service_id: random.pick(&[BASIC_CONNECT, EXTENSIONS, [0xAF; 16]]),
        dss_payload: random.pick(&EDGES),
        max_dss_instances: random.pick(&EDGES),
        cids,
    };
    let elements: Vec<Element> = lists.iter().map(Vec::as_slice).map(element).collect();
    written(|out| device_services::write(7, &elements, out))
}

/// As many elements and CIDs as a list can show: all pairs have one range.
pub fn overlapping_services() -> Vec<u8> {
    let cids: Vec<u32> = (0..128).map(|cid| cid * 0x0101_0101).collect();
    let element = Element {
        device_service_id: EXTENSIONS,
        dss_payload: 1,
        max_dss_instances: 2,
        cids: &cids,
    };
    let one = written(|out| device_services::write(3, &[element], out));
    let pairs = [264u32, 540].map(u32::to_le_bytes).concat().repeat(32);
    [&32u32.to_le_bytes()[..], &one[4..8], &pairs, &one[16..]].concat()
}

fn set_pin(random: &mut Random) -> Vec<u8> {
    let (pin, new_pin) = (text(random, 32), text(random, 32));
    let record = SetPin {
        pin_type: random.below(18) as u32,
        pin_operation: random.below(4) as u32,
        pin: &pin[..],
        new_pin: &new_pin,
    };
    written(|out| pin::write_set(&record, out))
}

fn pin_info(random: &mut Random) -> Vec<u8> {
    let record = PinInfo {
        pin_type: random.below(18) as u32,
        pin_state: random.below(2) as u32,
        remaining_attempts: random.pick(&EDGES),
    };
    written(|out| pin::write_info(&record, out))
}
