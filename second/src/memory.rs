//! Memory that a caller lends between calls: which numbers calls can have left in it. Too little is 11
//! at the bytes needed; a number that no calls leave there is 10 at its place, whatever is wrong with
//! it, so that it is never taken for a fault of a piece or of a message.

use crate::bytes::{half, word};
use crate::message::{
    first_header_length, COMMAND, FRAGMENT_HEADER, INDICATE_STATUS, MAX_TOTAL, MAX_TRANSFER, SET,
};
use crate::refusal::{require, Refusal, FIELDS_CONTRADICT, OUTPUT_TOO_SMALL};
use crate::version::Version;
use crate::MAX_INFORMATION;

/// How many bytes an assembly takes, and how many of them are numbers.
pub const ASSEMBLY_SIZE: usize = 4144;
const NUMBERS: usize = 48;
/// How many bytes the two ends take.
pub const HOST_SIZE: usize = 6;
pub const MODEM_SIZE: usize = 10;

/// Memory of an assembly. The gathered bytes themselves are any.
pub fn judge_assembly(memory: &[u8]) -> Result<(), Refusal> {
    judge_size(memory, ASSEMBLY_SIZE)?;
    let [message_type, message_word] = [0, 28].map(|place| word(memory, place));
    let [total, next, declared, gathered] = [32, 36, 40, 44].map(|place| word(memory, place));
    if total == 0 {
        let is_empty = memory[..NUMBERS].iter().all(|byte| *byte == 0);
        return left(is_empty, 32);
    }
    let Some(header) = first_header_length(message_type) else {
        return left(false, 0);
    };
    let most_word = match message_type {
        COMMAND => SET,
        INDICATE_STATUS => 0,
        _ => u32::MAX,
    };
    left(message_word <= most_word, 28)?;
    left(total <= MAX_TOTAL, 32)?;
    left((1..total).contains(&next), 36)?;
    left(declared as usize <= MAX_INFORMATION, 40)?;
    let later = (next as usize - 1) * (MAX_TRANSFER - FRAGMENT_HEADER);
    let carried = MAX_TRANSFER - header + later;
    left(gathered <= declared && gathered as usize <= carried, 44)
}

/// Memory of a host.
pub fn judge_host(memory: &[u8]) -> Result<(), Refusal> {
    judge_size(memory, HOST_SIZE)?;
    let native = version(memory, 0)?;
    match half(memory, 2) {
        0 => left(half(memory, 4) == 0, 4),
        1 => version(memory, 4).map(|_| ()),
        2 => {
            left(native == Version::V2, 2)?;
            version(memory, 4).map(|_| ())
        }
        3 => left(version(memory, 4)? <= native, 4),
        _ => left(false, 2),
    }
}

/// Memory of a modem.
pub fn judge_modem(memory: &[u8]) -> Result<(), Refusal> {
    judge_size(memory, MODEM_SIZE)?;
    let (native, advertised) = (version(memory, 0)?, version(memory, 2)?);
    left(advertised <= native, 2)?;
    let lists_version = half(memory, 4);
    left(lists_version <= 1, 4)?;
    match half(memory, 6) {
        0 | 1 => left(half(memory, 8) == 0, 8),
        2 => {
            let highest = if lists_version == 1 { native } else { Version::V1 };
            left((advertised..=highest).contains(&version(memory, 8)?), 8)
        }
        _ => left(false, 6),
    }
}

pub(crate) fn judge_size(memory: &[u8], needed: usize) -> Result<(), Refusal> {
    require(memory.len() >= needed, OUTPUT_TOO_SMALL, needed)
}

/// Refuses a number at this place that no calls leave.
pub(crate) fn left(holds: bool, place: usize) -> Result<(), Refusal> {
    require(holds, FIELDS_CONTRADICT, place)
}

fn version(memory: &[u8], place: usize) -> Result<Version, Refusal> {
    Version::from_bcd(half(memory, place)).map_err(|_| Refusal::new(FIELDS_CONTRADICT, place))
}

#[cfg(test)]
mod tests {
    use super::*;
    use crate::assembler::Assembler;
    use crate::assembly_memory;
    use crate::device_services::{self, Element};
    use crate::flat::{host_numbers, modem_numbers};
    use crate::handshake::{Host, Modem};
    use crate::message::{Header, COMMAND_DONE};
    use crate::payload::{BASIC_CONNECT, CID_DEVICE_SERVICES, CID_VERSION, EXTENSIONS};

    const VERSIONS: [u16; 2] = [0x0100, 0x0200];
    const ANY: [u16; 8] = [0, 1, 2, 3, 4, 0x0100, 0x0200, 0x0300];

    fn list(cids: &[u32]) -> Vec<u8> {
        let mut out = [0; 100];
        let element =
            Element { device_service_id: EXTENSIONS, dss_payload: 0, max_dss_instances: 0, cids };
        let length = device_services::write(0, &[element], &mut out).unwrap();
        out[..length].to_vec()
    }

    /// Every end that any of these calls reach from the first ones.
    fn reached<E: Copy + PartialEq>(mut ends: Vec<E>, calls: &[Box<dyn Fn(&mut E)>]) -> Vec<E> {
        let mut seen = 0;
        while seen < ends.len() {
            for call in calls {
                let mut end = ends[seen];
                call(&mut end);
                if !ends.contains(&end) {
                    ends.push(end);
                }
            }
            seen += 1;
        }
        ends
    }

    /// Messages of DEVICE_SERVICES, VERSION and another CID, by status or type, with payloads.
    fn messages(message_type: u32) -> Vec<(Header, Vec<u8>)> {
        let of = [
            (BASIC_CONNECT, CID_DEVICE_SERVICES, vec![list(&[15]), list(&[14]), vec![]]),
            (EXTENSIONS, CID_VERSION, vec![vec![0, 1, 0, 1], vec![0, 1, 0, 2], vec![0; 4]]),
            (BASIC_CONNECT, 0, vec![vec![]]),
        ];
        let mut all = Vec::new();
        for (service, cid, payloads) in of {
            for payload in payloads {
                for word in [0, 1] {
                    let header = Header { message_type, transaction: 1, service, cid, word };
                    all.push((header, payload.clone()));
                }
            }
        }
        all
    }

    fn bytes(numbers: &[u16]) -> Vec<u8> {
        numbers.iter().flat_map(|number| number.to_le_bytes()).collect()
    }

    #[test]
    fn a_host_is_taken_exactly_where_calls_reach_it() {
        let mut calls: Vec<Box<dyn Fn(&mut Host)>> = vec![Box::new(|host| host.close())];
        for advertised in VERSIONS {
            calls.push(Box::new(move |host| host.open(advertised).unwrap()));
        }
        for (header, payload) in messages(COMMAND_DONE) {
            calls.push(Box::new(move |host| {
                host.receive(&header, &payload);
            }));
        }
        let made = VERSIONS.map(|native| Host::make(native).unwrap()).to_vec();
        let reached: Vec<_> = reached(made, &calls).iter().map(host_numbers).collect();
        for native in ANY {
            for stage in ANY {
                for version in ANY {
                    let numbers = [native, stage, version];
                    let taken = judge_host(&bytes(&numbers)).is_ok();
                    assert_eq!(taken, reached.contains(&numbers), "{numbers:x?}");
                }
            }
        }
    }

    #[test]
    fn a_modem_is_taken_exactly_where_calls_reach_it() {
        let mut calls: Vec<Box<dyn Fn(&mut Modem)>> = vec![Box::new(|modem| modem.close())];
        for (header, payload) in messages(COMMAND) {
            calls.push(Box::new(move |modem| {
                modem.receive(&header, &payload, &mut [0; 4]);
            }));
        }
        let mut made = Vec::new();
        for native in VERSIONS {
            for advertised in VERSIONS {
                for cids in [&[15], &[14]] {
                    made.extend(Modem::make(native, advertised, &list(cids)));
                }
            }
        }
        let reached: Vec<_> = reached(made, &calls).iter().map(modem_numbers).collect();
        for native in ANY {
            for advertised in ANY {
                for rest in 0..ANY.len().pow(3) {
                    let of = |by: usize| ANY[rest / by % ANY.len()];
                    let numbers = [native, advertised, of(1), of(8), of(64)];
                    let taken = judge_modem(&bytes(&numbers)).is_ok();
                    assert_eq!(taken, reached.contains(&numbers), "{numbers:x?}");
                }
            }
        }
    }

    /// The memory after a first fragment of two that carries so much, where it is taken.
    fn begun(message_type: u32, word: u32, carried: usize) -> Option<Vec<u8>> {
        let header = Header { message_type, transaction: 7, service: [3; 16], cid: 11, word };
        let first = first_header_length(message_type).unwrap();
        let mut piece = vec![1; first + carried];
        let numbers = [message_type, piece.len() as u32, header.transaction, 2, 0];
        for (place, number) in numbers.iter().enumerate() {
            piece[4 * place..4 * place + 4].copy_from_slice(&number.to_le_bytes());
        }
        piece[40..44].copy_from_slice(&word.to_le_bytes());
        piece[first - 4..first].copy_from_slice(&4096u32.to_le_bytes());
        let mut assembler = Assembler::default();
        assembler.feed(&piece, &mut []);
        assembler.progress().map(|_| assembly_memory::bytes(&assembler).to_vec())
    }

    #[test]
    fn an_assembly_has_what_its_one_fragment_can_carry() {
        for (message_type, most) in [(COMMAND, 4048), (COMMAND_DONE, 4048), (INDICATE_STATUS, 4052)]
        {
            assert_eq!(begun(message_type, 0, most + 1), None);
            let mut memory = begun(message_type, 0, most).unwrap();
            assert_eq!(judge_assembly(&memory), Ok(()));
            memory[44..48].copy_from_slice(&(most as u32 + 1).to_le_bytes());
            assert_eq!(judge_assembly(&memory), Err(Refusal::new(10, 44)));
            memory[32] = 3;
            memory[36] = 2;
            assert_eq!(judge_assembly(&memory), Ok(()));
        }
    }

    #[test]
    fn an_assembly_has_a_word_that_its_first_fragment_can_have() {
        for message_type in [COMMAND, COMMAND_DONE, INDICATE_STATUS] {
            let memory = begun(message_type, 0, 0).unwrap();
            for word in [0, 1, 2, u32::MAX] {
                let mut changed = memory.clone();
                changed[28..32].copy_from_slice(&word.to_le_bytes());
                let fed = message_type != INDICATE_STATUS && begun(message_type, word, 0).is_some();
                let expected = if fed || word == 0 { Ok(()) } else { Err(Refusal::new(10, 28)) };
                assert_eq!(judge_assembly(&changed), expected, "{message_type:x} {word:x}");
            }
        }
    }

    #[test]
    fn each_number_of_an_assembly_has_its_place() {
        let memory = begun(COMMAND, 1, 10).unwrap();
        let faults = [(0, 1, 0), (28, 2, 28), (32, 0, 32), (32, 129, 32), (36, 0, 36), (36, 2, 36)];
        for (place, byte, at) in faults.into_iter().chain([(41, 17, 40), (44, 11, 44)]) {
            let mut memory = memory.clone();
            memory[40..44].copy_from_slice(&10u32.to_le_bytes());
            memory[place] = byte;
            assert_eq!(judge_assembly(&memory), Err(Refusal::new(10, at)), "{place} {byte}");
        }
        assert_eq!(judge_assembly(&memory[..4143]), Err(Refusal::new(11, 4144)));
        assert_eq!(judge_assembly(&[0; 4144]), Ok(()));
    }
}
