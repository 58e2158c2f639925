//! The second program's side: each call gives what the library's gives, as a value of its own, and
//! none is inlined into the loop that measures it.

use crate::inputs;
use second::assembler::Assembler;
use second::device_services::{self, Element, Position, Shown};
use second::door::{self, Received};
use second::handshake::{self, CommandAnswer, Host, Modem, ReplyAnswer};
use second::message::{Header, COMMAND};
use second::packet_service::{self, PacketService};
use second::pin::{self, PinInfo, SetPin};
use second::pin_entry::Reply;
use second::pin_memory;
use second::refusal::Refusal;
use second::registration::{self, Range, Registration};
use second::signal_state::{self, Entries, RsrpSnr, SignalState};
use second::version::Version;
use second::{cutter, version_info, ZeroSize};

/// A loop that only copies.
#[inline(never)]
pub fn copy(source: &[u8], target: &mut [u8]) {
    for (to, from) in target.iter_mut().zip(source) {
        *to = *from;
    }
}

/// Both numbers of the payload.
#[inline(never)]
pub fn version_read(payload: &[u8]) -> Result<[u16; 2], Refusal> {
    version_info::read(payload).map(|version| [0x0100, version.bcd()])
}

#[inline(never)]
pub fn version_write(mbim: u16, extension: u16, out: &mut [u8]) -> Result<usize, Refusal> {
    version_info::write(mbim, extension, out)
}

#[inline(never)]
pub fn packet_read(version: u16, payload: &[u8]) -> Result<PacketService, Refusal> {
    packet_service::read(Version::from_bcd(version)?, payload)
}

#[inline(never)]
pub fn packet_write(record: &PacketService, out: &mut [u8]) -> Result<usize, Refusal> {
    packet_service::write(record, out)
}

#[inline(never)]
pub fn registration_read(version: u16, payload: &[u8]) -> Result<Registration<Range>, Refusal> {
    registration::read(Version::from_bcd(version)?, payload)
}

#[inline(never)]
pub fn registration_read_with(
    version: u16,
    zero_size: u32,
    payload: &[u8],
) -> Result<Registration<Range>, Refusal> {
    let version = Version::from_bcd(version)?;
    registration::read_with(version, ZeroSize::from_number(zero_size)?, payload)
}

#[inline(never)]
pub fn registration_write(record: &Registration<&[u8]>, out: &mut [u8]) -> Result<usize, Refusal> {
    registration::write(record, out)
}

/// A signal record with its entries copied out of the payload.
#[allow(dead_code)]
pub struct Signal {
    pub numbers: [u32; 5],
    pub count: usize,
    pub entries: [RsrpSnr; 16],
}

#[inline(never)]
pub fn signal_read(version: u16, payload: &[u8]) -> Result<Signal, Refusal> {
    Ok(copied(&signal_state::read(Version::from_bcd(version)?, payload)?))
}

#[inline(never)]
pub fn signal_read_with(version: u16, zero_size: u32, payload: &[u8]) -> Result<Signal, Refusal> {
    let version = Version::from_bcd(version)?;
    let zero_size = ZeroSize::from_number(zero_size)?;
    Ok(copied(&signal_state::read_with(version, zero_size, payload)?))
}

#[inline(always)]
fn copied(shown: &SignalState<Entries>) -> Signal {
    let numbers = [
        shown.rssi,
        shown.error_rate,
        shown.signal_strength_interval,
        shown.rssi_threshold,
        shown.error_rate_threshold,
    ];
    let mut signal = Signal { numbers, count: 0, entries: [RsrpSnr::default(); 16] };
    if let Some(list) = &shown.rsrp_snr {
        signal.count = list.count();
        for (place, entry) in signal.entries.iter_mut().zip(list.iter()) {
            *place = entry;
        }
    }
    signal
}

#[inline(never)]
pub fn signal_write(entries: &[RsrpSnr], out: &mut [u8]) -> Result<usize, Refusal> {
    let record = SignalState {
        rssi: 99,
        error_rate: 99,
        signal_strength_interval: 5,
        rssi_threshold: 0,
        error_rate_threshold: 0,
        rsrp_snr: Some(entries),
    };
    signal_state::write(&record, out)
}

#[inline(never)]
pub fn services_read(payload: &[u8]) -> Result<[u32; 2], Refusal> {
    let list = device_services::read(payload)?;
    Ok([list.count() as u32, list.max_dss_sessions()])
}

#[inline(never)]
pub fn listed(payload: &[u8], service: &[u8; 16], cid: u32) -> Result<bool, Refusal> {
    device_services::listed(payload, service, cid)
}

#[inline(never)]
pub fn ask(payload: &[u8], service: &[u8; 16], cid: u32) -> Result<Option<Position>, Refusal> {
    device_services::ask(payload, service, cid)
}

#[inline(never)]
pub fn services_all(
    payload: &[u8],
    fields: &mut [u32],
    cids: &mut [u32],
) -> Result<(usize, usize), Refusal> {
    device_services::all(payload, fields, cids)
}

#[inline(never)]
pub fn element(payload: &[u8], number: u32, cids: &mut [u32]) -> Result<Option<Shown>, Refusal> {
    device_services::element(payload, number, cids)
}

#[inline(never)]
pub fn cids_of(
    payload: &[u8],
    service: &[u8; 16],
    cids: &mut [u32],
) -> Result<Option<Shown>, Refusal> {
    device_services::first_of_service(payload, service, cids)
}

/// A list of so many elements, at most 32, with the same CIDs.
#[inline(never)]
pub fn services_write(count: usize, cids: &[u32], out: &mut [u8]) -> Result<usize, Refusal> {
    let mut number = 0;
    let elements = [(); 32].map(|()| {
        number += 1;
        Element { device_service_id: [number; 16], dss_payload: 0, max_dss_instances: 0, cids }
    });
    device_services::write(0, &elements[..count], out)
}

#[inline(never)]
pub fn services_write_all(
    max_dss_sessions: u32,
    fields: &[u32],
    cids: &[u32],
    out: &mut [u8],
) -> Result<usize, Refusal> {
    device_services::write_all(max_dss_sessions, fields, cids, out)
}

#[inline(never)]
pub fn receive(
    assembler: &mut Assembler,
    piece: &[u8],
    out: &mut [u8],
) -> Result<Received, Refusal> {
    door::receive(assembler, piece, out)
}

#[inline(never)]
pub fn cut(size: usize, information: &[u8], out: &mut [u8]) -> Result<(u32, usize), Refusal> {
    cutter::cut(&inputs::header(COMMAND), size, information, out)
}

#[inline(never)]
pub fn host_receive(host: &mut Host, header: &Header, information: &[u8]) -> ReplyAnswer {
    host.receive(header, information)
}

#[inline(never)]
pub fn modem_receive(modem: &mut Modem, header: &Header, out: &mut [u8]) -> CommandAnswer {
    modem.receive(header, &[], out)
}

#[inline(never)]
pub fn set_pin_read(payload: &[u8]) -> Result<SetPin<Range>, Refusal> {
    pin::read_set(payload)
}

#[inline(never)]
pub fn set_pin_write(record: &SetPin<&[u8]>, out: &mut [u8]) -> Result<usize, Refusal> {
    pin::write_set(record, out)
}

#[inline(never)]
pub fn pin_info_read(payload: &[u8]) -> Result<PinInfo, Refusal> {
    pin::read_info(payload)
}

#[inline(never)]
pub fn pin_info_write(record: &PinInfo, out: &mut [u8]) -> Result<usize, Refusal> {
    pin::write_info(record, out)
}

#[inline(never)]
pub fn pin_enter(memory: &mut [u8], payload: &[u8]) -> Result<Reply, Refusal> {
    pin_memory::enter(memory, payload)
}

#[inline(never)]
pub fn pin_receive(
    modem: &mut Modem,
    memory: &mut [u8],
    header: &Header,
    payload: &[u8],
    out: &mut [u8],
) -> CommandAnswer {
    handshake::pins::receive_lent(modem, memory, header, payload, out)
}
