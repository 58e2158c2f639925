//! The first table: each exported function of the library that reads, writes, asks, receives or cuts,
//! beside the second program's.

use crate::inputs::{self, Inputs, TRANSFERS};
use crate::measure::{keep, Mode, Row};
use crate::plain;
use culvertroost::c;
use second::handshake::{Host, Modem};
use second::message::{COMMAND, COMMAND_DONE};
use std::hint::black_box;

/// A pair of size 0 has no offset.
const STRICT: u32 = 1;

/// One thing a call.
fn row(
    mode: Mode,
    name: &str,
    payload: &[u8],
    library: &mut dyn FnMut(),
    second: &mut dyn FnMut(),
) {
    Row { name, units: 1, bytes: payload.len() }.run(mode, library, second);
}

fn version(mode: Mode, inputs: &Inputs) {
    let payload = &inputs.version[..];
    let info = c::version_info_read(payload).info;
    let (mut out, mut other) = ([0u8; 4], [0u8; 4]);
    row(
        mode,
        "VERSION read",
        payload,
        &mut || keep(c::version_info_read(black_box(payload))),
        &mut || keep(plain::version_read(black_box(payload))),
    );
    row(
        mode,
        "VERSION write",
        payload,
        &mut || keep(c::version_info_write(*black_box(&info), &mut out)),
        &mut || keep(plain::version_write(black_box(0x0100), black_box(0x0200), &mut other)),
    );
}

fn packet_service(mode: Mode, inputs: &Inputs) {
    let payload = &inputs.packet[..];
    let info = c::packet_service_read(0x0200, payload).info;
    let record = plain::packet_read(0x0200, payload).expect("a good payload");
    let (mut out, mut other) = ([0u8; 32], [0u8; 32]);
    row(
        mode,
        "packet service read, 2.00",
        payload,
        &mut || keep(c::packet_service_read(0x0200, black_box(payload))),
        &mut || keep(plain::packet_read(0x0200, black_box(payload))),
    );
    row(
        mode,
        "packet service write, 2.00",
        payload,
        &mut || keep(c::packet_service_write(*black_box(&info), &mut out)),
        &mut || keep(plain::packet_write(black_box(&record), &mut other)),
    );
}

fn registration(mode: Mode, inputs: &Inputs) {
    let payload = &inputs.registration[..];
    let info = c::registration_read(0x0200, payload).info;
    let record = inputs::registration_record();
    let (id, name, roaming) = (record.provider_id, record.provider_name, record.roaming_text);
    let (mut out, mut other) = ([0u8; 4096], [0u8; 4096]);
    row(
        mode,
        "registration read, 2.00",
        payload,
        &mut || keep(c::registration_read(0x0200, black_box(payload))),
        &mut || keep(plain::registration_read(0x0200, black_box(payload))),
    );
    row(
        mode,
        "registration read, 2.00, strictly",
        payload,
        &mut || keep(c::registration_read_with(0x0200, STRICT, black_box(payload))),
        &mut || keep(plain::registration_read_with(0x0200, STRICT, black_box(payload))),
    );
    row(
        mode,
        "registration write, 2.00",
        payload,
        &mut || keep(c::registration_write(*black_box(&info), id, name, roaming, &mut out)),
        &mut || keep(plain::registration_write(black_box(&record), &mut other)),
    );
}

fn signal_state(mode: Mode, inputs: &Inputs) {
    let payload = &inputs.signal[..];
    let info = c::signal_state_read(0x0200, payload).info;
    let entries = inputs::entries(16);
    let (mut out, mut other) = ([0u8; 4096], [0u8; 4096]);
    row(
        mode,
        "signal read, 2.00, 16 entries",
        payload,
        &mut || keep(c::signal_state_read(0x0200, black_box(payload))),
        &mut || keep(plain::signal_read(0x0200, black_box(payload))),
    );
    row(
        mode,
        "signal read, 2.00, strictly",
        payload,
        &mut || keep(c::signal_state_read_with(0x0200, STRICT, black_box(payload))),
        &mut || keep(plain::signal_read_with(0x0200, STRICT, black_box(payload))),
    );
    row(
        mode,
        "signal write, 2.00, 16 entries",
        payload,
        &mut || keep(c::signal_state_write(*black_box(&info), &mut out)),
        &mut || keep(plain::signal_write(black_box(&entries), &mut other)),
    );
}

fn device_services(mode: Mode, inputs: &Inputs) {
    let payload = &inputs.services[..];
    let list = inputs::service_list();
    let id = inputs.last_service;
    let service = c::service_id(&id);
    let (mut out, mut other) = ([0u8; 4096], [0u8; 4096]);
    row(
        mode,
        "services read, 8 of 8 CIDs",
        payload,
        &mut || keep(c::device_services_read(black_box(payload))),
        &mut || keep(plain::services_read(black_box(payload))),
    );
    row(
        mode,
        "is a CID listed, the last of all",
        payload,
        &mut || keep(c::device_services_listed(black_box(payload), service, 8)),
        &mut || keep(plain::listed(black_box(payload), &id, 8)),
    );
    row(
        mode,
        "ask for a CID, the last of all",
        payload,
        &mut || keep(c::device_services_ask(black_box(payload), service, 8)),
        &mut || keep(plain::ask(black_box(payload), &id, 8)),
    );
    row(
        mode,
        "services write, 8 of 8 CIDs",
        payload,
        &mut || keep(c::device_services_write(*black_box(&list), &mut out)),
        &mut || keep(plain::services_write(black_box(8), &inputs::CIDS, &mut other)),
    );
    let (fields, cids) = (&inputs.service_fields[..], &inputs.service_cids[..]);
    row(
        mode,
        "services write from lists, 8 of 8 CIDs",
        payload,
        &mut || keep(c::device_services_write_all(0, black_box(fields), black_box(cids), &mut out)),
        &mut || keep(plain::services_write_all(0, black_box(fields), black_box(cids), &mut other)),
    );
}

fn elements(mode: Mode, inputs: &Inputs) {
    let payload = &inputs.services[..];
    let id = inputs.last_service;
    let service = c::service_id(&id);
    let (mut cids, mut other) = ([0; c::MOST_CIDS], [0; c::MOST_CIDS]);
    row(
        mode,
        "an element, the last of 8",
        payload,
        &mut || keep(c::device_services_element(black_box(payload), 7, &mut cids)),
        &mut || keep(plain::element(black_box(payload), 7, &mut other)),
    );
    row(
        mode,
        "CIDs of a service, the last of 8",
        payload,
        &mut || keep(c::device_services_cids(black_box(payload), service, &mut cids)),
        &mut || keep(plain::cids_of(black_box(payload), &id, &mut other)),
    );
    let (mut fields, mut other_fields) = ([0; 7 * 8], [0; 7 * 8]);
    let (mut all, mut other_all) = ([0; 64], [0; 64]);
    row(
        mode,
        "all elements, 8 of 8 CIDs",
        payload,
        &mut || keep(c::device_services_all(black_box(payload), &mut fields, &mut all)),
        &mut || keep(plain::services_all(black_box(payload), &mut other_fields, &mut other_all)),
    );
}

fn receiving(mode: Mode, inputs: &Inputs) {
    let (mut out, mut other) = ([0u8; 4096], [0u8; 4096]);
    for size in TRANSFERS {
        let pieces = inputs.pieces(size);
        let mut memory = [0u8; c::ASSEMBLY_SIZE];
        let mut assembler = second::assembler::Assembler::new();
        let name = format!("receive at {size}, one of {}", pieces.len());
        let bytes = pieces.iter().map(Vec::len).sum::<usize>() / pieces.len();
        Row { name: &name, units: pieces.len(), bytes }.run(
            mode,
            &mut || {
                pieces
                    .iter()
                    .for_each(|piece| keep(c::receive(&mut memory, black_box(piece), &mut out)))
            },
            &mut || {
                pieces.iter().for_each(|piece| {
                    keep(plain::receive(&mut assembler, black_box(piece), &mut other))
                })
            },
        );
    }
}

fn cutting(mode: Mode, inputs: &Inputs) {
    let message = inputs::message(COMMAND);
    let (mut stream, mut other) = ([0u8; 8192], [0u8; 8192]);
    for size in TRANSFERS {
        let information = &inputs.information(size)[..];
        row(
            mode,
            &format!("cut at {size}"),
            information,
            &mut || keep(c::message_cut(message, size, black_box(information), &mut stream)),
            &mut || keep(plain::cut(size, black_box(information), &mut other)),
        );
    }
}

/// The host is opened and takes the reply with the services list.
fn host(mode: Mode, inputs: &Inputs) {
    let list = &inputs.services[..];
    let (reply, header) = (inputs::message(COMMAND_DONE), inputs::header(COMMAND_DONE));
    let mut host = [0u8; c::HOST_SIZE];
    assert_eq!(c::host_make(&mut host, 0x0200).number, 0);
    let mut other = Host::make(0x0200).expect("a version");
    row(
        mode,
        "host opened, takes a list",
        list,
        &mut || {
            keep(c::host_open(&mut host, 0x0100));
            keep(c::host_receive(&mut host, black_box(reply), *black_box(&list)))
        },
        &mut || {
            keep(other.open(0x0100));
            keep(plain::host_receive(&mut other, black_box(&header), *black_box(&list)))
        },
    );
}

/// The modem is opened and takes the query of that list.
fn modem(mode: Mode, inputs: &Inputs) {
    let list = &inputs.services[..];
    let (query, header) = (inputs::message(COMMAND), inputs::header(COMMAND));
    let mut modem = [0u8; c::MODEM_SIZE];
    assert_eq!(c::modem_make(&mut modem, 0x0200, 0x0100, list).number, 0);
    let mut other = Modem::make(0x0200, 0x0100, list).expect("versions and a list");
    row(
        mode,
        "modem opened, takes a query",
        &[],
        &mut || {
            keep(c::modem_open(&mut modem));
            keep(c::modem_receive(&mut modem, black_box(query), &[], &mut []))
        },
        &mut || {
            other.open();
            keep(plain::modem_receive(&mut other, black_box(&header), &mut []))
        },
    );
}

fn pin_payloads(mode: Mode, inputs: &Inputs) {
    let (entry, info) = (&inputs.set_pin[..], &inputs.pin_info[..]);
    let (record, info_record) = (inputs::set_pin_record(), inputs::pin_info_record());
    let (read, info_read) = (c::set_pin_read(entry).info, c::pin_info_read(info).info);
    let (mut out, mut other) = ([0u8; 88], [0u8; 88]);
    row(mode, "SET_PIN read", entry, &mut || keep(c::set_pin_read(black_box(entry))), &mut || {
        keep(plain::set_pin_read(black_box(entry)))
    });
    row(
        mode,
        "SET_PIN write",
        entry,
        &mut || keep(c::set_pin_write(*black_box(&read), record.pin, record.new_pin, &mut out)),
        &mut || keep(plain::set_pin_write(black_box(&record), &mut other)),
    );
    row(mode, "PIN_INFO read", info, &mut || keep(c::pin_info_read(black_box(info))), &mut || {
        keep(plain::pin_info_read(black_box(info)))
    });
    row(
        mode,
        "PIN_INFO write",
        info,
        &mut || keep(c::pin_info_write(*black_box(&info_read), &mut out)),
        &mut || keep(plain::pin_info_write(black_box(&info_record), &mut other)),
    );
}

/// A wrong text costs a try each time; there are enough of them.
fn pin_entry(mode: Mode, inputs: &Inputs) {
    let payload = &inputs.set_pin[..];
    let (mut pins, mut other_pins) = (inputs::pin_memory(), inputs::pin_memory());
    row(
        mode,
        "PIN entry, a wrong text",
        payload,
        &mut || keep(c::pin_enter(&mut pins, black_box(payload))),
        &mut || keep(plain::pin_enter(&mut other_pins, black_box(payload))),
    );
}

/// The same to a modem that has sent its list; the first entry settles it.
fn modem_with_pins(mode: Mode, inputs: &Inputs) {
    let (list, payload) = (&inputs.services[..], &inputs.set_pin[..]);
    let (query, header) = (inputs::message(COMMAND), inputs::header(COMMAND));
    let (mut pins, mut other_pins) = (inputs::pin_memory(), inputs::pin_memory());
    let mut modem = [0u8; c::MODEM_SIZE];
    assert_eq!(c::modem_make(&mut modem, 0x0100, 0x0100, list).number, 0);
    assert_eq!(c::modem_receive(&mut modem, query, &[], &mut []).action, 1);
    let mut other = Modem::make(0x0100, 0x0100, list).expect("versions and a list");
    plain::modem_receive(&mut other, &header, &mut []);
    let header = inputs::entry_header();
    let entry = inputs::message_of(&header);
    let (mut out, mut other_out) = ([0u8; 12], [0u8; 12]);
    row(
        mode,
        "modem takes a PIN entry",
        payload,
        &mut || {
            let (entry, payload) = (black_box(entry), black_box(payload));
            keep(c::pin_receive(&mut modem, &mut pins, entry, payload, &mut out))
        },
        &mut || {
            let (header, payload) = (black_box(&header), black_box(payload));
            keep(plain::pin_receive(&mut other, &mut other_pins, header, payload, &mut other_out))
        },
    );
}

pub fn run(mode: Mode, inputs: &Inputs) {
    version(mode, inputs);
    packet_service(mode, inputs);
    registration(mode, inputs);
    signal_state(mode, inputs);
    device_services(mode, inputs);
    elements(mode, inputs);
    receiving(mode, inputs);
    cutting(mode, inputs);
    host(mode, inputs);
    modem(mode, inputs);
    pin_payloads(mode, inputs);
    pin_entry(mode, inputs);
    modem_with_pins(mode, inputs);
}
