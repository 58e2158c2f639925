//! Whole runs: host and modem with writer, cutter, door and readers between them.

use crate::feeds::{pieces, service};
use crate::samples::Samples;
use second::flat::question as q;
use second::flat::{Answer, ASSEMBLY_SIZE, MODEM_SIZE};
use second::message::{CLOSE, CLOSE_DONE, COMMAND, COMMAND_DONE, OPEN, OPEN_DONE};
use second::payload::{BASIC_CONNECT, EXTENSIONS};

const ROOM: u64 = 4096;

pub fn all(samples: &mut Samples) {
    samples.ask(q::EMPTY_ASSEMBLY, &[], &[]);
    for host in [0x0100, 0x0200] {
        for (native, advertised) in [(0x0100, 0x0100), (0x0200, 0x0100), (0x0200, 0x0200)] {
            for lists_version in [0, 1] {
                let list = write_list(samples, lists_version);
                samples.ask(q::MAKE_HOST, &[host], &[]);
                samples.ask(q::MAKE_MODEM, &[native, advertised, MODEM_SIZE], &list);
                carry_whole(samples, [OPEN, OPEN_DONE]);
                samples.ask(q::HOST_OPEN, &[advertised], &[]);
                samples.ask(q::MODEM_OPEN, &[], &[]);
                run(samples, &list);
                carry_whole(samples, [CLOSE, CLOSE_DONE]);
                samples.ask(q::HOST_CLOSE, &[], &[]);
                samples.ask(q::MODEM_CLOSE, &[], &[]);
            }
        }
    }
}

/// The list and its reply; then, unless refused, VERSION or another command and its reply.
fn run(samples: &mut Samples, list: &[u8]) {
    samples.ask(q::HOST_NEXT, &[ROOM], &[]);
    to_modem(samples, [COMMAND, 1, 16, 0], &[]);
    let reply = to_host(samples, [COMMAND_DONE, 1, 16, 0], list).numbers;
    if reply[0] != 0 {
        samples.ask(q::SHOW_HOST, &[], &[]);
        return;
    }
    let next = samples.ask(q::HOST_NEXT, &[ROOM], &[]);
    if next.numbers[1] == 2 {
        let answered = to_modem(samples, [COMMAND, 2, 15, 0], &next.output);
        to_host(samples, [COMMAND_DONE, 2, 15, 0], &answered.output);
    } else {
        to_modem(samples, [COMMAND, 2, 11, 0], &[]);
    }
    samples.ask(q::SHOW_MODEM, &[], &[]);
    let host = samples.ask(q::SHOW_HOST, &[], &[]).output;
    payloads(samples, u16::from_le_bytes([host[4], host[5]]).into());
}

/// A whole message and its reply, written, received and judged.
fn carry_whole(samples: &mut Samples, types: [u32; 2]) {
    for message_type in types {
        let arguments = [16, message_type.into(), 9, 0];
        let message = samples.ask(q::WHOLE_WRITE, &arguments, &[]).output;
        samples.ask(q::RECEIVE, &[0, ASSEMBLY_SIZE], &message);
    }
}

/// A message on its way to the modem.
fn to_modem(samples: &mut Samples, head: [u32; 4], information: &[u8]) -> Answer {
    let input = carry(samples, head, information);
    let [message_type, transaction, cid, word] = head.map(u64::from);
    samples.ask(q::MODEM_RECEIVE, &[ROOM, message_type, transaction, cid, word], &input)
}

/// A message on its way to the host.
fn to_host(samples: &mut Samples, head: [u32; 4], information: &[u8]) -> Answer {
    let input = carry(samples, head, information);
    samples.ask(q::HOST_RECEIVE, &head.map(u64::from), &input)
}

/// Cuts, receives and gives the service and the information that came together.
pub fn carry(samples: &mut Samples, head: [u32; 4], information: &[u8]) -> Vec<u8> {
    let mut output = service(head[2]).to_vec();
    for piece in pieces(samples, 64, head, information) {
        output.extend(samples.ask(q::RECEIVE, &[ROOM, ASSEMBLY_SIZE], &piece).output);
    }
    let [message_type, _, cid, word] = head.map(u64::from);
    samples.ask(q::PAYLOAD_KIND, &[message_type, cid, word], &output[..16]);
    output
}

/// The list of our modem, with VERSION or without it.
pub fn write_list(samples: &mut Samples, lists_version: u64) -> Vec<u8> {
    let mut arguments = vec![ROOM, 1 + lists_version, 0, 0, 0, 5, 4, 9, 10, 11, 16];
    let mut input = BASIC_CONNECT.to_vec();
    if lists_version == 1 {
        arguments.extend([0, 0, 1, 15]);
        input.extend(EXTENSIONS);
    }
    samples.ask(q::SERVICES_WRITE, &arguments, &input).output
}

/// Each payload written at the settled version, carried, and read at it.
fn payloads(samples: &mut Samples, version: u64) {
    let text = b"0\x000\x001\x000\x001\0T\0";
    let fields = [ROOM, version, 0, 3, 1, 0x20, 1, 0, 0x20, 10, 2, 0];
    let registration = samples.ask(q::REGISTRATION_WRITE, &fields, text).output;
    let fields = [ROOM, version, 0, 2, 0x20, 0x40, 1, 50_000_000, 150_000_000];
    let packet = samples.ask(q::PACKET_WRITE, &fields, &[]).output;
    let fields = [ROOM, version, 99, 0, 5, 0, 0, 1, 60, 70, 0, 0, 0x40];
    let signal = samples.ask(q::SIGNAL_WRITE, &fields, &[]).output;
    let reads = [
        (9, q::REGISTRATION_READ, registration),
        (10, q::PACKET_READ, packet),
        (11, q::SIGNAL_READ, signal),
    ];
    for (cid, read, payload) in reads {
        let carried = carry(samples, [COMMAND_DONE, 3, cid, 0], &payload);
        samples.ask(read, &[version], &carried[16..]);
    }
}
