//! PIN entries, both ends in memory, as examples/pin.c plays them, with the same text.

use culvertroost::*;

const TRANSFER_SIZE: usize = 64;
const NO_DEVICE_SUPPORT: u32 = 9;
const ENTER: u32 = 0;

type Play<T> = Result<T, Refusal>;

/// Both ends, what the modem keeps, and what each end keeps to receive messages.
struct Line {
    host: Host,
    modem: Modem,
    pins: PinTable,
    services: Vec<u8>,
    host_assembly: Assembly,
    modem_assembly: Assembly,
    transaction: u32,
}

/// A message that came together.
struct Message {
    header: MessageHeader,
    information: Vec<u8>,
}

fn main() -> Play<()> {
    let mut line = make_ends()?;
    open_ends(&mut line)?;
    enter(&mut line, "PIN1, wrong", pin_type::PIN1, ["0000", ""])?;
    enter(&mut line, "PIN1, wrong again", pin_type::PIN1, ["4321", ""])?;
    enter(&mut line, "PIN1, wrong for the third time", pin_type::PIN1, ["123", ""])?;
    enter(&mut line, "PIN1, right, but blocked", pin_type::PIN1, ["1234", ""])?;
    enter(&mut line, "PUK1, wrong", pin_type::PUK1, ["87654321", "5678"])?;
    enter(&mut line, "PUK1, right, with a new PIN1", pin_type::PUK1, ["12345678", "5678"])?;
    enter(&mut line, "PUK1, right, but not awaited", pin_type::PUK1, ["12345678", "9999"])?;
    open_ends(&mut line)?;
    enter(&mut line, "PIN1, the new one, not awaited", pin_type::PIN1, ["5678", ""])?;
    enter(&mut line, "PIN2, not in the table", pin_type::PIN2, ["1234", ""])
}

// ---- both ends

fn make_ends() -> Play<Line> {
    let mut list = ServiceList::empty();
    assert!(list.add(BASIC_CONNECT, &[PIN, DEVICE_SERVICES]));
    let mut out = [0; MOST_INFORMATION];
    let length = list.write(&mut out)?;
    let services = out[..length].to_vec();
    let modem = Modem::new(VERSION_1_00, VERSION_1_00, &services)?;
    let mut made = Pins::default();
    assert!(made.add(pin_type::PIN1, true, 3, &widen("1234")));
    assert!(made.add(pin_type::PUK1, true, 10, &widen("12345678")));
    let pins = PinTable::new(&made)?;
    println!("modem: PIN1 with 3 tries, PUK1 with 10");
    let host = Host::new(VERSION_1_00)?;
    let (host_assembly, modem_assembly) = (Assembly::new(), Assembly::new());
    Ok(Line { host, modem, pins, services, host_assembly, modem_assembly, transaction: 0 })
}

/// OPEN puts both ends to their start; at 1.00 the list of services is the whole handshake.
fn open_ends(line: &mut Line) -> Play<()> {
    line.modem.open()?;
    line.host.open(VERSION_1_00)?;
    let list = command(line, DEVICE_SERVICES, QUERY, &[])?;
    let event = line.host.receive(&list.header, &list.information)?;
    assert_eq!(event, Event::Settled(VERSION_1_00));
    println!("both ends: opened");
    Ok(())
}

// ---- messages on their way

/// Cuts a message at one end and puts it together at the other.
fn carry(header: MessageHeader, information: &[u8], to: &mut Assembly) -> Play<Message> {
    let (mut cut, mut out) = ([0; MOST_CUT], [0; MOST_INFORMATION]);
    let length = header.cut(TRANSFER_SIZE, information, &mut cut)?.length;
    for piece in cut[..length].chunks(TRANSFER_SIZE) {
        if let Received::Complete { message, length, .. } = to.receive(piece, &mut out)? {
            return Ok(Message { header: message, information: out[..length].to_vec() });
        }
    }
    panic!("the last fragment completes a message");
}

/// A command from the host, and the reply that comes to it.
fn command(line: &mut Line, cid: u32, word: u32, information: &[u8]) -> Play<Message> {
    line.transaction = next_transaction(line.transaction);
    let (transaction, service) = (line.transaction, BASIC_CONNECT);
    let header = MessageHeader { message_type: COMMAND, transaction, service, cid, word };
    let came = carry(header, information, &mut line.modem_assembly)?;
    let mut out = [0; MOST_INFORMATION];
    let taken =
        line.modem.receive_with(&mut line.pins, &came.header, &came.information, &mut out)?;
    let (status, reply) = match taken.action {
        Action::Serve(Kind::DeviceServices) => (0, &line.services[..]),
        Action::Pin { status, length } => (status, &out[..length]),
        _ => (NO_DEVICE_SUPPORT, &[][..]),
    };
    let header = MessageHeader { message_type: COMMAND_DONE, word: status, ..came.header };
    carry(header, reply, &mut line.host_assembly)
}

// ---- entries

fn widen(text: &str) -> Vec<u8> {
    text.encode_utf16().flat_map(u16::to_le_bytes).collect()
}

fn type_name(pin_type: u32) -> &'static str {
    match pin_type {
        pin_type::NONE => "None",
        pin_type::PIN1 => "PIN1",
        pin_type::PUK1 => "PUK1",
        _ => "another",
    }
}

fn enter(line: &mut Line, what: &str, pin_type: u32, texts: [&str; 2]) -> Play<()> {
    let [pin, new_pin] = texts.map(widen);
    let mut out = [0; MOST_INFORMATION];
    let entry = SetPin { pin_type, pin_operation: ENTER };
    let length = entry.write(&PinTexts { pin: &pin, new_pin: &new_pin }, &mut out)?;
    let reply = command(line, PIN, SET, &out[..length])?;
    print!("{what}: status {}", reply.header.word);
    if reply.header.kind()? != Some(Kind::PinInfo) {
        println!(", no payload");
        return Ok(());
    }
    let info = PinInfo::read(&reply.information)?;
    let state = if info.pin_state == 1 { "locked" } else { "unlocked" };
    println!(", type {}, {state}, attempts {}", type_name(info.pin_type), info.remaining_attempts);
    Ok(())
}
