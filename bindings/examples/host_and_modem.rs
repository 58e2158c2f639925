//! A host against a modem, both in memory, as examples/host_and_modem.c plays it, with the same text.

use culvertroost::*;

const TRANSFER_SIZE: usize = 64;

type Play<T> = Result<T, Refusal>;

/// Both ends, the modem's list of services, and what each end keeps to receive messages.
struct Line {
    host: Host,
    modem: Modem,
    services: Vec<u8>,
    host_assembly: Assembly,
    modem_assembly: Assembly,
    transaction: u32,
}

/// A message that came together.
struct Message {
    header: MessageHeader,
    information: Vec<u8>,
}

fn main() -> Play<()> {
    let mut line = open_ends()?;
    ask_services(&mut line)?;
    ask_version(&mut line)?;
    ask_registration(&mut line)?;
    indicate_signal(&mut line)
}

fn version_text(version: u16) -> String {
    format!("{:x}.{:02x}", version >> 8, version & 0xff)
}

fn kind_name(kind: Option<Kind>) -> &'static str {
    match kind {
        None => "no payload",
        Some(Kind::RegisterState) => "registration",
        Some(Kind::PacketService) => "packet service",
        Some(Kind::SignalState) => "signal state",
        Some(Kind::DeviceServices) => "device services",
        Some(Kind::Version) => "VERSION",
        Some(Kind::SetPin) => "PIN entry",
        Some(Kind::PinInfo) => "PIN info",
    }
}

fn type_name(message_type: u32) -> &'static str {
    match message_type {
        COMMAND => "COMMAND",
        COMMAND_DONE => "COMMAND_DONE",
        INDICATE_STATUS => "INDICATE_STATUS",
        _ => "?",
    }
}

// ---- messages on their way

/// Takes fragments that lie one after another; the last one completes the message.
fn receive(to: &mut Assembly, mut fragments: &[u8]) -> Play<Message> {
    let mut out = [0; MOST_INFORMATION];
    loop {
        let length = u32::from_le_bytes(fragments[4..8].try_into().expect("four bytes"));
        let (piece, rest) = fragments.split_at(length as usize);
        fragments = rest;
        if let Received::Complete { message, length, .. } = to.receive(piece, &mut out)? {
            assert!(fragments.is_empty());
            return Ok(Message { header: message, information: out[..length].to_vec() });
        }
    }
}

/// Cuts a message at one end and puts it together at the other.
fn carry(header: MessageHeader, sent: &[u8], name: &str, to: &mut Assembly) -> Play<Message> {
    let mut out = [0; MOST_CUT];
    let Fragments { count, length } = header.cut(TRANSFER_SIZE, sent, &mut out)?;
    println!("line: {}, fragments: {count}, bytes: {length}", type_name(header.message_type));
    let got = receive(to, &out[..length])?;
    println!(
        "{name}: got {}, transaction {}, CID {}, {} bytes of information",
        type_name(got.header.message_type),
        got.header.transaction,
        got.header.cid,
        got.information.len()
    );
    Ok(got)
}

/// A query from the host.
fn send_query(line: &mut Line, service: ServiceId, cid: u32, sent: &[u8]) -> Play<Message> {
    line.transaction = next_transaction(line.transaction);
    let transaction = line.transaction;
    let header = MessageHeader { message_type: COMMAND, transaction, service, cid, word: QUERY };
    carry(header, sent, "modem", &mut line.modem_assembly)
}

/// A reply from the modem to a command that it got; the host judges what the reply shows.
fn send_reply(line: &mut Line, command: &Message, sent: &[u8], kind: Kind) -> Play<Message> {
    let header = MessageHeader { message_type: COMMAND_DONE, word: 0, ..command.header };
    let got = carry(header, sent, "host", &mut line.host_assembly)?;
    let shown = got.header.kind()?;
    assert_eq!(shown, Some(kind));
    println!("host: it shows {}", kind_name(shown));
    Ok(got)
}

// ---- both ends are made and opened

fn open_ends() -> Play<Line> {
    let services = write_services()?;
    let mut modem = Modem::new(VERSION_2_00, VERSION_1_00, &services)?;
    modem.open()?;
    println!("modem: native 2.00, advertises 1.00, lists VERSION");
    let mut host = Host::new(VERSION_2_00)?;
    assert_eq!(host.open(VERSION_1_00)?, Event::Opened);
    println!("host: native 2.00, opened");
    let (host_assembly, modem_assembly) = (Assembly::new(), Assembly::new());
    Ok(Line { host, modem, services, host_assembly, modem_assembly, transaction: 0 })
}

// ---- DEVICE_SERVICES

fn write_services() -> Play<Vec<u8>> {
    let mut list = ServiceList::empty();
    let basic = [PIN, REGISTER_STATE, PACKET_SERVICE, SIGNAL_STATE, DEVICE_SERVICES];
    assert!(list.add(BASIC_CONNECT, &basic) && list.add(EXTENSIONS, &[VERSION]));
    let mut out = [0; MOST_INFORMATION];
    let length = list.write(&mut out)?;
    Ok(out[..length].to_vec())
}

fn print_services(payload: &[u8]) -> Play<()> {
    let mut cids = [0; c::MOST_CIDS];
    let count = DeviceServices::read(payload)?.device_services_count;
    let found = DeviceServices::cids(payload, BASIC_CONNECT, &mut cids)?.expect("Basic Connect");
    let version = DeviceServices::ask(payload, EXTENSIONS, VERSION)?;
    print!("host: {count} services; CIDs of Basic Connect:");
    cids[..found.cid_count as usize].iter().for_each(|cid| print!(" {cid}"));
    println!("; VERSION {}", if version.is_some() { "listed" } else { "not listed" });
    Ok(())
}

/// The modem takes a command that it is to serve.
fn serve(line: &mut Line, command: &Message) -> Play<()> {
    let taken = line.modem.receive(&command.header, &command.information, &mut [])?;
    let Action::Serve(kind) = taken.action else {
        panic!("the command is served");
    };
    println!("modem: serves {}", kind_name(Some(kind)));
    Ok(())
}

fn ask_services(line: &mut Line) -> Play<()> {
    let mut out = [0; MOST_INFORMATION];
    assert_eq!(line.host.next_command(&mut out)?, Next::DeviceServices);
    println!("host: asks for DEVICE_SERVICES");
    let command = send_query(line, BASIC_CONNECT, DEVICE_SERVICES, &[])?;
    serve(line, &command)?;
    let list = line.services.clone();
    let count = DeviceServices::read(&list)?.device_services_count;
    println!("modem: wrote a list of {count} services, {} bytes", list.len());
    let done = send_reply(line, &command, &list, Kind::DeviceServices)?;
    print_services(&done.information)?;
    assert_eq!(line.host.receive(&done.header, &done.information)?, Event::AsksVersion);
    Ok(())
}

// ---- VERSION

fn ask_version(line: &mut Line) -> Play<()> {
    let mut out = [0; MOST_INFORMATION];
    let Next::Version(length) = line.host.next_command(&mut out)? else {
        panic!("VERSION is next");
    };
    println!("host: asks for VERSION");
    let command = send_query(line, EXTENSIONS, VERSION, &out[..length])?;
    let info = VersionInfo::read(&command.information)?;
    println!("modem: the host is at {}", version_text(info.bcd_mbim_extended_version));
    let taken = line.modem.receive(&command.header, &command.information, &mut out)?;
    let Taken { action: Action::Version(length), version: Some(version) } = taken else {
        panic!("VERSION is answered");
    };
    println!("modem: answers and settles at {}", version_text(version));
    let done = send_reply(line, &command, &out[..length], Kind::Version)?;
    let Event::Settled(version) = line.host.receive(&done.header, &done.information)? else {
        panic!("the host settles");
    };
    println!("host: settles at {}", version_text(version));
    Ok(())
}

// ---- a registration query

fn widen(text: &str) -> Vec<u8> {
    text.encode_utf16().flat_map(u16::to_le_bytes).collect()
}

fn print_text(label: &str, text: &[u8]) {
    let units: Vec<u16> =
        text.chunks(2).map(|unit| u16::from_le_bytes([unit[0], unit[1]])).collect();
    println!("host: {label} \"{}\"", String::from_utf16_lossy(&units));
}

fn write_registration() -> Play<Vec<u8>> {
    let info = Registration {
        version: VERSION_2_00,
        register_state: 3,
        register_mode: 1,
        available_data_class: 0x60,
        cellular_class: 1,
        preferred_data_class: 0x40,
        ..Registration::default()
    };
    let (id, name) = (widen("00101"), widen("Harbour Mobile"));
    let texts = Texts { provider_id: &id, provider_name: &name, roaming_text: &[] };
    let mut out = [0; MOST_INFORMATION];
    let length = info.write(&texts, &mut out)?;
    println!("modem: wrote a registration, {length} bytes");
    Ok(out[..length].to_vec())
}

fn ask_registration(line: &mut Line) -> Play<()> {
    let mut out = [0; MOST_INFORMATION];
    let Next::Free(version) = line.host.next_command(&mut out)? else {
        panic!("any command is next");
    };
    println!("host: asks for REGISTER_STATE at {}", version_text(version));
    let command = send_query(line, BASIC_CONNECT, REGISTER_STATE, &[])?;
    serve(line, &command)?;
    let reply = write_registration()?;
    let done = send_reply(line, &command, &reply, Kind::RegisterState)?;
    let (info, texts) = Registration::read(version, &done.information)?;
    println!(
        "host: state {}, available classes {:02x}h, preferred {:02x}h",
        info.register_state, info.available_data_class, info.preferred_data_class
    );
    print_text("provider id", texts.provider_id);
    print_text("provider name", texts.provider_name);
    print_text("roaming text", texts.roaming_text);
    Ok(())
}

// ---- a signal indication

fn write_signal() -> Play<Vec<u8>> {
    let lte = RsrpSnr { rsrp: 60, snr: 87, system_type: 0x20, ..RsrpSnr::default() };
    let nr = RsrpSnr { rsrp: 0, snr: 128, system_type: 0x40, ..RsrpSnr::default() };
    let mut info = SignalState {
        version: VERSION_2_00,
        rssi: 99,
        error_rate: 99,
        signal_strength_interval: 30,
        count: 2,
        ..SignalState::default()
    };
    info.entries[..2].copy_from_slice(&[lte, nr]);
    let mut out = [0; MOST_INFORMATION];
    let length = info.write(&mut out)?;
    println!("modem: wrote a signal state, {length} bytes");
    Ok(out[..length].to_vec())
}

fn reading_text(reading: Reading) -> String {
    match reading {
        Reading::Dbm(value) => format!("{value:.1} dBm"),
        Reading::Db(value) => format!("{value:.1} dB"),
        Reading::BelowRange(edge) => format!("below {edge:.1}"),
        Reading::Unknown => "unknown".to_string(),
    }
}

fn print_bars(rssi: u32) -> Play<()> {
    match bars(rssi)? {
        Some(bars) => println!("host: RSSI {rssi}, {bars} bars"),
        None => println!("host: RSSI {rssi}, no reading"),
    }
    Ok(())
}

fn print_signal(payload: &[u8]) -> Play<()> {
    let info = SignalState::read(VERSION_2_00, payload)?;
    for entry in info.entries() {
        println!(
            "host: system type {:02x}h, RSRP {}, SNR {}",
            entry.system_type,
            reading_text(rsrp(entry.rsrp)?),
            reading_text(snr(entry.snr)?)
        );
    }
    print_bars(info.rssi)?;
    print_bars(18)
}

/// The first bytes of a good payload alone: refused by number and place.
fn print_refusal(payload: &[u8]) {
    for length in [20, 30] {
        if let Err(refusal) = SignalState::read(VERSION_2_00, &payload[..length]) {
            println!("host: its first {length} bytes: {refusal}");
        }
    }
}

fn indicate_signal(line: &mut Line) -> Play<()> {
    let payload = write_signal()?;
    let header = MessageHeader {
        message_type: INDICATE_STATUS,
        service: BASIC_CONNECT,
        cid: SIGNAL_STATE,
        ..MessageHeader::default()
    };
    let got = carry(header, &payload, "host", &mut line.host_assembly)?;
    let shown = got.header.kind()?;
    assert_eq!(shown, Some(Kind::SignalState));
    println!("host: it shows {}", kind_name(shown));
    print_signal(&got.information)?;
    print_refusal(&got.information);
    Ok(())
}
