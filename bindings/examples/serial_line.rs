//! What comes from a serial line, as examples/serial_line.c shows it, with the same text: reads standard
//! input in chunks of the size given, until it ends. Exit status 1: a length field ended the stream.

use culvertroost::*;
use std::io::Read;
use std::process::exit;

const MOST_CHUNK: usize = 8192;

fn main() -> std::io::Result<()> {
    let size = std::env::args().nth(1).and_then(|word| word.parse().ok()).unwrap_or(0);
    if !(1..=MOST_CHUNK).contains(&size) {
        eprintln!("usage: serial_line SIZE, where SIZE is a number from 1 to {MOST_CHUNK}");
        exit(2);
    }
    let (mut stream, mut chunk) = (Stream::new(), vec![0; size]);
    let mut not_taken = None;
    loop {
        let length = std::io::stdin().read(&mut chunk)?;
        match &mut not_taken {
            _ if length == 0 => break,
            Some(bytes) => *bytes += length,
            None => not_taken = take(&mut stream, &chunk[..length]),
        }
    }
    if let Some(bytes) = not_taken {
        println!("not taken {bytes} bytes behind the end of the stream");
        exit(1);
    }
    println!("end of input, bytes held: {}", stream.held());
    Ok(())
}

/// Feeds a chunk, call after call; gives how many of its bytes are behind the end, where the stream ended.
fn take(stream: &mut Stream, mut chunk: &[u8]) -> Option<usize> {
    let mut information = [0; MOST_INFORMATION];
    while !chunk.is_empty() {
        let fed = stream.feed(chunk, &mut information);
        assert!(fed.taken > 0, "a stream that has not ended takes a byte");
        chunk = &chunk[fed.taken..];
        match fed.piece {
            Ok(Some(piece)) => println!("{}", shown(&piece)),
            Ok(None) => {}
            Err(refusal) => {
                println!("{:10}{}", if fed.ended { "ended" } else { "refused" }, named(refusal))
            }
        }
        if fed.ended {
            return Some(chunk.len());
        }
    }
    None
}

fn named(refusal: Refusal) -> String {
    format!("{} {} at {}", refusal.number, refusal.name(), refusal.place)
}

fn shown(piece: &Received) -> String {
    let head = |word, message_type, transaction| {
        format!("{word:10}{}, transaction {transaction}", type_name(message_type))
    };
    let loss = |dropped| if dropped { ", an unfinished message was dropped" } else { "" };
    match *piece {
        Received::Whole(Whole { message_type, transaction, word }) => {
            format!("{}, word {word}", head("whole", message_type, transaction))
        }
        Received::Pending { message_type, transaction, dropped } => {
            head("pending", message_type, transaction) + loss(dropped)
        }
        Received::Complete { message, length, dropped } => {
            let MessageHeader { message_type, transaction, cid, word, .. } = message;
            let (head, service) =
                (head("complete", message_type, transaction), service_name(&message));
            let (payload, loss) = (payload_name(&message), loss(dropped));
            format!("{head}, {service}, CID {cid}, word {word}, {length} bytes, {payload}{loss}")
        }
    }
}

fn type_name(message_type: u32) -> &'static str {
    match message_type {
        OPEN => "OPEN",
        CLOSE => "CLOSE",
        HOST_ERROR => "HOST_ERROR",
        OPEN_DONE => "OPEN_DONE",
        CLOSE_DONE => "CLOSE_DONE",
        FUNCTION_ERROR => "FUNCTION_ERROR",
        COMMAND => "COMMAND",
        COMMAND_DONE => "COMMAND_DONE",
        _ => "INDICATE_STATUS",
    }
}

fn service_name(message: &MessageHeader) -> &'static str {
    match message.service {
        BASIC_CONNECT => "Basic Connect",
        EXTENSIONS => "extensions",
        _ => "another service",
    }
}

fn payload_name(message: &MessageHeader) -> String {
    let name = match message.kind() {
        Err(refusal) => return named(refusal),
        Ok(None) => "no payload",
        Ok(Some(Kind::RegisterState)) => "REGISTER_STATE",
        Ok(Some(Kind::PacketService)) => "PACKET_SERVICE",
        Ok(Some(Kind::SignalState)) => "SIGNAL_STATE",
        Ok(Some(Kind::DeviceServices)) => "DEVICE_SERVICES",
        Ok(Some(Kind::Version)) => "VERSION",
        Ok(Some(Kind::SetPin)) => "SET_PIN",
        Ok(Some(Kind::PinInfo)) => "PIN_INFO",
    };
    name.to_string()
}
