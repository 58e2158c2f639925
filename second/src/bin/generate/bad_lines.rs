//! Lines that have not the form of a trace's line, or only just have it.

use crate::random::Random;
use crate::traces::line;
use second::trace::Sender;

/// Bytes that may stand wrongly anywhere: those of a good line, their neighbours, and others.
const BYTES: &[u8] = b"\0\t\n\r /09:@AFGHDIU`afghd\x7f\x80\xb5\xff-+.x";

/// A CLOSE, of which each part has a digit that may be damaged.
const CLOSE: &[u8] = b"4294967295\tD\t020000000C000000aB3f0000\n";

/// Every fault of a line at every place of it, and the limits.
pub fn each() -> Vec<Vec<u8>> {
    let mut lines: Vec<Vec<u8>> = Vec::new();
    for good in [CLOSE, b"7\tH\t\n"] {
        for place in 0..good.len() {
            let (before, after) = good.split_at(place);
            for byte in BYTES {
                lines.push([before, &[*byte], &after[1..]].concat());
            }
            for byte in *b"0\tH\r \0" {
                lines.push([before, &[byte], after].concat());
            }
            lines.push([before, &after[1..]].concat());
            lines.push([before, b"\n"].concat());
        }
    }
    lines.extend(counters());
    lines.extend(lengths());
    lines.into_iter().map(ended).collect()
}

/// The line with a line feed behind it, if it has lost its own.
fn ended(mut line: Vec<u8>) -> Vec<u8> {
    if !line.ends_with(b"\n") {
        line.push(b'\n');
    }
    line
}

fn counters() -> impl Iterator<Item = Vec<u8>> {
    let counters = [
        "",
        "0",
        "00",
        "000000000",
        "0000000000",
        "00000000000",
        "0000000001",
        "00000000001",
        "4294967294",
        "4294967295",
        "4294967296",
        "4294967299",
        "4294967300",
        "4294968000",
        "4300000000",
        "5000000000",
        "9999999999",
        "10000000000",
        "42949672950",
        "04294967295",
        "99999999999999999999999999",
        "+1",
        "-1",
        " 1",
        "1 ",
        "0x1",
        "1,0",
    ];
    let ends = ["\tH\t\n", "\tD\t00\n", "\n", "\tX\n"];
    let all = counters.into_iter().flat_map(move |counter| ends.map(|end| [counter, end].concat()));
    all.map(String::into_bytes)
}

/// Pieces at and around their limit, and lines far over it.
fn lengths() -> impl Iterator<Item = Vec<u8>> {
    let lengths = [1, 2, 3, 24, 25, 511, 512, 513, 514, 515, 1024, 16_384, 100_001];
    let counters = ["1", "0000000002"];
    let long = "0C".repeat(60_000);
    let lines = counters.into_iter().flat_map(move |counter| {
        lengths.map(|length| format!("{counter}\tH\t{}\n", &long[..length]))
    });
    let words = ["H", "D", "HH", "h", "H\tH", "H D", "", "host"];
    let senders = words.into_iter().map(|word| format!("8\t{word}\t00\n"));
    let odd = ["1".repeat(70_000), "\r".to_string(), "\t\t\t".to_string(), " ".repeat(600)];
    lines.chain(senders).chain(odd).map(String::into_bytes)
}

/// A line with some fault, or two lines of which one has it.
pub fn any(random: &mut Random, counter: u32) -> Vec<u8> {
    let length = random.pick(&[0, 1, 12, 16, 20, 48, 64, 255, 256]);
    let piece = random.bytes(length);
    let mut line = line(counter, random.pick(&[Sender::Host, Sender::Device]), &piece);
    let place = random.below(line.len());
    match random.below(10) {
        0 => line[place] = random.pick(BYTES),
        1 => line.insert(place, random.pick(BYTES)),
        2 => drop(line.remove(place)),
        3 => {
            line.truncate(place);
            line.push(b'\n');
        }
        4 => line.insert(line.len() - 1, b'\r'),
        5 => line[place] ^= 1 << random.below(8),
        6 => {
            let at = line.len() - 1;
            line.splice(at..at, vec![b'0'; 514 - 2 * length.min(256) + random.below(5)]);
        }
        7 => {
            let next = line.clone();
            line.splice(place.., next);
        }
        8 => line = b"\n".to_vec(),
        _ => {
            let count = random.below(60);
            line = random.bytes(count);
            line.push(b'\n');
        }
    }
    ended(line)
}
