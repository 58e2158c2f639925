//! The fourth table: a stream of messages, fed in chunks of three sizes, beside its pieces handed to the
//! assembler one by one. Then single calls on a stream, which are counted and not timed.

use crate::inputs::{self, TRANSFERS};
use crate::measure::{keep, ways, Mode, Row};
use culvertroost::c;
use std::hint::black_box;

/// Messages of a stream, each with so many bytes of information. They move the bounds of the pieces
/// against those of the chunks.
const MESSAGES: usize = 4;
const INFORMATION: usize = 4000;
const CHUNK: usize = 64;

pub const HEAD: &str =
    "a message                  bytes  received     whole  ratio    by 64s  ratio  by bytes  ratio";

/// An empty stream with its assembly and its output.
struct Line {
    stream: [u8; c::STREAM_SIZE],
    assembly: [u8; c::ASSEMBLY_SIZE],
    out: [u8; 4096],
}

impl Line {
    fn new() -> Line {
        Line { stream: [0; c::STREAM_SIZE], assembly: [0; c::ASSEMBLY_SIZE], out: [0; 4096] }
    }

    fn feed(&mut self, chunk: &[u8]) -> c::StreamAnswer {
        c::stream_feed(&mut self.stream, &mut self.assembly, black_box(chunk), &mut self.out)
    }

    /// Feeds a chunk, call after call; gives how many messages became complete.
    fn feed_all(&mut self, mut chunk: &[u8]) -> usize {
        let mut complete = 0;
        while !chunk.is_empty() {
            let answer = self.feed(chunk);
            assert!(answer.taken > 0 && answer.piece.refusal.number == 0);
            complete += usize::from(answer.piece.received == 3);
            chunk = &chunk[answer.taken as usize..];
        }
        complete
    }

    fn feed_in_chunks(&mut self, bytes: &[u8], size: usize) {
        let complete: usize = bytes.chunks(size).map(|chunk| self.feed_all(chunk)).sum();
        assert_eq!(complete, MESSAGES);
    }

    fn receive(&mut self, pieces: &[Vec<u8>]) {
        for piece in pieces {
            keep(c::receive(&mut self.assembly, black_box(piece), &mut self.out));
        }
    }
}

fn table(mode: Mode) {
    for size in TRANSFERS {
        let message = inputs::cut(size, &[5; INFORMATION]);
        let name = format!("stream at {size}, {} pieces", message.len());
        let pieces = vec![message; MESSAGES].concat();
        let bytes = &pieces.concat()[..];
        let in_chunks = |size: usize| -> Box<dyn FnMut() + '_> {
            let mut line = Line::new();
            Box::new(move || line.feed_in_chunks(bytes, size))
        };
        let mut line = Line::new();
        let calls: Vec<(&str, Box<dyn FnMut() + '_>)> = vec![
            ("received", Box::new(|| line.receive(&pieces))),
            ("in one chunk", in_chunks(bytes.len())),
            ("in chunks of 64", in_chunks(CHUNK)),
            ("byte by byte", in_chunks(1)),
        ];
        ways(mode, &Row { name: &name, units: MESSAGES, bytes: bytes.len() / MESSAGES }, calls);
    }
}

/// A call on a stream that has taken these bytes before, each time anew.
fn single(mode: Mode, name: &str, before: &[u8], chunk: &[u8]) {
    let mut line = Line::new();
    line.feed(before);
    let held = line.stream;
    mode.calls(name, 1, &mut || {
        line.stream = held;
        keep(line.feed(chunk));
    });
}

fn singles(mode: Mode) {
    let close = [2, 0, 0, 0, 12, 0, 0, 0, 1, 0, 0, 0];
    let piece = &inputs::cut(4096, &[5; 4048])[0][..];
    single(mode, "feed a CLOSE", &[], &close);
    single(mode, "feed the last byte of a CLOSE", &close[..11], &close[11..]);
    single(mode, "feed a fragment of 4096", &[], piece);
    single(mode, "feed the last byte of a fragment", &piece[..4095], &piece[4095..]);
    single(mode, "feed a byte, nothing is held", &[], &piece[..1]);
    single(mode, "feed a byte, 4000 are held", &piece[..4000], &piece[4000..4001]);
    single(mode, "feed 64 bytes, 4000 are held", &piece[..4000], &piece[4000..4064]);
    single(mode, "feed nothing", &[], &[]);
    single(mode, "feed a length that ends the stream", &[], &[1; 64]);
    single(mode, "feed an ended stream", &[1; 8], piece);
    let mut line = Line::new();
    mode.calls("reset a stream", 1, &mut || {
        keep(c::stream_reset(&mut line.stream, &mut line.assembly))
    });
}

pub fn run(mode: Mode) {
    table(mode);
    singles(mode);
}
