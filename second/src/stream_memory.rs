//! A stream in memory that a caller lends, beside that of its assembly: its bytes, and its rules. A number
//! that no calls leave there is 10 at its place; what stands past the bytes held is not looked at.

use crate::assembly_memory;
use crate::bytes::{put, put_word, word};
use crate::door::Received;
use crate::memory::{judge_size, left, ASSEMBLY_SIZE};
use crate::message::{MAX_TRANSFER, MESSAGE_LENGTH};
use crate::refusal::{require, Refusal, OUTPUT_TOO_SMALL};
use crate::stream::{next, Assembly, Fed, Front, Next, Stream, HEAD, ROOM};

/// How many bytes a stream takes.
pub const STREAM_SIZE: usize = PIECE + MAX_TRANSFER;

const HELD: usize = 0;
const ENDED: usize = 4;
const PIECE: usize = 8;
/// The most bytes of a piece that is unfinished.
const MOST_HELD: usize = MAX_TRANSFER - 1;

/// Empties the stream and its assembly. A refusal leaves both as they were.
pub fn reset(stream: &mut [u8], assembly: &mut [u8]) -> Result<(), Refusal> {
    judge_size(stream, STREAM_SIZE)?;
    judge_size(assembly, ASSEMBLY_SIZE)?;
    put(stream, 0, &[0; STREAM_SIZE]);
    assembly_memory::empty(assembly);
    Ok(())
}

/// Takes bytes of a chunk up to the first answer. The output is judged first, then the sizes, then the
/// stream's memory; the assembly's is judged by the door, once a piece needs it.
pub fn feed(stream: &mut [u8], assembly: &mut [u8], chunk: &[u8], out: &mut [u8]) -> Fed {
    match judge(stream, assembly, out) {
        Err(refusal) => Fed::refused(refusal),
        Ok(mut front) => {
            let buffer = stream.get_mut(PIECE..STREAM_SIZE).unwrap_or_default();
            let fed = front.feed(buffer, assembly, chunk, out);
            put_word(stream, HELD, front.held as u32);
            put_word(stream, ENDED, front.ended.into());
            fed
        }
    }
}

fn judge(stream: &[u8], assembly: &[u8], out: &[u8]) -> Result<Front, Refusal> {
    require(out.len() >= ROOM, OUTPUT_TOO_SMALL, ROOM)?;
    judge_size(stream, STREAM_SIZE)?;
    judge_size(assembly, ASSEMBLY_SIZE)?;
    read(stream)
}

/// What the stream's memory says of it.
fn read(memory: &[u8]) -> Result<Front, Refusal> {
    let (held, ended) = (word(memory, HELD) as usize, word(memory, ENDED));
    left(held <= MOST_HELD, HELD)?;
    left(ended <= 1, ENDED)?;
    left(ended == 0 || held == 0, ENDED)?;
    let bytes = memory.get(PIECE..PIECE + held).unwrap_or_default();
    left(held < HEAD || next(bytes, &[]) == Next::Short, PIECE + MESSAGE_LENGTH)?;
    Ok(Front { held, ended: ended == 1 })
}

/// The bytes of a stream; its assembly's are beside them.
pub fn bytes(stream: &Stream) -> [u8; STREAM_SIZE] {
    let mut memory = [0; STREAM_SIZE];
    put_word(&mut memory, HELD, stream.held() as u32);
    put_word(&mut memory, ENDED, stream.has_ended().into());
    put(&mut memory, PIECE, stream.bytes());
    memory
}

/// An assembly in lent memory.
impl Assembly for [u8] {
    fn receive(&mut self, piece: &[u8], out: &mut [u8]) -> Result<Received, Refusal> {
        assembly_memory::receive(self, piece, out)
    }

    fn empty(&mut self) {
        assembly_memory::empty(self);
    }
}

#[cfg(test)]
mod tests {
    use super::*;
    use crate::message::{CLOSE, COMMAND, OPEN};
    use crate::stream::LENGTH_FAULT;

    const CLOSED: [u8; 12] = [CLOSE as u8, 0, 0, 0, 12, 0, 0, 0, 7, 0, 0, 0];

    /// A first fragment of two that carries this much of 40 bytes.
    fn fragment(carried: u32) -> Vec<u8> {
        let mut piece = vec![5; 48 + carried as usize];
        let length = piece.len() as u32;
        for (place, number) in [COMMAND, length, 7, 2, 0, 1, 1, 1, 1, 11, 0, 40].iter().enumerate()
        {
            put_word(&mut piece, 4 * place, *number);
        }
        piece
    }

    /// Both memories with a pending message and the first bytes of a piece held, each one byte longer.
    fn holding(held: &[u8]) -> [Vec<u8>; 2] {
        let mut memories = [vec![0; STREAM_SIZE + 1], vec![0; ASSEMBLY_SIZE + 1]];
        let [stream, assembly] = &mut memories;
        for chunk in [&fragment(8)[..], held] {
            assert_eq!(feed(stream, assembly, chunk, &mut [0; ROOM]).taken, chunk.len());
        }
        memories
    }

    fn refused(number: u32, place: usize) -> Fed {
        Fed::refused(Refusal::new(number, place))
    }

    fn is_zero(bytes: &[u8]) -> bool {
        bytes.iter().all(|byte| *byte == 0)
    }

    #[test]
    fn chunks_come_to_the_same_in_lent_memory() {
        let bytes_fed = [&CLOSED[..], &fragment(8), &fragment(40), &CLOSED, &[9; 8], &CLOSED];
        for size in [1, 7, 8, 9, 30, 300] {
            let mut stream = Stream::new();
            let mut memories = [vec![0; STREAM_SIZE], vec![0; ASSEMBLY_SIZE]];
            for mut chunk in bytes_fed.concat().chunks(size) {
                loop {
                    let (mut one, mut other) = ([0xEE; ROOM], [0xEE; ROOM]);
                    let [lent, assembly] = &mut memories;
                    let fed = feed(lent, assembly, chunk, &mut one);
                    assert_eq!(fed, stream.feed(chunk, &mut other));
                    assert_eq!((lent[..] == bytes(&stream), one), (true, other));
                    assert_eq!(assembly[..], assembly_memory::bytes(&stream.assembler));
                    chunk = &chunk[fed.taken..];
                    if chunk.is_empty() || fed.ended {
                        break;
                    }
                }
            }
            assert!(stream.has_ended());
        }
    }

    #[test]
    fn the_output_comes_first_and_then_the_sizes() {
        let before = holding(&CLOSED[..9]);
        let rooms = [(4095, 0, 0, 4096), (4096, 4103, 0, 4104), (4096, 4104, 4143, 4144)];
        for (room, stream_size, assembly_size, needed) in rooms {
            let [mut stream, mut assembly] = before.clone();
            stream[0] = 0xFF;
            stream[3] = 0xFF;
            let faulty = stream.clone();
            let (lent, lent_assembly) =
                (&mut stream[..stream_size], &mut assembly[..assembly_size]);
            let fed = feed(lent, lent_assembly, &CLOSED[9..], &mut vec![0; room]);
            assert_eq!(fed, refused(11, needed));
            if room == ROOM {
                assert_eq!(reset(lent, lent_assembly), Err(Refusal::new(11, needed)));
            }
            assert_eq!([stream, assembly], [faulty, before[1].clone()]);
        }
    }

    /// Number held, ended, type and length field, and the place that is wrong.
    const FAULTS: [([u32; 4], usize); 16] = [
        ([4096, 0, COMMAND, 4096], 0),
        ([u32::MAX, 2, COMMAND, 4096], 0),
        ([0, 2, 0, 0], 4),
        ([9, u32::MAX, COMMAND, 9], 4),
        ([1, 1, 0, 0], 4),
        ([9, 1, COMMAND, 9], 4),
        ([8, 0, COMMAND, 19], 12),
        ([8, 0, COMMAND, 4097], 12),
        ([20, 0, COMMAND, 20], 12),
        ([4095, 0, COMMAND, 4095], 12),
        ([8, 0, 9, 19], 12),
        ([20, 0, 9, 20], 12),
        ([8, 0, OPEN, 20], 12),
        ([16, 0, OPEN, 16], 12),
        ([8, 0, CLOSE, 16], 12),
        ([12, 0, CLOSE, 12], 12),
    ];

    #[test]
    fn each_number_that_no_calls_left_is_10_at_its_place() {
        for (numbers, place) in FAULTS {
            let mut memories = holding(&[]);
            memories[0][..16].copy_from_slice(&numbers.map(u32::to_le_bytes).concat());
            let before = memories.clone();
            let [stream, assembly] = &mut memories;
            for chunk in [&CLOSED[..], &[]] {
                let fed = feed(stream, assembly, chunk, &mut [0; ROOM]);
                assert_eq!(fed, refused(10, place), "{numbers:?}");
            }
            assert_eq!(memories, before);
        }
    }

    #[test]
    fn what_calls_left_is_taken() {
        for numbers in [
            [4095, 0, COMMAND, 4096],
            [19, 0, 9, 20],
            [8, 0, CLOSE, 12],
            [15, 0, OPEN, 16],
            [7, 0, OPEN, 99],
        ] {
            let mut stream = vec![0xEE; STREAM_SIZE];
            stream[..16].copy_from_slice(&numbers.map(u32::to_le_bytes).concat());
            let before = stream.clone();
            let fed = feed(&mut stream, &mut [0; ASSEMBLY_SIZE], &[], &mut [0; ROOM]);
            assert_eq!(fed, Fed { answer: Ok(None), taken: 0, ended: false });
            assert_eq!(stream, before);
        }
    }

    /// Memory with so many bytes of CLOSE held and other bytes past them.
    fn with_strays(held: usize) -> Vec<u8> {
        let mut stream = vec![0xEE; STREAM_SIZE];
        stream[..8].copy_from_slice(&[held as u32, 0].map(u32::to_le_bytes).concat());
        stream[8..8 + held].copy_from_slice(&CLOSED[..held]);
        stream
    }

    #[test]
    fn bytes_past_those_held_stay_but_where_a_piece_stood() {
        for held in 0..12 {
            let (mut stream, mut assembly) = (with_strays(held), [0; ASSEMBLY_SIZE]);
            feed(&mut stream, &mut assembly, &CLOSED[held..11], &mut [0; ROOM]);
            assert_eq!(stream, with_strays(11));
            let mut stream = with_strays(held);
            let fed = feed(&mut stream, &mut assembly, &CLOSED[held..], &mut [0; ROOM]);
            assert_eq!(fed.taken, 12 - held);
            let zeros = if held == 0 { 0 } else { 12 };
            assert!(is_zero(&stream[..8 + zeros]));
            assert_eq!(stream[8 + zeros..], with_strays(0)[8 + zeros..]);
        }
    }

    #[test]
    fn an_ending_fault_leaves_zeros_where_bytes_were_held() {
        for held in 0..8 {
            let (mut stream, mut assembly) = (with_strays(held), [0xEE; ASSEMBLY_SIZE + 1]);
            let rest = &[CLOSE as u8, 0, 0, 0, 12, 0, 0, 1, 0][held..];
            let fed = feed(&mut stream, &mut assembly, rest, &mut [0; ROOM]);
            assert_eq!(fed, Fed { answer: Err(LENGTH_FAULT), taken: 8 - held, ended: true });
            assert_eq!(stream[..8], [0, 0, 0, 0, 1, 0, 0, 0]);
            assert!(is_zero(&stream[8..8 + held]));
            assert_eq!(stream[8 + held..], with_strays(0)[8 + held..]);
            assert_eq!(assembly, [0xEE; ASSEMBLY_SIZE + 1]);
        }
    }

    #[test]
    fn an_ending_fragment_empties_any_assembly() {
        let (mut stream, mut assembly) = ([0; STREAM_SIZE], [0xEE; ASSEMBLY_SIZE + 1]);
        let fed = feed(&mut stream, &mut assembly, &[0; 9], &mut [0; ROOM]);
        assert_eq!(fed, Fed { answer: Err(LENGTH_FAULT), taken: 8, ended: true });
        assert!(is_zero(&assembly[..ASSEMBLY_SIZE]));
        assert_eq!(assembly[ASSEMBLY_SIZE], 0xEE);
    }

    #[test]
    fn a_fault_of_the_assembly_takes_the_piece() {
        let [mut stream, mut assembly] = holding(&fragment(0)[..30]);
        assembly[36] = 9;
        let mut with_close = [stream.clone(), assembly.clone()];
        let rest = &fragment(0)[30..];
        let fed = feed(&mut stream, &mut assembly, rest, &mut [0; ROOM]);
        let answer = Err(Refusal::new(10, 36));
        assert_eq!(fed, Fed { answer, taken: rest.len(), ended: false });
        assert!(is_zero(&stream) && is_zero(&assembly));
        let [stream, assembly] = &mut with_close;
        put(stream, 0, &with_strays(9));
        let before = assembly.clone();
        assert!(feed(stream, assembly, &CLOSED[9..], &mut [0; ROOM]).answer.is_ok());
        assert_eq!(*assembly, before);
    }

    #[test]
    fn a_reset_empties_both_and_nothing_past_them() {
        let mut memories = [vec![0xEE; STREAM_SIZE + 1], vec![0xEE; ASSEMBLY_SIZE + 1]];
        let [stream, assembly] = &mut memories;
        assert_eq!(reset(stream, assembly), Ok(()));
        for memory in memories {
            assert!(is_zero(&memory[..memory.len() - 1]) && memory.ends_with(&[0xEE]));
        }
    }
}
