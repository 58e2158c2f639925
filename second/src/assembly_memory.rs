//! An assembly in memory that a caller lends: its bytes, and the door before it. Its rules are those of
//! `memory`. What stands past the bytes gathered is never shown, and the door leaves zeros there.

use crate::assembler::{Assembler, Progress};
use crate::bytes::{put, put_word, service, word};
use crate::door::{self, Received};
use crate::memory::{judge_assembly, judge_size, ASSEMBLY_SIZE};
use crate::message::Header;
use crate::refusal::Refusal;
use crate::MAX_INFORMATION;

const MESSAGE_TYPE: usize = 0;
const TRANSACTION: usize = 4;
const SERVICE: usize = 8;
const CID: usize = 24;
const WORD: usize = 28;
const TOTAL: usize = 32;
const NEXT: usize = 36;
const DECLARED: usize = 40;
const GATHERED: usize = 44;
const BYTES: usize = 48;

/// Takes a piece. A whole message needs the memory's size and nothing else of it; memory that no calls can
/// have left is refused and emptied, as any refused fragment empties it.
pub fn receive(memory: &mut [u8], piece: &[u8], out: &mut [u8]) -> Result<Received, Refusal> {
    judge_size(memory, ASSEMBLY_SIZE)?;
    if door::is_whole(piece) {
        return door::receive(&mut Assembler::new(), piece, out);
    }
    let mut assembler = read(memory).inspect_err(|_| empty(memory))?;
    let answer = door::receive(&mut assembler, piece, out);
    put(memory, 0, &bytes(&assembler));
    answer
}

/// Empties the memory of an assembly.
pub(crate) fn empty(memory: &mut [u8]) {
    put(memory, 0, &[0; ASSEMBLY_SIZE]);
}

/// The assembly that stands in lent memory.
fn read(memory: &[u8]) -> Result<Assembler, Refusal> {
    judge_assembly(memory)?;
    let total = word(memory, TOTAL);
    if total == 0 {
        return Ok(Assembler::new());
    }
    let header = Header {
        message_type: word(memory, MESSAGE_TYPE),
        transaction: word(memory, TRANSACTION),
        service: service(memory, SERVICE),
        cid: word(memory, CID),
        word: word(memory, WORD),
    };
    let [declared, gathered] = [DECLARED, GATHERED].map(|place| word(memory, place) as usize);
    let next = word(memory, NEXT);
    let mut bytes = [0; MAX_INFORMATION];
    put(&mut bytes, 0, memory.get(BYTES..BYTES + gathered).unwrap_or_default());
    Ok(Assembler::of(Progress { header, total, next, declared, gathered }, bytes))
}

/// The bytes of an assembly: its numbers, all 0 where it is empty, and the bytes gathered.
pub fn bytes(assembler: &Assembler) -> [u8; ASSEMBLY_SIZE] {
    let mut memory = [0; ASSEMBLY_SIZE];
    if let Some(progress) = assembler.progress() {
        let header = progress.header;
        put(&mut memory, SERVICE, &header.service);
        for (place, number) in [
            (MESSAGE_TYPE, header.message_type),
            (TRANSACTION, header.transaction),
            (CID, header.cid),
            (WORD, header.word),
            (TOTAL, progress.total),
            (NEXT, progress.next),
            (DECLARED, progress.declared as u32),
            (GATHERED, progress.gathered as u32),
        ] {
            put_word(&mut memory, place, number);
        }
    }
    put(&mut memory, BYTES, assembler.bytes());
    memory
}

#[cfg(test)]
mod tests {
    use super::*;
    use crate::cutter::cut;
    use crate::message::{CLOSE, COMMAND_DONE};

    const CLOSED: [u8; 12] = [CLOSE as u8, 0, 0, 0, 12, 0, 0, 0, 7, 0, 0, 0];

    /// Two fragments, of 64 and of 44 bytes.
    fn fragments() -> [Vec<u8>; 2] {
        let message_type = COMMAND_DONE;
        let header = Header { message_type, transaction: 7, service: [3; 16], cid: 11, word: 9 };
        let mut out = [0; 108];
        assert_eq!(cut(&header, 64, &[5; 40], &mut out), Ok((2, 108)));
        [out[..64].to_vec(), out[64..].to_vec()]
    }

    /// A message that is pending, in memory one byte longer.
    fn pending() -> Vec<u8> {
        let mut memory = vec![0; ASSEMBLY_SIZE];
        memory.push(0xEE);
        let answer = receive(&mut memory, &fragments()[0], &mut []);
        assert!(matches!(answer, Ok(Received::Pending { .. })));
        memory
    }

    #[test]
    fn pieces_come_to_the_same_in_lent_memory() {
        let [first, last] = fragments();
        let orders: [&[&[u8]]; 4] = [
            &[&first, &CLOSED, &last],
            &[&first, &first, &last[..20], &last],
            &[&last, &first, &CLOSED[..11], &[], &last],
            &[&first, &last, &first],
        ];
        for order in orders {
            let mut assembler = Assembler::new();
            let mut memory = [0; ASSEMBLY_SIZE];
            for piece in order {
                let (mut one, mut other) = ([0xEE; 50], [0xEE; 50]);
                let expected = door::receive(&mut assembler, piece, &mut one);
                assert_eq!(receive(&mut memory, piece, &mut other), expected);
                assert_eq!((memory, other), (bytes(&assembler), one));
            }
        }
    }

    #[test]
    fn memory_that_no_calls_left_is_emptied_by_any_fragment() {
        for (place, byte) in [(0, 9), (32, 0), (32, 129), (36, 3), (41, 99), (44, 99)] {
            let mut memory = pending();
            memory[place] = byte;
            let before = memory.clone();
            assert!(receive(&mut memory, &CLOSED, &mut []).is_ok());
            assert_eq!(memory, before);
            for piece in [&fragments()[1][..], &[]] {
                let mut memory = before.clone();
                let refused = receive(&mut memory, piece, &mut [0; 40]);
                assert_eq!(refused, Err(Refusal::new(10, place / 4 * 4)));
                assert_eq!(memory[..ASSEMBLY_SIZE], [0; ASSEMBLY_SIZE]);
                assert_eq!(memory[ASSEMBLY_SIZE], 0xEE);
            }
        }
    }

    #[test]
    fn too_little_memory_comes_first() {
        let mut memory = pending();
        let before = memory.clone();
        for piece in [&CLOSED[..], &fragments()[1], &[]] {
            let refused = receive(&mut memory[..4143], piece, &mut []);
            assert_eq!(refused, Err(Refusal::new(11, 4144)));
            assert_eq!(memory, before);
        }
    }

    #[test]
    fn what_stands_past_the_gathered_bytes_is_not_shown() {
        let mut memory = pending();
        memory[BYTES + 16..ASSEMBLY_SIZE].fill(0xEE);
        let mut out = [0; 40];
        let answer = receive(&mut memory, &fragments()[1], &mut out);
        assert!(matches!(answer, Ok(Received::Complete { length: 40, .. })));
        assert_eq!(out, [5; 40]);
        assert_eq!(memory[..ASSEMBLY_SIZE], [0; ASSEMBLY_SIZE]);
    }
}
