//! The questions of the stream.

use super::{judge_memory, lend, plain, question, received_numbers, with_output, written_by};
use super::{Answer, Asked, Flat, ASSEMBLY_SIZE, STREAM_SIZE};
use crate::refusal::{require, Refusal, OUTPUT_TOO_SMALL};
use crate::stream::{Fed, Stream, ROOM};
use crate::stream_memory;

pub(super) fn ask(stream: &mut Stream, question: u32, asked: &Asked) -> Flat {
    match question {
        question::STREAM_FEED => feed(stream, asked),
        question::STREAM_RESET => {
            judge_sizes(asked, 0)?;
            stream.reset();
            plain(&[])
        }
        _ => with_output(&[], stream_memory::bytes(stream).to_vec()),
    }
}

fn feed(stream: &mut Stream, asked: &Asked) -> Flat {
    let judged = judge_room(asked).and_then(|()| judge_sizes(asked, 1));
    let call = |out: &mut [u8]| {
        let fed = match judged {
            Err(refusal) => Fed::refused(refusal),
            Ok(()) => stream.feed(asked.input, out),
        };
        let written = fed.answer.ok().flatten().map_or(0, written_by);
        Ok((fed, written))
    };
    let (fed, information) = lend(asked.number(0), call)?;
    Ok(shown(fed, information))
}

fn judge_room(asked: &Asked) -> Result<(), Refusal> {
    require(asked.number(0) >= ROOM as u64, OUTPUT_TOO_SMALL, ROOM)
}

/// The memory of the stream, then that of its assembly; their sizes stand from a place on.
fn judge_sizes(asked: &Asked, place: usize) -> Result<(), Refusal> {
    judge_memory(asked.number(place), STREAM_SIZE)?;
    judge_memory(asked.number(place + 1), ASSEMBLY_SIZE)
}

/// What the piece came to, and beside that, refused or not, what was taken and whether the stream has ended.
fn shown(fed: Fed, information: Vec<u8>) -> Answer {
    let refusal = match fed.answer {
        Err(refusal) => vec![refusal.number.into(), refusal.place as u64],
        Ok(_) => vec![0],
    };
    let received = match fed.answer {
        Ok(Some(received)) => received_numbers(received),
        _ => [0; 11],
    };
    let numbers = [&refusal[..], &received, &[fed.taken as u64, fed.ended.into()]].concat();
    Answer { numbers, output: information }
}

#[cfg(test)]
mod tests {
    use super::*;
    use crate::flat::Second;

    const CLOSED: [u8; 12] = [2, 0, 0, 0, 12, 0, 0, 0, 7, 0, 0, 0];
    const ALL: [u64; 3] = [4096, STREAM_SIZE, ASSEMBLY_SIZE];

    fn feed(second: &mut Second, arguments: [u64; 3], chunk: &[u8]) -> Vec<u64> {
        second.ask(question::STREAM_FEED, &arguments, chunk).numbers
    }

    /// These numbers with those of no received piece between them.
    fn unreceived(refusal: &[u64], taken: u64, ended: u64) -> Vec<u64> {
        [refusal, &[0; 11], &[taken, ended]].concat()
    }

    #[test]
    fn taken_and_ended_stand_beside_a_refusal() {
        let mut second = Second::new();
        assert_eq!(feed(&mut second, ALL, &CLOSED[..5]), unreceived(&[0], 5, 0));
        let whole = feed(&mut second, ALL, &CLOSED[5..]);
        assert_eq!(whole, [0, 1, 0, 2, 7, 0, 0, 0, 0, 0, 0, 0, 7, 0]);
        let unknown = [&[9, 0, 0, 0, 20][..], &[0; 20]].concat();
        assert_eq!(feed(&mut second, ALL, &unknown), unreceived(&[3, 0], 20, 0));
        assert_eq!(feed(&mut second, ALL, &[9; 9]), unreceived(&[2, 4], 8, 1));
        assert_eq!(feed(&mut second, ALL, &CLOSED), unreceived(&[2, 4], 0, 1));
        let small = unreceived(&[11, 4096], 0, 0);
        assert_eq!(feed(&mut second, [4095, 0, 0], &CLOSED), small);
    }

    #[test]
    fn sizes_are_judged_before_the_chunk() {
        let mut second = Second::new();
        for (size, assembly_size, needed) in [(4103, 0, 4104), (4104, 4143, 4144)] {
            let fed = feed(&mut second, [4096, size, assembly_size], &CLOSED);
            assert_eq!(fed, unreceived(&[11, needed], 0, 0));
            let reset = second.ask(question::STREAM_RESET, &[size, assembly_size], &[]);
            assert_eq!(reset.numbers, [11, needed]);
        }
    }

    #[test]
    fn its_assembly_is_the_one_that_is_shown() {
        let mut second = Second::new();
        let empty = second.ask(question::SHOW_STREAM, &[], &[]).output;
        assert_eq!(empty, [0; 4104]);
        let pieces = second.ask(question::CUT, &[200, 64, 3, 7, 11, 1], &[1; 56]).output;
        second.ask(question::RECEIVE, &[0, ASSEMBLY_SIZE], &pieces[..64]);
        feed(&mut second, ALL, &pieces[64..74]);
        let shown = second.ask(question::SHOW_STREAM, &[], &[]).output;
        assert_eq!(shown[..8], [10, 0, 0, 0, 0, 0, 0, 0]);
        assert_eq!((&shown[8..18], &shown[18..]), (&pieces[64..74], &[0; 4086][..]));
        assert_eq!(feed(&mut second, ALL, &pieces[74..])[..2], [0, 3]);
        feed(&mut second, ALL, &CLOSED[..1]);
        second.ask(question::STREAM_RESET, &ALL[1..], &[]);
        assert_eq!(second.ask(question::SHOW_STREAM, &[], &[]).output, empty);
    }
}
