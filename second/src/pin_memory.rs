//! A table of PINs in memory that a caller lends: its bytes, and its rules. Too little is 11 at
//! the bytes needed; then, row by row, a number that no table has is 10 at its place.

use crate::bytes::{put, put_word, word};
use crate::memory::{judge_size, left};
use crate::pin_entry::{Given, Pins, Reply, Row, Secret, MOST_SECRET, ROWS};
use crate::refusal::Refusal;

/// How many bytes a table takes.
pub const PINS_SIZE: usize = ROW * ROWS;
/// How many a row takes; that of type k stands at 44 × (k − 1).
const ROW: usize = 44;

const PRESENT: usize = 0;
const ENABLED: usize = 1;
const ENTERED: usize = 2;
const SECRET_LENGTH: usize = 3;
const TRIES: usize = 4;
const STARTING_TRIES: usize = 8;
const SECRET: usize = 12;

/// Makes a table in lent memory: what it is made of is judged first.
pub fn make(memory: &mut [u8], given: &[Given; ROWS]) -> Result<(), Refusal> {
    let pins = Pins::make(given)?;
    judge_size(memory, PINS_SIZE)?;
    put(memory, 0, &bytes(&pins));
    Ok(())
}

/// One entry at a table in lent memory, which is judged first. A refusal leaves it as it was, and so does
/// status 9.
pub fn enter(memory: &mut [u8], payload: &[u8]) -> Result<Reply, Refusal> {
    let mut pins = read(memory)?;
    let reply = pins.enter(payload)?;
    if reply.info.is_some() {
        put(memory, 0, &bytes(&pins));
    }
    Ok(reply)
}

/// The table that stands in lent memory. Bytes past a secret's length don't count.
pub fn read(memory: &[u8]) -> Result<Pins, Refusal> {
    judge_size(memory, PINS_SIZE)?;
    let mut pins = Pins { rows: [Row::default(); ROWS] };
    for (number, row) in pins.rows.iter_mut().enumerate() {
        *row = read_row(memory, ROW * number)?;
    }
    Ok(pins)
}

/// The bytes of a table.
pub fn bytes(pins: &Pins) -> [u8; PINS_SIZE] {
    let mut memory = [0; PINS_SIZE];
    for (row, out) in pins.rows.iter().zip(memory.chunks_exact_mut(ROW)) {
        let flags = [row.present, row.enabled, row.entered].map(u8::from);
        put(out, PRESENT, &flags);
        put(out, SECRET_LENGTH, &[row.secret.length()]);
        put_word(out, TRIES, row.tries);
        put_word(out, STARTING_TRIES, row.starting_tries);
        put(out, SECRET, row.secret.bytes());
    }
    memory
}

/// The row at this place, judged in the order of its bytes.
fn read_row(memory: &[u8], place: usize) -> Result<Row, Refusal> {
    let row = memory.get(place..place + ROW).unwrap_or(&[0; ROW]);
    for flag in [PRESENT, ENABLED, ENTERED] {
        left(row[flag] <= 1, place + flag)?;
    }
    let length = usize::from(row[SECRET_LENGTH]);
    left(length <= MOST_SECRET && length.is_multiple_of(2), place + SECRET_LENGTH)?;
    let [tries, starting_tries] = [TRIES, STARTING_TRIES].map(|field| word(row, field));
    left(tries <= starting_tries, place + TRIES)?;
    Ok(Row {
        present: row[PRESENT] == 1,
        enabled: row[ENABLED] == 1,
        entered: row[ENTERED] == 1,
        tries,
        starting_tries,
        secret: Secret::of(&row[SECRET..SECRET + length]),
    })
}

#[cfg(test)]
mod tests {
    use super::*;

    const FAULTS: [(usize, u8); 7] = [(0, 2), (1, 2), (2, 255), (3, 33), (3, 34), (3, 1), (4, 4)];

    fn given(present: u32) -> Given {
        Given { present, enabled: 1, starting_tries: 3, secret_length: 4, secret: [7; 32] }
    }

    /// A table with every row, in memory one byte longer.
    fn table() -> Vec<u8> {
        let mut memory = vec![0xEE; PINS_SIZE + 1];
        assert_eq!(make(&mut memory, &[given(1); ROWS]), Ok(()));
        memory
    }

    /// SET_PIN with no texts.
    fn payload(pin_type: u8) -> [u8; 24] {
        let mut payload = [0; 24];
        payload[0] = pin_type;
        payload
    }

    #[test]
    fn a_table_made_has_its_bytes() {
        let mut row = vec![1, 1, 0, 4, 3, 0, 0, 0, 3, 0, 0, 0, 7, 7, 7, 7];
        row.resize(44, 0);
        let memory = table();
        assert_eq!(memory.len(), 749);
        for number in 0..17 {
            assert_eq!(memory[44 * number..][..44], row);
        }
        assert_eq!(memory[748], 0xEE);
        let mut absent = [0xEE; 748];
        assert_eq!(make(&mut absent, &[given(0); ROWS]), Ok(()));
        assert_eq!(absent, [0; 748]);
    }

    #[test]
    fn too_little_memory_comes_after_what_a_table_is_made_of_and_before_an_entry() {
        let mut small = [0xEE; 747];
        assert_eq!(make(&mut small, &[given(1); ROWS]), Err(Refusal::new(11, 748)));
        assert_eq!(make(&mut small, &[given(2); ROWS]), Err(Refusal::new(9, 0)));
        assert_eq!(enter(&mut small, &[]), Err(Refusal::new(11, 748)));
        assert_eq!(small, [0xEE; 747]);
    }

    #[test]
    fn each_byte_that_no_table_has_is_10_at_its_place() {
        for number in 0..ROWS {
            for (place, byte) in FAULTS {
                let mut memory = table();
                memory[44 * number + place] = byte;
                // A fault of a later row, and one of the payload, come after it.
                memory[747 - 43] |= u8::from(number < 16) * 2;
                let before = memory.clone();
                let refused = Err(Refusal::new(10, 44 * number + place));
                assert_eq!(enter(&mut memory, &[]), refused);
                assert_eq!(memory, before);
            }
        }
    }

    #[test]
    fn the_faults_of_a_row_are_judged_in_their_order() {
        for (number, (first, byte)) in FAULTS.into_iter().enumerate() {
            for (second, other) in &FAULTS[number + 1..] {
                let mut memory = table();
                memory[44 + second] = *other;
                memory[44 + first] = byte;
                assert_eq!(read(&memory), Err(Refusal::new(10, 44 + first)));
            }
        }
    }

    #[test]
    fn an_answer_with_pin_info_writes_the_whole_table() {
        let mut memory = table();
        memory[16..44].fill(9);
        memory[748 - 28..748].fill(9);
        let stray = memory.clone();
        assert_eq!(enter(&mut memory, &[]), Err(Refusal::new(1, 0)));
        assert_eq!(memory, stray);
        assert_eq!(enter(&mut memory, &payload(0)).map(|reply| reply.status), Ok(9));
        assert_eq!(memory, stray);
        assert_eq!(enter(&mut memory, &payload(17)).map(|reply| reply.status), Ok(2));
        assert_eq!(memory, table());
    }

    #[test]
    fn entries_are_kept_from_call_to_call() {
        let mut memory = table();
        for tries in [2, 1, 0, 0] {
            assert_eq!(enter(&mut memory, &payload(2)).map(|reply| reply.status), Ok(2));
            assert_eq!(memory[44 + 4], tries);
        }
        let mut puk = [&payload(11)[..], &[7; 4], &[5; 2], &[0; 2]].concat();
        puk[8..24].copy_from_slice(&[24, 0, 0, 0, 4, 0, 0, 0, 28, 0, 0, 0, 2, 0, 0, 0]);
        assert_eq!(enter(&mut memory, &puk).map(|reply| reply.status), Ok(0));
        let mut expected = table();
        expected[44 + 2..44 + 4].copy_from_slice(&[1, 2]);
        expected[44 + 12..44 + 16].copy_from_slice(&[5, 5, 0, 0]);
        assert_eq!(memory, expected);
    }

    #[test]
    fn an_absent_row_keeps_what_stands_in_it() {
        let mut memory = table();
        memory[..44].fill(0);
        memory[..13].copy_from_slice(&[0, 1, 1, 2, 3, 0, 0, 0, 4, 0, 0, 0, 7]);
        let before = memory.clone();
        assert_eq!(enter(&mut memory, &payload(1)).map(|reply| reply.status), Ok(9));
        assert_eq!(memory, before);
        assert_eq!(enter(&mut memory, &payload(2)).map(|reply| reply.status), Ok(2));
        assert_eq!(memory[..44], before[..44]);
    }
}
