//! A plain table of PINs, with a row for each of the types 1 to 17, and what an entry brings.

use crate::message::{STATUS_FAILURE, STATUS_NO_DEVICE_SUPPORT, STATUS_SUCCESS};
use crate::pair::ZeroSize;
use crate::pin::{self, PinInfo, ENTER, LOCKED, PIN_TYPE_MAX, PIN_TYPE_NONE, TEXT_LIMIT, UNLOCKED};
use crate::refusal::{require, Refusal, OUTSIDE_TABLE, SIZE_WRONG};

/// Rows of a table.
pub const ROWS: usize = PIN_TYPE_MAX as usize;
/// The most bytes of a secret.
pub const MOST_SECRET: usize = TEXT_LIMIT as usize;

/// Each PIN that has a PUK, and its PUK.
const PUKS: [(u32, u32); 7] = [(2, 11), (3, 12), (5, 13), (6, 14), (7, 15), (8, 16), (9, 17)];

/// Places in a row as it is given, and the bytes of one.
const PRESENT: usize = 0;
const ENABLED: usize = 4;
const SECRET_LENGTH: usize = 12;
const GIVEN: usize = 48;

/// What a row is made of.
#[derive(Clone, Copy, Debug, Default, PartialEq, Eq)]
pub struct Given {
    pub present: u32,
    pub enabled: u32,
    pub starting_tries: u32,
    pub secret_length: u32,
    pub secret: [u8; MOST_SECRET],
}

/// A secret; its bytes are 0 past its length.
#[derive(Clone, Copy, Debug, Default, PartialEq, Eq)]
pub struct Secret {
    length: u8,
    bytes: [u8; MOST_SECRET],
}

impl Secret {
    /// The secret that is this text. What is past its limit doesn't count.
    pub fn of(text: &[u8]) -> Secret {
        let length = text.len().min(MOST_SECRET);
        let mut bytes = [0; MOST_SECRET];
        bytes[..length].copy_from_slice(&text[..length]);
        Secret { length: length as u8, bytes }
    }

    pub fn length(&self) -> u8 {
        self.length
    }

    /// All 32 bytes.
    pub fn bytes(&self) -> &[u8; MOST_SECRET] {
        &self.bytes
    }
}

/// What the table knows of one type. A PUK is never entered, and nobody asks whether it is enabled.
#[derive(Clone, Copy, Debug, Default, PartialEq, Eq)]
pub struct Row {
    pub present: bool,
    pub enabled: bool,
    pub entered: bool,
    pub tries: u32,
    pub starting_tries: u32,
    pub secret: Secret,
}

/// The reply to an entry: its status, and its payload unless the status is 9.
#[derive(Clone, Copy, Debug, PartialEq, Eq)]
pub struct Reply {
    pub status: u32,
    pub info: Option<PinInfo>,
}

const UNSUPPORTED: Reply = Reply { status: STATUS_NO_DEVICE_SUPPORT, info: None };
/// Type None; members not named are 0.
const NONE: PinInfo =
    PinInfo { pin_type: PIN_TYPE_NONE, pin_state: UNLOCKED, remaining_attempts: 0 };

/// A table of PINs.
#[derive(Clone, Copy, Debug, PartialEq, Eq)]
pub struct Pins {
    pub rows: [Row; ROWS],
}

impl Pins {
    /// A table with all tries at their starting numbers and no PIN entered. Each row is judged,
    /// absent or not, and an absent one is kept as zeros.
    pub fn make(given: &[Given; ROWS]) -> Result<Pins, Refusal> {
        let mut rows = [Row::default(); ROWS];
        for (number, (row, given)) in rows.iter_mut().zip(given).enumerate() {
            judge(given, GIVEN * number)?;
            if given.present == 1 {
                *row = made(given);
            }
        }
        Ok(Pins { rows })
    }

    /// One entry: a SET_PIN payload, read strictly. A refused one leaves the table as it was.
    pub fn enter(&mut self, payload: &[u8]) -> Result<Reply, Refusal> {
        let asked = pin::read_set_with(ZeroSize::Strict, payload)?;
        let pin_type = asked.pin_type;
        let Some(row) = self.row(pin_type).filter(|_| asked.pin_operation == ENTER) else {
            return Ok(UNSUPPORTED);
        };
        if !self.is_expected(pin_type) {
            return Ok(failed(NONE));
        }
        if row.tries == 0 {
            return Ok(failed(self.blocked(pin_type)));
        }
        if row.secret == Secret::of(asked.pin.of(payload)) {
            self.take_right(pin_type, Secret::of(asked.new_pin.of(payload)));
            return Ok(Reply { status: STATUS_SUCCESS, info: Some(NONE) });
        }
        Ok(failed(self.take_wrong(pin_type)))
    }

    /// The row of a type that the table has.
    fn row(&self, pin_type: u32) -> Option<&Row> {
        let place = (pin_type as usize).checked_sub(1)?;
        self.rows.get(place).filter(|row| row.present)
    }

    fn row_mut(&mut self, pin_type: u32) -> Option<&mut Row> {
        let place = (pin_type as usize).checked_sub(1)?;
        self.rows.get_mut(place).filter(|row| row.present)
    }

    /// A PUK is expected exactly while its PIN has no tries, and any other PIN if it is enabled,
    /// until it is entered.
    fn is_expected(&self, pin_type: u32) -> bool {
        match pin_of(pin_type) {
            Some(pin) => self.row(pin).is_some_and(|row| row.tries == 0),
            None => self.row(pin_type).is_some_and(|row| row.enabled && !row.entered),
        }
    }

    /// What is said of a PIN without tries: its PUK, while that has some.
    fn blocked(&self, pin_type: u32) -> PinInfo {
        let Some(puk) = puk_of(pin_type) else {
            return NONE;
        };
        match self.row(puk).map_or(0, |row| row.tries) {
            0 => NONE,
            tries => locked(puk, tries),
        }
    }

    /// The tries go back to their starting number. A PUK does the same for its PIN, which gets
    /// the new text, and counts as the entry of it.
    fn take_right(&mut self, pin_type: u32, new_secret: Secret) {
        if let Some(row) = self.row_mut(pin_type) {
            row.tries = row.starting_tries;
        }
        let pin = pin_of(pin_type);
        if let Some(row) = self.row_mut(pin.unwrap_or(pin_type)) {
            row.tries = row.starting_tries;
            row.entered = true;
            if pin.is_some() {
                row.secret = new_secret;
            }
        }
    }

    /// One try less, and what is said of those that are left.
    fn take_wrong(&mut self, pin_type: u32) -> PinInfo {
        let Some(row) = self.row_mut(pin_type) else {
            return NONE;
        };
        row.tries = row.tries.saturating_sub(1);
        match row.tries {
            0 => self.blocked(pin_type),
            tries => locked(pin_type, tries),
        }
    }
}

/// A given row: 9 for its two yes or no, 8 for the secret's length.
fn judge(given: &Given, place: usize) -> Result<(), Refusal> {
    require(given.present <= 1, OUTSIDE_TABLE, place + PRESENT)?;
    require(given.enabled <= 1, OUTSIDE_TABLE, place + ENABLED)?;
    let is_text = given.secret_length <= TEXT_LIMIT && given.secret_length.is_multiple_of(2);
    require(is_text, SIZE_WRONG, place + SECRET_LENGTH)
}

/// The row that a given one, judged already, makes.
fn made(given: &Given) -> Row {
    let secret = given.secret.get(..given.secret_length as usize).unwrap_or_default();
    Row {
        present: true,
        enabled: given.enabled == 1,
        entered: false,
        tries: given.starting_tries,
        starting_tries: given.starting_tries,
        secret: Secret::of(secret),
    }
}

fn failed(info: PinInfo) -> Reply {
    Reply { status: STATUS_FAILURE, info: Some(info) }
}

fn locked(pin_type: u32, remaining_attempts: u32) -> PinInfo {
    PinInfo { pin_type, pin_state: LOCKED, remaining_attempts }
}

/// The PUK of a PIN, where it can have one.
fn puk_of(pin_type: u32) -> Option<u32> {
    PUKS.iter().find(|(pin, _)| *pin == pin_type).map(|(_, puk)| *puk)
}

/// The PIN of a PUK; what is no PUK has none.
fn pin_of(pin_type: u32) -> Option<u32> {
    PUKS.iter().find(|(_, puk)| *puk == pin_type).map(|(pin, _)| *pin)
}

#[cfg(test)]
mod tests {
    use super::*;
    use crate::pin::{write_set, SetPin};

    const RIGHT: &[u8] = b"1\x002\x003\x004\0";
    const WRONG: &[u8] = b"1\x002\x003\x005\0";
    const PUK: &[u8] = b"8\x007\x006\x005\x004\x003\x002\x001\0";
    const NEW: &[u8] = b"9\x009\0";

    fn given(starting_tries: u32, secret: &[u8]) -> Given {
        let mut given = Given { present: 1, enabled: 1, starting_tries, ..Given::default() };
        given.secret_length = secret.len() as u32;
        given.secret[..secret.len()].copy_from_slice(secret);
        given
    }

    /// A table with these rows only.
    fn table(rows: &[(u32, Given)]) -> Pins {
        let mut all = [Given::default(); ROWS];
        for (pin_type, given) in rows {
            all[*pin_type as usize - 1] = *given;
        }
        Pins::make(&all).unwrap()
    }

    /// PIN1 with three tries and PUK1 with two.
    fn pair() -> Pins {
        table(&[(2, given(3, RIGHT)), (11, given(2, PUK))])
    }

    fn payload(pin_type: u32, pin_operation: u32, pin: &[u8], new_pin: &[u8]) -> Vec<u8> {
        let mut out = [0; 88];
        let record = SetPin { pin_type, pin_operation, pin, new_pin };
        let length = write_set(&record, &mut out).unwrap();
        out[..length].to_vec()
    }

    /// Status and the three members of an Enter that is answered with a payload.
    fn enter_new(pins: &mut Pins, pin_type: u32, pin: &[u8], new_pin: &[u8]) -> [u32; 4] {
        let reply = pins.enter(&payload(pin_type, ENTER, pin, new_pin)).unwrap();
        let info = reply.info.unwrap();
        [reply.status, info.pin_type, info.pin_state, info.remaining_attempts]
    }

    fn enter(pins: &mut Pins, pin_type: u32, pin: &[u8]) -> [u32; 4] {
        enter_new(pins, pin_type, pin, &[])
    }

    /// The table with these wrong entries of a type.
    fn missed(mut pins: Pins, pin_type: u32, count: usize) -> Pins {
        for _ in 0..count {
            enter(&mut pins, pin_type, WRONG);
        }
        pins
    }

    const NOTHING: [u32; 4] = [2, 0, 0, 0];
    const DONE: [u32; 4] = [0, 0, 0, 0];

    #[test]
    fn what_a_table_is_made_of_is_judged_row_by_row() {
        let good = [given(3, RIGHT); ROWS];
        for row in 0..ROWS {
            let judged = |change: fn(&mut Given)| {
                let mut given = good;
                change(&mut given[row]);
                Pins::make(&given).unwrap_err()
            };
            let at = 48 * row;
            assert_eq!(judged(|row| row.present = 2), Refusal::new(9, at));
            assert_eq!(judged(|row| row.enabled = u32::MAX), Refusal::new(9, at + 4));
            assert_eq!(judged(|row| row.secret_length = 7), Refusal::new(8, at + 12));
            assert_eq!(judged(|row| row.secret_length = 33), Refusal::new(8, at + 12));
            assert_eq!(judged(|row| row.secret_length = 34), Refusal::new(8, at + 12));
            let absent = |row: &mut Given| *row = Given { enabled: 2, ..Given::default() };
            assert_eq!(judged(absent), Refusal::new(9, at + 4));
        }
        let mut two = good;
        two[3].secret_length = 1;
        two[4].present = 2;
        assert_eq!(Pins::make(&two), Err(Refusal::new(8, 48 * 3 + 12)));
    }

    #[test]
    fn a_table_begins_with_its_starting_numbers() {
        let mut all = [Given::default(); ROWS];
        all[0] = Given { secret: [7; 32], ..given(5, &RIGHT[..2]) };
        all[1] = Given { present: 0, ..given(3, RIGHT) };
        let pins = Pins::make(&all).unwrap();
        let first = Row {
            present: true,
            enabled: true,
            entered: false,
            tries: 5,
            starting_tries: 5,
            secret: Secret::of(&[7, 7]),
        };
        assert_eq!(pins.rows[0], first);
        assert_eq!(pins.rows[0].secret.bytes()[2..], [0; 30]);
        assert_eq!(pins.rows[1..], [Row::default(); 16]);
    }

    #[test]
    fn a_refused_payload_is_the_entrys_refusal() {
        let mut pins = pair();
        assert_eq!(pins.enter(&[]), Err(Refusal::new(1, 0)));
        let mut stray = payload(2, ENTER, RIGHT, &[]);
        stray[16] = 24;
        assert_eq!(pins.enter(&stray), Err(Refusal::new(18, 16)));
        stray[4] = 1;
        assert_eq!(pins.enter(&stray), Err(Refusal::new(18, 16)));
        stray[0] = 18;
        assert_eq!(pins.enter(&stray), Err(Refusal::new(9, 0)));
        assert_eq!(pins, pair());
    }

    #[test]
    fn other_operations_and_types_that_are_not_there_are_unsupported() {
        let mut pins = missed(pair(), 2, 1);
        let before = pins;
        for pin_type in 0..=17 {
            for pin_operation in 0..=3 {
                let asked = payload(pin_type, pin_operation, RIGHT, NEW);
                if pin_operation != ENTER || !matches!(pin_type, 2 | 11) {
                    assert_eq!(pins.enter(&asked), Ok(UNSUPPORTED));
                }
            }
        }
        assert_eq!(pins, before);
    }

    #[test]
    fn disabled_or_not_expected_costs_no_try() {
        let disabled = Given { enabled: 0, ..given(1, RIGHT) };
        let mut pins = table(&[(1, disabled), (2, given(3, RIGHT)), (11, given(2, PUK))]);
        let before = pins;
        for (pin_type, text) in [(1, RIGHT), (1, WRONG), (11, PUK), (11, WRONG)] {
            assert_eq!(enter_new(&mut pins, pin_type, text, NEW), NOTHING);
        }
        assert_eq!(pins, before);
        assert_eq!(enter(&mut pins, 2, RIGHT), DONE);
        let before = pins;
        for text in [RIGHT, WRONG, &[]] {
            assert_eq!(enter(&mut pins, 2, text), NOTHING);
        }
        assert_eq!(pins, before);
    }

    #[test]
    fn a_wrong_entry_takes_a_try_and_a_right_one_gives_all_back() {
        let mut pins = pair();
        assert_eq!(enter(&mut pins, 2, WRONG), [2, 2, 1, 2]);
        assert_eq!(enter(&mut pins, 2, &[]), [2, 2, 1, 1]);
        assert_eq!(pins.rows[1].tries, 1);
        assert_eq!(enter_new(&mut pins, 2, RIGHT, NEW), DONE);
        let mut expected = pair();
        expected.rows[1].entered = true;
        assert_eq!(pins, expected);
    }

    #[test]
    fn tries_that_are_gone_ask_for_the_puk() {
        let mut pins = missed(pair(), 2, 2);
        assert_eq!(enter(&mut pins, 2, WRONG), [2, 11, 1, 2]);
        assert_eq!(enter(&mut pins, 2, RIGHT), [2, 11, 1, 2]);
        assert_eq!(enter(&mut pins, 11, WRONG), [2, 11, 1, 1]);
        assert_eq!(enter(&mut pins, 2, RIGHT), [2, 11, 1, 1]);
        assert_eq!(enter(&mut pins, 11, WRONG), NOTHING);
        for (pin_type, text) in [(11, PUK), (11, WRONG), (2, RIGHT), (2, WRONG)] {
            assert_eq!(enter(&mut pins, pin_type, text), NOTHING);
        }
        assert_eq!([pins.rows[1].tries, pins.rows[10].tries], [0, 0]);
    }

    #[test]
    fn without_a_puk_nothing_is_asked_for() {
        for pin_type in [1, 4, 10, 2] {
            let mut pins = table(&[(pin_type, given(1, RIGHT))]);
            assert_eq!(enter(&mut pins, pin_type, WRONG), NOTHING);
            assert_eq!(enter(&mut pins, pin_type, RIGHT), NOTHING);
        }
    }

    #[test]
    fn a_right_puk_makes_the_new_text_the_secret() {
        for new in [NEW, &[], PUK] {
            let mut pins = missed(missed(pair(), 2, 3), 11, 1);
            assert_eq!(enter_new(&mut pins, 11, PUK, new), DONE);
            let mut expected = pair();
            expected.rows[1].entered = true;
            expected.rows[1].secret = Secret::of(new);
            assert_eq!(pins, expected);
            for (pin_type, text) in [(2, new), (2, RIGHT), (11, PUK)] {
                assert_eq!(enter(&mut pins, pin_type, text), NOTHING);
            }
            assert_eq!(pins, expected);
        }
    }

    #[test]
    fn a_puk_without_its_pin_is_never_expected() {
        let mut pins = table(&[(11, given(2, PUK)), (3, given(0, RIGHT))]);
        let before = pins;
        assert_eq!(enter(&mut pins, 11, PUK), NOTHING);
        assert_eq!(enter(&mut pins, 11, WRONG), NOTHING);
        assert_eq!(pins, before);
    }

    #[test]
    fn a_starting_number_of_0_is_gone_before() {
        let mut pins = table(&[(2, given(0, RIGHT)), (11, given(1, PUK))]);
        assert_eq!(enter(&mut pins, 2, RIGHT), [2, 11, 1, 1]);
        assert_eq!(enter_new(&mut pins, 11, PUK, NEW), DONE);
        assert_eq!(enter(&mut pins, 2, NEW), NOTHING);
        // The PIN still has no tries, so its PUK is expected as before.
        assert_eq!(enter_new(&mut pins, 11, PUK, RIGHT), DONE);
        assert_eq!(enter(&mut pins, 11, WRONG), NOTHING);
        assert_eq!(enter(&mut pins, 11, PUK), NOTHING);
        let mut used_up = table(&[(2, given(1, RIGHT)), (11, given(0, PUK))]);
        assert_eq!(enter(&mut used_up, 2, WRONG), NOTHING);
        assert_eq!(enter(&mut used_up, 11, PUK), NOTHING);
    }

    #[test]
    fn right_means_that_all_bytes_are_equal() {
        let mut pins = table(&[(1, given(9, RIGHT)), (4, given(9, &[])), (10, given(9, &[0; 4]))]);
        let long = [RIGHT, &[0, 0]].concat();
        for (pin_type, text) in [(1, &RIGHT[..6]), (1, &long), (1, &[]), (4, &[0; 2]), (10, &[])] {
            assert_eq!(enter(&mut pins, pin_type, text)[0], 2);
        }
        assert_eq!(enter(&mut pins, 10, &[0; 2])[0], 2);
        for (pin_type, text) in [(1, RIGHT), (4, &[]), (10, &[0; 4])] {
            assert_eq!(enter(&mut pins, pin_type, text), DONE);
        }
    }

    #[test]
    fn an_entry_changes_its_row_and_no_other_but_the_pin_of_its_puk() {
        let all = Pins::make(&[given(1, RIGHT); ROWS]).unwrap();
        for pin_type in 1..=17 {
            let mut pins = all;
            if let Some(pin) = pin_of(pin_type) {
                enter(&mut pins, pin, WRONG);
            }
            for text in [RIGHT, WRONG] {
                let mut after = pins;
                enter_new(&mut after, pin_type, text, NEW);
                assert_ne!(after, pins);
                for other in 1..=17 {
                    let may_change = other == pin_type || Some(other) == pin_of(pin_type);
                    let place = other as usize - 1;
                    assert!(may_change || after.rows[place] == pins.rows[place]);
                }
            }
        }
    }

    #[test]
    fn seven_pins_have_a_puk() {
        let pins: Vec<_> = (0..20).filter(|pin_type| puk_of(*pin_type).is_some()).collect();
        assert_eq!(pins, [2, 3, 5, 6, 7, 8, 9]);
        let puks: Vec<_> = pins.iter().filter_map(|pin_type| puk_of(*pin_type)).collect();
        assert_eq!(puks, [11, 12, 13, 14, 15, 16, 17]);
        for puk in puks {
            assert_eq!(pin_of(puk).and_then(puk_of), Some(puk));
        }
    }
}
