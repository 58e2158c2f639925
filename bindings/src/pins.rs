//! PINs: a host's entry, what it is answered, and a modem's table of them.

use crate::c::{self, Refusal};
use crate::payloads::{text, written};
use crate::{Pin, PinInfo, Pins, SetPin, ZeroSize};

/// The types of PINs and of their PUKs.
pub mod pin_type {
    pub const NONE: u32 = 0;
    pub const CUSTOM: u32 = 1;
    pub const PIN1: u32 = 2;
    pub const PIN2: u32 = 3;
    pub const DEVICE_SIM_PIN: u32 = 4;
    pub const DEVICE_FIRST_SIM_PIN: u32 = 5;
    pub const NETWORK_PIN: u32 = 6;
    pub const NETWORK_SUBSET_PIN: u32 = 7;
    pub const SERVICE_PROVIDER_PIN: u32 = 8;
    pub const CORPORATE_PIN: u32 = 9;
    pub const SUBSIDY_LOCK: u32 = 10;
    pub const PUK1: u32 = 11;
    pub const PUK2: u32 = 12;
    pub const DEVICE_FIRST_SIM_PUK: u32 = 13;
    pub const NETWORK_PUK: u32 = 14;
    pub const NETWORK_SUBSET_PUK: u32 = 15;
    pub const SERVICE_PROVIDER_PUK: u32 = 16;
    pub const CORPORATE_PUK: u32 = 17;
}

/// The texts of a SET_PIN, UTF-16LE, not judged beyond their size. An absent one is empty. `Debug` shows
/// their sizes only.
#[derive(Clone, Copy, Default, PartialEq, Eq)]
pub struct PinTexts<'a> {
    pub pin: &'a [u8],
    /// Beside a PUK, the PIN's new text.
    pub new_pin: &'a [u8],
}

impl std::fmt::Debug for PinTexts<'_> {
    fn fmt(&self, f: &mut std::fmt::Formatter) -> std::fmt::Result {
        write!(f, "PinTexts {{ {} bytes, {} bytes }}", self.pin.len(), self.new_pin.len())
    }
}

impl SetPin {
    pub fn read(payload: &[u8]) -> Result<(SetPin, PinTexts<'_>), Refusal> {
        with_texts(c::set_pin_read(payload), payload)
    }

    /// The same by a choice.
    pub fn read_with(
        zero_size: ZeroSize,
        payload: &[u8],
    ) -> Result<(SetPin, PinTexts<'_>), Refusal> {
        with_texts(c::set_pin_read_with(zero_size as u32, payload), payload)
    }

    pub fn write(&self, texts: &PinTexts, out: &mut [u8]) -> Result<usize, Refusal> {
        written(c::set_pin_write(*self, texts.pin, texts.new_pin, out))
    }
}

impl PinInfo {
    pub fn read(payload: &[u8]) -> Result<PinInfo, Refusal> {
        let answer = c::pin_info_read(payload);
        answer.refusal.or(answer.info)
    }

    pub fn write(&self, out: &mut [u8]) -> Result<usize, Refusal> {
        written(c::pin_info_write(*self, out))
    }
}

impl Pins {
    /// Adds a PIN or a PUK; false if there is no such type or no room for its secret.
    pub fn add(
        &mut self,
        pin_type: u32,
        enabled: bool,
        starting_tries: u32,
        secret: &[u8],
    ) -> bool {
        let Some(row) = self.rows.get_mut((pin_type as usize).wrapping_sub(1)) else {
            return false;
        };
        let mut pin = Pin { present: 1, enabled: enabled.into(), starting_tries, ..Pin::default() };
        let Some(front) = pin.secret.0.get_mut(..secret.len()) else {
            return false;
        };
        front.copy_from_slice(secret);
        pin.secret_length = secret.len() as u32;
        *row = pin;
        true
    }
}

/// What an entry is answered: the status, and PIN_INFO where the status isn't 9.
#[derive(Clone, Copy, Debug, PartialEq, Eq)]
pub struct Entered {
    pub status: u32,
    pub info: Option<PinInfo>,
}

/// A modem's table of PINs: secrets and tries. Its memory is overwritten when it is dropped.
#[derive(Clone)]
pub struct PinTable {
    memory: [u8; c::PINS_SIZE],
}

impl PinTable {
    /// No PIN is entered, all tries are at their starting numbers.
    pub fn new(pins: &Pins) -> Result<PinTable, Refusal> {
        let mut table = PinTable { memory: [0; c::PINS_SIZE] };
        c::pin_make(&mut table.memory, *pins).or(())?;
        Ok(table)
    }

    /// Takes an entry, a SET_PIN payload, read strictly.
    pub fn enter(&mut self, payload: &[u8]) -> Result<Entered, Refusal> {
        let c::PinAnswer { refusal, status, shown, info } = c::pin_enter(&mut self.memory, payload);
        refusal.or(Entered { status, info: (shown != 0).then_some(info) })
    }

    pub(crate) fn memory(&mut self) -> &mut [u8] {
        &mut self.memory
    }
}

impl std::fmt::Debug for PinTable {
    fn fmt(&self, f: &mut std::fmt::Formatter) -> std::fmt::Result {
        f.write_str("PinTable")
    }
}

impl Drop for PinTable {
    fn drop(&mut self) {
        self.memory.fill(0);
        std::hint::black_box(&self.memory); // or the compiler might leave the stores out
    }
}

fn with_texts(answer: c::SetPinAnswer, payload: &[u8]) -> Result<(SetPin, PinTexts<'_>), Refusal> {
    let texts = PinTexts {
        pin: text(payload, answer.texts.pin),
        new_pin: text(payload, answer.texts.new_pin),
    };
    answer.refusal.or((answer.info, texts))
}
