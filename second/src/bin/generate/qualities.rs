//! Samples of readings and bars.

use crate::samples::Samples;
use second::flat::question::{BARS, RSRP, SNR};

pub fn all(samples: &mut Samples) {
    let far = [255, 256, 257, 0x7FFF_FFFF, 0x8000_0000, 0xFFFF_FFFF];
    for code in (0..132).chain(far) {
        samples.ask(RSRP, &[code], &[]);
        samples.ask(SNR, &[code], &[]);
    }
    for rssi in (0..34).chain(96..102).chain(far) {
        samples.ask(BARS, &[rssi], &[]);
    }
}
