//! Samples of the VERSION payload.

use crate::damage::{change_bytes, lengths};
use crate::random::Random;
use crate::samples::Samples;
use second::flat::question::{VERSION_READ, VERSION_WRITE};

const MBIM: [u16; 7] = [0x0100, 0, 0x0001, 0x0101, 0x00FF, 0x0200, 0xFFFF];
const EXTENSION: [u16; 9] = [0x0100, 0x0200, 0, 0x0001, 0x0002, 0x0101, 0x01FF, 0x0300, 0xFFFF];

pub fn all(samples: &mut Samples) {
    let mut random = Random::new(1);
    for mbim in MBIM {
        for extension in EXTENSION {
            let payload = [mbim.to_le_bytes(), extension.to_le_bytes()].concat();
            samples.ask(VERSION_READ, &[], &payload);
            if mbim == 0x0100 || extension == 0x0200 {
                samples.ask(VERSION_WRITE, &[16, mbim.into(), extension.into()], &[]);
            }
        }
    }
    for good in [[0, 1, 0, 1], [0, 1, 0, 2]] {
        lengths(samples, VERSION_READ, &[], &good, [0, 1, 2, 3, 5, 8, 4096, 4097]);
        change_bytes(samples, VERSION_READ, &[], &good, &mut random);
    }
    for room in [0, 1, 3, 4, 5, 4096] {
        for (mbim, extension) in [(0x0100, 0x0100), (0x0100, 0x0200), (0x0200, 0x0200), (0x0100, 0)]
        {
            samples.ask(VERSION_WRITE, &[room, mbim, extension], &[]);
        }
    }
}
