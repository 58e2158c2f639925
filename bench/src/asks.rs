//! The third table: the question for one CID beside the full one, on the same lists.

use crate::inputs;
use crate::measure::{beside, keep, Mode};
use culvertroost::c;
use std::hint::black_box;

/// A list of so many elements, asked for the last CID of the element with this number, from 1.
struct Asked {
    place: &'static str,
    count: usize,
    number: u8,
}

const ASKED: [Asked; 3] = [
    Asked { place: "in the first of 32", count: 32, number: 1 },
    Asked { place: "in the last of 32", count: 32, number: 32 },
    Asked { place: "in a list of one", count: 1, number: 1 },
];

const CID: u32 = inputs::CIDS[inputs::CIDS.len() - 1];

pub fn run(mode: Mode) {
    for Asked { place, count, number } in ASKED {
        let payload = &inputs::services(count, &inputs::CIDS)[..];
        let id = c::service_id(&[number; 16]);
        let position = c::device_services_ask(payload, id, CID);
        assert_eq!((position.listed, position.element_number), (1, u32::from(number) - 1));
        assert_eq!(c::device_services_listed(payload, id, CID).listed, 1);
        let mut ask = || keep(c::device_services_ask(black_box(payload), id, CID));
        let mut listed = || keep(c::device_services_listed(black_box(payload), id, CID));
        let calls: [(&str, &mut dyn FnMut()); 2] =
            [("ask for a CID", &mut ask), ("is a CID listed", &mut listed)];
        beside(mode, place, payload.len(), calls);
    }
}
