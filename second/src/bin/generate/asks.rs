//! Samples of the question for one CID.

use crate::damage::{
    by_choices, each_way, one_way, resized, with_words, words, CHOICES, NO_CHOICES, STRAYS,
};
use crate::random::Random;
use crate::samples::Samples;
use second::flat::question::{ASK_CID, ASK_CID_WITH};
use second::payload::{BASIC_CONNECT, EXTENSIONS};

const ASK: [u32; 2] = [ASK_CID, ASK_CID_WITH];

pub fn all(samples: &mut Samples) {
    positions(samples);
    single_faults(samples);
    double_faults(samples);
    strays(samples);
    heads(samples);
    ranges(samples);
    long_elements(samples);
    many_elements(samples);
    choices(samples);
    random_lists(samples);
}

/// A list of these services and CIDs.
pub fn list(parts: &[([u8; 16], &[u32])]) -> Vec<u8> {
    let (mut pairs, mut elements) = (Vec::new(), Vec::new());
    for (service, cids) in parts {
        let offset = 8 + 8 * parts.len() + elements.len();
        pairs.extend(words(&[offset as u32, 28 + 4 * cids.len() as u32]));
        elements.extend([&service[..], &words(&[0, 0, cids.len() as u32]), &words(cids)].concat());
    }
    [words(&[parts.len() as u32, 0]), pairs, elements].concat()
}

/// A good list with a fault of each kind in the element of this number.
pub fn faults(good: &[u8], number: usize) -> Vec<Vec<u8>> {
    let word =
        |place: usize| good[place..].first_chunk().map_or(0, |word| u32::from_le_bytes(*word));
    let pair = 8 + 8 * number;
    let (offset, size) = (word(pair), word(pair + 4));
    let of_pair = [
        (offset, 541),
        (offset, 27),
        (offset, size - 1),
        (offset, size + 4),
        (offset, 0),
        (0, 0),
        (pair as u32, size),
        (offset + 1, size),
        (0xFFFF_FFFC, size),
    ];
    let place = offset as usize + 24;
    let counts = [129, word(place) + 1, 0x4000_0000 + word(place)];
    let of_pair =
        of_pair.map(|(offset, size)| with_words(good, &[(pair, offset), (pair + 4, size)]));
    let of_count = counts.map(|count| with_words(good, &[(place, count)]));
    of_pair.into_iter().chain(of_count).collect()
}

/// Three elements of one service: 14 is in the first, 15 in the second and third, 16 in the third.
fn three() -> Vec<u8> {
    list(&[(EXTENSIONS, &[14]), (EXTENSIONS, &[9, 15]), (EXTENSIONS, &[16, 15])])
}

/// The payload after the service.
fn input(service: [u8; 16], payload: &[u8]) -> Vec<u8> {
    [&service[..], payload].concat()
}

/// Asks for a CID of the extensions, one of three ways.
fn ask(samples: &mut Samples, way: usize, cid: u64, payload: &[u8]) {
    one_way(samples, way, ASK, &[cid], &input(EXTENSIONS, payload));
}

/// The service with one byte changed.
fn nearly(place: usize) -> [u8; 16] {
    let mut service = EXTENSIONS;
    service[place] ^= 0x90;
    service
}

/// Good lists: services and CIDs that stand in any element, in several, twice in one, and nowhere.
fn positions(samples: &mut Samples) {
    let payload = list(&[
        (BASIC_CONNECT, &[15, 4]),
        (EXTENSIONS, &[]),
        (EXTENSIONS, &[14, 15, 16, 15]),
        (EXTENSIONS, &[15, 9, 14]),
        ([0; 16], &[0, 0xFFFF_FFFF]),
    ]);
    let asks = [
        (EXTENSIONS, &[14, 15, 16, 9, 0, 0x10F, 0xFFFF_FFFF][..]),
        (BASIC_CONNECT, &[15, 4, 16]),
        ([0; 16], &[0, 0xFFFF_FFFF, 15]),
        (nearly(8), &[15]),
    ];
    let mut way = 0;
    for (service, cids) in asks {
        for cid in cids {
            one_way(samples, way, ASK, &[*cid], &input(service, &payload));
            way += 1;
        }
    }
    let close = [(nearly(0), &[15][..]), (nearly(15), &[15]), (EXTENSIONS, &[0x8000_000F, 15])];
    for count in [0, 2, 3] {
        ask(samples, count, 15, &list(&close[..count]));
    }
}

/// A fault of each kind before the match, at it and behind it, and without a match.
fn single_faults(samples: &mut Samples) {
    for number in 0..3 {
        for (kind, payload) in faults(&three(), number).iter().enumerate() {
            ask(samples, kind, 15, payload);
            if kind % 2 == 0 {
                ask(samples, kind + 1, [14, 16, 17][(kind + number) % 3], payload);
            }
        }
    }
}

/// Two faults: the first of them counts, unless the match is before it.
fn double_faults(samples: &mut Samples) {
    let good = three();
    let faults = [(8, 33), (20, 0), (28, 541)];
    for (way, pair) in [[0, 1], [0, 2], [1, 2]].iter().enumerate() {
        let payload = with_words(&good, &pair.map(|number| faults[number]));
        for cid in [14, 15, 16] {
            ask(samples, way, cid, &payload);
        }
    }
}

/// A size of 0 beside an offset, before the match, at it and behind it.
fn strays(samples: &mut Samples) {
    let mut offsets = STRAYS.into_iter().cycle();
    for number in 0..3 {
        for cid in [15, 17] {
            let pair = 8 + 8 * number;
            let offset = offsets.next().unwrap_or_default();
            let payload = with_words(&three(), &[(pair, offset), (pair + 4, 0)]);
            each_way(samples, ASK, &[cid], &input(EXTENSIONS, &payload));
        }
    }
}

/// Lengths and counts come before a match in the first element.
fn heads(samples: &mut Samples) {
    let good = list(&[(EXTENSIONS, &[15]), (EXTENSIONS, &[14])]);
    for (way, length) in [0, 4, 7, 8, 16, 23, 24, 55, 56, 87, 4096, 4097].into_iter().enumerate() {
        ask(samples, way, 15, &resized(&good, length));
    }
    for length in [56, 88, 4096] {
        ask(samples, length, 14, &resized(&good, length));
    }
    for (way, count) in [0, 1, 3, 8, 9, 32, 33, 0x102, 0x8000_0002, u32::MAX].iter().enumerate() {
        ask(samples, way, 15, &with_words(&good, &[(0, *count)]));
    }
    ask(samples, 0, 14, &with_words(&good, &[(0, 1)]));
    for count in [2, 32, 33] {
        let payload = with_words(&good, &[(0, count), (16, 57)]);
        ask(samples, 1, 15, &resized(&payload, 4097));
    }
}

/// Elements that share bytes, stand in another order or leave gaps.
fn ranges(samples: &mut Samples) {
    let good = list(&[(EXTENSIONS, &[9, 15]), (EXTENSIONS, &[15, 16])]);
    let pairs = [[60, 36, 24, 36], [60, 36, 60, 36], [24, 36, 24, 36], [24, 36, 25, 36]];
    for (way, pair) in pairs.iter().enumerate() {
        let [a, b, c, d] = *pair;
        let payload = with_words(&good, &[(8, a), (12, b), (16, c), (20, d)]);
        for cid in [15, 16] {
            ask(samples, way, cid, &payload);
        }
    }
    // The second element is in the CIDs of the first.
    let inner = list(&[(EXTENSIONS, &[15])]);
    let cids: Vec<u32> = inner[16..]
        .chunks_exact(4)
        .map(|word| u32::from_le_bytes([word[0], word[1], word[2], word[3]]))
        .collect();
    let outer = list(&[(BASIC_CONNECT, &cids), (EXTENSIONS, &[])]);
    let payload = with_words(&outer, &[(16, 24 + 28), (20, 32)]);
    for service in [EXTENSIONS, BASIC_CONNECT] {
        one_way(samples, 0, ASK, &[15], &input(service, &payload));
    }
}

/// No CIDs and as many as there may be, with the match at either end.
fn long_elements(samples: &mut Samples) {
    let cids: Vec<u32> = (0..128).map(|cid| cid * cid / 2).collect();
    let payload = list(&[(EXTENSIONS, &cids), (EXTENSIONS, &[0x1_0000])]);
    for (way, cid) in [0, cids[127], 0x1_0000, 0x1_0001].into_iter().enumerate() {
        ask(samples, way, cid.into(), &payload);
    }
    let cids = [15; 129];
    let full = list(&[(EXTENSIONS, &[]), (EXTENSIONS, &cids[..128])]);
    let over = list(&[(EXTENSIONS, &[15]), (EXTENSIONS, &cids)]);
    for payload in [&full, &with_words(&full, &[(48, 129)]), &over] {
        ask(samples, 0, 15, payload);
        ask(samples, 1, 16, payload);
    }
}

/// As many elements as there may be, each with its own bytes, or all with the same but the last.
fn many_elements(samples: &mut Samples) {
    let mut parts = vec![([0; 16], &[][..]); 32];
    parts[31] = (EXTENSIONS, &[15]);
    ask(samples, 0, 15, &list(&parts));
    let one = list(&[(EXTENSIONS, &[14]), (EXTENSIONS, &[15])]);
    let pairs = words(&[264, 32]).repeat(31);
    let payload = [&words(&[32, 0]), &pairs, &words(&[296, 32]), &one[24..]].concat();
    let last = 8 + 8 * 31;
    let changes = [(0, 32), (last, 297), (last - 4, 28), (last + 4, 0), (8, 260)];
    for (way, change) in changes.into_iter().enumerate() {
        for cid in [14, 15] {
            ask(samples, way, cid, &with_words(&payload, &[change]));
        }
    }
    ask(samples, 1, 16, &payload);
}

/// A good list and faulty ones by each choice and by numbers that are none.
fn choices(samples: &mut Samples) {
    let good = three();
    let behind = with_words(&good, &[(24, 4), (28, 0)]);
    for (number, payload) in [&good, &behind, &good[..20], &[]].into_iter().enumerate() {
        let input = input(EXTENSIONS, payload);
        by_choices(samples, ASK_CID_WITH, &[15], &CHOICES, &input);
        by_choices(samples, ASK_CID_WITH, &[15], &NO_CHOICES[number % 3..][..1], &input);
    }
    by_choices(samples, ASK_CID_WITH, &[17], &[3, 0x8000_0001], &input(EXTENSIONS, &behind));
}

/// Lists of a few elements with no fault, one or two.
fn random_lists(samples: &mut Samples) {
    let mut random = Random::new(27);
    for way in 0..24 {
        let cids: Vec<u32> = (0..8).map(|_| 14 + random.below(3) as u32).collect();
        let mut parts = Vec::new();
        for _ in 0..1 + random.below(4) {
            let from = random.below(6);
            let service = random.pick(&[EXTENSIONS, EXTENSIONS, BASIC_CONNECT]);
            parts.push((service, &cids[from..from + random.below(3)]));
        }
        let mut payload = list(&parts);
        for _ in 0..random.below(3) {
            let place = 8 + 4 * random.below(2 * parts.len());
            let word = random.pick(&[0, 24, 28, 32, 36, 40, 44, 64, 65, 0xFFFF_FFE4]);
            payload = with_words(&payload, &[(place, word)]);
        }
        ask(samples, way, 14 + random.below(3) as u64, &payload);
    }
}
