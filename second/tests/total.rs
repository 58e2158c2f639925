//! No question panics, whatever its arguments and input are, and no answer
//! touches output that it must leave alone (the questions check that themselves).

use second::door::Received;
use second::flat::{question, Answer, Second, ASSEMBLY_SIZE, PINS_SIZE, STREAM_SIZE};
use second::refusal::Refusal;
use second::replay::Replay;
use second::stream::Fed;
use second::trace::LONGEST_LINE;
use second::{pin_memory, stream_memory};

struct Random(u64);

impl Random {
    fn next(&mut self) -> u64 {
        self.0 ^= self.0 << 13;
        self.0 ^= self.0 >> 7;
        self.0 ^= self.0 << 17;
        self.0
    }

    fn below(&mut self, limit: u64) -> u64 {
        self.next() % limit
    }

    /// A number that is often small or at the end of its range.
    fn number(&mut self) -> u64 {
        match self.below(6) {
            0 => self.below(5),
            1 => self.below(200),
            2 => u64::from(u32::MAX) - self.below(40),
            3 => [0x0100, 0x0200, 0x20, 0x40, 4096, 4097][self.below(6) as usize],
            4 => self.next(),
            _ => u64::MAX - self.below(3),
        }
    }

    /// This number, now and then one less or more.
    fn near(&mut self, number: u64) -> u64 {
        match self.below(12) {
            0 => number - 1,
            1 => number + 1,
            _ => number,
        }
    }

    /// Words that are often small, as bytes, of any length.
    fn input(&mut self) -> Vec<u8> {
        let length = [0, 4, 12, 20, 28, 32, 44, 48, 52, 64, 140, 600, 4096, 4100];
        let length = length[self.below(14) as usize] + self.below(3) as usize;
        let mut input = Vec::new();
        while input.len() < length {
            input.extend((self.number() as u32).to_le_bytes());
        }
        input.truncate(length);
        if length >= 8 && self.below(2) == 0 {
            input[4..8].copy_from_slice(&(length as u32).to_le_bytes());
        }
        input
    }
}

#[test]
fn any_question_is_answered() {
    let mut random = Random(0x1234_5678_9ABC_DEF1);
    let mut second = Second::new();
    second.ask(question::MAKE_HOST, &[0x0200], &[]);
    second.ask(question::MAKE_MODEM, &[0x0200, 0x0100, 10], &[0; 8]);
    second.ask(question::MAKE_PINS, &[PINS_SIZE, 1, 1, 3, 0, 1, 1, 3, 4], &[7; 544]);
    for _ in 0..60_000 {
        let asked = random.below(57) as u32;
        let count = random.below(30);
        let mut arguments: Vec<u64> = (0..count).map(|_| random.number()).collect();
        if let Some(room) = arguments.first_mut() {
            let is_room = !matches!(asked, 3 | 5 | 7 | 12 | 20..=23 | 26..=27 | 33..=38 | 41 | 43 | 51 | 52 | 54);
            *room = if is_room { *room % 8000 } else { *room };
        }
        let input = random.input();
        let answer = second.ask(asked, &arguments, &input);
        let refused = answer.numbers.first().is_some_and(|number| *number != 0);
        let length = if asked == question::STREAM_FEED { 15 } else { 2 };
        assert!(!refused || (answer.numbers.len() == length && answer.output.is_empty()));
    }
}

/// Zeros but for these pairs, which are good, faulty, or an offset beside a size of 0.
fn with_pairs(random: &mut Random, length: usize, fields: &[usize]) -> Vec<u8> {
    let mut payload = vec![0; length];
    for field in fields {
        let inside = random.below(length as u64);
        let offset = [0, inside, inside / 4 * 4, random.number()][random.below(4) as usize] as u32;
        let size = [0, 0, 2, 28][random.below(4) as usize];
        payload[*field..field + 8].copy_from_slice(&[offset, size].map(u32::to_le_bytes).concat());
    }
    payload
}

/// That the plain question and choice 0 see no stray offset, and choice 1 refuses the first
/// one unless another fault comes before it.
fn assert_choices(questions: [u32; 2], arguments: &[u64], payload: &[u8], fields: &[usize]) {
    let ask = |question, payload: &[u8], choice: &[u64]| {
        Second::new().ask(question, &[arguments, choice].concat(), payload)
    };
    let mut cleared = payload.to_vec();
    let is_stray = |field: &usize| {
        payload[*field..field + 4] != [0; 4] && payload[field + 4..field + 8] == [0; 4]
    };
    let strays: Vec<usize> = fields.iter().copied().filter(is_stray).collect();
    for field in &strays {
        cleared[*field..field + 4].fill(0);
    }
    let [plain, with] = questions;
    let absent = ask(with, payload, &[0]);
    assert_eq!(ask(plain, payload, &[]), absent);
    for choice in [0, 1] {
        assert_eq!(ask(with, &cleared, &[choice]), absent);
    }
    let strict = ask(with, payload, &[1]);
    match strays.first() {
        None => assert_eq!(strict, absent),
        Some(field) => {
            let is_faulty_before = absent.numbers[0] != 0 && strict == absent;
            assert!(is_faulty_before || strict.numbers == [18, *field as u64]);
        }
    }
}

#[test]
fn a_size_of_0_reads_as_beside_offset_0() {
    let mut random = Random(0x0F1E_2D3C_4B5A_6971);
    for _ in 0..4000 {
        for version in [0x0100, 0x0200] {
            let fields = [20, 28, 36];
            let payload = with_pairs(&mut random, 84, &fields);
            let questions = [question::REGISTRATION_READ, question::REGISTRATION_READ_WITH];
            assert_choices(questions, &[version], &payload, &fields);
        }
        let payload = with_pairs(&mut random, 56, &[20]);
        let questions = [question::SIGNAL_READ, question::SIGNAL_READ_WITH];
        assert_choices(questions, &[0x0200], &payload, &[20]);
        let fields = &[8, 16, 24][..random.below(4) as usize];
        let mut payload = with_pairs(&mut random, 84, fields);
        payload[0] = fields.len() as u8;
        let questions = [question::SERVICES_READ, question::SERVICES_READ_WITH];
        assert_choices(questions, &[], &payload, fields);
        let questions = [question::ELEMENT, question::ELEMENT_WITH];
        assert_choices(questions, &[4, 1], &payload, fields);
        let fields = [8, 16];
        let payload = with_pairs(&mut random, 56, &fields);
        let questions = [question::SET_PIN_READ, question::SET_PIN_READ_WITH];
        assert_choices(questions, &[], &payload, &fields);
    }
}

/// A list of up to four elements of two services with CIDs below 3, damaged in up to two words,
/// and now and then cut short or made longer.
fn list(random: &mut Random) -> Vec<u8> {
    let count = random.below(5);
    let (mut arguments, mut services) = (vec![400, count, 0], Vec::new());
    for _ in 0..count {
        let cid_count = random.below(4);
        arguments.extend([0, 0, cid_count]);
        arguments.extend((0..cid_count).map(|_| random.below(3)));
        services.extend([random.below(2) as u8; 16]);
    }
    let mut payload = Second::new().ask(question::SERVICES_WRITE, &arguments, &services).output;
    for _ in 0..random.below(3) {
        let words = payload.len() as u64 / 4;
        let pairs = random.below(2 + 2 * count).min(words - 1);
        let place = 4 * [pairs, random.below(words)][random.below(2) as usize] as usize;
        let inside = random.below(words) * 4;
        let word =
            [inside, random.below(4), 28, 33, 129, random.number()][random.below(6) as usize];
        payload[place..place + 4].copy_from_slice(&(word as u32).to_le_bytes());
    }
    let length = [payload.len(), payload.len(), random.below(200) as usize];
    payload.resize(length[random.below(3) as usize], 0);
    payload
}

/// The number of the element that the full reader refuses; 0 where it refuses no element.
fn refused_element(payload: &[u8], refusal: &[u64]) -> usize {
    let offset =
        |field: usize| payload[field..].first_chunk().map(|bytes| u32::from_le_bytes(*bytes));
    let is_refused = |field: usize| match refusal {
        [6 | 7 | 8 | 17 | 18, place] => *place == field as u64,
        [15, place] => offset(field).map(|offset| u64::from(offset) + 24) == Some(*place),
        _ => false,
    };
    (8..payload.len()).step_by(8).position(is_refused).unwrap_or(0)
}

/// How many good elements stand before the one that the full reader refuses, and the payload
/// with that one and all behind it made like the first.
fn before_fault(payload: &[u8], refusal: &[u64]) -> (usize, Vec<u8>) {
    let (good, mut before) = (refused_element(payload, refusal), payload.to_vec());
    if good > 0 {
        for number in good..payload[0].into() {
            before.copy_within(8..16, 8 + 8 * number);
        }
    }
    (good, before)
}

/// The answer by the first of so many elements that has the service and the CID.
fn first_match(payload: &[u8], count: usize, service: &[u8; 16], cid: u64) -> Option<Vec<u64>> {
    let service = u64::from(service[0]) * 0x0101_0101;
    (0..count as u64).find_map(|number| {
        let shown = Second::new().ask(question::ELEMENT, &[128, number], payload).numbers;
        assert_eq!(shown[..2], [0, 1]);
        let is_service = shown[2..6] == [service; 4];
        let place = shown[9..].iter().position(|listed| *listed == cid);
        place.filter(|_| is_service).map(|place| vec![0, 1, number, place as u64])
    })
}

/// Where the full reader accepts, the question finds what the elements show; where it refuses,
/// what those before the fault show, or it refuses alike.
#[test]
fn the_question_is_that_of_the_elements_before_a_fault() {
    let mut random = Random(0x7531_8642_ECA8_FDB9);
    let mut seen = [0; 4];
    for _ in 0..40_000 {
        let payload = list(&mut random);
        let service = [random.below(2) as u8; 16];
        let (cid, choice) = (random.below(3), random.below(2));
        let full = Second::new().ask(question::SERVICES_READ_WITH, &[choice], &payload).numbers;
        let is_good = full[0] == 0;
        let (count, before) = match is_good {
            true => (full[1] as usize, payload.clone()),
            false => before_fault(&payload, &full),
        };
        let otherwise = if is_good { vec![0; 4] } else { full };
        let expected = first_match(&before, count, &service, cid).unwrap_or(otherwise);
        let input = [&service[..], &payload].concat();
        let ask =
            |question, arguments: &[u64]| Second::new().ask(question, arguments, &input).numbers;
        assert_eq!(ask(question::ASK_CID_WITH, &[cid, choice]), expected);
        assert!(choice == 1 || ask(question::ASK_CID, &[cid]) == expected);
        assert!(!is_good || ask(question::LISTED, &[cid]) == expected[..2]);
        seen[2 * usize::from(is_good) + usize::from(expected[..2] == [0, 1])] += 1;
    }
    assert!(seen.iter().all(|times| *times > 1000), "{seen:?}");
}

/// A SET_PIN payload with texts of at most two bytes, now and then damaged.
fn entry(random: &mut Random) -> Vec<u8> {
    let mut payload = vec![0; 24];
    payload[0] = random.below(18) as u8;
    for field in [8, 16] {
        if random.below(3) > 0 {
            payload[field] = payload.len() as u8;
            payload[field + 4] = 2;
            payload.extend([random.below(2) as u8, 0, 0, 0]);
        }
    }
    if random.below(10) == 0 {
        let place = random.below(24) as usize;
        payload[place] ^= 1 << random.below(8);
    }
    payload
}

/// Entries change no row but their own and that of the PIN that a PUK unblocks; only a right one
/// raises tries, and then to the starting number; and they are the same in lent memory.
#[test]
fn entries_keep_to_their_rows() {
    let mut random = Random(0x1357_9BDF_0246_8ACE);
    let pins = [(11, 2), (12, 3), (13, 5), (14, 6), (15, 7), (16, 8), (17, 9)];
    for _ in 0..2000 {
        let mut arguments = vec![PINS_SIZE];
        for _ in 0..17 {
            let [present, enabled] = [6, 4].map(|limit| random.below(limit).min(1));
            arguments.extend([present, enabled, random.below(4), random.below(2) * 2]);
        }
        let mut second = Second::new();
        second.ask(question::MAKE_PINS, &arguments, &[0; 544]);
        let mut memory = second.ask(question::SHOW_PINS, &[], &[]).output;
        for _ in 0..40 {
            let (before, payload) = (memory.clone(), entry(&mut random));
            let entered = pin_memory::enter(&mut memory, &payload);
            let answer = second.ask(question::PIN_ENTRY, &[], &payload).numbers;
            assert_eq!(second.ask(question::SHOW_PINS, &[], &[]).output, memory);
            match entered {
                Err(refusal) => assert_eq!(answer, [refusal.number.into(), refusal.place as u64]),
                Ok(reply) => assert_eq!(answer[..2], [0, reply.status.into()]),
            }
            let own = usize::from(payload[0]);
            let unblocked = pins.iter().find(|(puk, _)| *puk == own).map(|(_, pin)| *pin);
            for (row, (old, new)) in before.chunks(44).zip(memory.chunks(44)).enumerate() {
                let may_change = row + 1 == own || Some(row + 1) == unblocked;
                let is_right = answer[..2] == [0, 0];
                assert!(old == new || may_change && matches!(answer[..2], [0, 0 | 2]));
                assert!(new[4] <= old[4] || is_right && new[4] == new[8]);
            }
        }
    }
}

/// Good messages with a few bytes changed, fed in any order.
#[test]
fn damaged_streams_are_answered() {
    let mut random = Random(0xFEDC_BA98_7654_3211);
    let mut second = Second::new();
    let arguments = [9000, 64, 3, 7, 11, 1];
    let input: Vec<u8> = (0..=200).collect();
    let cut = second.ask(question::CUT, &arguments, &input).output;
    let pieces: Vec<&[u8]> = cut.chunks(64).collect();
    let mut next = 0;
    for _ in 0..20_000 {
        let mut piece = pieces[next % pieces.len()].to_vec();
        next += 1 + (random.below(20) == 0) as usize;
        if random.below(15) == 0 {
            let place = random.below(piece.len() as u64) as usize;
            piece[place] ^= 1 << random.below(8);
        }
        let before = second.ask(question::SHOW_ASSEMBLY, &[], &[]);
        let answer = second.ask(question::RECEIVE, &[random.below(300), ASSEMBLY_SIZE], &piece);
        let shown = second.ask(question::SHOW_ASSEMBLY, &[], &[]);
        let gathered = u16::from_le_bytes([shown.output[44], shown.output[45]]) as usize;
        assert!(shown.output[48 + gathered..].iter().all(|byte| *byte == 0));
        let is_whole = matches!(piece[..4], [1 | 2, 0, 0, 0]);
        assert!(!is_whole || shown == before);
        let empty = answer.numbers[0] != 0 || answer.numbers[1] == 3;
        assert!(is_whole || !empty || shown.output == [0; 4144]);
    }
}

/// The bytes of a stream: good pieces and damaged ones, with faults of a length field now and then.
fn stream(random: &mut Random, fragments: &[&[u8]]) -> Vec<u8> {
    let mut stream = Vec::new();
    for number in 0..1 + random.below(6) {
        let mut piece = match random.below(4) {
            0 => vec![2, 0, 0, 0, 12, 0, 0, 0, 7, 0, 0, 0],
            _ => fragments[number as usize % fragments.len()].to_vec(),
        };
        if random.below(6) == 0 {
            let place = random.below(piece.len().min(20) as u64) as usize;
            piece[place] ^= 1 << random.below(8);
        }
        stream.extend(piece);
    }
    stream
}

/// What a call of the stream came to, as the question shows it.
fn has_numbers(fed: &Fed, answer: &Answer) -> bool {
    let refusal = match fed.answer {
        Err(refusal) => [refusal.number.into(), refusal.place as u64],
        Ok(received) => [0, if received.is_some() { answer.numbers[1].max(1) } else { 0 }],
    };
    answer.numbers[..2] == refusal
        && answer.numbers.ends_with(&[fed.taken as u64, fed.ended.into()])
}

type Run = (Vec<Result<Received, Refusal>>, [Vec<u8>; 2]);

/// Feeds a stream in chunks of any length up to the most, by the question and in lent memory, which must
/// come to the same. Gives the answers and both memories.
fn run_stream(random: &mut Random, second: &mut Second, most: u64, bytes: &[u8]) -> Run {
    let sizes = [STREAM_SIZE, ASSEMBLY_SIZE];
    second.ask(question::STREAM_RESET, &sizes, &[]);
    let [mut stream, mut assembly] = sizes.map(|size| vec![0; size as usize]);
    let (mut rest, mut answers, mut out) = (bytes, Vec::new(), [0; 4096]);
    while !rest.is_empty() {
        let chunk = &rest[..rest.len().min(random.below(most + 1) as usize)];
        let arguments = [4096, STREAM_SIZE, ASSEMBLY_SIZE];
        let answer = second.ask(question::STREAM_FEED, &arguments, chunk);
        let fed = stream_memory::feed(&mut stream, &mut assembly, chunk, &mut out);
        assert!(has_numbers(&fed, &answer) && out.starts_with(&answer.output));
        answers.extend(fed.answer.transpose());
        rest = if fed.ended { &[] } else { &rest[fed.taken..] };
    }
    let shown = [question::SHOW_STREAM, question::SHOW_ASSEMBLY];
    let shown = shown.map(|show| second.ask(show, &[], &[]).output);
    assert_eq!(shown, [stream, assembly]);
    (answers, shown)
}

/// Streams cut at random come to the same by value, in lent memory, and uncut.
#[test]
fn cut_streams_are_answered_alike() {
    let mut random = Random(0x0BAD_CAFE_1234_4321);
    let mut second = Second::new();
    let input: Vec<u8> = (0..=115).collect();
    let cut = second.ask(question::CUT, &[9000, 64, 3, 7, 11, 1], &input).output;
    let fragments: Vec<&[u8]> = cut.chunks(64).collect();
    let mut ended = 0;
    for _ in 0..1000 {
        let bytes = stream(&mut random, &fragments);
        let mosts = [9, 90, 1000];
        let [uncut, other, another] =
            mosts.map(|most| run_stream(&mut random, &mut second, most, &bytes));
        assert!(uncut == other && uncut == another);
        ended += u32::from(uncut.1[0][4]);
    }
    assert!((100..900).contains(&ended), "{ended}");
}

/// Memory of about so many bytes that holds one word over and over.
fn any_memory(random: &mut Random, size: u64) -> Vec<u8> {
    let size = random.near(size);
    let word = [0, random.number() as u32][random.below(2) as usize].to_le_bytes();
    word.into_iter().cycle().take(size as usize).collect()
}

/// Any memory of a stream, most often with a piece of a few bytes held.
fn any_stream(random: &mut Random) -> Vec<u8> {
    let mut memory = any_memory(random, STREAM_SIZE);
    let good = [random.below(14), 0, [1, 2, 3, 9][random.below(4) as usize], 16];
    for (place, number) in good.into_iter().enumerate() {
        let number = if random.below(12) == 0 { random.number() } else { number };
        memory[4 * place..4 * place + 4].copy_from_slice(&(number as u32).to_le_bytes());
    }
    memory
}

/// Any memory is answered: a refusal that takes nothing leaves it, and all else leaves it good.
#[test]
fn any_memory_of_a_stream_is_answered() {
    let mut random = Random(0x7654_3210_0FED_CBA9);
    let mut seen = [0; 4];
    for _ in 0..6000 {
        let (mut stream, mut assembly) =
            (any_stream(&mut random), any_memory(&mut random, ASSEMBLY_SIZE));
        let before = [stream.clone(), assembly.clone()];
        let (chunk, room) = (random.input(), random.near(4096) as usize);
        let fed = stream_memory::feed(&mut stream, &mut assembly, &chunk, &mut vec![0; room]);
        assert!(fed.taken <= chunk.len());
        let case = match fed.answer {
            Ok(None) => 0,
            Ok(Some(_)) => 1,
            Err(_) => 2 + usize::from(fed.taken == 0),
        };
        seen[case] += 1;
        if case == 3 {
            assert_eq!([stream, assembly], before);
            continue;
        }
        let again = stream_memory::feed(&mut stream, &mut assembly, &[], &mut [0; 4096]);
        assert!(again.ended == fed.ended && again.answer.is_err() == fed.ended);
    }
    assert!(seen.iter().all(|times| *times > 100), "{seen:?}");
}

/// Random bytes, or the line of a random piece, now and then damaged.
fn line(random: &mut Random) -> Vec<u8> {
    if random.below(4) == 0 {
        return (0..random.below(700)).map(|_| random.next() as u8).collect();
    }
    let input = random.input();
    let digits: String = input.iter().take(256).map(|byte| format!("{byte:02x}")).collect();
    let sender = if random.below(2) == 0 { 'H' } else { 'D' };
    let counter = random.number() as u32;
    let mut line = format!("{counter}\t{sender}\t{digits}\n").into_bytes();
    if random.below(4) == 0 {
        let place = random.below(line.len() as u64) as usize;
        line[place] ^= 1 << random.below(8);
    }
    line
}

/// Every line has rows, which begin with its number. Of a bad line one row comes, and nothing
/// but its beginning counts.
#[test]
fn any_line_is_replayed() {
    let mut random = Random(0x2468_ACE0_1357_9BDF);
    let mut replay = Replay::new();
    for number in 1..=40_000 {
        let line = line(&mut random);
        let mut text = String::new();
        replay.line(&line, &mut text);
        assert!(text.ends_with('\n') && text.len() > 1);
        let start = format!("{number}\t");
        assert!(text.lines().all(|row| row.starts_with(&start)));
        let bad = text.strip_prefix(&format!("{start}\t\tbad line\t19\t"));
        let Some(column) = bad.map(|column| column.trim_end().parse::<usize>().unwrap()) else {
            assert!(line.ends_with(b"\n") && line.len() <= LONGEST_LINE);
            continue;
        };
        assert!(column <= line.len() && column < LONGEST_LINE);
        let mut again = String::new();
        Replay::new().line(&line[..line.len().min(LONGEST_LINE)], &mut again);
        assert_eq!(again, format!("1\t\t\tbad line\t19\t{column}\n"));
    }
}
