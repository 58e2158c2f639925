//! Messages: whole ones judged and written, others cut, all of them received, piece by piece or from a
//! byte stream, and which payload one shows.

use crate::c::{self, Refusal};
use crate::MessageHeader;

/// A message that is never fragmented. `word` is OPEN's transfer size, a DONE's status or an error's
/// code; CLOSE has none and shows 0.
#[derive(Clone, Copy, Debug, PartialEq, Eq)]
pub struct Whole {
    pub message_type: u32,
    pub transaction: u32,
    pub word: u32,
}

impl Whole {
    /// Gives how many bytes were written at the front of the output. The word of a CLOSE is ignored.
    pub fn write(&self, out: &mut [u8]) -> Result<usize, Refusal> {
        let Whole { message_type, transaction, word } = *self;
        let answer = c::message_write(message_type, transaction, word, out);
        answer.refusal.or(answer.length as usize)
    }
}

/// Judges a message that is never fragmented.
pub fn judge(message: &[u8]) -> Result<Whole, Refusal> {
    let c::WholeAnswer { refusal, message_type, transaction, word } = c::message_judge(message);
    refusal.or(Whole { message_type, transaction, word })
}

/// The transaction number after this one: 0 is left out.
pub fn next_transaction(transaction: u32) -> u32 {
    c::transaction_next(transaction)
}

/// A payload that the library reads and writes.
#[derive(Clone, Copy, Debug, PartialEq, Eq)]
pub enum Kind {
    RegisterState,
    PacketService,
    SignalState,
    DeviceServices,
    Version,
    SetPin,
    PinInfo,
}

impl Kind {
    pub(crate) fn of(number: u32) -> Option<Kind> {
        match number {
            1 => Some(Kind::RegisterState),
            2 => Some(Kind::PacketService),
            3 => Some(Kind::SignalState),
            4 => Some(Kind::DeviceServices),
            5 => Some(Kind::Version),
            6 => Some(Kind::SetPin),
            7 => Some(Kind::PinInfo),
            _ => None,
        }
    }
}

/// How many fragments were written, and their bytes together.
#[derive(Clone, Copy, Debug, PartialEq, Eq)]
pub struct Fragments {
    pub count: u32,
    pub length: usize,
}

impl MessageHeader {
    /// Cuts the message into fragments of this size, one after another at the front of the output.
    pub fn cut(
        &self,
        size: usize,
        information: &[u8],
        out: &mut [u8],
    ) -> Result<Fragments, Refusal> {
        let c::CutAnswer { refusal, count, length } = c::message_cut(*self, size, information, out);
        refusal.or(Fragments { count, length: length as usize })
    }

    /// The payload that the message's information is. An indication and a reply of status 0 show that
    /// of their CID, a reply of status 2 does so for [`PIN`](crate::PIN). A command shows VERSION, or
    /// SET_PIN where it is a set of PIN. Any other message shows none.
    pub fn kind(&self) -> Result<Option<Kind>, Refusal> {
        let answer = c::payload_kind(*self);
        answer.refusal.or(Kind::of(answer.kind))
    }
}

/// What came of a piece. `dropped`: an unfinished message was dropped for this one.
#[derive(Clone, Copy, Debug, PartialEq, Eq)]
pub enum Received {
    /// A message that is never fragmented; what is pending stays so.
    Whole(Whole),
    /// A fragment, and more are to come.
    Pending { message_type: u32, transaction: u32, dropped: bool },
    /// The message is complete; so many bytes of information are at the front of the output.
    Complete { message: MessageHeader, length: usize, dropped: bool },
}

impl Received {
    /// What an answer says, if it isn't a refusal and a piece was received.
    fn of(answer: &c::ReceiveAnswer) -> Received {
        let c::ReceiveAnswer { received, dropped, message, length, .. } = *answer;
        let MessageHeader { message_type, transaction, word, .. } = message;
        let dropped = dropped != 0;
        match received {
            1 => Received::Whole(Whole { message_type, transaction, word }),
            2 => Received::Pending { message_type, transaction, dropped },
            _ => Received::Complete { message, length: length as usize, dropped },
        }
    }
}

/// Receives messages, and puts them together from their fragments.
#[derive(Clone)]
pub struct Assembly {
    memory: [u8; c::ASSEMBLY_SIZE],
}

impl Assembly {
    pub const fn new() -> Assembly {
        Assembly { memory: [0; c::ASSEMBLY_SIZE] }
    }

    /// Drops what is pending.
    pub fn clear(&mut self) {
        *self = Assembly::new();
    }

    /// Takes any piece that came: a whole message or a fragment. A complete message, and a refused
    /// piece that is no whole message, leave an empty assembly.
    pub fn receive(&mut self, piece: &[u8], out: &mut [u8]) -> Result<Received, Refusal> {
        let answer = c::receive(&mut self.memory, piece, out);
        answer.refusal.or(Received::of(&answer))
    }
}

impl Default for Assembly {
    fn default() -> Assembly {
        Assembly::new()
    }
}

/// What came of a chunk.
#[derive(Clone, Copy, Debug, PartialEq, Eq)]
pub struct Fed {
    /// The piece that was taken, as an [`Assembly`] answers it; none while the bytes are short of one.
    pub piece: Result<Option<Received>, Refusal>,
    /// How many bytes of the chunk are taken, refused or not.
    pub taken: usize,
    /// A length field ended the stream: until it is reset, it takes nothing and repeats the refusal.
    pub ended: bool,
}

/// Receives messages from a line without packet bounds, in chunks of any length. It takes each piece by
/// its length field.
#[derive(Clone)]
pub struct Stream {
    memory: [u8; c::STREAM_SIZE],
    assembly: Assembly,
}

impl Stream {
    pub const fn new() -> Stream {
        Stream { memory: [0; c::STREAM_SIZE], assembly: Assembly::new() }
    }

    /// Drops the bytes held and what is pending; a stream that ended begins anew. The next byte is a
    /// message's first.
    pub fn reset(&mut self) {
        *self = Stream::new();
    }

    /// Drops what is pending and keeps the bytes held, as a host does that sends OPEN.
    pub fn clear_assembly(&mut self) {
        self.assembly.clear();
    }

    /// How many bytes are held, of a piece that is still short.
    pub fn held(&self) -> usize {
        let [a, b, c, d, ..] = self.memory;
        u32::from_le_bytes([a, b, c, d]) as usize
    }

    /// Takes bytes up to the first answer: feed those that are not taken yet again. Of a chunk that isn't
    /// empty a byte or more is taken, or the call refuses. Output under [`MOST_INFORMATION`] bytes is
    /// refused, with nothing taken.
    ///
    /// [`MOST_INFORMATION`]: crate::MOST_INFORMATION
    pub fn feed(&mut self, chunk: &[u8], out: &mut [u8]) -> Fed {
        let c::StreamAnswer { piece, taken, ended } =
            c::stream_feed(&mut self.memory, &mut self.assembly.memory, chunk, out);
        let received = (piece.received != 0).then(|| Received::of(&piece));
        Fed { piece: piece.refusal.or(received), taken: taken as usize, ended: ended != 0 }
    }
}

impl Default for Stream {
    fn default() -> Stream {
        Stream::new()
    }
}
