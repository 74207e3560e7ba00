//! The proved lesson formatter, for Rust: safe functions over byte slices.
//!
//! What the bytes mean is document 01's: stored options, chunk lists and trees. A caller checks
//! nothing beforehand: any bytes are answered by a text or by a refusal with its place. A call
//! takes no memory but the buffers that are lent to it and its stack (`bench/RESULTS.md`; 56,000
//! bytes for the deepest trees). After a refusal the text buffer holds its earlier bytes.
use std::fmt;

mod calls;

/// Why a call was refused, in checking order.
#[derive(Clone, Copy, Debug, PartialEq, Eq, Hash, PartialOrd, Ord)]
#[repr(u8)]
pub enum Reason {
    /// The options have no bytes, or their length does not go with their map. The place is 0.
    OptionsLength = 1,
    /// A value of the options is too large. The place is that of the first such byte.
    OptionsValue = 2,
    /// The tree has no bytes, or more than 65,535. The place is 0.
    TreeLength = 3,
    /// A record stands deeper than 64. The place is the record's.
    TreeDepth = 4,
    /// A record breaks the layout, or is missing, or bytes follow the tree. The place is the first
    /// such byte's.
    TreeLayout = 5,
    /// The chunk list breaks its layout (the place of the first bad chunk) or is too long (0).
    ChunkLayout = 6,
    /// A text has a byte above 127. The place is that of the first.
    NotAscii = 7,
    /// The chunks need more than the work room. The place is the length needed at that push.
    WorkRoom = 8,
    /// The text is longer than its buffer. The place is the text's length.
    TextRoom = 9,
}

impl Reason {
    const ALL: [Reason; 9] = [
        Reason::OptionsLength,
        Reason::OptionsValue,
        Reason::TreeLength,
        Reason::TreeDepth,
        Reason::TreeLayout,
        Reason::ChunkLayout,
        Reason::NotAscii,
        Reason::WorkRoom,
        Reason::TextRoom,
    ];

    /// The number of document 01, 1 to 9.
    pub fn number(self) -> u8 {
        self as u8
    }

    /// A few words for a person.
    pub fn name(self) -> &'static str {
        match self {
            Reason::OptionsLength => "the options' length does not go with their map",
            Reason::OptionsValue => "a value of the options is too large",
            Reason::TreeLength => "the tree is empty or too long",
            Reason::TreeDepth => "the tree is too deep",
            Reason::TreeLayout => "the tree breaks its layout",
            Reason::ChunkLayout => "the chunk list breaks its layout",
            Reason::NotAscii => "a text has a byte above 127",
            Reason::WorkRoom => "the work room is too small",
            Reason::TextRoom => "the text buffer is too small",
        }
    }
}

/// A refusal: its reason, and the place that goes with it.
#[derive(Clone, Copy, Debug, PartialEq, Eq, Hash)]
pub struct Refusal {
    pub reason: Reason,
    pub place: usize,
}

impl fmt::Display for Refusal {
    fn fmt(&self, f: &mut fmt::Formatter) -> fmt::Result {
        write!(
            f,
            "{} (number {}, place {})",
            self.reason.name(),
            self.reason.number(),
            self.place
        )
    }
}

impl std::error::Error for Refusal {}

/// Takes a packed answer apart: 2^32 times the refusal's number, plus the length or the place.
fn unpacked(answer: u64) -> Result<usize, Refusal> {
    let value = (answer & 0xffff_ffff) as usize;
    match answer >> 32 {
        0 => Ok(value),
        number => Err(Refusal {
            reason: Reason::ALL[number as usize - 1],
            place: value,
        }),
    }
}

/// Sets a stored chunk list in columns. The text stands at the buffer's start and its length is
/// given.
///
/// Refused by 1, 2, 6, 7 or 9.
pub fn join_chunks(chunks: &[u8], options: &[u8], text: &mut [u8]) -> Result<usize, Refusal> {
    unpacked(calls::join_chunks(chunks, options, text))
}

/// Formats a stored tree. The text stands at the buffer's start and its length is given; the work
/// room is all zeros afterwards.
///
/// Refused by 1, 2, 3, 4, 5, 7, 8 or 9.
pub fn format(
    tree: &[u8],
    options: &[u8],
    work: &mut [u8],
    text: &mut [u8],
) -> Result<usize, Refusal> {
    unpacked(calls::format(tree, options, work, text))
}

/// Walks a stored tree. Its chunks stand stored at the room's start and their length is given.
///
/// Refused by 1, 2, 3, 4, 5, 7 or 8.
pub fn chunks(tree: &[u8], options: &[u8], room: &mut [u8]) -> Result<usize, Refusal> {
    unpacked(calls::chunks(tree, options, room))
}

/// Judges a stored tree. Refused by 3, 4, 5 or 7.
pub fn check_tree(tree: &[u8]) -> Result<(), Refusal> {
    unpacked(calls::check_tree(tree)).map(|_| ())
}

/// A record that uses one of the eight places at which the formatter may lose a comment, print it
/// twice, or drop a character.
#[derive(Clone, Copy, Debug, PartialEq, Eq, Hash)]
pub struct Loss {
    /// Where the record stands in the tree.
    pub offset: usize,
    places: u8,
}

impl Loss {
    /// The letters of the places that it uses, `'a'` to `'h'`; most often one.
    pub fn letters(self) -> impl Iterator<Item = char> {
        (0..8u8).filter(move |place| self.places >> place & 1 == 1).map(|place| (b'a' + place) as char)
    }

    /// Whether ink is lost or doubled: by every place but (f), a register letter, whose comment is
    /// printed.
    pub fn loses_ink(self) -> bool {
        self.places & !(1 << 5) != 0
    }
}

/// The first record at or after an offset that uses a place. Asked again from `offset + 1` it tells
/// of all.
///
/// Refused by 3, 4, 5 or 7.
pub fn lost(tree: &[u8], from: usize) -> Result<Option<Loss>, Refusal> {
    let value = unpacked(calls::lost(tree, from))?;
    Ok((value != 0).then_some(Loss { offset: value % 65536, places: (value / 65536) as u8 }))
}

/// Whether a line has a byte that is not blank; the scan stops at the first. Blank are the bytes 9
/// to 13 and 32.
pub fn has_ink(line: &[u8]) -> bool {
    calls::has_ink(line)
}
