//! Why a call has no result.
use std::error::Error;
use std::fmt;
use std::io;
use std::path::PathBuf;

/// Why a call has no result. Packets, script and current source are as before, except with [`Fault::Memory`].
#[derive(Clone, Debug, PartialEq, Eq)]
#[non_exhaustive]
pub enum Fault {
    /// There are no files or more than eight, or the number of cached states is not 1 to 4,096.
    Argument,
    /// A file cannot be read.
    Read {
        /// Its path.
        path: PathBuf,
        /// The kind of the error.
        kind: io::ErrorKind,
        /// The system's reason.
        reason: String,
    },
    /// The bytes of a source are not an IVF, WebM or Matroska file of VP8.
    File {
        /// The source, counted from 0.
        source: usize,
        /// The path of the file, if it was opened by one.
        path: Option<PathBuf>,
        /// Why.
        cause: FileCause,
    },
    /// Out of memory. An edit may have been made, if there was none for its reply only: [`Session::count`](crate::Session::count) tells.
    Memory,
    /// The request was refused.
    Refused(Refused),
    /// The frames are not exported: the script changes samples of a frame.
    Changed {
        /// The first such frame, counted from 0.
        frame: u64,
        /// The first node of the script that changes it, counted from 1.
        node: u64,
    },
    /// The frames are not exported: a request for a frame is refused.
    Unserved {
        /// The first such frame, counted from 0.
        frame: u64,
        /// Why it is refused.
        refused: Refused,
    },
    /// The frames are not exported: there would be more than 1,048,576 packets or 1,073,741,824 bytes.
    Full,
    /// The frames are not exported: no packet repeats a frame of this size.
    NoHold,
    /// The library answers in a form that this version of the crate does not know: its reply.
    Reply(String),
}

impl Fault {
    /// The refusal, if that is why: also that of a frame that is not exported.
    pub fn refused(&self) -> Option<&Refused> {
        match self {
            Fault::Refused(refused) | Fault::Unserved { refused, .. } => Some(refused),
            _ => None,
        }
    }
}

impl fmt::Display for Fault {
    fn fmt(&self, f: &mut fmt::Formatter<'_>) -> fmt::Result {
        match self {
            Fault::Argument => write!(f, "one to eight files and 1 to 4096 states are allowed"),
            Fault::Read { path, reason, .. } => write!(f, "cannot read {}: {reason}", path.display()),
            Fault::File { source, path: None, cause } => write!(f, "source {source} is not an IVF, WebM or Matroska file of VP8: {cause:?}"),
            Fault::File { path: Some(path), cause, .. } => write!(f, "{} is not an IVF, WebM or Matroska file of VP8: {cause:?}", path.display()),
            Fault::Memory => write!(f, "out of memory"),
            Fault::Refused(refused) => refused.fmt(f),
            Fault::Changed { frame, node } => write!(f, "frame {frame} is changed by node {node}"),
            Fault::Unserved { frame, refused } => write!(f, "frame {frame}: {refused}"),
            Fault::Full => write!(f, "too many packets"),
            Fault::NoHold => write!(f, "no packet repeats a frame of this size"),
            Fault::Reply(reply) => write!(f, "an unknown reply: {reply}"),
        }
    }
}

impl Error for Fault {
    fn source(&self) -> Option<&(dyn Error + 'static)> {
        match self {
            Fault::Unserved { refused, .. } => Some(refused),
            _ => None,
        }
    }
}

impl From<Refused> for Fault {
    fn from(refused: Refused) -> Fault {
        Fault::Refused(refused)
    }
}

/// A refused request: an edit or a script that changed nothing, or a frame that is not served.
#[derive(Clone, Debug, PartialEq, Eq)]
#[non_exhaustive]
pub struct Refused {
    /// Why.
    pub cause: Cause,
    /// The source that a refused packet is of, counted from 0, if `cause` is [`Cause::Packet`].
    pub source: Option<usize>,
    /// The refused packet of that source, counted from 0.
    pub packet: Option<u64>,
    /// A sentence, for example `packet 7 has 2 bytes, a tag needs 3`. Empty if the library has none.
    pub reason: String,
    /// The words of the reply after `refused`.
    words: String,
}

impl Refused {
    /// The refusal of a reply, without the word `refused`.
    pub(crate) fn new(words: &str, reason: String) -> Refused {
        let mut rest = words.split(' ').peekable();
        let source = rest.next_if_eq(&"source").and_then(|_| rest.next()).and_then(|word| word.parse().ok());
        let packet = rest.next_if_eq(&"packet").and_then(|_| rest.next()).and_then(|word| word.parse().ok());
        let cause = match (packet, rest.next().unwrap_or("")) {
            (Some(_), word) => Cause::Packet(PacketCause::new(word, rest.next())),
            (None, word) => Cause::new(word),
        };
        Refused {
            source: packet.map(|_: u64| source.unwrap_or(0)),
            packet,
            cause,
            reason,
            words: words.to_owned(),
        }
    }
}

impl fmt::Display for Refused {
    /// The reply, and the reason: `refused packet 7 ShortPacket: packet 7 has 2 bytes, a tag needs 3`.
    fn fmt(&self, f: &mut fmt::Formatter<'_>) -> fmt::Result {
        write!(f, "refused {}", self.words)?;
        if self.reason.is_empty() {
            return Ok(());
        }
        write!(f, ": {}", self.reason)
    }
}

impl Error for Refused {}

/// Why a request is refused: the words of docs/reference/requests.md.
#[derive(Clone, Copy, Debug, PartialEq, Eq, Hash)]
#[non_exhaustive]
pub enum Cause {
    /// There is no such request, or it has other words.
    Line,
    /// There is no such source.
    Source,
    /// There is no such packet.
    Place,
    /// The stream has 1,048,576 packets.
    Full,
    /// No packet id is left.
    Spent,
    /// A side is 0 or above 16,383, or no key packet before has a size.
    Size,
    /// The first partition of the forged packet would be too large.
    TooLarge,
    /// The script serves fewer frames.
    NoSuchFrame,
    /// Decoding refuses a packet, for this cause.
    Packet(PacketCause),
    /// A crop reaches past the edge of the picture.
    CropOutside,
    /// The frame has another size than the first frame that was served.
    SizeDiffers,
    /// The script has a node that is none.
    Syntax,
    /// The script has over 16 nodes.
    Nodes,
    /// A node names a node or a source that is not before it.
    Reference,
    /// A number of the script is out of range.
    Number,
    /// Out of memory.
    NoMemory,
    /// The packet has fewer than 3 bytes, so it has no show bit.
    NoBit,
    /// A cause that this version of the crate does not know.
    Other,
}

impl Cause {
    fn new(word: &str) -> Cause {
        match word {
            "Line" => Cause::Line,
            "Source" => Cause::Source,
            "Place" => Cause::Place,
            "Full" => Cause::Full,
            "Spent" => Cause::Spent,
            "Size" => Cause::Size,
            "TooLarge" => Cause::TooLarge,
            "NoSuchFrame" => Cause::NoSuchFrame,
            "CropOutside" => Cause::CropOutside,
            "SizeDiffers" => Cause::SizeDiffers,
            "Syntax" => Cause::Syntax,
            "Nodes" => Cause::Nodes,
            "Reference" => Cause::Reference,
            "Number" => Cause::Number,
            "NoMemory" => Cause::NoMemory,
            "NoBit" => Cause::NoBit,
            _ => Cause::Other,
        }
    }
}

/// Why decoding refuses a packet.
#[derive(Clone, Copy, Debug, PartialEq, Eq, Hash)]
#[non_exhaustive]
pub enum PacketCause {
    /// 1 or 2 bytes, or under 10 in a packet with a key tag.
    ShortPacket,
    /// Version 4 to 7.
    Version,
    /// The start code of a key frame is not `9D 01 2A`.
    StartCode,
    /// Width or height 0.
    Size,
    /// No key frame before an inter frame or a packet of no bytes.
    NoKeyFrame,
    /// The first partition is longer than the packet.
    FirstPartition,
    /// The packet ends inside the sizes of the token partitions.
    TokenSizes,
    /// This token partition is longer than the rest of the packet.
    TokenPartition(u8),
    /// A cause that this version of the crate does not know.
    Other,
}

impl PacketCause {
    fn new(word: &str, number: Option<&str>) -> PacketCause {
        match word {
            "ShortPacket" => PacketCause::ShortPacket,
            "Version" => PacketCause::Version,
            "StartCode" => PacketCause::StartCode,
            "Size" => PacketCause::Size,
            "NoKeyFrame" => PacketCause::NoKeyFrame,
            "FirstPartition" => PacketCause::FirstPartition,
            "TokenSizes" => PacketCause::TokenSizes,
            "TokenPartition" => number.and_then(|word| word.parse().ok()).map_or(PacketCause::Other, PacketCause::TokenPartition),
            _ => PacketCause::Other,
        }
    }
}

/// Why a file is refused. `FourCc` and `HeaderLength` are of IVF files, the last five of files that begin with EBML's mark.
#[derive(Clone, Copy, Debug, PartialEq, Eq, Hash)]
#[non_exhaustive]
pub enum FileCause {
    /// The header is not whole.
    Header,
    /// The file begins neither with `DKIF` nor with EBML's mark.
    Magic,
    /// The codec is not `VP80`.
    FourCc,
    /// The length of the header is under 32 or past the end.
    HeaderLength,
    /// More than 1,048,576 packets.
    TooMany,
    /// Out of memory.
    NoMemory,
    /// Neither WebM nor Matroska.
    DocType,
    /// No list of tracks.
    NoTracks,
    /// No track of VP8.
    NoVideo,
    /// The packets are compressed or encrypted once more.
    Encoded,
    /// The unit of time is 0, or 2^32 ns or more.
    Scale,
    /// A cause that this version of the crate does not know: its number.
    Other(u32),
}

impl FileCause {
    pub(crate) fn new(number: u32) -> FileCause {
        match number {
            1 => FileCause::Header,
            2 => FileCause::Magic,
            3 => FileCause::FourCc,
            4 => FileCause::HeaderLength,
            5 => FileCause::TooMany,
            6 => FileCause::NoMemory,
            7 => FileCause::DocType,
            8 => FileCause::NoTracks,
            9 => FileCause::NoVideo,
            10 => FileCause::Encoded,
            11 => FileCause::Scale,
            _ => FileCause::Other(number),
        }
    }
}
