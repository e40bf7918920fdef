//! Sessions over VP8 streams: frames of the streams as they are after edits, sample for sample those of decoding from the start.
//!
//! ```no_run
//! use wokureti::{Node, Script, Session};
//!
//! let mut session = Session::open("clip.webm")?;
//! session.delete(3)?;
//! let frame = session.frame(12)?;
//! println!("{}x{}, first sample {}", frame.width, frame.height, frame.y[0]);
//! std::fs::write("edited.ivf", session.save(false)?)?;
//!
//! let mut script = Script::new();
//! script.trim(Node::SOURCE_0, 83, 361);
//! session.set_script(&script)?;
//! std::fs::write("cut.ivf", session.export(true)?)?;
//! # Ok::<(), Box<dyn std::error::Error>>(())
//! ```
//!
//! A session stays on the thread that opened it:
//!
//! ```compile_fail
//! fn is_send<T: Send>() {}
//! is_send::<wokureti::Session>();
//! ```
#![warn(missing_docs)]
mod faults;
mod frames;
mod scripts;

use std::fmt::{self, Write};
use std::fs::File;
use std::io::Read;
use std::ops::{Bound, RangeBounds};
use std::path::{Path, PathBuf};
use std::ptr;

pub use faults::{Cause, Fault, FileCause, PacketCause, Refused};
pub use frames::{Frame, Frames};
pub use scripts::{Node, Script};
use wokureti_sys as sys;

/// The version of the library that the program runs with: (0, 16, 0) is 0.16.0.
pub fn library_version() -> (u32, u32, u32) {
    // SAFETY: the call takes nothing.
    let number = unsafe { sys::wk_version() };
    (number / 10000, number / 100 % 100, number % 100)
}

/// The limit of what a session caches.
#[derive(Clone, Copy, Debug, PartialEq, Eq)]
pub enum Cache {
    /// At most this many decoded states, 1 to 4,096.
    States(u16),
    /// The pictures of the cached states, four for each, take at most this many bytes, or are those of the newest state alone.
    Bytes(u64),
}

impl Default for Cache {
    /// 512 MiB.
    fn default() -> Cache {
        Cache::Bytes(512 << 20)
    }
}

impl From<u16> for Cache {
    /// This many states.
    fn from(states: u16) -> Cache {
        Cache::States(states)
    }
}

/// How many packets and frames there are, made by [`Session::count`].
#[derive(Clone, Copy, Debug, PartialEq, Eq)]
pub struct Counts {
    /// Packets of the current source.
    pub packets: u64,
    /// Frames that the script serves.
    pub frames: u64,
}

/// A packet, made by [`Session::packet`].
#[derive(Clone, PartialEq, Eq)]
pub struct Packet {
    /// The time stamp, in units of the file.
    pub stamp: u64,
    /// The bytes; none in a packet that repeats the picture before it.
    pub bytes: Vec<u8>,
}

impl fmt::Debug for Packet {
    /// The time stamp and the number of bytes.
    fn fmt(&self, f: &mut fmt::Formatter<'_>) -> fmt::Result {
        f.debug_struct("Packet").field("stamp", &self.stamp).field("size", &self.bytes.len()).finish_non_exhaustive()
    }
}

/// A session over one to eight streams. It stays on the thread that opened it.
///
/// Packets, frames and sources are counted from 0. An edit acts on the current source, source 0 at first, and returns the number of its packets. A refused
/// edit changes nothing.
pub struct Session {
    // The library gets a pointer to the handle at each call, so it lies still.
    handle: Box<sys::wk_handle>,
}

impl fmt::Debug for Session {
    fn fmt(&self, f: &mut fmt::Formatter<'_>) -> fmt::Result {
        f.debug_struct("Session").finish_non_exhaustive()
    }
}

/// Opening
impl Session {
    /// A session over an IVF, WebM or Matroska file of VP8, which caches at most 512 MiB. The file is read whole, and is not looked at again.
    pub fn open(path: impl AsRef<Path>) -> Result<Session, Fault> {
        Session::open_all([path])
    }

    /// The same over one to eight files: source 0, source 1 and so on.
    pub fn open_all<P: AsRef<Path>>(paths: impl IntoIterator<Item = P>) -> Result<Session, Fault> {
        Session::open_with(paths, Cache::default())
    }

    /// The same with a limit of what is cached: a number of states, or a [`Cache`].
    pub fn open_with<P: AsRef<Path>>(paths: impl IntoIterator<Item = P>, cache: impl Into<Cache>) -> Result<Session, Fault> {
        let (mut bytes, mut ends, mut names) = (Vec::new(), Vec::new(), Vec::new());
        for path in paths {
            let path = path.as_ref();
            if ends.len() == 8 {
                return Err(Fault::Argument);
            }
            File::open(path).and_then(|mut file| file.read_to_end(&mut bytes)).map_err(|error| Fault::Read {
                path: path.to_owned(),
                kind: error.kind(),
                reason: error.to_string(),
            })?;
            ends.push(bytes.len());
            names.push(path.to_owned());
        }
        Session::over(&bytes, &ends, &names, cache.into())
    }

    /// A session over the bytes of files.
    pub fn from_bytes(files: &[&[u8]], cache: impl Into<Cache>) -> Result<Session, Fault> {
        let (mut bytes, mut ends) = (Vec::new(), Vec::new());
        for file in files {
            bytes.try_reserve(file.len()).map_err(|_| Fault::Memory)?;
            bytes.extend_from_slice(file);
            ends.push(bytes.len());
        }
        Session::over(&bytes, &ends, &[], cache.into())
    }

    /// A session over files that lie one after the other, each up to its end.
    fn over(bytes: &[u8], ends: &[usize], names: &[PathBuf], cache: Cache) -> Result<Session, Fault> {
        let mut handle = Box::new(sys::wk_handle { at: ptr::null_mut() });
        let mut fault = sys::wk_fault::default();
        let (at, size, ends_at, sources) = (bytes.as_ptr(), bytes.len(), ends.as_ptr(), ends.len());
        // SAFETY: all pointers are to memory of the caller, with its sizes, and the handle is new.
        let status = unsafe {
            match cache {
                Cache::States(most) => sys::wk_open(&mut *handle, at, size, ends_at, sources, most, ptr::null(), 0, &mut fault),
                Cache::Bytes(most) => sys::wk_open_bytes(&mut *handle, at, size, ends_at, sources, most, ptr::null(), 0, &mut fault),
            }
        };
        match status {
            sys::WK_OK => Ok(Session { handle }),
            sys::WK_FILE => Err(Fault::File {
                source: fault.source as usize,
                path: names.get(fault.source as usize).cloned(),
                cause: FileCause::new(fault.cause),
            }),
            sys::WK_MEMORY => Err(Fault::Memory),
            _ => Err(Fault::Argument),
        }
    }
}

/// Edits
impl Session {
    /// Inserts a packet at index `at`, which may be the number of packets, with a time stamp in units of the file.
    pub fn insert(&mut self, at: u64, stamp: u64, packet: &[u8]) -> Result<u64, Fault> {
        self.edit_with(&format!("insert {at} {stamp} "), packet)
    }

    /// Gives packet `at` other bytes; it keeps its time stamp.
    pub fn replace(&mut self, at: u64, packet: &[u8]) -> Result<u64, Fault> {
        self.edit_with(&format!("replace {at} "), packet)
    }

    /// Deletes packet `at`.
    pub fn delete(&mut self, at: u64) -> Result<u64, Fault> {
        self.edit(&format!("delete {at}"))
    }

    /// Removes packet `from` and inserts it at index `to` of the remaining packets.
    pub fn move_packet(&mut self, from: u64, to: u64) -> Result<u64, Fault> {
        self.edit(&format!("move {from} {to}"))
    }

    /// Inserts a copy of packet `from` of a source at index `at`, with its time stamp.
    pub fn copy(&mut self, source: usize, from: u64, at: u64) -> Result<u64, Fault> {
        self.edit(&format!("copy {source} {from} {at}"))
    }

    /// Inserts a grey key frame of these sides, 1 to 16,383.
    pub fn blank(&mut self, at: u64, width: u32, height: u32) -> Result<u64, Fault> {
        self.edit(&format!("blank {at} {width} {height}"))
    }

    /// Inserts a packet that shows the last reference again, which usually is the frame before.
    pub fn hold(&mut self, at: u64) -> Result<u64, Fault> {
        self.edit(&format!("hold {at}"))
    }

    /// Clears the show bit of packet `at`: it is decoded as before, and no frame shows it.
    pub fn hide(&mut self, at: u64) -> Result<u64, Fault> {
        self.edit(&format!("hide {at}"))
    }

    /// Sets the show bit of packet `at`.
    pub fn show(&mut self, at: u64) -> Result<u64, Fault> {
        self.edit(&format!("show {at}"))
    }

    /// Later edits act on this source. Returns the number of its packets.
    pub fn use_source(&mut self, source: usize) -> Result<u64, Fault> {
        self.edit(&format!("use {source}"))
    }

    /// Sets the script: a [`Script`], or a text as in docs/reference/requests.md, `-` for none.
    pub fn set_script(&mut self, script: impl fmt::Display) -> Result<(), Fault> {
        self.edit(&format!("script {script}")).map(drop)
    }

    /// The number after `ok`.
    fn edit(&mut self, line: &str) -> Result<u64, Fault> {
        let reply = self.request(line)?;
        numbers(&reply, ["ok"]).map(|[packets]| packets).ok_or(Fault::Reply(reply))
    }

    /// The same for a line that ends with the bytes of a packet.
    fn edit_with(&mut self, words: &str, packet: &[u8]) -> Result<u64, Fault> {
        let mut line = String::new();
        line.try_reserve_exact(words.len() + packet.len().saturating_mul(2) + 1).map_err(|_| Fault::Memory)?;
        line.push_str(words);
        if packet.is_empty() {
            line.push('-');
        }
        for byte in packet {
            let _ = write!(line, "{byte:02x}");
        }
        self.edit(&line)
    }
}

/// Questions
impl Session {
    /// The number of packets of the current source, and of frames that the script serves.
    pub fn count(&mut self) -> Result<Counts, Fault> {
        let reply = self.request("count")?;
        let [packets, frames] = numbers(&reply, ["packets", "frames"]).ok_or(Fault::Reply(reply))?;
        Ok(Counts { packets, frames })
    }

    /// The number of packets decoded so far.
    pub fn decoded(&mut self) -> Result<u64, Fault> {
        let reply = self.request("stats")?;
        numbers(&reply, ["decoded"]).map(|[decoded]| decoded).ok_or(Fault::Reply(reply))
    }

    /// The current script, as a text that sets it again: `-` without nodes.
    pub fn script(&mut self) -> Result<String, Fault> {
        let reply = self.request("script")?;
        reply.strip_prefix("script ").map(str::to_owned).ok_or(Fault::Reply(reply))
    }

    /// Packet `at` of the current source as it is now.
    pub fn packet(&mut self, at: u64) -> Result<Packet, Fault> {
        let reply = self.request(&format!("packet {at}"))?;
        let words: Vec<&str> = reply.split(' ').collect();
        let found = match words[..] {
            ["packet", stamp, bytes] => stamp.parse().ok().zip(from_hex(bytes)),
            _ => None,
        };
        found.map(|(stamp, bytes)| Packet { stamp, bytes }).ok_or(Fault::Reply(reply))
    }

    /// The reply to any request line of docs/reference/requests.md, without its newline: one line, or `lines K` and K lines, or nothing for a comment.
    pub fn request(&mut self, line: &str) -> Result<String, Fault> {
        let mut length = 0;
        // SAFETY: the handle is this session's own, and the line is of this many bytes.
        let status = unsafe { sys::wk_request(&mut *self.handle, line.as_ptr(), line.len(), &mut length) };
        if status != sys::WK_OK {
            return Err(Fault::Memory);
        }
        let reply = String::from_utf8_lossy(&self.text(length)?).trim_end_matches('\n').to_owned();
        match reply.strip_prefix("refused ") {
            Some(words) => Err(Refused::new(words, self.reason()).into()),
            None => Ok(reply),
        }
    }

    /// Why the last line was refused, as a sentence.
    fn reason(&mut self) -> String {
        let mut length = 0;
        // SAFETY: the handle is this session's own.
        let status = unsafe { sys::wk_why(&mut *self.handle, &mut length) };
        let text = if status == sys::WK_OK { self.text(length).unwrap_or_default() } else { Vec::new() };
        let text = String::from_utf8_lossy(&text);
        // "line 2: frame: packet 60 has 2 bytes": neither the number of the line nor its command is the caller's.
        text.trim_end().splitn(3, ": ").nth(2).unwrap_or("").to_owned()
    }
}

/// Frames and files
impl Session {
    /// Frame `n` of the current script. The first frame that is served fixes the size of all.
    pub fn frame(&mut self, n: u64) -> Result<Frame, Fault> {
        let mut frame = Frame::default();
        self.frame_into(n, &mut frame)?;
        Ok(frame)
    }

    /// The same, in the memory of a frame that is used again.
    pub fn frame_into(&mut self, n: u64, frame: &mut Frame) -> Result<(), Fault> {
        loop {
            let mut shown = sys::wk_shown {
                luma_stride: frame.width as usize,
                chroma_stride: frame.width.div_ceil(2) as usize,
                ..Default::default()
            };
            // SAFETY: the three rooms are vectors of their own, with their sizes.
            let status = unsafe {
                sys::wk_frame(
                    &mut *self.handle,
                    n,
                    frame.y.as_mut_ptr(),
                    frame.y.len(),
                    frame.cb.as_mut_ptr(),
                    frame.cb.len(),
                    frame.cr.as_mut_ptr(),
                    frame.cr.len(),
                    &mut shown,
                )
            };
            match status {
                sys::WK_OK if frame.has_size(shown.width, shown.height) => return Ok(()),
                sys::WK_OK | sys::WK_ROOM => {
                    if !frame.resize(shown.width, shown.height) {
                        return Err(Fault::Memory);
                    }
                }
                // The reply names the cause.
                _ => return Err(self.request(&format!("frame {n}")).err().unwrap_or(Fault::Memory)),
            }
        }
    }

    /// The frames of the current script in order, of a range: `session.frames(..)` has all, `session.frames(10..20)` ten. The end is that of the script as
    /// it is now.
    ///
    /// ```no_run
    /// # let mut session = wokureti::Session::open("clip.ivf")?;
    /// for frame in session.frames(..) {
    ///     match frame {
    ///         Ok(frame) => println!("{frame:?}"),
    ///         Err(fault) => println!("{fault}"),
    ///     }
    /// }
    /// # Ok::<(), wokureti::Fault>(())
    /// ```
    pub fn frames(&mut self, range: impl RangeBounds<u64>) -> Frames<'_> {
        let first = match range.start_bound() {
            Bound::Included(&first) => first,
            Bound::Excluded(&before) => before.saturating_add(1),
            Bound::Unbounded => 0,
        };
        let end = match range.end_bound() {
            Bound::Included(&last) => last.saturating_add(1),
            Bound::Excluded(&end) => end,
            Bound::Unbounded => u64::MAX,
        };
        let left = self.count().map(|counts| first..end.min(counts.frames));
        Frames::new(self, left)
    }

    /// The current packets of source 0 as an IVF file; with `pads` players that use libvpx show forged packets too.
    pub fn save(&mut self, pads: bool) -> Result<Vec<u8>, Fault> {
        self.save_source(0, pads, false)
    }

    /// The current packets of a source as an IVF file; with `pads` as by `save`, with `restamps` with new time stamps, by which each shown packet stays as
    /// long as in its file. Refused as [`Cause::Source`] if there is no such source.
    pub fn save_source(&mut self, source: usize, pads: bool, restamps: bool) -> Result<Vec<u8>, Fault> {
        let mut length = 0;
        // SAFETY: the handle is this session's own.
        match unsafe { sys::wk_save_source(&mut *self.handle, source, pads, restamps, &mut length) } {
            sys::WK_OK => self.text(length),
            sys::WK_SOURCE => Err(Refused::new("Source", format!("there is no source {source}")).into()),
            _ => Err(Fault::Memory),
        }
    }

    /// The frames of the current script as an IVF file, without coding again: decoding it gives exactly these frames. It is padded,
    /// whatever `pads` is.
    pub fn export(&mut self, pads: bool) -> Result<Vec<u8>, Fault> {
        let mut length = 0;
        let mut found = sys::wk_unexported::default();
        // SAFETY: the handle is this session's own.
        let status = unsafe { sys::wk_export(&mut *self.handle, pads, &mut length, &mut found) };
        match status {
            sys::WK_OK => self.text(length),
            sys::WK_MEMORY | sys::WK_NO_MEMORY => Err(Fault::Memory),
            sys::WK_CHANGED => Err(Fault::Changed {
                frame: found.frame,
                node: found.node,
            }),
            sys::WK_EXPORT_FULL => Err(Fault::Full),
            sys::WK_EXPORT_PLACE..=sys::WK_EXPORT_TOO_LARGE => Err(Fault::NoHold),
            // The reply names the cause.
            _ => Err(match self.request(&format!("frame {}", found.frame)) {
                Err(Fault::Refused(refused)) => Fault::Unserved { frame: found.frame, refused },
                _ => Fault::Memory,
            }),
        }
    }

    /// The text that the last call left.
    fn text(&mut self, length: usize) -> Result<Vec<u8>, Fault> {
        let (mut room, mut copied) = (Vec::new(), 0);
        room.try_reserve_exact(length).map_err(|_| Fault::Memory)?;
        room.resize(length, 0);
        // SAFETY: the room has this many bytes.
        match unsafe { sys::wk_text(&mut *self.handle, room.as_mut_ptr(), room.len(), &mut copied) } {
            sys::WK_OK => {
                room.truncate(copied);
                Ok(room)
            }
            _ => Err(Fault::Memory),
        }
    }
}

impl Drop for Session {
    fn drop(&mut self) {
        // SAFETY: the handle is this session's own, and no call follows.
        unsafe { sys::wk_close(&mut *self.handle) }
    }
}

/// The numbers of a reply that has these words before them, in order.
fn numbers<const COUNT: usize>(reply: &str, words: [&str; COUNT]) -> Option<[u64; COUNT]> {
    let mut found = [0; COUNT];
    let mut rest = reply.split(' ');
    for (word, number) in words.iter().zip(&mut found) {
        rest.next().filter(|given| given == word)?;
        *number = rest.next()?.parse().ok()?;
    }
    rest.next().is_none().then_some(found)
}

/// The bytes of a text in hexadecimal digits, `-` for none.
fn from_hex(text: &str) -> Option<Vec<u8>> {
    if text == "-" {
        return Some(Vec::new());
    }
    let mut bytes = Vec::new();
    bytes.try_reserve_exact(text.len() / 2).ok()?;
    for pair in text.as_bytes().chunks(2) {
        let [high, low] = pair else { return None };
        bytes.push((char::from(*high).to_digit(16)? * 16 + char::from(*low).to_digit(16)?) as u8);
    }
    Some(bytes)
}
