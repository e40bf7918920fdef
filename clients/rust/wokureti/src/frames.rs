//! Frames, and those of a session in order.
use std::fmt;
use std::ops::Range;

use crate::{Fault, Session};

/// A frame: its size, and its planes by rows. The samples are BT.601's, luma of 16 to 235.
#[derive(Clone, Default, PartialEq, Eq)]
pub struct Frame {
    /// Luma samples in a row.
    pub width: u32,
    /// Rows of luma samples.
    pub height: u32,
    /// Luma: `width` x `height` samples.
    pub y: Vec<u8>,
    /// Blue chroma: half of each side, rounded up.
    pub cb: Vec<u8>,
    /// Red chroma, of the same size.
    pub cr: Vec<u8>,
}

impl Frame {
    /// Whether the frame has this size, and planes for it.
    pub(crate) fn has_size(&self, width: u32, height: u32) -> bool {
        let (luma, chroma) = samples(width, height);
        (self.width, self.height) == (width, height) && (self.y.len(), self.cb.len(), self.cr.len()) == (luma, chroma, chroma)
    }

    /// Gives the planes the sizes of a frame. Whether there is memory for that.
    pub(crate) fn resize(&mut self, width: u32, height: u32) -> bool {
        let (luma, chroma) = samples(width, height);
        let mut is_sized = true;
        for (plane, size) in [(&mut self.y, luma), (&mut self.cb, chroma), (&mut self.cr, chroma)] {
            is_sized = is_sized && plane.try_reserve_exact(size.saturating_sub(plane.len())).is_ok();
            if is_sized {
                plane.resize(size, 0);
            }
        }
        (self.width, self.height) = (width, height);
        is_sized
    }
}

/// The number of samples of the luma plane and of a chroma plane.
fn samples(width: u32, height: u32) -> (usize, usize) {
    let (across, down) = (width as usize, height as usize);
    (across.saturating_mul(down), across.div_ceil(2).saturating_mul(down.div_ceil(2)))
}

impl fmt::Debug for Frame {
    /// The size, without the samples.
    fn fmt(&self, f: &mut fmt::Formatter<'_>) -> fmt::Result {
        f.debug_struct("Frame").field("width", &self.width).field("height", &self.height).finish_non_exhaustive()
    }
}

/// The frames of a session in order, made by [`Session::frames`]. A frame that is refused is an error, and the next one follows.
#[derive(Debug)]
pub struct Frames<'s> {
    session: &'s mut Session,
    left: Range<u64>,
    /// Why the frames were not counted.
    fault: Option<Fault>,
}

impl<'s> Frames<'s> {
    pub(crate) fn new(session: &'s mut Session, left: Result<Range<u64>, Fault>) -> Frames<'s> {
        let (left, fault) = match left {
            Ok(left) => (left, None),
            Err(fault) => (0..0, Some(fault)),
        };
        Frames { session, left, fault }
    }

    fn served(&mut self, number: Option<u64>) -> Option<Result<Frame, Fault>> {
        match self.fault.take() {
            Some(fault) => Some(Err(fault)),
            None => number.map(|number| self.session.frame(number)),
        }
    }
}

impl Iterator for Frames<'_> {
    type Item = Result<Frame, Fault>;

    fn next(&mut self) -> Option<Result<Frame, Fault>> {
        let number = self.left.next();
        self.served(number)
    }

    fn size_hint(&self) -> (usize, Option<usize>) {
        let (least, most) = self.left.size_hint();
        let more = usize::from(self.fault.is_some());
        (least.saturating_add(more), most.and_then(|most| most.checked_add(more)))
    }

    /// The frames before are not decoded for themselves.
    fn nth(&mut self, n: usize) -> Option<Result<Frame, Fault>> {
        let number = self.left.nth(n);
        self.served(number)
    }
}

impl DoubleEndedIterator for Frames<'_> {
    fn next_back(&mut self) -> Option<Result<Frame, Fault>> {
        let number = self.left.next_back();
        self.served(number)
    }
}
