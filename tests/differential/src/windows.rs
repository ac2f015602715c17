//! The memory that is lent to the archive: areas in noise, before and after a call.

use crate::noise::Noise;
use std::borrow::Cow;
use std::ops::Range;

/// Where the lent bytes of an area begin, and how many there are.
pub type Lent = (*mut u8, usize);

/// Memory around an area: what is lent, and surroundings that must stay as they are.
pub struct Window {
    pub start: *mut u8,
    pub length: usize,
    /// The lent part, counted from the start.
    pub lent: Range<usize>,
}

impl Window {
    pub fn lent(&self) -> Lent {
        // SAFETY: the lent part lies in the window.
        (unsafe { self.start.add(self.lent.start) }, self.lent.len())
    }

    fn bytes(&self) -> &[u8] {
        // SAFETY: a window is readable and nobody else writes to it.
        unsafe { std::slice::from_raw_parts(self.start, self.length) }
    }

    fn fill(&self, bytes: &[u8]) {
        assert_eq!(bytes.len(), self.length);
        // SAFETY: a window is writable, and `bytes` is no part of it.
        unsafe { std::ptr::copy_nonoverlapping(bytes.as_ptr(), self.start, self.length) }
    }
}

/// The lent parts of all windows.
pub fn lent_parts<const N: usize>(windows: &[Window; N]) -> [Lent; N] {
    windows.each_ref().map(Window::lent)
}

/// An area before and after a call.
#[derive(Clone)]
pub struct Seen<'a> {
    pub before: &'a [u8],
    pub after: &'a [u8],
    pub lent: Range<usize>,
}

/// What the windows hold before a call.
pub struct Before<'n, const N: usize>([Cow<'n, [u8]>; N]);

impl<'n, const N: usize> Before<'n, N> {
    /// Fills the windows with noise, and the lent parts of some areas with what is given for them.
    pub fn fill(
        windows: &[Window; N],
        given: &[(usize, impl AsRef<[u8]>)],
        noise: &'n Noise,
        salt: u64,
    ) -> Before<'n, N> {
        Before(std::array::from_fn(|area| {
            let window = &windows[area];
            let mut bytes = noise.before(salt, area, window.length);
            if let Some((_, given)) = given.iter().find(|(number, _)| *number == area) {
                bytes.to_mut()[window.lent.clone()].copy_from_slice(given.as_ref());
            }
            window.fill(&bytes);
            bytes
        }))
    }

    /// All areas as they were and as they are now.
    pub fn seen<'a>(&'a self, windows: &'a [Window; N]) -> [Seen<'a>; N] {
        std::array::from_fn(|area| Seen {
            before: &self.0[area],
            after: windows[area].bytes(),
            lent: windows[area].lent.clone(),
        })
    }
}
