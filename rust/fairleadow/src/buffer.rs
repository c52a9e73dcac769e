use core::fmt;
use core::ops::Deref;

/// Bytes that a value holds itself: room for `N`, of which as many are in use as were written. It reads as a slice of these.
///
/// ```
/// use fairleadow::{Chart, Image};
///
/// let chart = Chart::parse("00010001000000000000FE\n01010000000000000000FE\n")?;
/// let image = Image::of(&chart)?;
/// assert_eq!(&image.text()[..23], b"0F010100000000000000EF\n");
/// # Ok::<(), fairleadow::Refusal>(())
/// ```
#[derive(Clone)]
pub struct Buffer<const N: usize> {
    bytes: [u8; N],
    length: usize,
}

impl<const N: usize> Buffer<N> {
    /// What a call writes, which tells how many bytes these are.
    pub(crate) fn filled<E>(write: impl FnOnce(&mut [u8]) -> Result<usize, E>) -> Result<Self, E> {
        let mut filled = Buffer { bytes: [0; N], length: 0 };
        filled.length = write(&mut filled.bytes)?;
        Ok(filled)
    }
}

impl<const N: usize> Deref for Buffer<N> {
    type Target = [u8];

    fn deref(&self) -> &[u8] {
        &self.bytes[..self.length]
    }
}

impl<const N: usize> AsRef<[u8]> for Buffer<N> {
    fn as_ref(&self) -> &[u8] {
        self
    }
}

impl<const N: usize> PartialEq for Buffer<N> {
    fn eq(&self, other: &Self) -> bool {
        **self == **other
    }
}

impl<const N: usize> Eq for Buffer<N> {}

impl<const N: usize> fmt::Debug for Buffer<N> {
    fn fmt(&self, f: &mut fmt::Formatter<'_>) -> fmt::Result {
        write!(f, "Buffer({})", self.escape_ascii())
    }
}
