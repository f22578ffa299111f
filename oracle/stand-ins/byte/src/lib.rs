//! Stand-in for the crate `byte`: what files 000 to 004 call of it.
//!
//! It decides the bytes of a number, and that a read or a write past the end is refused and moves nothing.

/// Why a read or a write was refused.
#[derive(Debug, Clone, Copy, PartialEq, Eq)]
pub enum Error {
    Incomplete,
    BadOffset(usize),
    BadInput { err: &'static str },
}

pub type Result<T> = core::result::Result<T, Error>;

/// What a value is read or written by.
pub mod ctx {
    /// The order of a number's bytes. The files name no other.
    #[derive(Debug, Clone, Copy, PartialEq, Eq)]
    pub enum Endian {
        Little,
    }

    pub const LE: Endian = Endian::Little;

    /// How many bytes a slice takes.
    #[derive(Debug, Clone, Copy, PartialEq, Eq)]
    pub enum Bytes {
        Len(usize),
    }
}

/// A value at the front of bytes, and how many it took.
pub trait TryRead<'a, Ctx>: Sized {
    fn try_read(bytes: &'a [u8], ctx: Ctx) -> Result<(Self, usize)>;
}

/// Puts a value at the front of bytes, and says how many it took.
pub trait TryWrite<Ctx> {
    fn try_write(self, bytes: &mut [u8], ctx: Ctx) -> Result<usize>;
}

/// Reading and writing at an offset, which moves behind the value.
pub trait BytesExt<Ctx> {
    fn read_with<'a, T: TryRead<'a, Ctx>>(&'a self, offset: &mut usize, ctx: Ctx) -> Result<T>;
    fn write_with<T: TryWrite<Ctx>>(
        &mut self,
        offset: &mut usize,
        value: T,
        ctx: Ctx,
    ) -> Result<()>;
}

impl<Ctx> BytesExt<Ctx> for [u8] {
    fn read_with<'a, T: TryRead<'a, Ctx>>(&'a self, offset: &mut usize, ctx: Ctx) -> Result<T> {
        let bytes = self.get(*offset..).ok_or(Error::BadOffset(*offset))?;
        let (value, taken) = T::try_read(bytes, ctx)?;
        *offset += taken;
        Ok(value)
    }

    fn write_with<T: TryWrite<Ctx>>(
        &mut self,
        offset: &mut usize,
        value: T,
        ctx: Ctx,
    ) -> Result<()> {
        let bytes = self.get_mut(*offset..).ok_or(Error::BadOffset(*offset))?;
        *offset += value.try_write(bytes, ctx)?;
        Ok(())
    }
}

macro_rules! number {
    ($($number:ty),*) => {$(
        impl TryRead<'_, ctx::Endian> for $number {
            fn try_read(bytes: &[u8], ctx::Endian::Little: ctx::Endian) -> Result<(Self, usize)> {
                let front = bytes.first_chunk().ok_or(Error::Incomplete)?;
                Ok((<$number>::from_le_bytes(*front), front.len()))
            }
        }

        impl TryWrite<ctx::Endian> for $number {
            fn try_write(self, bytes: &mut [u8], ctx::Endian::Little: ctx::Endian) -> Result<usize> {
                let front = bytes.first_chunk_mut().ok_or(Error::Incomplete)?;
                *front = self.to_le_bytes();
                Ok(front.len())
            }
        }
    )*};
}

number!(u8, u16, u64);

impl<'a> TryRead<'a, ctx::Bytes> for &'a [u8] {
    fn try_read(bytes: &'a [u8], ctx::Bytes::Len(len): ctx::Bytes) -> Result<(Self, usize)> {
        Ok((bytes.get(..len).ok_or(Error::Incomplete)?, len))
    }
}
