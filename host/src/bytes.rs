//! Writing and reading byte forms from front to back, numbers big-endian.
use crate::Refusal;

/// Writes what comes next. The form's size says that it fits.
pub(crate) struct Writer<'a>(pub &'a mut [u8]);

impl Writer<'_> {
    pub fn put(&mut self, bytes: &[u8]) {
        let (here, rest) = core::mem::take(&mut self.0).split_at_mut(bytes.len());
        here.copy_from_slice(bytes);
        self.0 = rest;
    }

    /// Leaves `n` bytes as they are: zero, in a form that is being written.
    pub fn skip(&mut self, n: usize) {
        self.0 = core::mem::take(&mut self.0).split_at_mut(n).1;
    }

    /// A flag and what it says is there, or zeros.
    pub fn put_or_zero(&mut self, bytes: Option<&[u8]>, size: usize) {
        self.put(&[u8::from(bytes.is_some())]);
        match bytes {
            Some(bytes) => self.put(bytes),
            None => self.skip(size),
        }
    }
}

/// Reads what comes next. The form's size says that it is there.
pub(crate) struct Reader<'a>(pub &'a [u8]);

impl<'a> Reader<'a> {
    pub fn bytes(&mut self, n: usize) -> &'a [u8] {
        let (here, rest) = self.0.split_at(n);
        self.0 = rest;
        here
    }

    pub fn array<const N: usize>(&mut self) -> [u8; N] {
        self.bytes(N).try_into().expect("N bytes")
    }

    pub fn u8(&mut self) -> u8 {
        self.bytes(1)[0]
    }

    pub fn u32(&mut self) -> u32 {
        u32::from_be_bytes(self.array())
    }

    pub fn u64(&mut self) -> u64 {
        u64::from_be_bytes(self.array())
    }
}

/// A record with one byte form of a fixed size.
pub trait ByteForm: Sized {
    /// The bytes of the form.
    const SIZE: usize;

    /// Writes the form into `out`, which is `SIZE` zero bytes.
    #[doc(hidden)]
    fn write(&self, out: &mut [u8]);

    /// Reads the form from `SIZE` bytes; what `write` would write otherwise may pass.
    #[doc(hidden)]
    fn read(bytes: &[u8]) -> Result<Self, Refusal>;

    /// Writes the form into a slice of exactly its size; 3 for any other.
    fn to_slice(&self, out: &mut [u8]) -> Result<(), Refusal> {
        if out.len() != Self::SIZE {
            return Err(Refusal::Form);
        }
        out.fill(0);
        self.write(out);
        Ok(())
    }
}

/// The largest form: a walk item's.
pub(crate) const LARGEST: usize = 1003;

/// Reads a value from its one byte form: bytes that the value would not be written as are 3.
pub(crate) fn read_exact<T: ByteForm>(bytes: &[u8]) -> Result<T, Refusal> {
    if bytes.len() != T::SIZE {
        return Err(Refusal::Form);
    }
    let value = T::read(bytes)?;
    let again = &mut [0; LARGEST][..T::SIZE];
    value.write(again);
    if again == bytes { Ok(value) } else { Err(Refusal::Form) }
}

/// `to_bytes` and `from_bytes` of a type with a byte form.
macro_rules! byte_form {
    ($type:ty, $size:literal) => {
        impl $type {
            /// The bytes of its form.
            pub const SIZE: usize = $size;

            /// Its byte form.
            pub fn to_bytes(&self) -> [u8; $size] {
                let mut out = [0; $size];
                $crate::bytes::ByteForm::write(self, &mut out);
                out
            }

            /// The value of a byte form; bytes not in form are 3, or 1 or 2 where document 01 has these first.
            pub fn from_bytes(bytes: &[u8]) -> Result<Self, $crate::Refusal> {
                $crate::bytes::read_exact::<Self>(bytes)
            }
        }
    };
}
pub(crate) use byte_form;
