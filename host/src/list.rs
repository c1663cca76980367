//! Lists of bounded length, held in place.
use crate::Refusal;

/// At most `N` values. It reads as a slice.
#[derive(Clone, Copy)]
pub struct List<T, const N: usize> {
    len: usize,
    items: [T; N],
}

impl<T: Copy + Default, const N: usize> List<T, N> {
    /// No values.
    pub fn new() -> Self {
        Self { len: 0, items: [T::default(); N] }
    }

    /// The values of a slice; 3 where there are more than `N`.
    pub fn from_slice(items: &[T]) -> Result<Self, Refusal> {
        let mut list = Self::new();
        items.iter().try_for_each(|&item| list.push(item))?;
        Ok(list)
    }

    /// Puts a value at the end; 3 where there are `N` already.
    pub fn push(&mut self, item: T) -> Result<(), Refusal> {
        *self.items.get_mut(self.len).ok_or(Refusal::Form)? = item;
        self.len += 1;
        Ok(())
    }
}

impl<T: Copy + Default, const N: usize> Default for List<T, N> {
    fn default() -> Self {
        Self::new()
    }
}

impl<T, const N: usize> core::ops::Deref for List<T, N> {
    type Target = [T];
    fn deref(&self) -> &[T] {
        &self.items[..self.len]
    }
}

impl<T: PartialEq, const N: usize> PartialEq for List<T, N> {
    fn eq(&self, other: &Self) -> bool {
        **self == **other
    }
}

impl<T: Eq, const N: usize> Eq for List<T, N> {}

impl<T: core::fmt::Debug, const N: usize> core::fmt::Debug for List<T, N> {
    fn fmt(&self, f: &mut core::fmt::Formatter<'_>) -> core::fmt::Result {
        f.debug_list().entries(self.iter()).finish()
    }
}
