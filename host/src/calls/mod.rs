//! The calls over tables, by types. Calls on one table are methods of that table; calls on several are methods of [`Tables`], and each lends just the
//! tables that document 01 gives it. Each method names its numbers in the order in which they are asked; 20, for bytes that are no table, is always first.
use crate::bytes::{ByteForm, LARGEST, read_exact};
use crate::raw::Reply;
use crate::{LogId, Refusal, VolumeId};
use core::marker::PhantomData;

mod commits;
mod copying;
mod presence;
mod reading;
mod sending;
mod tags;
mod volumes;
mod writing;

pub use writing::Asked;

/// The entries of a lent result list that a call has filled, in the call's order.
pub struct Entries<'a, T> {
    bytes: &'a [u8],
    entry: PhantomData<T>,
}

impl<T: ByteForm> Iterator for Entries<'_, T> {
    type Item = T;

    fn next(&mut self) -> Option<T> {
        let (entry, rest) = self.bytes.split_at_checked(T::SIZE)?;
        self.bytes = rest;
        Some(read_exact(entry).expect("an entry that the archive wrote is in form"))
    }

    fn size_hint(&self) -> (usize, Option<usize>) {
        let left = self.bytes.len() / T::SIZE;
        (left, Some(left))
    }
}

impl<T: ByteForm> ExactSizeIterator for Entries<'_, T> {}

/// Three identifiers for a new volume, which the caller draws.
#[derive(Clone, Copy, Debug, PartialEq, Eq)]
pub struct NewVolume {
    /// The volume.
    pub vid: VolumeId,
    /// Its local log.
    pub local: LogId,
    /// Its remote log.
    pub remote: LogId,
}

/// The record that a call writes, or nothing.
fn found<T: ByteForm>(call: impl FnOnce(&mut [u8]) -> Reply) -> Result<Option<T>, Refusal> {
    let out = &mut [0; LARGEST][..T::SIZE];
    if !call(out).answer()? {
        return Ok(None);
    }
    Ok(Some(read_exact(out).expect("a record that the archive wrote is in form")))
}

/// The record that a call always writes where it is not refused.
fn written<T: ByteForm>(call: impl FnOnce(&mut [u8]) -> Reply) -> Result<T, Refusal> {
    Ok(found(call)?.expect("a call that is done has its answer"))
}

/// The entries that a call writes into a lent list.
fn listed<T: ByteForm>(list: &mut [u8], call: impl FnOnce(&mut [u8], &mut u32) -> Reply) -> Result<Entries<'_, T>, Refusal> {
    let mut items = 0;
    call(list, &mut items).answer()?;
    Ok(Entries { bytes: &list[..items as usize * T::SIZE], entry: PhantomData })
}

/// A call that answers its number alone.
fn done(reply: Reply) -> Result<(), Refusal> {
    reply.answer().map(drop)
}
