//! What the sender's and the receiver's table share: a row of records, of which a call is lent the
//! first ones, the search for an SSRC, and the reading of a datagram.

use crate::packet::{self, Entry, ENTRY};
use crate::refusal::{Case, Refusal};

/// The most records a call can be lent: tables of "1 to 64 streams", and "1 to 64 remote streams".
pub const PLACES: usize = 64;

/// What a row needs of its records.
pub trait Record: Clone + Default {
    fn in_use(&self) -> bool;

    fn ssrc(&self) -> u32;

    /// Clears "in use" alone.
    fn clear_in_use(&mut self);
}

/// A row of records, of which a call is lent the first ones.
#[derive(Clone, Debug)]
pub struct Row<R> {
    records: Vec<R>,
    /// So many are lent.
    size: usize,
}

/// The line program's table: "64 records, all unused at first".
impl<R: Record> Default for Row<R> {
    fn default() -> Self {
        Row::new(PLACES)
    }
}

impl<R: Record> Row<R> {
    /// Records that are not in use; the first 64 are lent.
    pub fn new(places: usize) -> Self {
        Row {
            records: vec![R::default(); places],
            size: PLACES,
        }
    }

    /// Every record, lent or not.
    pub fn records(&self) -> &[R] {
        &self.records
    }

    /// The records before the first that is not in use. Without a remove no place is freed, so in
    /// the line program these are all its streams.
    pub fn streams(&self) -> &[R] {
        let count = self.records.iter().take_while(|record| record.in_use());
        &self.records[..count.count()]
    }

    pub fn size(&self) -> usize {
        self.size
    }

    /// From now on a call is lent the first `size` records.
    pub fn lend_first(&mut self, size: usize) {
        self.size = size;
    }

    /// Puts a record at a place, whatever stood there.
    pub fn put(&mut self, place: usize, record: R) {
        self.records[place] = record;
    }

    /// The records lent to a call; Size for "0 or over 64 records".
    pub fn lent(&mut self) -> Result<&mut [R], Refusal> {
        match self.size {
            1..=PLACES => Ok(&mut self.records[..self.size]),
            _ => Err(Case::Size.into()),
        }
    }

    /// The stream that answers for an SSRC.
    pub fn find(&mut self, ssrc: u32) -> Option<&mut R> {
        self.local(ssrc).ok()
    }

    /// The stream of a call for one SSRC: Size, then NoStream.
    pub fn local(&mut self, ssrc: u32) -> Result<&mut R, Refusal> {
        find(self.lent()?, ssrc).ok_or(Case::NoStream.into())
    }

    /// The stream of a call that may write a packet: Room is "under 20, reply or none".
    pub fn replying(&mut self, ssrc: u32, room: usize) -> Result<&mut R, Refusal> {
        let stream = self.local(ssrc)?;
        packet::judge_room(1, room)?;
        Ok(stream)
    }

    /// "Remove clears \"in use\" and changes nothing else." "Remove Size, NoStream."
    pub fn remove(&mut self, ssrc: u32) -> Result<(), Refusal> {
        self.local(ssrc)?.clear_in_use();
        Ok(())
    }

    /// The datagram call up to its first event: the records lent, and the entries. "Datagram call
    /// Size, 1, then packet by packet 2 to 9."
    pub fn read(&mut self, datagram: &[u8]) -> Result<(&mut [R], Vec<Entry>), Refusal> {
        let lent = self.lent()?;
        let mut entries = Vec::with_capacity(datagram.len() / ENTRY);
        packet::read(datagram, &mut entries)?;
        Ok((lent, entries))
    }
}

/// "The first record in use with an SSRC answers for it."
pub fn find<R: Record>(records: &mut [R], ssrc: u32) -> Option<&mut R> {
    records
        .iter_mut()
        .find(|record| record.ssrc() == ssrc && record.in_use())
}

/// The record that an add writes: "the lowest record not in use". Duplicate, then Full.
pub fn unused<R: Record>(lent: &mut [R], ssrc: u32) -> Result<&mut R, Refusal> {
    if find(lent, ssrc).is_some() {
        return Err(Case::Duplicate.into());
    }
    let unused = lent.iter_mut().find(|record| !record.in_use());
    unused.ok_or(Case::Full.into())
}

/// "Then the entries run in order." Gives u, the "entries whose target no used record has".
pub fn run<R: Record>(
    lent: &mut [R],
    entries: Vec<Entry>,
    mut event: impl FnMut(&mut R, Entry),
) -> usize {
    let mut strangers = 0;
    for entry in entries {
        match find(lent, entry.target) {
            Some(record) => event(record, entry),
            None => strangers += 1,
        }
    }
    strangers
}
