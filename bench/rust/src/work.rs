//! The shards of one row of a table, in memory that begins at a multiple of 64.

/// What is timed.
#[derive(Clone, Copy, PartialEq, Eq, Debug)]
pub enum Call {
    Encode,
    /// A decode after as many originals as possible were lost.
    Decode,
    /// A decode after 1 % of the originals were lost, at least one.
    DecodeFew,
    /// A decode after one original was lost.
    DecodeOne,
    /// A decode after two originals were lost.
    DecodeTwo,
    /// The first recovery shard was lost, and all originals are there.
    Recover,
    /// A check whether all shards belong to one message.
    Verify,
    /// The recovery shards are updated after the first original has changed.
    Update,
    NewEncoder,
    NewDecoder,
    ResetEncoder,
    ResetDecoder,
    /// Making the tables, for the first time in a process.
    Tables,
}

/// All calls with their names on the command line and in data files.
pub const CALLS: [(Call, &str); 13] = [
    (Call::Encode, "encode"),
    (Call::Decode, "decode"),
    (Call::DecodeFew, "decode1"),
    (Call::DecodeOne, "lost1"),
    (Call::DecodeTwo, "lost2"),
    (Call::Recover, "recover1"),
    (Call::Verify, "verify"),
    (Call::Update, "update"),
    (Call::NewEncoder, "new-encoder"),
    (Call::NewDecoder, "new-decoder"),
    (Call::ResetEncoder, "reset-encoder"),
    (Call::ResetDecoder, "reset-decoder"),
    (Call::Tables, "tables"),
];

impl Call {
    /// Returns the call with this name.
    pub fn named(name: &str) -> Option<Call> {
        CALLS.iter().find(|(_, other)| *other == name).map(|(call, _)| *call)
    }

    /// Returns the name of the call.
    pub fn name(self) -> &'static str {
        CALLS.iter().find(|(call, _)| *call == self).map_or("", |(_, name)| name)
    }

    /// Returns whether the call concerns decoders.
    pub fn is_decode(self) -> bool {
        self.decodes() || matches!(self, Call::NewDecoder | Call::ResetDecoder)
    }

    /// Returns whether the call is an encode or a decode.
    pub fn codes(self) -> bool {
        self == Call::Encode || self.decodes()
    }

    /// Returns whether the call concerns single shards of a message: it rebuilds, checks or updates them.
    pub fn repairs(self) -> bool {
        matches!(self, Call::Recover | Call::Verify | Call::Update)
    }

    fn decodes(self) -> bool {
        matches!(self, Call::Decode | Call::DecodeFew | Call::DecodeOne | Call::DecodeTwo)
    }

    fn lost(self, k: usize, r: usize) -> usize {
        match self {
            Call::Decode => k.min(r),
            Call::DecodeFew => k.div_ceil(100).min(r),
            Call::DecodeOne => k.min(r).min(1),
            Call::DecodeTwo => k.min(r).min(2),
            _ => 0,
        }
    }
}

/// A row of a table: what is timed, with which counts and which size.
#[derive(Clone, Copy, PartialEq, Eq, Debug)]
pub struct Row {
    pub call: Call,
    pub k: usize,
    pub r: usize,
    pub size: usize,
}

/// Shards of one size, one after the other. The first one begins at a multiple of 64.
pub struct Shards {
    lines: Vec<Line>,
    size: usize,
    count: usize,
}

#[repr(align(64))]
#[derive(Clone, Copy)]
struct Line(#[allow(dead_code)] [u8; 64]);

impl Shards {
    /// Makes `count` shards of `size` bytes, all zero.
    pub fn new(count: usize, size: usize) -> Shards {
        Shards { lines: vec![Line([0; 64]); (count * size).div_ceil(64)], size, count }
    }

    /// Returns where the first shard begins.
    pub fn start(&self) -> *mut u8 {
        self.lines.as_ptr() as *mut u8
    }

    /// Returns the bytes of all shards.
    pub fn bytes(&self) -> &[u8] {
        // SAFETY: the lines hold at least `count * size` bytes.
        unsafe { std::slice::from_raw_parts(self.start(), self.count * self.size) }
    }

    /// Returns the bytes of all shards, to be written.
    pub fn bytes_mut(&mut self) -> &mut [u8] {
        // SAFETY: the lines hold at least `count * size` bytes, and `self` is borrowed for writing.
        unsafe { std::slice::from_raw_parts_mut(self.lines.as_mut_ptr() as *mut u8, self.count * self.size) }
    }

    /// Returns the shard with this index.
    pub fn shard(&self, index: usize) -> &[u8] {
        &self.bytes()[index * self.size..][..self.size]
    }

    /// Returns a pointer to the shard with this index.
    pub fn pointer(&self, index: usize) -> *mut u8 {
        // SAFETY: the shard lies within the lines.
        unsafe { self.start().add(index * self.size) }
    }
}

/// The shards of a row, and what a call must write. The program leaks it, so that sides can borrow it for the whole process.
pub struct Work {
    pub row: Row,
    /// How many originals are lost. These are the first ones.
    pub lost: usize,
    pub originals: Shards,
    pub recovery: Shards,
    /// The received originals with their indexes.
    pub own: Vec<(usize, &'static [u8])>,
    /// The received recovery shards with their indexes. As many are received as originals are lost, and all for `Call::Verify`.
    pub other: Vec<(usize, &'static [u8])>,
    /// The first original before it changed, for `Call::Update`.
    pub before: Shards,
    /// The recovery shards of the message before the change, for `Call::Update`.
    pub outdated: Shards,
    /// Where a call writes its results: recovery shards or originals.
    pub rooms: Shards,
}

impl Work {
    /// Makes the work of a row. `encode` returns the recovery shards of the originals.
    pub fn leaked(row: Row, encode: impl Fn(&Row, &Shards) -> Shards) -> &'static Work {
        let lost = row.call.lost(row.k, row.r);
        let mut originals = Shards::new(row.k, row.size);
        fill(originals.bytes_mut());
        let coded = row.call.codes() || row.call.repairs();
        let recovery = if coded { encode(&row, &originals) } else { Shards::new(row.r, row.size) };
        let (mut before, mut outdated) = (Shards::new(0, row.size), Shards::new(0, row.size));
        if row.call == Call::Update {
            before = changed(&mut originals);
            outdated = encode(&row, &originals);
            changed(&mut originals);
        }
        let written = match row.call {
            Call::Encode | Call::Update => row.r,
            Call::Recover => 1,
            _ => lost,
        };
        let rooms = Shards::new(written, row.size);
        let work = Work { row, lost, originals, recovery, own: vec![], other: vec![], before, outdated, rooms };
        let work: &'static mut Work = Box::leak(Box::new(work));
        // SAFETY: `work` is leaked, and its originals and recovery shards are never written again.
        let (originals, recovery): (&'static Shards, &'static Shards) =
            unsafe { (&*(&raw const work.originals), &*(&raw const work.recovery)) };
        work.own = (lost..row.k).map(|index| (index, originals.shard(index))).collect();
        let received = if row.call == Call::Verify { row.r } else { lost };
        work.other = (0..received).map(|index| (index, recovery.shard(index))).collect();
        work
    }

    /// Returns what the rooms must hold after a call.
    pub fn wanted(&self) -> &[u8] {
        match self.row.call {
            Call::Encode | Call::Update => self.recovery.bytes(),
            Call::Recover => self.recovery.shard(0),
            _ => &self.originals.bytes()[..self.lost * self.row.size],
        }
    }

    /// Returns whether `run` writes all wanted bytes into the rooms, which hold others before.
    pub fn checks(&self, run: impl FnOnce()) -> bool {
        // SAFETY: the rooms have `size` bytes each, at least one for each wanted shard, and nobody borrows them now.
        unsafe { self.rooms.start().write_bytes(0xA5, self.wanted().len()) };
        if self.row.call == Call::Update {
            (0..self.row.r).for_each(|index| self.put(index, self.outdated.shard(index)));
        }
        run();
        self.rooms.bytes() == self.wanted()
    }

    /// Copies a shard into the room with this index.
    pub fn put(&self, index: usize, shard: &[u8]) {
        assert_eq!(shard.len(), self.row.size);
        // SAFETY: the room has as many bytes, and nobody borrows it now.
        unsafe { self.rooms.pointer(index).copy_from_nonoverlapping(shard.as_ptr(), shard.len()) };
    }
}

/// Changes each byte of the first shard, and returns the changed shard. A second change undoes the first one.
fn changed(shards: &mut Shards) -> Shards {
    let size = shards.size;
    shards.bytes_mut()[..size].iter_mut().for_each(|byte| *byte ^= 0x5A);
    let mut copy = Shards::new(1, size);
    copy.bytes_mut().copy_from_slice(shards.shard(0));
    copy
}

/// Fills the bytes by the generator SplitMix64.
fn fill(bytes: &mut [u8]) {
    let mut state = 77u64;
    for part in bytes.chunks_mut(8) {
        state = state.wrapping_add(0x9E37_79B9_7F4A_7C15);
        let mut mixed = (state ^ (state >> 30)).wrapping_mul(0xBF58_476D_1CE4_E5B9);
        mixed = (mixed ^ (mixed >> 27)).wrapping_mul(0x94D0_49BB_1331_11EB);
        mixed ^= mixed >> 31;
        part.copy_from_slice(&mixed.to_le_bytes()[..part.len()]);
    }
}
