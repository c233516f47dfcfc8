//! This library, in each build that was linked: its calls from C, and the exports of `bench/exports`.
use crate::clock::{rs_bench_now, time_rounds};
use crate::library::{library, Bytes, Fault, Indexed, Library, Plan, Wanted, RECOVERY};
use crate::side::{Name, Side, ENGINES};
use crate::work::{Call, Row, Work};
use std::alloc::{alloc_zeroed, Layout};

// The calls of an export, as in `bench/exports/plan.rt.txt`.
const INTO: u32 = 0;
const ONE_CALL: u32 = 1;
const SLICE: u32 = 2;
const OBJECT: u32 = 3;
const NEW: u32 = 4;
const RESET: u32 = 5;

/// Makes the side with this name.
pub fn side(name: &Name, work: &'static Work) -> Option<Box<dyn Side>> {
    let library = library(&name.who)?;
    let arrays = Arrays::new(work);
    if name.way.starts_with("c-") {
        let is_buffers = name.way == "c-buffers";
        return match work.row.call {
            Call::Tables => Some(Box::new(MakeTables { library, is_c: true })),
            call if call.codes() => Some(Box::new(FromC::new(library, work, arrays, is_buffers))),
            call if call.repairs() && !is_buffers && library.repairs.is_some() => {
                Some(Box::new(FromC::new(library, work, arrays, false)))
            }
            _ => None,
        };
    }
    let call = match (name.way.as_str(), work.row.call) {
        ("object", Call::Tables) => return Some(Box::new(MakeTables { library, is_c: false })),
        ("object", Call::NewEncoder | Call::NewDecoder) => NEW,
        ("object", Call::ResetEncoder | Call::ResetDecoder) => RESET,
        ("into", call) if call.codes() => INTO,
        ("call", call) if call.codes() => ONE_CALL,
        ("slice", call) if call.codes() => SLICE,
        ("object", call) if call.codes() => OBJECT,
        _ => return None,
    };
    let engine = ENGINES.iter().position(|engine| *engine == name.engine)? as u32;
    let mut export = Export { library, work, arrays, call, engine };
    export.run(0, 0, false).is_some().then(|| Box::new(export) as Box<dyn Side>)
}

/// The arrays of shards and rooms that calls take.
struct Arrays {
    originals: Vec<Bytes>,
    own: Vec<Indexed>,
    other: Vec<Indexed>,
    rooms: Vec<Bytes>,
}

impl Arrays {
    fn new(work: &Work) -> Arrays {
        let Row { k, size: length, .. } = work.row;
        let indexed = |items: &[(usize, &'static [u8])]| -> Vec<Indexed> {
            items
                .iter()
                .map(|(index, shard)| Indexed { index: *index, bytes: Bytes { at: shard.as_ptr() as *mut u8, length } })
                .collect()
        };
        let written = work.wanted().len() / length;
        Arrays {
            originals: (0..k).map(|index| Bytes { at: work.originals.pointer(index), length }).collect(),
            own: indexed(&work.own),
            other: indexed(&work.other),
            rooms: (0..written).map(|index| Bytes { at: work.rooms.pointer(index), length }).collect(),
        }
    }
}

/// A call from C, over arrays or over buffers.
struct FromC {
    library: Library,
    work: &'static Work,
    arrays: Arrays,
    is_buffers: bool,
    tables: *mut u8,
    /// The originals of a decode over buffers, in which the lost ones are written.
    places: Vec<u8>,
    marks: Vec<u8>,
}

impl FromC {
    fn new(library: Library, work: &'static Work, arrays: Arrays, is_buffers: bool) -> FromC {
        // Version 1.3 needs 8.8 MB. Another version may need more.
        const ROOM: usize = 16 << 20;
        // SAFETY: the layout has bytes, and the tables get more room than they need.
        let tables = unsafe { alloc_zeroed(Layout::from_size_align(ROOM, 4096).expect("a layout")) };
        assert_eq!(unsafe { (library.tables_make)(tables) }, 0);
        let Row { k, r, .. } = work.row;
        let places = if is_buffers { work.originals.bytes().to_vec() } else { vec![] };
        let marks = (0..k + r).map(|index| if index < k { index >= work.lost } else { index - k < work.lost } as u8).collect();
        FromC { library, work, arrays, is_buffers, tables, places, marks }
    }

    fn encode_arrays(&mut self, fault: &mut Fault) -> u32 {
        let (Row { k, r, .. }, a) = (self.work.row, &mut self.arrays);
        // SAFETY: each array has the entries of its length, and nobody else uses the rooms now.
        unsafe { (self.library.encode_shards)(self.tables, k, r, a.originals.as_ptr(), k, a.rooms.as_mut_ptr(), r, fault) }
    }

    fn decode_arrays(&mut self, fault: &mut Fault) -> u32 {
        let (Row { k, r, .. }, a) = (self.work.row, &mut self.arrays);
        let (own, other, rooms) = (a.own.as_ptr(), a.other.as_ptr(), a.rooms.as_mut_ptr());
        let (n, m, l) = (a.own.len(), a.other.len(), a.rooms.len());
        // SAFETY: each array has the entries of its length, and nobody else uses the rooms now.
        unsafe { (self.library.decode_shards)(self.tables, k, r, own, n, other, m, rooms, l, fault) }
    }

    /// Rebuilds the first recovery shard from all originals.
    fn recover(&mut self, fault: &mut Fault) -> u32 {
        let (Row { k, r, .. }, a) = (self.work.row, &mut self.arrays);
        let wanted = Wanted { kind: RECOVERY, index: 0 };
        let (own, other, rooms) = (a.own.as_ptr(), a.other.as_ptr(), a.rooms.as_ptr());
        let (n, m, l) = (a.own.len(), a.other.len(), a.rooms.len());
        let call = self.library.repairs.expect("a library with this call").reconstruct;
        // SAFETY: each array has the entries of its length, and nobody else uses the rooms now.
        unsafe { call(self.tables, k, r, own, n, other, m, &wanted, 1, rooms, l, fault) }
    }

    fn verify(&mut self, fault: &mut Fault) -> u32 {
        let (Row { k, r, .. }, a) = (self.work.row, &self.arrays);
        let (own, other, n, m) = (a.own.as_ptr(), a.other.as_ptr(), a.own.len(), a.other.len());
        let call = self.library.repairs.expect("a library with this call").verify;
        // SAFETY: each array has the entries of its length.
        unsafe { call(self.tables, k, r, own, n, other, m, fault) }
    }

    fn update(&mut self, fault: &mut Fault) -> u32 {
        let (Row { k, r, size, .. }, a) = (self.work.row, &self.arrays);
        let (before, after) = (self.work.before.start(), self.work.originals.start());
        let call = self.library.repairs.expect("a library with this call").update;
        // SAFETY: both originals have `size` bytes, and nobody else uses the rooms now.
        unsafe { call(self.tables, k, r, 0, before, size, after, size, a.rooms.as_ptr(), a.rooms.len(), fault) }
    }

    fn encode_buffers(&mut self, fault: &mut Fault) -> u32 {
        let Row { k, r, size, .. } = self.work.row;
        let (from, to) = (self.work.originals.start(), self.work.rooms.start());
        // SAFETY: both buffers have as many bytes as their lengths, and nobody else uses the rooms now.
        unsafe { (self.library.encode)(self.tables, k, r, size, from, k * size, to, r * size, fault) }
    }

    fn decode_buffers(&mut self, fault: &mut Fault) -> u32 {
        let Row { k, r, size, .. } = self.work.row;
        let (places, from, marks) = (self.places.as_mut_ptr(), self.work.recovery.start(), self.marks.as_ptr());
        // SAFETY: all buffers have as many bytes as their lengths, and the places are this side's own.
        unsafe { (self.library.decode)(self.tables, k, r, size, places, k * size, from, r * size, marks, k + r, fault) }
    }

    fn round(&mut self) {
        let mut fault = Fault::default();
        let number = match (self.work.row.call, self.is_buffers) {
            (Call::Encode, false) => self.encode_arrays(&mut fault),
            (Call::Encode, true) => self.encode_buffers(&mut fault),
            (Call::Recover, _) => self.recover(&mut fault),
            (Call::Verify, _) => self.verify(&mut fault),
            (Call::Update, _) => self.update(&mut fault),
            (_, false) => self.decode_arrays(&mut fault),
            (_, true) => self.decode_buffers(&mut fault),
        };
        assert_eq!(number, 0, "{fault:?}");
    }
}

impl Side for FromC {
    fn time(&mut self, first: usize, rounds: usize) -> u64 {
        time_rounds(first, rounds, || self.round())
    }

    fn is_right(&mut self) -> bool {
        let work = self.work;
        let lost = work.lost * work.row.size;
        if self.is_buffers {
            self.places[..lost].fill(0xA5);
        }
        work.checks(|| {
            self.round();
            if self.is_buffers && work.row.call.is_decode() {
                self.places[..lost].chunks_exact(work.row.size).enumerate().for_each(|(index, shard)| work.put(index, shard));
            }
        })
    }
}

/// A call of the library for Rattle, by an export.
struct Export {
    library: Library,
    work: &'static Work,
    arrays: Arrays,
    call: u32,
    engine: u32,
}

impl Export {
    /// Runs rounds, and returns the time of those after the first ones, or None if this version doesn't have the call.
    fn run(&mut self, first: usize, rounds: usize, copies: bool) -> Option<u64> {
        let Row { k, r, size, call } = self.work.row;
        let plan = Plan { call: self.call, engine: self.engine, k, r, size, first, rounds, copies };
        let a = &mut self.arrays;
        let mut time = 0;
        // SAFETY: each pointer has the entries of its length, and nobody else uses the rooms now.
        let status = unsafe {
            if call.is_decode() {
                let [own, other] = [&a.own, &a.other];
                let (rooms, count) = (a.rooms.as_mut_ptr(), a.rooms.len());
                (self.library.bench_decode)(&plan, own.as_ptr(), own.len(), other.as_ptr(), other.len(), rooms, count, &mut time)
            } else {
                (self.library.bench_encode)(&plan, a.originals.as_ptr(), k, a.rooms.as_mut_ptr(), a.rooms.len(), &mut time)
            }
        };
        (status == 0).then_some(time)
    }
}

impl Side for Export {
    fn time(&mut self, first: usize, rounds: usize) -> u64 {
        self.run(first, rounds, false).expect("a call that the version has")
    }

    fn is_right(&mut self) -> bool {
        let work = self.work;
        let mut is_done = false;
        work.checks(|| is_done = self.run(0, 1, true).is_some()) && is_done
    }

    fn makes_object(&self) -> bool {
        self.call == OBJECT
    }
}

/// Making the tables: those of a program in Rattle, or those for C.
struct MakeTables {
    library: Library,
    is_c: bool,
}

impl Side for MakeTables {
    fn time(&mut self, _: usize, _: usize) -> u64 {
        let mut time = 0;
        if !self.is_c {
            assert_eq!(unsafe { (self.library.bench_tables)(&mut time) }, 0);
            return time;
        }
        let mut tables = vec![1u8; 16 << 20];
        let start = rs_bench_now();
        assert_eq!(unsafe { (self.library.tables_make)(tables.as_mut_ptr().add(tables.as_ptr().align_offset(4096))) }, 0);
        rs_bench_now() - start
    }

    fn is_right(&mut self) -> bool {
        true
    }
}
