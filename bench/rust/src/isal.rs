//! ISA-L, where it is installed. Its code is over GF(2^8), so it takes at most 256 shards, and its recovery shards hold other
//! bytes than those of this library.

#[cfg(isal)]
pub use linked::side;

/// Returns None, as ISA-L isn't linked.
#[cfg(not(isal))]
pub fn side(_: &str, _: &'static crate::work::Work) -> Option<Box<dyn crate::side::Side>> {
    None
}

#[cfg(isal)]
mod linked {
    use crate::clock::time_rounds;
    use crate::side::Side;
    use crate::work::{Call, Row, Shards, Work};

    extern "C" {
        fn gf_gen_cauchy1_matrix(matrix: *mut u8, all: i32, k: i32);
        fn gf_invert_matrix(from: *mut u8, to: *mut u8, k: i32) -> i32;
        fn ec_init_tables(k: i32, rows: i32, from: *mut u8, tables: *mut u8);
        fn ec_encode_data(size: i32, k: i32, rows: i32, tables: *mut u8, from: *mut *mut u8, to: *mut *mut u8);
        fn ec_encode_data_avx2(size: i32, k: i32, rows: i32, tables: *mut u8, from: *mut *mut u8, to: *mut *mut u8);
        fn ec_encode_data_update(size: i32, k: i32, rows: i32, index: i32, tables: *mut u8, change: *mut u8, to: *mut *mut u8);
        fn ec_encode_data_update_avx2(
            size: i32,
            k: i32,
            rows: i32,
            index: i32,
            tables: *mut u8,
            change: *mut u8,
            to: *mut *mut u8,
        );
    }

    /// The functions of ISA-L that multiply: those that it chooses on this machine, or those for AVX2.
    #[derive(Clone, Copy)]
    struct Code {
        encode: unsafe extern "C" fn(i32, i32, i32, *mut u8, *mut *mut u8, *mut *mut u8),
        update: unsafe extern "C" fn(i32, i32, i32, i32, *mut u8, *mut u8, *mut *mut u8),
    }

    impl Code {
        fn named(who: &str) -> Option<Code> {
            match who {
                "isal" => Some(Code { encode: ec_encode_data, update: ec_encode_data_update }),
                "isal-avx2" if std::arch::is_x86_feature_detected!("avx2") => {
                    Some(Code { encode: ec_encode_data_avx2, update: ec_encode_data_update_avx2 })
                }
                _ => None,
            }
        }
    }

    /// A call. The tables of an encode are made once, those of a decode in each round, since lost shards differ.
    struct Coder {
        code: Code,
        work: &'static Work,
        matrix: Vec<u8>,
        tables: Vec<u8>,
        recovery: Shards,
        /// The change of the first original, for an update.
        change: Shards,
    }

    /// Makes the side, or returns None if the counts are too large for ISA-L, or if `who` is `isal-avx2` and the machine has no
    /// AVX2.
    pub fn side(who: &str, work: &'static Work) -> Option<Box<dyn Side>> {
        let code = Code::named(who)?;
        let Row { call, k, r, size } = work.row;
        if !(call.codes() || matches!(call, Call::Recover | Call::Update)) || k + r > 256 {
            return None;
        }
        let mut matrix = vec![0; (k + r) * k];
        let mut tables = vec![0; 32 * k * r];
        // SAFETY: the matrix has k columns and k + r rows, and the tables have 32 bytes for each product.
        unsafe {
            gf_gen_cauchy1_matrix(matrix.as_mut_ptr(), (k + r) as i32, k as i32);
            ec_init_tables(k as i32, r as i32, matrix[k * k..].as_mut_ptr(), tables.as_mut_ptr());
        }
        let mut coder = Coder { code, work, matrix, tables, recovery: Shards::new(r, size), change: Shards::new(1, size) };
        coder.encode(r, (0..r).map(|index| coder.recovery.pointer(index)).collect());
        Some(Box::new(coder))
    }

    impl Coder {
        /// Encodes the first recovery shards.
        fn encode(&mut self, count: usize, mut to: Vec<*mut u8>) {
            let Row { k, size, .. } = self.work.row;
            let mut from: Vec<*mut u8> = (0..k).map(|index| self.work.originals.pointer(index)).collect();
            // SAFETY: each pointer has `size` bytes.
            unsafe {
                let tables = self.tables.as_mut_ptr();
                (self.code.encode)(size as i32, k as i32, count as i32, tables, from.as_mut_ptr(), to.as_mut_ptr());
            }
        }

        /// Updates the recovery shards in the rooms after the change of the first original.
        fn update(&mut self) {
            let Row { k, r, size, .. } = self.work.row;
            let (before, after) = (self.work.before.shard(0), self.work.originals.shard(0));
            for (change, (old, new)) in self.change.bytes_mut().iter_mut().zip(before.iter().zip(after)) {
                *change = old ^ new;
            }
            let mut to = self.rooms();
            let (change, tables) = (self.change.start(), self.tables.as_mut_ptr());
            // SAFETY: each pointer has `size` bytes.
            unsafe { (self.code.update)(size as i32, k as i32, r as i32, 0, tables, change, to.as_mut_ptr()) };
        }

        fn rooms(&self) -> Vec<*mut u8> {
            (0..self.work.row.r).map(|index| self.work.rooms.pointer(index)).collect()
        }

        /// Restores the first originals into rooms from the first recovery shards.
        fn decode(&mut self, lost: usize) {
            let Row { k, size, .. } = self.work.row;
            let row = |index: usize| if index < lost { k + index } else { index };
            let shard = |index: usize| match index < lost {
                true => self.recovery.pointer(index),
                false => self.work.originals.pointer(index),
            };
            let mut left: Vec<u8> = (0..k).flat_map(|index| &self.matrix[row(index) * k..][..k]).copied().collect();
            let mut inverse = vec![0; k * k];
            let mut tables = vec![0; 32 * k * lost];
            let mut from: Vec<*mut u8> = (0..k).map(shard).collect();
            let mut to: Vec<*mut u8> = (0..lost).map(|index| self.work.rooms.pointer(index)).collect();
            let (k, lost, size) = (k as i32, lost as i32, size as i32);
            // SAFETY: matrices have k * k entries, and each pointer has `size` bytes.
            unsafe {
                assert_eq!(gf_invert_matrix(left.as_mut_ptr(), inverse.as_mut_ptr(), k), 0);
                ec_init_tables(k, lost, inverse.as_mut_ptr(), tables.as_mut_ptr());
                (self.code.encode)(size, k, lost, tables.as_mut_ptr(), from.as_mut_ptr(), to.as_mut_ptr());
            }
        }

        /// Encodes the message before the change of the first original into the rooms.
        fn rooms_before(&mut self) {
            let Row { k, r, size, .. } = self.work.row;
            let mut from: Vec<*mut u8> = (0..k).map(|index| self.work.originals.pointer(index)).collect();
            from[0] = self.work.before.start();
            let (mut to, tables) = (self.rooms(), self.tables.as_mut_ptr());
            // SAFETY: each pointer has `size` bytes.
            unsafe { (self.code.encode)(size as i32, k as i32, r as i32, tables, from.as_mut_ptr(), to.as_mut_ptr()) };
        }

        fn round(&mut self) {
            match self.work.row.call {
                Call::Encode => self.encode(self.work.row.r, self.rooms()),
                Call::Recover => self.encode(1, vec![self.work.rooms.pointer(0)]),
                Call::Update => self.update(),
                _ => self.decode(self.work.lost),
            }
        }
    }

    impl Side for Coder {
        fn time(&mut self, first: usize, rounds: usize) -> u64 {
            time_rounds(first, rounds, || self.round())
        }

        /// The bytes of recovery shards are its own. So an encode is right if its recovery shards restore lost originals.
        fn is_right(&mut self) -> bool {
            let work = self.work;
            let Row { call, k, r, size } = work.row;
            match call {
                Call::Encode => {}
                Call::Recover => {
                    self.round();
                    return work.rooms.shard(0) == self.recovery.shard(0);
                }
                Call::Update => {
                    self.rooms_before();
                    self.round();
                    return work.rooms.bytes() == self.recovery.bytes();
                }
                _ => return work.checks(|| self.round()),
            }
            let lost = k.min(r);
            self.round();
            self.recovery.bytes_mut().copy_from_slice(work.rooms.bytes());
            self.decode(lost);
            work.rooms.bytes()[..lost * size] == work.originals.bytes()[..lost * size]
        }
    }
}
