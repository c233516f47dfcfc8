//! The calls of this library in each build that was linked, as a program in C declares them.

/// A shard or a room, as `struct rs_bytes` and as a slice of Rattle.
#[repr(C)]
#[derive(Clone, Copy)]
pub struct Bytes {
    pub at: *mut u8,
    pub length: usize,
}

/// A shard with its index, as `struct rs_shard` and as `Shard` of the exports.
#[repr(C)]
#[derive(Clone, Copy)]
pub struct Indexed {
    pub index: usize,
    pub bytes: Bytes,
}

/// The reason why a call from C failed.
#[repr(C)]
#[derive(Default, Debug)]
pub struct Fault {
    pub number: u32,
    pub values: [usize; 3],
}

/// What an export is asked to do.
#[repr(C)]
pub struct Plan {
    pub call: u32,
    pub engine: u32,
    pub k: usize,
    pub r: usize,
    pub size: usize,
    pub first: usize,
    pub rounds: usize,
    pub copies: bool,
}

/// A wanted shard, as `struct rs_wanted`.
#[repr(C)]
#[derive(Clone, Copy)]
pub struct Wanted {
    pub kind: usize,
    pub index: usize,
}

/// The kind of a wanted recovery shard, `RS_RECOVERY`.
pub const RECOVERY: usize = 1;

/// Writes the heads of calls once for two uses: as a struct of function pointers, and as a macro that declares the calls
/// of a build, whose names all begin with its prefix, and puts them into this struct. The macro takes the values of the
/// other fields after the prefix. `$d` is the token `$`, for the variables of this second macro.
macro_rules! calls {
    (
        ($d:tt)
        $(#[$about:meta])*
        $kind:ident by $declare:ident { $($other:ident: $other_type:ty,)* }
        $($name:ident = $symbol:literal ($($argument:ident: $type:ty),*);)*
    ) => {
        $(#[$about])*
        #[derive(Clone, Copy)]
        pub struct $kind {
            $(pub $other: $other_type,)*
            $(pub $name: unsafe extern "C" fn($($type),*) -> u32,)*
        }

        #[allow(unused_macros)]
        macro_rules! $declare {
            ($d prefix:literal $d(, $d other:ident: $d value:expr)*) => {{
                extern "C" {
                    $(#[link_name = concat!($d prefix, $symbol)] fn $name($($argument: $type),*) -> u32;)*
                }
                Some($kind { $d($d other: $d value,)* $($name),* })
            }};
        }
    };
}

calls! {
    ($)
    /// The calls of one build that rebuild, check and update single shards. An earlier state of the library may not have
    /// them.
    Repairs by repairs {}
    reconstruct = "rs_reconstruct" (
        tables: *const u8, k: usize, r: usize, originals: *const Indexed, n: usize, recovery: *const Indexed, m: usize,
        wanted: *const Wanted, w: usize, to: *const Bytes, l: usize, fault: *mut Fault
    );
    verify = "rs_verify" (
        tables: *const u8, k: usize, r: usize, originals: *const Indexed, n: usize, recovery: *const Indexed, m: usize,
        fault: *mut Fault
    );
    update = "rs_update" (
        tables: *const u8, k: usize, r: usize, index: usize, before: *const u8, n: usize, after: *const u8, m: usize,
        to: *const Bytes, l: usize, fault: *mut Fault
    );
}

calls! {
    ($)
    /// The calls of one build.
    Library by library { repairs: Option<Repairs>, }
    tables_make = "rs_tables_make" (tables: *mut u8);
    encode = "rs_encode" (
        tables: *const u8, k: usize, r: usize, size: usize, from: *const u8, n: usize, to: *mut u8, m: usize,
        fault: *mut Fault
    );
    decode = "rs_decode" (
        tables: *const u8, k: usize, r: usize, size: usize, all: *mut u8, n: usize, from: *const u8, m: usize,
        marks: *const u8, l: usize, fault: *mut Fault
    );
    encode_shards = "rs_encode_shards" (
        tables: *const u8, k: usize, r: usize, from: *const Bytes, n: usize, to: *mut Bytes, m: usize, fault: *mut Fault
    );
    decode_shards = "rs_decode_shards" (
        tables: *const u8, k: usize, r: usize, originals: *const Indexed, n: usize, recovery: *const Indexed, m: usize,
        to: *mut Bytes, l: usize, fault: *mut Fault
    );
    bench_encode = "rs_bench_encode" (
        plan: *const Plan, from: *const Bytes, n: usize, to: *mut Bytes, m: usize, time: *mut u64
    );
    bench_decode = "rs_bench_decode" (
        plan: *const Plan, originals: *const Indexed, n: usize, recovery: *const Indexed, m: usize, to: *mut Bytes,
        l: usize, time: *mut u64
    );
    bench_tables = "rs_bench_tables" (time: *mut u64);
}

/// Returns the library of a build, or None if it isn't linked.
pub fn library(who: &str) -> Option<Library> {
    match who {
        #[cfg(plain)]
        "plain" => library!("plain_", repairs: repairs!("plain_")),
        #[cfg(v3)]
        "v3" => library!("v3_", repairs: repairs!("v3_")),
        #[cfg(plain_before)]
        "plain_before" => library!("plain_before_", repairs: None),
        #[cfg(v3_before)]
        "v3_before" => library!("v3_before_", repairs: None),
        _ => None,
    }
}
