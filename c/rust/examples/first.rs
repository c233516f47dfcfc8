//! Codes three shards, loses two of them, and restores them.
use reed_solomon_simd::{decode, encode, shard_bytes, Error};

fn main() -> Result<(), Error> {
    let message = b"Three shards of one size are coded..";
    let size = shard_bytes(message.len(), 3).unwrap_or(2);
    let original: Vec<&[u8]> = message.chunks(size).collect();
    let recovery = encode(3, 2, &original)?;

    // Originals 0 and 2 get lost. The recovery shards are there, each with its index.
    let restored = decode(3, 2, [(1, original[1])], recovery.iter().enumerate())?;
    let whole = [&restored[&0], original[1], &restored[&2]].concat();
    println!("{}", String::from_utf8_lossy(&whole));

    if let Err(error) = decode(3, 2, [(1, original[1])], [(0, &recovery[0])]) {
        println!("{error}");
    }
    Ok(())
}
