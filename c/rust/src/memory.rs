//! Vectors whose memory may be refused. A refusal is an error, and ends no program.
use crate::fault::Fault;

/// Returns an empty vector with memory for this number of items.
pub(crate) fn reserved<T>(number: usize) -> Result<Vec<T>, Fault> {
    let mut items = Vec::new();
    items.try_reserve_exact(number).map_err(|_| Fault::OUT_OF_MEMORY)?;
    Ok(items)
}

/// Returns the items as a vector.
pub(crate) fn collected<T>(items: impl ExactSizeIterator<Item = T>) -> Result<Vec<T>, Fault> {
    let mut all = reserved(items.len())?;
    all.extend(items);
    Ok(all)
}

/// Adds an item to a vector.
pub(crate) fn push<T>(items: &mut Vec<T>, item: T) -> Result<(), Fault> {
    items.try_reserve(1).map_err(|_| Fault::OUT_OF_MEMORY)?;
    items.push(item);
    Ok(())
}

/// Ensures that the vector has memory for this number of bytes in all, and keeps its bytes.
pub(crate) fn ensure_capacity(bytes: &mut Vec<u8>, number: usize) -> Result<(), Fault> {
    let more = number.saturating_sub(bytes.len());
    bytes.try_reserve_exact(more).map_err(|_| Fault::OUT_OF_MEMORY)
}

/// Returns the number of bytes of this number of shards.
pub(crate) fn bytes_of(count: usize, shard_bytes: usize) -> Result<usize, Fault> {
    count.checked_mul(shard_bytes).ok_or(Fault::OUT_OF_MEMORY)
}
