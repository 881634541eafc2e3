//! The fields of records, and records by their depth. Every byte is read so that nothing could panic on another one.

/// The little-endian number of so many bytes.
pub fn number(bytes: &[u8], at: usize, width: usize) -> u32 {
    let field = bytes.iter().skip(at).take(width);
    field
        .rev()
        .fold(0, |number, byte| number << 8 | u32::from(*byte))
}

/// A name or value of this length; both are ASCII.
pub fn text(record: &[u8], at: usize, length: u32) -> &str {
    let rest = record.get(at..).unwrap_or_default();
    let field = rest.get(..length as usize).unwrap_or_default();
    core::str::from_utf8(field).unwrap_or_default()
}

/// The first of the records, those right behind it that are deeper, and the rest. A record has its depth at `depth_at`.
pub fn split_first_tree(
    records: &[u8],
    size: usize,
    depth_at: usize,
) -> Option<(&[u8], &[u8], &[u8])> {
    let (first, behind) = records.split_at_checked(size)?;
    let depth = |record| number(record, depth_at, 1);
    let deeper = behind
        .chunks_exact(size)
        .take_while(|record| depth(record) > depth(first));
    let (below, rest) = behind.split_at_checked(deeper.count().saturating_mul(size))?;
    Some((first, below, rest))
}
