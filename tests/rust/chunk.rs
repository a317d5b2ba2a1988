//! Type chunks: whether bytes hold one at their front, and what it says. 000 has none; the rule is written here apart from the port, by 02's K3,
//! over 000's parse of the record.
use crate::cut::Refused;
use crate::scale::expected::whole;

/// How many bytes stand in front of a chunk's record.
pub const HEAD: usize = 20;

/// The type of every such chunk, as its first two bytes have it.
pub const TYPE: [u8; 2] = [0x01, 0x02];

/// What a whole chunk says: its size, its id, flags, entry count and entries start as they are stored, and the header's part that
/// begins with the record.
pub struct Chunk<'a> {
    pub size: usize,
    pub shown: [u8; 10],
    pub config: &'a [u8],
}

/// The number that some bytes are, the first weighing least.
fn number(bytes: &[u8]) -> usize {
    bytes.iter().rev().fold(0, |sum, byte| sum * 256 + usize::from(*byte))
}

/// The chunk at the front of some bytes, or why there is none: 1 without a whole head, 9 for another type, 10 where it isn't so that the head
/// ends within the header, the header within the chunk, and the chunk within the bytes; then what is wrong with the record within the header.
pub fn chunk(bytes: &[u8]) -> Result<Chunk<'_>, Refused> {
    let Some((head, _)) = bytes.split_at_checked(HEAD) else { return Err(Refused::with(1)) };
    if head[..2] != TYPE {
        return Err(Refused::with(9));
    }
    let ends = [HEAD, number(&head[2..4]), number(&head[4..8]), bytes.len()];
    if !ends.is_sorted() {
        return Err(Refused::with(10));
    }
    let config = &bytes[HEAD..ends[1]];
    whole(config)?;
    let shown = std::array::from_fn(|at| head[if at < 2 { 8 + at } else { 10 + at }]);
    Ok(Chunk { size: ends[2], shown, config })
}

/// What stands at an offset of a run of chunks: one of so many bytes; nothing at the exact end; else why there is none. Past the bytes there
/// are none to begin with.
pub fn chunk_at(bytes: &[u8], offset: usize) -> Result<Option<Chunk<'_>>, Refused> {
    match bytes.get(offset..) {
        Some([]) => Ok(None),
        rest => chunk(rest.unwrap_or(&[])).map(Some),
    }
}
