//! What run.rs and replay.rs share: a list in blocks, for programs that read it block by block.

/// The list goes in blocks of so many bytes. No record stands in two: zeros fill a block up.
const BLOCK: usize = 262_144;

/// The programs read sixteen blocks, in bytes: a longer list would be cut off.
pub const ROOM: usize = 16 * BLOCK;

/// The record's words at the end of the list.
pub fn append(list: &mut Vec<u8>, words: impl IntoIterator<Item = u64>) {
    let record: Vec<u8> = words.into_iter().flat_map(u64::to_le_bytes).collect();
    assert!(record.len() <= BLOCK, "a record of {} bytes fits no block", record.len());
    if list.len() % BLOCK + record.len() > BLOCK {
        list.resize(list.len().next_multiple_of(BLOCK), 0);
    }
    list.extend(record);
}
