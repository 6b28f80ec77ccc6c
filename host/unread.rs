// Places that are never read, filled with anything.
use generator::random::Random;
use wire::bytes::u32_at;
use wire::records::LIST_PLACES;

/// What stands behind a list's length in its 16 places.
pub fn fill(random: &mut Random, list: &mut [u8]) {
    let length = (u32_at(list, 0) as usize).min(LIST_PLACES);
    for bytes in list[4 + 20 * length..].chunks_mut(8) {
        let any = random.bits().to_le_bytes();
        bytes.copy_from_slice(&any[..bytes.len()]);
    }
}
