//! Words of bits, the places that hold one, and bytes that are none.

/// Bytes that are no bits.
pub const BAD_BYTES: [u8; 6] = [2, 3, 48, 128, 254, 255];

/// The bits of a number, lowest first.
pub fn bits(number: usize, length: usize) -> Vec<u8> {
    (0..length).map(|place| (number >> place & 1) as u8).collect()
}

/// The word of n bits that holds 1 at these places, which all differ.
pub fn ones_at(n: usize, places: &[usize]) -> Vec<u8> {
    turned(&vec![0; n], places)
}

/// The places of a list that hold this byte, in rising order.
pub fn places_of(byte: u8, list: &[u8]) -> Vec<usize> {
    (0..list.len()).filter(|&place| list[place] == byte).collect()
}

/// The word with these places turned, which all differ.
pub fn turned(word: &[u8], places: &[usize]) -> Vec<u8> {
    let mut word = word.to_vec();
    places.iter().for_each(|&place| word[place] ^= 1);
    word
}
