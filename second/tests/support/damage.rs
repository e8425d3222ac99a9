//! Damage to bytes that were right: a number misspelled, a bit flipped, a part lost, put in or doubled.

use super::random::Random;
use second::numbers;

/// Spells a list of numbers, and misspells one of them.
pub fn misspell_one(list: &[u64], random: &mut Random) -> Vec<u8> {
    let bad = random.index(list.len().max(1));
    let mut bytes = vec![];
    for (index, &number) in list.iter().enumerate() {
        let good = numbers::spell(number).unwrap();
        bytes.extend(if index == bad { misspelled(&good, random) } else { good });
    }
    if random.one_in(3) {
        bytes.truncate(random.index(bytes.len() + 1));
    }
    bytes
}

/// Spells a number wrongly, or lets it run into the next one.
pub fn misspelled(good: &[u8], random: &mut Random) -> Vec<u8> {
    let lengthened_to = |groups: usize| {
        let mut bytes = good.to_vec();
        *bytes.last_mut().unwrap() |= 0x80;
        bytes.resize(groups.max(good.len() + 1), 0x80);
        *bytes.last_mut().unwrap() = 0;
        bytes
    };
    match random.below(8) {
        0 => vec![0x80, 0x00],
        1 => lengthened_to(0),
        2 => lengthened_to(random.within(3, 7) as usize),
        3 => [random.bytes(6).iter().map(|byte| byte | 0x80).collect(), vec![0x01]].concat(),
        4 => random.bytes(6).iter().map(|byte| byte | 0x80).collect(),
        5 => [random.bytes(5).iter().map(|byte| byte | 0x80).collect(), vec![random.within(0, 0x7f) as u8]].concat(),
        6 => good[..good.len() - 1].to_vec(),
        _ => good.iter().map(|byte| byte | 0x80).collect(),
    }
}

/// Makes one to three changes to the bytes, wherever they fall.
pub fn mutate(good: &[u8], random: &mut Random) -> Vec<u8> {
    let mut bytes = good.to_vec();
    for _ in 0..random.within(1, 3) {
        let place = random.index(bytes.len() + 1);
        let end = (place + random.index(5)).min(bytes.len());
        let telling = random.pick(&[0x00, 0x01, 0x3f, 0x40, 0x41, 0x7f, 0x80, 0x81, 0xff]);
        match random.below(6) {
            0 if place < bytes.len() => bytes[place] ^= 1 << random.below(8),
            1 if place < bytes.len() => bytes[place] = telling,
            2 => bytes.truncate(place),
            3 => bytes.insert(place, telling),
            4 => drop(bytes.drain(place..end)),
            _ => {
                let doubled = bytes[place..end].to_vec();
                drop(bytes.splice(place..place, doubled));
            }
        }
    }
    bytes
}

/// Puts one to four bytes after the others.
pub fn lengthen(good: &[u8], random: &mut Random) -> Vec<u8> {
    let length = random.within(1, 4) as usize;
    [good, &random.bytes(length)].concat()
}

/// The damages to one byte: another in its place, its top bit turned, removed, doubled, or cut off with all after it.
pub fn at(good: &[u8], place: usize) -> Vec<Vec<u8>> {
    let byte = good[place];
    let others = [0x00, 0x80, 0xff, byte ^ 0x80].into_iter().filter(|&other| other != byte);
    let mut all: Vec<Vec<u8>> = others.map(|other| replaced(good, place, &[other])).collect();
    all.extend([replaced(good, place, &[]), replaced(good, place, &[byte, byte]), good[..place].to_vec()]);
    all
}

/// The damages to every byte, one byte at a time.
pub fn everywhere(good: &[u8]) -> Vec<Vec<u8>> {
    (0..good.len()).flat_map(|place| at(good, place)).collect()
}

/// The bytes with others in the place of one of them.
pub fn replaced(bytes: &[u8], place: usize, by: &[u8]) -> Vec<u8> {
    [&bytes[..place], by, &bytes[place + 1..]].concat()
}
