//! Keys to ask a list about: listed ones, and absent ones as near to them as can be.

use super::random::Random;
use second::list::Key;

/// Every listed key, and every absent one next to a listed one.
pub fn all(keys: &[Key]) -> Vec<Key> {
    let absent = keys.iter().flat_map(|key| [one_less(*key), one_more(*key)]).flatten();
    let absent: Vec<Key> = absent.filter(|key| keys.binary_search(key).is_err()).collect();
    [keys, &absent].concat()
}

/// The keys at the ends and in the middle, and a few others, each with those next to it;
/// keys one bit away; and the least and the greatest key there is.
pub fn some(random: &mut Random, keys: &[Key]) -> Vec<Key> {
    let at = [0, keys.len() / 2, keys.len() - 1, random.below(keys.len())];
    let mut asked = vec![[0x00; 20], [0xff; 20]];
    for key in at.map(|at| keys[at]) {
        asked.push(key);
        asked.extend(one_less(key));
        asked.extend(one_more(key));
        asked.push(one_bit_away(key, random.below(160)));
    }
    asked.push(random.octets(20).try_into().unwrap());
    asked
}

pub fn one_bit_away(mut key: Key, bit: usize) -> Key {
    key[bit / 8] ^= 0x80 >> (bit % 8);
    key
}

/// The next greater key, if there is one.
fn one_more(mut key: Key) -> Option<Key> {
    let at = key.iter().rposition(|octet| *octet < 0xff)?;
    key[at] += 1;
    key[at + 1..].fill(0x00);
    Some(key)
}

/// The next smaller key, if there is one.
fn one_less(mut key: Key) -> Option<Key> {
    let at = key.iter().rposition(|octet| *octet > 0x00)?;
    key[at] -= 1;
    key[at + 1..].fill(0xff);
    Some(key)
}
