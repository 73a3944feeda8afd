//! A stand-in for lru: a cache that, when full, drops the entry that was not used for longest. As there, a get and a put take
//! a look into a hash map and a few links, however many entries there are.

#![forbid(unsafe_code)]

mod hasher;
mod ring;

use hasher::QuickHasher;
use ring::Ring;
use std::collections::HashMap;
use std::hash::{BuildHasherDefault, Hash};
use std::num::NonZeroUsize;

pub struct LruCache<K, V> {
    capacity: NonZeroUsize,
    /// The place of each key among the entries.
    places: HashMap<K, usize, BuildHasherDefault<QuickHasher>>,
    entries: Vec<(K, V)>,
    /// The places in the order of their last use.
    order: Ring,
}

impl<K: Hash + Eq + Clone, V> LruCache<K, V> {
    pub fn new(capacity: NonZeroUsize) -> LruCache<K, V> {
        LruCache {
            capacity,
            places: HashMap::with_capacity_and_hasher(
                capacity.get(),
                BuildHasherDefault::default(),
            ),
            entries: Vec::with_capacity(capacity.get()),
            order: Ring::default(),
        }
    }

    /// The value of the key, which becomes the newest.
    pub fn get(&mut self, key: &K) -> Option<&V> {
        let place = *self.places.get(key)?;
        self.order.make_newest(place);
        Some(&self.entries[place].1)
    }

    /// Enters the value as the newest, in place of the oldest if the cache is full. Gives back the value that the key had.
    pub fn put(&mut self, key: K, value: V) -> Option<V> {
        if let Some(&place) = self.places.get(&key) {
            self.order.make_newest(place);
            return Some(std::mem::replace(&mut self.entries[place].1, value));
        }
        let place = if self.len() < self.capacity.get() {
            self.entries.push((key.clone(), value));
            self.order.add_newest()
        } else {
            let oldest = self.order.oldest();
            self.order.make_newest(oldest);
            let (dropped, _) = std::mem::replace(&mut self.entries[oldest], (key.clone(), value));
            self.places.remove(&dropped);
            oldest
        };
        self.places.insert(key, place);
        None
    }

    pub fn len(&self) -> usize {
        self.entries.len()
    }

    pub fn is_empty(&self) -> bool {
        self.entries.is_empty()
    }

    pub fn cap(&self) -> NonZeroUsize {
        self.capacity
    }

    pub fn clear(&mut self) {
        self.places.clear();
        self.entries.clear();
        self.order = Ring::default();
    }
}

#[cfg(test)]
mod tests {
    use super::*;

    fn cache(capacity: usize) -> LruCache<i32, &'static str> {
        LruCache::new(NonZeroUsize::new(capacity).expect("a capacity"))
    }

    #[test]
    fn the_least_recently_used_goes() {
        let mut cache = cache(3);
        for (key, value) in [(1, "a"), (2, "b"), (3, "c")] {
            assert_eq!(cache.put(key, value), None);
        }
        assert_eq!(cache.get(&1), Some(&"a"));
        assert_eq!(cache.put(2, "B"), Some("b"));
        assert_eq!(cache.put(4, "d"), None);
        assert_eq!(cache.get(&3), None);
        assert_eq!(cache.put(5, "e"), None);
        assert_eq!(cache.get(&1), None);
        assert_eq!(cache.get(&2), Some(&"B"));
        assert_eq!((cache.len(), cache.cap().get()), (3, 3));
    }

    #[test]
    fn one_entry() {
        let mut cache = cache(1);
        assert!(cache.is_empty());
        cache.put(1, "a");
        cache.put(2, "b");
        assert_eq!(
            (cache.get(&1).copied(), cache.get(&2).copied()),
            (None, Some("b"))
        );
        cache.clear();
        assert_eq!((cache.len(), cache.get(&2)), (0, None));
    }

    /// Beside a list that is searched and shifted, over many gets and puts.
    #[test]
    fn as_a_plain_list() {
        let (mut cache, mut list) = (cache(20), Vec::new());
        let mut random = 1_u32;
        for _ in 0..100_000 {
            random = random.wrapping_mul(1_664_525).wrapping_add(1_013_904_223);
            let key = (random >> 16) as i32 % 30;
            let known = list.iter().position(|&other| other == key);
            assert_eq!(cache.get(&key).is_some(), known.is_some());
            cache.put(key, "");
            known.map(|place| list.remove(place));
            list.push(key);
            if list.len() > 20 {
                list.remove(0);
            }
        }
    }
}
