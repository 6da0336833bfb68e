//! Queues, and ordered maps and sets. The maps and sets of Rust's `alloc` stop where memory runs out; so do these.
use crate::alloc::{AllocError, AllocFailed, Global, asked};
use core::borrow::Borrow;
use core::ops::{Index, IndexMut};

#[derive(Debug)]
pub struct BTreeMap<K, V>(heap::collections::BTreeMap<K, V>);

impl<K: Ord, V> BTreeMap<K, V> {
    pub const fn new(_alloc: Global) -> BTreeMap<K, V> {
        BTreeMap(heap::collections::BTreeMap::new())
    }

    pub fn get<Q: ?Sized + Ord>(&self, key: &Q) -> Option<&V>
    where
        K: Borrow<Q>,
    {
        self.0.get(key)
    }

    pub fn get_mut(&mut self, key: &K) -> Option<&mut V> {
        self.0.get_mut(key)
    }

    pub fn contains_key(&self, key: &K) -> bool {
        self.0.contains_key(key)
    }

    pub fn len(&self) -> usize {
        self.0.len()
    }

    pub fn is_empty(&self) -> bool {
        self.0.is_empty()
    }

    pub fn first_key_value(&self) -> Option<(&K, &V)> {
        self.0.first_key_value()
    }

    pub fn pop_first(&mut self) -> Option<(K, V)> {
        self.0.pop_first()
    }

    pub fn insert(&mut self, key: K, value: V) -> Result<Option<V>, AllocError> {
        Ok(self.0.insert(key, value))
    }

    pub fn remove(&mut self, key: &K) -> Option<V> {
        self.0.remove(key)
    }

    pub fn keys(&self) -> heap::collections::btree_map::Keys<'_, K, V> {
        self.0.keys()
    }

    pub fn values(&self) -> heap::collections::btree_map::Values<'_, K, V> {
        self.0.values()
    }

    pub fn iter(&self) -> heap::collections::btree_map::Iter<'_, K, V> {
        self.0.iter()
    }
}

pub struct BTreeSet<K>(heap::collections::BTreeSet<K>);

impl<K: Ord> BTreeSet<K> {
    pub const fn new(_alloc: Global) -> BTreeSet<K> {
        BTreeSet(heap::collections::BTreeSet::new())
    }

    pub fn insert(&mut self, key: K) -> Result<bool, AllocError> {
        Ok(self.0.insert(key))
    }

    pub fn remove(&mut self, key: &K) -> bool {
        self.0.remove(key)
    }

    pub fn len(&self) -> usize {
        self.0.len()
    }

    pub fn is_empty(&self) -> bool {
        self.0.is_empty()
    }
}

pub struct VecDeque<T>(heap::collections::VecDeque<T>);

impl<T> VecDeque<T> {
    pub const fn new(_alloc: Global) -> VecDeque<T> {
        VecDeque(heap::collections::VecDeque::new())
    }

    pub fn push_back(&mut self, item: T) -> Result<(), AllocFailed<T>> {
        if self.0.len() == self.0.capacity() && asked(|| self.0.try_reserve(1)).is_err() {
            return Err(AllocFailed(item));
        }
        self.0.push_back(item);
        Ok(())
    }

    pub fn pop_front(&mut self) -> Option<T> {
        self.0.pop_front()
    }

    pub fn front(&self) -> Option<&T> {
        self.0.front()
    }

    pub fn clear(&mut self) {
        self.0.clear();
    }

    pub fn len(&self) -> usize {
        self.0.len()
    }

    pub fn is_empty(&self) -> bool {
        self.0.is_empty()
    }
}

impl<T> Index<usize> for VecDeque<T> {
    type Output = T;

    fn index(&self, place: usize) -> &T {
        &self.0[place]
    }
}

impl<T> IndexMut<usize> for VecDeque<T> {
    fn index_mut(&mut self, place: usize) -> &mut T {
        &mut self.0[place]
    }
}
