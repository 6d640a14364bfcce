//! Stand-in for the crate indexmap: a map and a set that keep the order in which keys were first put in.
use std::borrow::Borrow;
use std::collections::HashMap;
use std::hash::Hash;
use std::ops::{Index, IndexMut};

#[derive(Clone, Debug)]
pub struct IndexMap<K, V> {
    places: HashMap<K, usize>,
    entries: Vec<(K, V)>,
}

impl<K: Hash + Eq + Clone, V> IndexMap<K, V> {
    pub fn new() -> Self {
        IndexMap { places: HashMap::new(), entries: Vec::new() }
    }

    pub fn len(&self) -> usize {
        self.entries.len()
    }

    /// A key that is there keeps its place and gets the new value.
    pub fn insert(&mut self, key: K, value: V) -> Option<V> {
        if let Some(&place) = self.places.get(&key) {
            return Some(std::mem::replace(&mut self.entries[place].1, value));
        }
        self.places.insert(key.clone(), self.entries.len());
        self.entries.push((key, value));
        None
    }

    pub fn get<Q: Hash + Eq + ?Sized>(&self, key: &Q) -> Option<&V>
    where
        K: Borrow<Q>,
    {
        self.places.get(key).map(|&place| &self.entries[place].1)
    }

    pub fn contains_key<Q: Hash + Eq + ?Sized>(&self, key: &Q) -> bool
    where
        K: Borrow<Q>,
    {
        self.places.contains_key(key)
    }

    pub fn iter(&self) -> Iter<'_, K, V> {
        self.entries.iter().map(|(key, value)| (key, value))
    }

    pub fn values(&self) -> impl Iterator<Item = &V> {
        self.entries.iter().map(|(_, value)| value)
    }
}

type Iter<'a, K, V> = std::iter::Map<std::slice::Iter<'a, (K, V)>, fn(&'a (K, V)) -> (&'a K, &'a V)>;

impl<'a, K: Hash + Eq + Clone, V> IntoIterator for &'a IndexMap<K, V> {
    type Item = (&'a K, &'a V);
    type IntoIter = Iter<'a, K, V>;
    fn into_iter(self) -> Iter<'a, K, V> {
        self.iter()
    }
}

impl<K: Hash + Eq + Borrow<Q>, V, Q: Hash + Eq + ?Sized> Index<&Q> for IndexMap<K, V> {
    type Output = V;
    fn index(&self, key: &Q) -> &V {
        &self.entries[self.places[key]].1
    }
}

impl<K: Hash + Eq + Borrow<Q>, V, Q: Hash + Eq + ?Sized> IndexMut<&Q> for IndexMap<K, V> {
    fn index_mut(&mut self, key: &Q) -> &mut V {
        &mut self.entries[self.places[key]].1
    }
}

impl<K, V> Index<usize> for IndexMap<K, V> {
    type Output = V;
    fn index(&self, place: usize) -> &V {
        &self.entries[place].1
    }
}

#[derive(Clone, Debug)]
pub struct IndexSet<K>(IndexMap<K, ()>);

impl<K: Hash + Eq + Clone> IndexSet<K> {
    pub fn new() -> Self {
        IndexSet(IndexMap::new())
    }

    pub fn len(&self) -> usize {
        self.0.len()
    }

    /// Whether it is new.
    pub fn insert(&mut self, key: K) -> bool {
        self.0.insert(key, ()).is_none()
    }

    pub fn contains<Q: Hash + Eq + ?Sized>(&self, key: &Q) -> bool
    where
        K: Borrow<Q>,
    {
        self.0.contains_key(key)
    }

    pub fn iter(&self) -> impl Iterator<Item = &K> {
        self.0.iter().map(|(key, _)| key)
    }
}

impl<K> Index<usize> for IndexSet<K> {
    type Output = K;
    fn index(&self, place: usize) -> &K {
        &self.0.entries[place].0
    }
}
