//! Stand-in for hashbrown: a map that keeps insertion order (so that runs repeat),
//! and counts its look-ups (so that the harness knows which override was being settled).
use std::borrow::Borrow;
use std::cell::Cell;
use std::collections::HashMap as Std;
pub use std::collections::HashSet;
use std::hash::Hash;

pub struct HashMap<K, V> {
    items: Vec<(K, V)>,
    index: Std<K, usize>,
    pub gets: Cell<usize>,
}
impl<K: Hash + Eq + Clone, V> HashMap<K, V> {
    pub fn new() -> Self {
        HashMap {
            items: Vec::new(),
            index: Std::new(),
            gets: Cell::new(0),
        }
    }
    pub fn insert(&mut self, k: K, v: V) {
        if let Some(&i) = self.index.get(&k) {
            self.items[i].1 = v;
            return;
        }
        self.index.insert(k.clone(), self.items.len());
        self.items.push((k, v));
    }
    pub fn keys(&self) -> impl Iterator<Item = &K> {
        self.items.iter().map(|p| &p.0)
    }
    pub fn get<Q: ?Sized + Hash + Eq>(&self, k: &Q) -> Option<&V>
    where
        K: Borrow<Q>,
    {
        self.gets.set(self.gets.get() + 1);
        self.index.get(k).map(|&i| &self.items[i].1)
    }
}
