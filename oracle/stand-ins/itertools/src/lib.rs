//! Stand-in: `collect_vec` and `unique` (by Hash + Eq, first one kept), as itertools defines them.
use std::collections::HashSet;
use std::hash::Hash;
pub struct Unique<I: Iterator> {
    it: I,
    seen: HashSet<I::Item>,
}
impl<I: Iterator> Iterator for Unique<I>
where
    I::Item: Clone + Eq + Hash,
{
    type Item = I::Item;
    fn next(&mut self) -> Option<I::Item> {
        loop {
            let x = self.it.next()?;
            if self.seen.insert(x.clone()) {
                return Some(x);
            }
        }
    }
}
pub trait Itertools: Iterator {
    fn collect_vec(self) -> Vec<Self::Item>
    where
        Self: Sized,
    {
        self.collect()
    }
    fn unique(self) -> Unique<Self>
    where
        Self: Sized,
        Self::Item: Clone + Eq + Hash,
    {
        Unique {
            it: self,
            seen: HashSet::new(),
        }
    }
}
impl<T: Iterator + ?Sized> Itertools for T {}
