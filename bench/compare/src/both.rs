//! One circuit on both sides, built alike.
use crate::calls::Call;
use crate::{ours, rust};

/// The Rust's nodes know their builder, which knows its nodes: it is emptied by hand.
pub struct Forgetting(pub rust::Builder);

impl Drop for Forgetting {
    fn drop(&mut self) {
        self.0.spy_forget_all();
    }
}

pub struct Both {
    pub m: Vec<u64>,
    pub builder: Forgetting,
    /// Of each call, its id and its node.
    pub ids: Vec<u64>,
    pub made: Vec<rust::Node>,
    roots: Vec<usize>,
}

impl Both {
    pub fn new(calls: &[Call]) -> Self {
        let (mut m, builder) = (ours::fresh(), Forgetting(rust::Builder::new()));
        let ids = ours::span_build_inner(&mut m, calls);
        let made = rust::span_build_rust(&builder.0, calls);
        assert!(made.iter().map(rust::id).eq(ids.iter().copied()), "other ids");
        let roots = (0..calls.len()).filter(|&k| matches!(calls[k], Call::Root(_))).collect();
        let both = Both { m, builder, ids, made, roots };
        assert_eq!(both.m[1], both.builder.0.spy_id_counter());
        both
    }

    pub fn used(&self) -> u64 {
        self.m[1]
    }

    pub fn root_ids(&self) -> Vec<u64> {
        self.roots.iter().map(|&k| self.ids[k]).collect()
    }

    pub fn root_nodes(&self) -> Vec<rust::Node> {
        self.roots.iter().map(|&k| self.made[k].clone()).collect()
    }

    /// The last call's id and node: the one root.
    pub fn last(&self) -> (u64, &rust::Node) {
        (self.ids[self.ids.len() - 1], &self.made[self.made.len() - 1])
    }
}
