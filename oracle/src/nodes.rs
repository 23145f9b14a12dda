//! A circuit's nodes copied out of the Rust into plain numbers, and what the
//! generator has to know of them to stay inside document 01's domain. All sums
//! go over distinct nodes, saturating: the Rust's own readings enumerate paths.

/// A node as the Rust has it at this moment.
#[derive(Debug, Clone, PartialEq, Eq)]
pub struct Node {
    pub registered: bool,
    pub expression: Expression,
}

#[derive(Debug, Clone, Copy, PartialEq, Eq)]
pub enum Expression {
    Base(u64),
    Extension([u64; 3]),
    Challenge(usize),
    /// `row` is the byte of frame 01.
    Input {
        row: u8,
        column: usize,
    },
    Add(usize, usize),
    Multiply(usize, usize),
}

impl Expression {
    pub fn operands(&self) -> Option<(usize, usize)> {
        match *self {
            Self::Add(left, right) | Self::Multiply(left, right) => Some((left, right)),
            _ => None,
        }
    }
}

/// Degree and tree size of each node, and an order with operands first.
/// (Ids are no such order: a redirected operand's id is higher.)
#[derive(Debug, Default)]
pub struct Survey {
    pub degree: Vec<i64>,
    pub tree: Vec<u64>,
    pub clean: Vec<bool>,
    order: Vec<usize>,
}

impl Survey {
    pub fn of(nodes: &[Node]) -> Self {
        let mut survey = Self {
            degree: vec![0; nodes.len()],
            tree: vec![0; nodes.len()],
            clean: vec![true; nodes.len()],
            order: Vec::with_capacity(nodes.len()),
        };
        for id in 0..nodes.len() {
            survey.visit(nodes, id);
        }
        survey
    }

    fn visit(&mut self, nodes: &[Node], id: usize) {
        if self.tree[id] != 0 {
            return;
        }
        self.clean[id] = nodes[id].registered;
        match nodes[id].expression {
            Expression::Base(0) => self.leaf(id, -1),
            Expression::Base(_) | Expression::Extension(_) | Expression::Challenge(_) => {
                self.leaf(id, 0)
            }
            Expression::Input { .. } => self.leaf(id, 1),
            Expression::Add(left, right) => {
                self.branch(nodes, id, left, right);
                self.degree[id] = self.degree[left].max(self.degree[right]);
            }
            Expression::Multiply(left, right) => {
                self.branch(nodes, id, left, right);
                self.degree[id] = match (self.degree[left], self.degree[right]) {
                    (-1, _) | (_, -1) => -1,
                    (l, r) => l.saturating_add(r),
                };
            }
        }
        self.order.push(id);
    }

    fn leaf(&mut self, id: usize, degree: i64) {
        self.degree[id] = degree;
        self.tree[id] = 1;
    }

    fn branch(&mut self, nodes: &[Node], id: usize, left: usize, right: usize) {
        self.visit(nodes, left);
        self.visit(nodes, right);
        self.tree[id] = self.tree[left]
            .saturating_add(self.tree[right])
            .saturating_add(1);
        self.clean[id] &= self.clean[left] && self.clean[right];
    }

    /// Paths from a weight at each node: own weight, and that of all above.
    fn paths(&self, nodes: &[Node], mut weight: Vec<u64>) -> Vec<u64> {
        for &id in self.order.iter().rev() {
            if let Some((left, right)) = nodes[id].expression.operands() {
                for operand in [left, right] {
                    weight[operand] = weight[operand].saturating_add(weight[id]);
                }
            }
        }
        weight
    }

    /// The number of paths from all of these roots to each node.
    pub fn paths_from(&self, nodes: &[Node], roots: &[usize]) -> Vec<u64> {
        let mut weight = vec![0; nodes.len()];
        for &root in roots {
            weight[root] += 1;
        }
        self.paths(nodes, weight)
    }

    pub fn highest(&self, roots: &[usize]) -> i64 {
        roots.iter().map(|&r| self.degree[r]).max().unwrap_or(-1)
    }

    /// What document 01 says of lowering these roots: the number of the first
    /// refusal, or what the lowering may cost the Rust in visited tree nodes.
    pub fn lowering(
        &self,
        nodes: &[Node],
        roots: &[usize],
        target: i64,
        counts: [usize; 2],
        places: usize,
    ) -> Result<u64, &'static str> {
        if target < 2 {
            return Err("TARGET");
        }
        let paths = self.paths_from(nodes, roots);
        let below: Vec<usize> = (0..nodes.len()).filter(|&id| paths[id] > 0).collect();
        if below.iter().any(|&id| self.degree[id] > 2_147_483_647) {
            return Err("DEGREE");
        }
        if self.highest(roots) <= target {
            return Ok(0);
        }
        if !below.iter().all(|&id| nodes[id].registered) {
            return Err("LOOSE");
        }
        let m = below.iter().filter(|&&id| self.degree[id] > 1).count();
        let too_far = nodes.iter().any(|node| match node.expression {
            Expression::Input { row, column } => column >= counts[row as usize % 2],
            _ => false,
        });
        if too_far || counts.iter().any(|count| count + m > 65_536) {
            return Err("COLUMNS");
        }
        let mut weight = vec![0; nodes.len()];
        for &id in &below {
            weight[id] = u64::from(self.degree[id] > target);
        }
        let occurrences = self.paths(nodes, weight);
        let too_many = |&id: &usize| self.degree[id] > 1 && occurrences[id] > 4_294_967_295;
        if below.iter().any(too_many) {
            return Err("PATHS");
        }
        if places - nodes.len() < 3 * m {
            return Err("FULL");
        }
        if m > places {
            return Err("NO_ROOM");
        }
        // Every path is walked, and every node on it asks its whole tree.
        let walked = below
            .iter()
            .map(|&id| paths[id].saturating_mul(self.tree[id]));
        let once = walked.fold(0, u64::saturating_add);
        Ok(once.saturating_mul(m as u64))
    }
}
