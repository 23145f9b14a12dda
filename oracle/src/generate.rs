//! Random grown circuits from fixed seeds, always inside document 01's domain:
//! no call that it would refuse is made.
use crate::calls::Call;
use crate::cells::Rng;
use crate::machine::ROOTS;
use crate::nodes::Expression;
use crate::record::Recorder;
use twenty_first::prelude::BFieldElement;

/// The themes, and what each is for.
pub const THEMES: [(&str, &str); 6] = [
    (
        "building",
        "leaves, folds, zero and one operands in all orders; no lowering",
    ),
    ("single", "single-row circuits, one to three lowerings each"),
    ("dual", "dual-row circuits, one to three lowerings each"),
    (
        "again",
        "chosen nodes rebuilt, loose nodes used again, constraints that are old nodes",
    ),
    ("large", "some 100 to 200 nodes before the first lowering"),
    ("towers", "few nodes, trees up to a million"),
];

/// `COUNT` circuits of a theme, numbered from `FIRST`; a number is a seed.
pub fn generate(recorder: &mut Recorder, theme: &str, first: u64, count: u64) {
    let place = THEMES.iter().position(|(name, _)| *name == theme);
    let place = place.unwrap_or_else(|| panic!("no theme {theme}"));
    for number in first..first + count {
        let mut rng = Rng::new(&[place as u64, number]);
        let dual = match theme {
            "single" => false,
            "dual" => true,
            _ => rng.percent(50),
        };
        recorder.begin(number, if dual { 2 } else { 1 });
        let mut grower = Grower::new(recorder, rng, dual);
        match theme {
            "building" => grower.building(),
            "single" | "dual" => grower.lowerings(),
            "again" => grower.again(),
            "large" => grower.large(),
            _ => grower.tower(),
        }
    }
}

/// How far a circuit may grow.
struct Limits {
    degree: i64,
    /// Tree size of one node: the Rust enumerates paths.
    tree: u64,
    /// Tree nodes that the Rust visits in one lowering.
    cost: u64,
}

struct Grower<'a> {
    to: &'a mut Recorder,
    rng: Rng,
    dual: bool,
    /// Columns in use: main, auxiliary, next main, next auxiliary.
    columns: [usize; 4],
    challenges: usize,
    limits: Limits,
    /// Ids that a lowering made loose.
    loose: Vec<u16>,
    /// Chance in a hundred that an operand is a loose node.
    loosely: usize,
    /// No root twice or below another, so that reference counts are accepted.
    plain: bool,
}

const MINUS_ONE: u64 = BFieldElement::P - 1;

impl<'a> Grower<'a> {
    fn new(to: &'a mut Recorder, mut rng: Rng, dual: bool) -> Self {
        let columns = [
            1 + rng.below(4),
            rng.below(3),
            1 + rng.below(5),
            rng.below(4),
        ];
        let challenges = rng.below(4);
        let plain = rng.percent(60);
        Self {
            to,
            rng,
            dual,
            columns,
            challenges,
            limits: Limits {
                degree: 20,
                tree: 2_000,
                cost: 100_000_000,
            },
            loose: vec![],
            loosely: 0,
            plain,
        }
    }

    fn used(&self) -> usize {
        self.to.nodes.len()
    }

    fn degree(&self, id: u16) -> i64 {
        self.to.survey.degree[usize::from(id)]
    }

    // ---- leaves

    fn input(&mut self) -> u16 {
        let row = match (self.dual, self.rng.below(8)) {
            (false, 0..=4) | (true, 0..=2) => 0,
            (false, _) | (true, 3..=4) => 1,
            (true, 5..=6) => 2,
            (true, _) => 3,
        };
        let row = if self.columns[row] == 0 { 0 } else { row };
        let column = self.rng.below(self.columns[row]) as u16;
        let row = row as u8;
        self.to.build(Call::Input { row, column })
    }

    fn constant(&mut self) -> u16 {
        let call = match self.rng.below(8) {
            0 => Call::Base(0),
            1 => Call::Base(1),
            2 => Call::Base(MINUS_ONE),
            3 => Call::Base(self.rng.below(5) as u64),
            4 => Call::Base(self.rng.word()),
            // unlifts
            5 => Call::Extension([self.rng.word(), 0, 0]),
            6 => Call::Extension([self.rng.below(3) as u64, self.rng.below(2) as u64, 1]),
            _ => Call::Extension([self.rng.word(), self.rng.word(), self.rng.word()]),
        };
        self.to.build(call)
    }

    fn leaf(&mut self) -> u16 {
        match self.rng.below(10) {
            0..=6 => self.input(),
            7 if self.challenges > 0 => {
                let index = self.rng.below(self.challenges) as u16;
                self.to.build(Call::Challenge(index))
            }
            _ => self.constant(),
        }
    }

    // ---- operations

    fn operand(&mut self) -> u16 {
        if self.used() == 0 {
            return self.leaf();
        }
        if !self.loose.is_empty() && self.rng.percent(self.loosely) {
            return self.rng.pick(&self.loose);
        }
        let recent = match self.rng.below(10) {
            0..=3 => 3,
            4..=5 => 10,
            6..=8 => self.used(),
            _ => return self.leaf(),
        };
        let recent = recent.min(self.used());
        (self.used() - 1 - self.rng.below(recent)) as u16
    }

    /// May a node over these operands be made?
    fn fits(&self, multiply: bool, ids: &[u16]) -> bool {
        let trees: u64 = ids
            .iter()
            .map(|&id| self.to.survey.tree[usize::from(id)] + 3)
            .sum();
        let degrees = ids.iter().map(|&id| self.degree(id).max(0));
        let degree: i64 = match multiply {
            true => degrees.sum(),
            false => degrees.max().unwrap_or(0),
        };
        trees <= self.limits.tree && degree <= self.limits.degree
    }

    /// One random operation on random operands.
    fn operation(&mut self) -> u16 {
        let (left, right) = (self.operand(), self.operand());
        match self.rng.below(12) {
            0..=4 if self.fits(true, &[left, right]) => self.to.build(Call::Multiply(left, right)),
            5..=7 if self.fits(false, &[left, right]) => self.to.build(Call::Add(left, right)),
            8..=9 if self.fits(false, &[left, right]) => self.to.build(Call::Subtract(left, right)),
            10 if self.fits(false, &[left]) => self.to.build(Call::Negate(left)),
            11 => {
                let count = 1 + self.rng.below(4);
                let ids: Vec<u16> = (0..count).map(|_| self.operand()).collect();
                match self.fits(false, &ids) {
                    true => self.to.sum(&ids),
                    false => self.to.sum(&[left]),
                }
            }
            _ => self.leaf(),
        }
    }

    fn operations(&mut self, count: usize) {
        for _ in 0..count {
            self.operation();
        }
    }

    /// A node of the structure of this one, made by a call of its own. After a
    /// lowering that is a new id for a chosen node. Operands that are loose
    /// are rebuilt too, or now and then used as they are.
    fn rebuild(&mut self, id: u16, as_is: usize) -> u16 {
        let node = self.to.nodes[usize::from(id)].clone();
        let Some((left, right)) = node.expression.operands() else {
            return id;
        };
        let mut operand = |id: usize| {
            let id = id as u16;
            match self.to.nodes[usize::from(id)].registered || self.rng.percent(as_is) {
                true => id,
                false => self.rebuild(id, as_is),
            }
        };
        let (left, right) = (operand(left), operand(right));
        let (left, right) = match self.rng.percent(30) {
            true => (right, left),
            false => (left, right),
        };
        self.to.build(match node.expression {
            Expression::Add(..) => Call::Add(left, right),
            _ => Call::Multiply(left, right),
        })
    }

    // ---- roots and lowering

    /// The least counts that COLUMNS allows, for inputs of both rows, and now
    /// and then some more.
    fn counts(&mut self) -> [usize; 2] {
        let mut counts = [0; 2];
        for node in &self.to.nodes {
            if let Expression::Input { row, column } = node.expression {
                let count = &mut counts[usize::from(row) % 2];
                *count = (column + 1).max(*count);
            }
        }
        counts.map(|count| match self.rng.percent(25) {
            true => count + 1 + self.rng.below(3),
            false => count,
        })
    }

    /// Ids with nothing loose below them that a lowering to `target` works on.
    fn high(&self, target: u16) -> Vec<u16> {
        let survey = &self.to.survey;
        (0..self.used())
            .filter(|&id| survey.clean[id] && survey.degree[id] > i64::from(target))
            .map(|id| id as u16)
            .collect()
    }

    /// Is the list, with this root too, cheap enough and accepted?
    fn affordable(&self, more: &[u16], target: u16) -> bool {
        let mut roots = self.to.roots();
        roots.extend(more.iter().map(|&id| usize::from(id)));
        let nodes = &self.to.nodes;
        // Counts do not matter here: as high as they may be.
        let counts = [65_000; 2];
        let target = i64::from(target);
        let places = crate::machine::PLACES;
        let cost = self
            .to
            .survey
            .lowering(nodes, &roots, target, counts, places);
        cost.is_ok_and(|cost| cost <= self.limits.cost) && roots.len() <= ROOTS
    }

    fn offer(&mut self, id: u16, target: u16) {
        if self.affordable(&[id], target) {
            self.to.root(id);
        }
    }

    /// Name roots: high ones, and now and then one twice, one below another,
    /// or one with nothing to lower.
    fn choose_roots(&mut self, count: usize, target: u16) {
        for _ in 0..count {
            let high = self.high(target);
            let top = high.iter().copied().max_by_key(|&id| self.degree(id));
            let Some(top) = top else {
                break;
            };
            let id = match self.rng.percent(50) {
                true => top,
                false => self.rng.pick(&high),
            };
            if !(self.plain && self.related(id)) {
                self.offer(id, target);
            }
        }
        if self.plain {
            return;
        }
        if let Some(&root) = self.to.roots().last()
            && self.rng.percent(35)
        {
            self.offer(root as u16, target);
        }
        if let Some(&root) = self.to.roots().last()
            && let Some((left, _)) = self.to.nodes[root].expression.operands()
            && self.rng.percent(35)
        {
            self.offer(left as u16, target);
        }
        if self.rng.percent(25) {
            let any = self.rng.below(self.used());
            if self.to.survey.clean[any] {
                self.offer(any as u16, target);
            }
        }
    }

    /// Is this node a root, below one, or above one?
    fn related(&self, id: u16) -> bool {
        let (nodes, survey) = (&self.to.nodes, &self.to.survey);
        let roots = self.to.roots();
        let below = survey.paths_from(nodes, &[usize::from(id)]);
        survey.paths_from(nodes, &roots)[usize::from(id)] > 0
            || roots.iter().any(|&root| below[root] > 0)
    }

    /// Lower if document 01 accepts it. Answers what became loose.
    fn lower(&mut self, target: u16) -> Vec<u16> {
        let counts = self.counts();
        let allowed = self.to.may_lower(target, counts);
        if !allowed.is_ok_and(|cost| cost <= self.limits.cost) {
            return vec![];
        }
        let loosened = self.to.lower(target, counts);
        self.loose.extend(&loosened);
        self.to.dump();
        loosened
    }

    /// Some more of everything, loose roots at last: no lowering works on them.
    fn finish(&mut self) {
        self.loosely = 40;
        let more = 1 + self.rng.below(5);
        self.operations(more);
        if !self.loose.is_empty() && self.rng.percent(70) {
            let root = self.rng.pick(&self.loose);
            let wanted = !(self.plain && self.related(root));
            if wanted && self.to.roots().len() < ROOTS {
                self.to.root(root);
            }
            // A lowering with nothing to do does not look for loose nodes.
            let highest = self.to.survey.highest(&self.to.roots());
            if self.rng.percent(50) && highest < 60_000 {
                let target = highest.max(2) as u16;
                let counts = self.counts();
                self.to.lower(target, counts);
            }
        }
        self.to.dump();
    }

    // ---- themes

    fn building(&mut self) {
        let count = 6 + self.rng.below(24);
        let mut specials = vec![];
        if self.rng.percent(60) {
            for word in [0, 1, MINUS_ONE] {
                if self.rng.percent(60) {
                    specials.push(self.to.build(Call::Base(word)));
                }
            }
        }
        for _ in 0..count {
            let id = self.operation();
            if !specials.is_empty() && self.rng.percent(40) {
                let special = self.rng.pick(&specials);
                self.beside(id, special);
            }
            if self.rng.percent(20) {
                let other = self.constant();
                self.beside(id, other);
            }
        }
        for _ in 0..self.rng.below(4) {
            let root = self.rng.below(self.used()) as u16;
            self.to.root(root);
        }
        self.to.dump();
    }

    /// One of the operations on a node and a constant, in either order.
    fn beside(&mut self, id: u16, constant: u16) {
        let (left, right) = match self.rng.percent(50) {
            true => (id, constant),
            false => (constant, id),
        };
        let call = match self.rng.below(4) {
            0 => Call::Add(left, right),
            1 | 2 => Call::Multiply(left, right),
            _ => Call::Subtract(left, right),
        };
        self.to.build(call);
    }

    fn lowerings(&mut self) {
        let rounds = 1 + self.rng.below(3);
        let mut target = 2 + self.rng.below(4) as u16;
        let count = 6 + self.rng.below(11);
        self.operations(count);
        for round in 0..rounds {
            let deep = 1 + self.rng.below(4);
            self.raise(target, deep);
            let roots = 2 + self.rng.below(3);
            self.choose_roots(roots, target);
            if round == 0 && self.rng.percent(15) {
                self.to.dump();
            }
            let loosened = self.lower(target);
            if round + 1 < rounds {
                if let Some(&id) = loosened.last()
                    && self.rng.percent(60)
                {
                    self.rebuild(id, 0);
                }
                let count = 1 + self.rng.below(6);
                self.operations(count);
                // Lower targets lower the old roots further.
                target = match self.rng.percent(60) {
                    true => 2 + self.rng.below(usize::from(target) - 1) as u16,
                    false => 2 + self.rng.below(4) as u16,
                };
            }
        }
        self.finish();
    }

    /// Multiply until enough clean nodes lie above the target, some far above.
    fn raise(&mut self, target: u16, times: usize) {
        for _ in 0..times + 12 {
            let high = self.high(target);
            let far = i64::from(target) * 2 + 1;
            if high.len() >= times && high.iter().any(|&id| self.degree(id) >= far) {
                return;
            }
            let clean: Vec<u16> = (0..self.used())
                .filter(|&id| self.to.survey.clean[id] && self.to.survey.degree[id] > 0)
                .map(|id| id as u16)
                .collect();
            if clean.len() < 2 {
                self.input();
                continue;
            }
            let near = clean.len().min(5);
            let left = clean[clean.len() - 1 - self.rng.below(near)];
            let right = match self.rng.percent(50) {
                true => clean[clean.len() - 1 - self.rng.below(near)],
                false => self.rng.pick(&clean),
            };
            if self.fits(true, &[left, right]) {
                self.to.build(Call::Multiply(left, right));
            } else {
                self.input();
            }
        }
    }

    /// After a lowering: the chosen nodes once more, above them things to lower
    /// again, and the sums that the next lowering's constraints will find.
    fn again(&mut self) {
        let mut target = 2 + self.rng.below(3) as u16;
        let count = 5 + self.rng.below(8);
        self.operations(count);
        let times = 2 + self.rng.below(3);
        self.raise(target, times);
        let roots = 1 + self.rng.below(2);
        self.choose_roots(roots, target);
        let mut loosened = self.lower(target);
        for _ in 0..1 + self.rng.below(2) {
            self.loosely = 8;
            for id in loosened.iter().copied().take(3) {
                let as_is = self.rng.pick(&[0, 0, 50]);
                let copy = self.rebuild(id, as_is);
                // (-1)·chosen is there already; its sum with the copy is what
                // the next constraint is found as, once the copy is replaced.
                if self.rng.percent(60) {
                    let minus = self.to.build(Call::Negate(id));
                    let call = match self.rng.percent(50) {
                        true => Call::Add(minus, copy),
                        false => Call::Add(copy, minus),
                    };
                    self.to.build(call);
                }
                let factor = match self.rng.below(3) {
                    0 => copy,
                    1 => self.input(),
                    _ => self.operand(),
                };
                if self.fits(true, &[copy, factor]) {
                    let high = self.to.build(Call::Multiply(copy, factor));
                    let clean = self.to.survey.clean[usize::from(high)];
                    if clean && !(self.plain && self.related(high)) {
                        self.offer(high, target);
                    }
                }
            }
            let count = self.rng.below(5);
            self.operations(count);
            self.raise(target, 1);
            self.choose_roots(1, target);
            loosened = self.lower(target);
            if self.rng.percent(30) {
                target = 2 + self.rng.below(usize::from(target) - 1) as u16;
            }
        }
        self.finish();
    }

    /// Selected sums of products, as real constraint sets have them.
    fn large(&mut self) {
        self.limits = Limits {
            degree: 16,
            tree: 4_000,
            cost: 500_000_000,
        };
        self.columns = [6, 4, 6, 4];
        self.challenges = 4;
        let target = 2 + self.rng.below(4) as u16;
        let selectors: Vec<u16> = (0..2 + self.rng.below(4))
            .map(|_| self.selector())
            .collect();
        let size = 100 + self.rng.below(90);
        while self.used() < size {
            let mut terms = vec![];
            for _ in 0..1 + self.rng.below(3) {
                let (left, right) = (self.linear(), self.linear());
                let product = self.to.build(Call::Multiply(left, right));
                let other = match self.rng.percent(70) {
                    true => self.rng.pick(&selectors),
                    false => self.operand(),
                };
                let term = match self.fits(true, &[other, product]) {
                    true => self.to.build(Call::Multiply(other, product)),
                    false => product,
                };
                terms.push(term);
            }
            let root = self.to.sum(&terms);
            if self.rng.percent(70) && !(self.plain && self.related(root)) {
                self.offer(root, target);
            }
            // Roots below others: a term of the sum.
            if !self.plain && self.rng.percent(20) {
                self.offer(terms[0], target);
            }
            let count = self.rng.below(4);
            self.operations(count);
        }
        if self.rng.percent(30) {
            self.to.dump();
        }
        let loosened = self.lower(target);
        if self.rng.percent(50) {
            if let Some(&id) = loosened.first() {
                let copy = self.rebuild(id, 0);
                let high = self.to.build(Call::Multiply(copy, copy));
                if !(self.plain && self.related(high)) {
                    self.offer(high, 2);
                }
            }
            self.lower(2);
        }
        self.loosely = 30;
        self.operations(4);
        self.to.dump();
    }

    /// A product of three to five input bits or their complements.
    fn selector(&mut self) -> u16 {
        let one = self.to.build(Call::Base(1));
        let mut product = None;
        for column in 0..3 + self.rng.below(3) as u16 {
            let bit = self.to.build(Call::Input { row: 0, column });
            let factor = match self.rng.percent(50) {
                true => bit,
                false => self.to.build(Call::Subtract(one, bit)),
            };
            product = Some(match product {
                None => factor,
                Some(so_far) => self.to.build(Call::Multiply(so_far, factor)),
            });
        }
        product.unwrap()
    }

    fn linear(&mut self) -> u16 {
        let first = self.input();
        match self.rng.below(4) {
            0 => first,
            1 => {
                let second = self.input();
                self.to.build(Call::Subtract(first, second))
            }
            2 => {
                let word = self.rng.word();
                let constant = self.to.build(Call::Base(word));
                self.to.build(Call::Subtract(first, constant))
            }
            _ => {
                let index = self.rng.below(self.challenges) as u16;
                let challenge = self.to.build(Call::Challenge(index));
                let second = self.input();
                let weighed = self.to.build(Call::Multiply(challenge, second));
                self.to.build(Call::Add(first, weighed))
            }
        }
    }

    /// Squarings, doublings and Fibonacci products: every path counts.
    fn tower(&mut self) {
        self.limits = Limits {
            degree: 1 << 20,
            tree: 1_000_000,
            cost: 200_000_000,
        };
        let mut below = self.input();
        let mut top = match self.rng.percent(50) {
            true => self.to.build(Call::Multiply(below, below)),
            false => self.input(),
        };
        let style = self.rng.pick(&[0, 0, 1, 2]);
        // One in three is too large to be lowered by the Rust, and only read.
        let read_only = self.rng.percent(33);
        let tree = match read_only {
            true => 1_000_000 >> self.rng.below(5),
            false => 1 << (6 + self.rng.below(8)),
        };
        while self.to.survey.tree[usize::from(top)] * 2 < tree {
            let next = match (style, self.rng.below(4)) {
                (0, 0) | (1, 1..) | (2, 0..=1) => Call::Add(top, top),
                (0, _) | (1, _) => Call::Multiply(top, top),
                (_, 2) => Call::Multiply(top, below),
                _ => Call::Add(below, top),
            };
            below = top;
            top = self.to.build(next);
            if self.rng.percent(15) {
                let constant = self.rng.word() | 2;
                let constant = self.to.build(Call::Base(constant % BFieldElement::P));
                top = self.to.build(Call::Add(top, constant));
            }
        }
        if self.degree(top) < 3 {
            let square = self.to.build(Call::Multiply(top, below));
            top = self.to.build(Call::Multiply(square, below));
        }
        self.to.root(top);
        if !read_only {
            self.to.dump();
            let target = 2 + self.rng.below(4) as u16;
            self.lower(target);
        }
        self.to.dump();
    }
}
