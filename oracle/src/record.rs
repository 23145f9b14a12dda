//! Circuits that are written down as they grow: each call becomes the records
//! `>` and `<`, each dump its own. No call here may be refused.
use std::fmt::Write;

use crate::calls::{Answer, Call};
use crate::machine::{Circuit, PLACES, start};
use crate::nodes::{Node, Survey};

/// What a file of vectors holds; its last record.
#[derive(Debug, Default, Clone)]
pub struct Tally {
    pub circuits: u64,
    pub frames: u64,
    pub sums: u64,
    pub lowerings: u64,
    pub substitutions: u64,
    pub dumps: u64,
    pub nodes: u64,
}

impl Tally {
    pub fn record(&self) -> String {
        let numbers = [
            self.circuits,
            self.frames,
            self.sums,
            self.lowerings,
            self.substitutions,
            self.dumps,
            self.nodes,
        ];
        let text = numbers.map(|number| format!("{number:08x}"));
        format!(".{}\n", text.concat())
    }
}

pub struct Recorder {
    pub text: String,
    pub tally: Tally,
    /// Sums as additions, since frames have none.
    pub frames_only: bool,
    circuit: Box<dyn Circuit>,
    seed: u64,
    /// The circuit at this moment, for the choices of the generator.
    pub nodes: Vec<Node>,
    pub survey: Survey,
}

impl Recorder {
    /// An empty file; `begin` comes next.
    pub fn new() -> Self {
        Self {
            text: String::new(),
            tally: Tally::default(),
            frames_only: false,
            circuit: start(1),
            seed: 0,
            nodes: vec![],
            survey: Survey::default(),
        }
    }

    pub fn comment(&mut self, text: &str) {
        writeln!(self.text, "# {text}").unwrap();
    }

    /// A fresh circuit. Its number is also the seed of its tables.
    pub fn begin(&mut self, number: u64, kind: u8) {
        self.circuit = start(kind);
        self.seed = number;
        self.nodes.clear();
        self.survey = Survey::default();
        self.tally.circuits += 1;
        self.tally.frames += 1;
        let frame = Call::Start(kind).hex();
        writeln!(self.text, "c{number:08x}\n>{frame}\n<00").unwrap();
    }

    /// A call that answers an id.
    pub fn build(&mut self, call: Call) -> u16 {
        let answer = self.circuit.call(&call);
        writeln!(self.text, ">{}\n<{}", call.hex(), answer.hex()).unwrap();
        self.tally.frames += 1;
        self.id(answer)
    }

    pub fn sum(&mut self, ids: &[u16]) -> u16 {
        if self.frames_only {
            let (first, rest) = ids.split_first().expect("an id");
            let add = |sum, &id| self.build(Call::Add(sum, id));
            return rest.iter().fold(*first, add);
        }
        let answer = self.circuit.sum(ids);
        write!(self.text, "s{:02x}", ids.len()).unwrap();
        for id in ids {
            write!(self.text, "{id:04x}").unwrap();
        }
        writeln!(self.text, "\n<{}", answer.hex()).unwrap();
        self.tally.sums += 1;
        self.id(answer)
    }

    fn id(&mut self, answer: Answer) -> u16 {
        let Answer::Id(id) = answer else {
            panic!("refused: {answer:?}");
        };
        if self.circuit.used() > self.nodes.len() {
            self.look();
        }
        assert!(self.nodes.len() <= PLACES, "FULL");
        id as u16
    }

    /// Read the whole circuit anew.
    fn look(&mut self) {
        self.nodes = (0..self.circuit.used())
            .map(|id| self.circuit.node(id))
            .collect();
        self.survey = Survey::of(&self.nodes);
    }

    pub fn root(&mut self, id: u16) {
        let call = Call::Root(id);
        let answer = self.circuit.call(&call);
        assert_eq!(answer, Answer::Done);
        writeln!(self.text, ">{}\n<{}", call.hex(), answer.hex()).unwrap();
        self.tally.frames += 1;
    }

    pub fn roots(&self) -> Vec<usize> {
        self.circuit.roots()
    }

    /// Lower, and answer the ids that became loose.
    pub fn lower(&mut self, target: u16, [main, aux]: [usize; 2]) -> Vec<u16> {
        let allowed = self.may_lower(target, [main, aux]);
        assert!(allowed.is_ok(), "outside the domain: {allowed:?}");
        let call = Call::Lower {
            target,
            main: main as u16,
            aux: aux as u16,
        };
        let before = self.nodes.clone();
        let answer = self.circuit.call(&call);
        writeln!(self.text, ">{}\n<{}", call.hex(), answer.hex()).unwrap();
        let Answer::Lists(main_list, aux_list) = answer else {
            panic!("refused: {answer:?}");
        };
        self.tally.frames += 1;
        self.tally.lowerings += 1;
        self.tally.substitutions += (main_list.len() + aux_list.len()) as u64;
        self.look();
        let loosened = |id: &usize| before[*id].registered && !self.nodes[*id].registered;
        let ids = (0..before.len()).filter(loosened);
        ids.map(|id| id as u16).collect()
    }

    /// Would document 01 accept this lowering? If so, what it may cost the Rust.
    pub fn may_lower(&self, target: u16, counts: [usize; 2]) -> Result<u64, &'static str> {
        let target = i64::from(target);
        let roots = self.roots();
        self.survey
            .lowering(&self.nodes, &roots, target, counts, PLACES)
    }

    pub fn dump(&mut self) {
        let text = self.circuit.dump(self.seed);
        self.text.push_str(&text);
        self.tally.dumps += 1;
        self.tally.nodes += self.nodes.len() as u64;
    }
}
