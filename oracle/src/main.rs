//! Oracle: document 01's frames over the unchanged upstream circuit library.
//!
//!   circuit-oracle                 frames on standard input, one answer a line
//!   circuit-oracle --ext           the same, and also the lines
//!                                    !reset      forget everything, start anew
//!                                    !sum ID...  the sum of these decimal ids
//!                                    !dump SEED  every reading, as records
//!   circuit-oracle --examples FIRST               a file of vectors, hand-written
//!   circuit-oracle --generate THEME FIRST COUNT [frames]
//!                                  a file of vectors, random; with `frames`
//!                                  sums are written as additions
//!   circuit-oracle --differences                  what the Rust does where we refuse
//!   circuit-oracle --bench CIRCUIT... [TARGET]    the Rust's times, see bench.rs
//!   circuit-oracle --bench-frames CIRCUIT...      that circuit as frames
//!
//! A call on which upstream panics is answered `panic`, and ends the circuit:
//! the lines after it are answered `dead`.
mod bench;
mod calls;
mod cells;
mod differences;
mod dump;
mod examples;
mod generate;
mod machine;
mod nodes;
mod record;

use std::io::{BufRead, BufWriter, Write};
use std::panic::{AssertUnwindSafe, catch_unwind};

use calls::{Answer, Call, refusal, unhex};
use machine::Circuit;
use record::Recorder;

fn main() {
    let arguments: Vec<String> = std::env::args().skip(1).collect();
    let rest = arguments.get(1..).unwrap_or_default();
    let number = |at: usize| -> u64 { rest[at].parse().expect("a number") };
    quiet_panics();
    match arguments.first().map(String::as_str) {
        None => serve(false),
        Some("--ext") => serve(true),
        Some("--examples") => {
            let purpose = "document 01's examples, and edges";
            vectors("examples", purpose, |to| examples::examples(to, number(0)));
        }
        Some("--generate") => {
            let theme = generate::THEMES.iter().find(|(name, _)| *name == rest[0]);
            let (name, purpose) = theme.expect("a theme");
            let grow = |to: &mut Recorder| {
                to.frames_only = rest.get(3).is_some_and(|word| word == "frames");
                generate::generate(to, name, number(1), number(2));
            };
            vectors(name, purpose, grow);
        }
        Some("--differences") => differences::differences(),
        Some("--bench") => bench::bench(rest),
        Some("--bench-frames") => print!("{}", bench::Sketch::new(rest).0.frames()),
        Some(other) => panic!("unknown argument {other}"),
    }
}

/// Upstream's panics are answers here; those of the oracle itself are not.
fn quiet_panics() {
    let loud = std::panic::take_hook();
    std::panic::set_hook(Box::new(move |info| {
        let place = info.location().map_or("", |place| place.file());
        if place.starts_with("src/") || std::env::var_os("SHOW_PANIC").is_some() {
            loud(info);
        }
    }));
}

/// One file: what it is, the circuits, the totals.
fn vectors(name: &str, purpose: &str, grow: impl FnOnce(&mut Recorder)) {
    let mut recorder = Recorder::new();
    recorder.comment(&format!("{name}.txt: {purpose}"));
    recorder.comment("answers of the Rust; vectors/README.md describes the records");
    grow(&mut recorder);
    let totals = recorder.tally.record();
    print!("{}{totals}", recorder.text);
}

fn serve(extended: bool) {
    let mut service = Service::default();
    let mut input = std::io::stdin().lock();
    let mut output = BufWriter::new(std::io::stdout().lock());
    let mut line = vec![];
    while input.read_until(b'\n', &mut line).expect("input") > 0 {
        if line.last() == Some(&b'\n') {
            line.pop();
        }
        let text = std::str::from_utf8(&line).unwrap_or_default();
        let answer = match text.strip_prefix('!') {
            Some(command) if extended => service.command(command),
            _ => service.frame(&line) + "\n",
        };
        output.write_all(answer.as_bytes()).expect("output");
        line.clear();
    }
}

#[derive(Default)]
struct Service {
    circuit: Option<Box<dyn Circuit>>,
    dead: bool,
}

impl Service {
    fn command(&mut self, command: &str) -> String {
        let (name, rest) = command.split_once(' ').unwrap_or((command, ""));
        match (name, &mut self.circuit) {
            ("reset", _) => {
                *self = Self::default();
                String::new()
            }
            (_, None) => "no circuit\n".into(),
            _ if self.dead => "dead\n".into(),
            ("dump", Some(circuit)) => circuit.dump(rest.parse().expect("a seed")),
            ("sum", Some(circuit)) => {
                let ids = rest.split_whitespace().map(|id| id.parse().expect("an id"));
                circuit.sum(&ids.collect::<Vec<u16>>()).hex() + "\n"
            }
            _ => "unknown command\n".into(),
        }
    }

    fn frame(&mut self, line: &[u8]) -> String {
        if self.dead {
            return "dead".into();
        }
        let call = unhex(line).and_then(|bytes| Call::parse(&bytes));
        let frame = Answer::Refused(refusal::FRAME).hex();
        match (call, &mut self.circuit) {
            (Some(Call::Start(kind)), None) => {
                self.circuit = Some(machine::start(kind));
                Answer::Done.hex()
            }
            (None | Some(Call::Start(_)), _) | (_, None) => frame,
            (Some(call), Some(circuit)) => {
                let answer = catch_unwind(AssertUnwindSafe(|| circuit.call(&call).hex()));
                self.dead = answer.is_err();
                answer.unwrap_or("panic".into())
            }
        }
    }
}
