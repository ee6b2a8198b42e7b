//! Measures the link engine beside a naive search and beside the crate aho-corasick: same machine, same
//! input, one run. All answers are compared first, and the run fails where two differ.

mod input;
mod rivals;
mod tally;
mod watched;

use input::Input;
use rivals::{Automaton, Bytes, Kind};
use std::time::Instant;
use tally::Tally;
use watched::Watched;

const CUES: [usize; 4] = [1, 10, 100, 128];
const ALPHABETS: [u16; 3] = [2, 20, 500];
const EVENTS: usize = 1_000_000;
const ROUNDS: usize = 9;

/// One input for all programs.
struct Case {
    input: Input,
    bytes: Bytes,
    watched: Watched,
    signs: Vec<u16>,
}

impl Case {
    fn new(cues: usize, alphabet: u16) -> Case {
        let input = Input::new(cues, alphabet, EVENTS);
        let bytes = Bytes::new(&input);
        let watched = Watched::new(&input);
        let signs = watched.signs(&input.text);
        Case {
            input,
            bytes,
            watched,
            signs,
        }
    }

    /// The naive search's answer, once all others agree with it.
    fn agreed(&self) -> Tally {
        let right = rivals::naive(&self.input);
        for kind in [Kind::Nfa, Kind::Dfa] {
            let automaton = Automaton::new(&self.bytes, kind);
            self.compare("aho-corasick", automaton.run(&self.bytes), right);
        }
        self.compare("the link engine", self.watched.step(&self.signs), right);
        self.compare("follow", self.watched.follow(&self.input.text), right);
        right
    }

    /// Ends the run where an answer is not that of the naive search.
    fn compare(&self, name: &str, answer: Tally, right: Tally) {
        if answer != right {
            let (cues, alphabet) = (self.input.cues.len(), self.input.alphabet);
            eprintln!("bench: {cues} cues, alphabet {alphabet}:");
            eprintln!("bench: {name} answers {answer:?}, the naive search {right:?}");
            std::process::exit(1);
        }
    }
}

/// A time in nanoseconds: the least that was measured.
struct Least(f64);

impl Least {
    fn new() -> Least {
        Least(f64::INFINITY)
    }

    fn time<A>(&mut self, program: impl FnOnce() -> A) -> A {
        let start = Instant::now();
        let answer = std::hint::black_box(program());
        self.0 = self.0.min(start.elapsed().as_nanos() as f64);
        answer
    }
}

/// What one case took: nanoseconds for each event, and microseconds to make each program ready.
struct Row {
    alphabet: u16,
    cues: usize,
    length: usize,
    sightings: u64,
    naive: f64,
    nfa: f64,
    dfa: f64,
    step: f64,
    follow: f64,
    nfa_ready: f64,
    dfa_ready: f64,
    link_ready: f64,
}

fn measure(cues: usize, alphabet: u16) -> Row {
    let case = Case::new(cues, alphabet);
    let right = case.agreed();
    let [mut naive, mut nfa, mut dfa, mut step, mut follow] = [(); 5].map(|()| Least::new());
    let [
        mut nfa_ready,
        mut dfa_ready,
        mut step_ready,
        mut follow_ready,
    ] = [(); 4].map(|()| Least::new());
    for _ in 0..ROUNDS {
        let links = nfa_ready.time(|| Automaton::new(&case.bytes, Kind::Nfa));
        let table = dfa_ready.time(|| Automaton::new(&case.bytes, Kind::Dfa));
        step_ready.time(|| case.watched.step(&[]));
        follow_ready.time(|| case.watched.follow(&[]));
        let answers = [
            naive.time(|| rivals::naive(&case.input)),
            nfa.time(|| links.run(&case.bytes)),
            dfa.time(|| table.run(&case.bytes)),
            step.time(|| case.watched.step(&case.signs)),
            follow.time(|| case.watched.follow(&case.input.text)),
        ];
        for answer in answers {
            case.compare("a timed run", answer, right);
        }
    }
    // A call of the library makes and loads its book anew, so the time of a call with no text goes off.
    let each = |all: Least, ready: f64| (all.0 - ready) / EVENTS as f64;
    Row {
        alphabet,
        cues,
        length: case.input.cues.iter().map(Vec::len).sum(),
        sightings: right.sightings,
        naive: each(naive, 0.0),
        nfa: each(nfa, 0.0),
        dfa: each(dfa, 0.0),
        step: each(step, step_ready.0),
        follow: each(follow, follow_ready.0),
        nfa_ready: nfa_ready.0 / 1000.0,
        dfa_ready: dfa_ready.0 / 1000.0,
        link_ready: step_ready.0 / 1000.0,
    }
}

/// A table in Markdown: its heads, and a line for each row.
fn table(title: &str, heads: &str, rows: &[Row], cells: impl Fn(&Row) -> String) {
    println!("{title}");
    println!();
    println!("| Alphabet | Cues | {heads} |");
    let columns = 2 + heads.split('|').count();
    println!("{}|", "|---:".repeat(columns));
    for row in rows {
        println!("| {} | {} | {} |", row.alphabet, row.cues, cells(row));
    }
    println!();
}

/// The cells of a table's line.
fn joined(numbers: &[f64], digits: usize) -> String {
    let cells: Vec<String> = numbers.iter().map(|x| format!("{x:.digits$}")).collect();
    cells.join(" | ")
}

fn main() {
    let mut rows = Vec::new();
    for alphabet in ALPHABETS {
        for cues in CUES {
            rows.push(measure(cues, alphabet));
        }
    }
    println!("All answers agree, for each of {} books.", rows.len());
    println!();
    table(
        "Nanoseconds for each event:",
        "Their events | Sightings | Naive | NFA | DFA | Step | Follow",
        &rows,
        |r| {
            let times = joined(&[r.naive, r.nfa, r.dfa, r.step, r.follow], 1);
            format!("{} | {} | {times}", r.length, r.sightings)
        },
    );
    table(
        "Ratios:",
        "Naive / DFA | Step / NFA | Step / DFA | Follow / NFA | Follow / DFA",
        &rows,
        |r| {
            let ratios = [
                r.naive / r.dfa,
                r.step / r.nfa,
                r.step / r.dfa,
                r.follow / r.nfa,
                r.follow / r.dfa,
            ];
            joined(&ratios, 2)
        },
    );
    table(
        "Microseconds to make each ready for a book:",
        "NFA | DFA | Link engine",
        &rows,
        |r| joined(&[r.nfa_ready, r.dfa_ready, r.link_ready], 0),
    );
}
