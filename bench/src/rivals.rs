//! What the engine is measured beside: a naive search, and the crate aho-corasick.

use crate::input::Input;
use crate::tally::Tally;
use aho_corasick::AhoCorasick;

/// Compares each cue at each place.
pub fn naive(input: &Input) -> Tally {
    let mut tally = Tally::default();
    for end in 1..=input.text.len() {
        let front = &input.text[..end];
        for (number, cue) in input.cues.iter().enumerate() {
            if front.ends_with(cue) {
                tally.count(end - 1, number, cue.len());
            }
        }
    }
    tally
}

/// The input as bytes, which is what aho-corasick searches. An event is one byte where the alphabet allows
/// it, else two; then a match that begins at an odd byte is none.
pub struct Bytes {
    width: usize,
    cues: Vec<Vec<u8>>,
    text: Vec<u8>,
}

impl Bytes {
    pub fn new(input: &Input) -> Bytes {
        let width = if input.alphabet <= 256 { 1 } else { 2 };
        Bytes {
            width,
            cues: input.cues.iter().map(|c| encode(c, width)).collect(),
            text: encode(&input.text, width),
        }
    }
}

fn encode(events: &[u16], width: usize) -> Vec<u8> {
    events
        .iter()
        .flat_map(|e| e.to_le_bytes().into_iter().take(width))
        .collect()
}

/// The two automata of aho-corasick: with failure links, and with a full table of transitions.
#[derive(Clone, Copy)]
pub enum Kind {
    Nfa,
    Dfa,
}

/// An automaton that reports all matches, also those that overlap or lie inside one another.
pub struct Automaton(AhoCorasick);

impl Automaton {
    #[cfg(not(aho_corasick_1))]
    pub fn new(bytes: &Bytes, kind: Kind) -> Automaton {
        let automaton = aho_corasick::AhoCorasickBuilder::new()
            .match_kind(aho_corasick::MatchKind::Standard)
            .dfa(matches!(kind, Kind::Dfa))
            .build(&bytes.cues);
        Automaton(automaton)
    }

    #[cfg(aho_corasick_1)]
    pub fn new(bytes: &Bytes, kind: Kind) -> Automaton {
        use aho_corasick::AhoCorasickKind;
        let kind = match kind {
            Kind::Nfa => AhoCorasickKind::ContiguousNFA,
            Kind::Dfa => AhoCorasickKind::DFA,
        };
        let automaton = AhoCorasick::builder()
            .match_kind(aho_corasick::MatchKind::Standard)
            .kind(Some(kind))
            .build(&bytes.cues);
        Automaton(automaton.expect("the book is small"))
    }

    pub fn run(&self, bytes: &Bytes) -> Tally {
        let width = bytes.width;
        let mut tally = Tally::default();
        for found in self.0.find_overlapping_iter(&bytes.text[..]) {
            let (start, end) = (found.start(), found.end());
            if start % width != 0 {
                continue;
            }
            #[cfg(not(aho_corasick_1))]
            let cue = found.pattern();
            #[cfg(aho_corasick_1)]
            let cue = found.pattern().as_usize();
            tally.count(end / width - 1, cue, (end - start) / width);
        }
        tally
    }
}
