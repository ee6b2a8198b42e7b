//! The books and the texts, from a seeded generator.

/// A linear congruential generator.
struct Dice(u64);

impl Dice {
    fn roll(&mut self, sides: usize) -> usize {
        self.0 = self
            .0
            .wrapping_mul(6364136223846793005)
            .wrapping_add(1442695040888963407);
        ((self.0 >> 33) % sides as u64) as usize
    }

    /// From 1 up to a number.
    fn up_to(&mut self, most: usize) -> usize {
        1 + self.roll(most)
    }
}

/// A book of distinct cues and a text.
pub struct Input {
    pub alphabet: u16,
    pub cues: Vec<Vec<u16>>,
    pub text: Vec<u16>,
}

impl Input {
    /// Half of the text are stretches of a short programme that comes again and again, and the rest are
    /// random events. The cues are cut from the programme, where they overlap.
    pub fn new(cues: usize, alphabet: u16, events: usize) -> Input {
        let mut dice = Dice(1000 * cues as u64 + alphabet as u64);
        let event = |dice: &mut Dice| dice.roll(alphabet as usize) as u16;
        let programme: Vec<u16> = (0..64 + 2 * cues).map(|_| event(&mut dice)).collect();
        let mut text = Vec::with_capacity(events + 32);
        while text.len() < events {
            let len = dice.up_to(32);
            let from = dice.roll(programme.len() - 32);
            text.extend_from_slice(&programme[from..from + len]);
            for _ in 0..dice.up_to(32) {
                text.push(event(&mut dice));
            }
        }
        text.truncate(events);
        let cues = cut_cues(&mut dice, cues, &programme);
        Input {
            alphabet,
            cues,
            text,
        }
    }
}

/// Distinct cues of at most 32 events, at most 1,024 in all: with many cues their lengths are smaller.
fn cut_cues(dice: &mut Dice, count: usize, programme: &[u16]) -> Vec<Vec<u16>> {
    let mut most = 32;
    loop {
        let cues = cut_up_to(dice, count, programme, most);
        if cues.iter().map(Vec::len).sum::<usize>() <= 1024 {
            return cues;
        }
        most -= 1;
    }
}

/// Distinct cues of 1 up to a number of events.
fn cut_up_to(dice: &mut Dice, count: usize, programme: &[u16], most: usize) -> Vec<Vec<u16>> {
    let mut cues: Vec<Vec<u16>> = Vec::new();
    while cues.len() < count {
        let len = dice.up_to(most);
        let from = dice.roll(programme.len() - len + 1);
        let cue = &programme[from..from + len];
        if !cues.iter().any(|c| c == cue) {
            cues.push(cue.to_vec());
        }
    }
    cues
}
