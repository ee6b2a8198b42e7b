//! What a search answers.

/// A status (0 where the text was searched), the number of sightings, and a checksum of their places, cues
/// and lengths that does not depend on their order. The proved library answers with this struct too.
#[repr(C)]
#[derive(Clone, Copy, PartialEq, Eq, Debug, Default)]
pub struct Tally {
    pub status: u64,
    pub sightings: u64,
    pub checksum: u64,
}

impl Tally {
    /// Counts a sighting: the place of its last event, the number of its cue, its length.
    pub fn count(&mut self, place: usize, cue: usize, len: usize) {
        let key = (place as u64)
            .wrapping_mul(65536)
            .wrapping_add(cue as u64)
            .wrapping_mul(64)
            .wrapping_add(len as u64);
        let spread = key.wrapping_mul(0x9e37_79b9_7f4a_7c15);
        self.sightings += 1;
        self.checksum = self.checksum.wrapping_add(spread ^ (spread >> 32));
    }
}
