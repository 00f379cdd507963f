//! Two channels of one antenna, horizontal and vertical: the Rust's limits from the valid velocities of both, and by them each channel by itself.

use crate::{Answer, Lent, Sweep};

/// Horizontal, then vertical. Both have one size and the same options.
#[derive(Debug, Clone, PartialEq)]
pub struct Pair {
    pub channels: [Sweep; 2],
}

/// To whom the question was put that got a no.
#[derive(Debug, Clone, Copy, PartialEq)]
pub enum Asked {
    Horizontal,
    Vertical,
    Limits,
}

/// The answer number; where it is not 0, whose question it was; and where questions 1 to 8 get a yes, the answer of each channel: 0 or 9.
#[derive(Debug, Clone, PartialEq)]
pub struct PairAnswer {
    pub number: u32,
    pub asked: Option<Asked>,
    pub channels: Vec<Answer>,
}

impl Pair {
    /// The limits that both channels share; none where there would be more than 10,000.
    pub fn limits(&self) -> Option<Vec<f64>> {
        let [h, v] = &self.channels;
        h.limits_for(&[h.valid_velocities(), v.valid_velocities()].concat())
    }

    /// Questions 1 to 7 to horizontal and then to vertical, 8 to the shared limits, 9 to horizontal and then to vertical.
    pub fn answer(&self, lent: [Lent; 2]) -> PairAnswer {
        let refused = |number, asked| PairAnswer { number, asked: Some(asked), channels: Vec::new() };
        let [h, v] = &self.channels;
        let early = [h.refused_before_limits(Some(lent[0])), v.refused_before_limits(Some(lent[1]))];
        if early[0] != 0 {
            return refused(early[0], Asked::Horizontal);
        }
        if early[1] != 0 {
            return refused(early[1], Asked::Vertical);
        }
        let Some(limits) = self.limits() else {
            return refused(8, Asked::Limits);
        };
        let channels = vec![h.answer_by(limits.clone()), v.answer_by(limits)];
        let asked = [Asked::Horizontal, Asked::Vertical].into_iter().zip(&channels).find(|(_, a)| a.number != 0).map(|(asked, _)| asked);
        PairAnswer { number: if asked.is_some() { 9 } else { 0 }, asked, channels }
    }

    /// One line, the memory being as long as the channels ask: the number; where it is 0 also regions, merges, counts and marks of each channel.
    pub fn line(&self) -> String {
        let a = self.answer([0, 1].map(|c| {
            let n = self.channels[c].rays * self.channels[c].gates;
            Lent { counts: n, doubtful: n, pair: 2, words: 96 * n + 64, floats: 16 * n + 16 }
        }));
        let mut words = vec![a.number.to_string()];
        for x in a.channels.iter().filter(|_| a.number == 0) {
            words.extend([x.regions, x.merges].map(|k| k.to_string()));
            words.extend(x.counts.iter().map(|c| c.to_string()));
            words.extend(x.doubtful.iter().map(|d| d.to_string()));
        }
        words.join(" ")
    }

    /// The lines of both channels.
    pub fn lines(&self) -> String {
        self.channels.iter().map(Sweep::line).collect::<Vec<_>>().join("\n")
    }
}
