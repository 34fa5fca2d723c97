//! How often records of under 5 bytes were handed in: signs of life, and those of 1 to 4 bytes.

use crate::engine::Answer;

#[derive(Default)]
pub struct ShortCounts {
    /// Signs of life accepted, on the present state or another one that is lawful.
    accepted: u64,
    /// Those of them on another one.
    accepted_elsewhere: u64,
    /// Signs of life on states of wrong length, and on unlawful ones.
    refused_with_1: u64,
    refused_with_2: u64,
    /// Records of 1, 2, 3 and 4 bytes.
    refused_with_3: [u64; 4],
}

impl ShortCounts {
    pub fn answered(&mut self, record: &[u8], answer: Answer) {
        match (record.len(), answer.refusal) {
            (0, 0) => self.accepted += 1,
            (0, 1) => self.refused_with_1 += 1,
            (0, 2) => self.refused_with_2 += 1,
            (bytes @ 1..=4, 3) => self.refused_with_3[bytes - 1] += 1,
            _ => {}
        }
    }

    /// A call on a damaged or other state, lawful.
    pub fn on_lawful_state(&mut self, record: &[u8], answer: Answer) {
        self.accepted_elsewhere += u64::from(record.is_empty() && answer.refusal == 0);
    }

    fn lines(&self) -> [(&'static str, u64); 8] {
        [
            ("signs of life accepted", self.accepted),
            ("signs of life elsewhere", self.accepted_elsewhere),
            ("signs of life: refusal 1", self.refused_with_1),
            ("signs of life: refusal 2", self.refused_with_2),
            ("1 byte: refusal 3", self.refused_with_3[0]),
            ("2 bytes: refusal 3", self.refused_with_3[1]),
            ("3 bytes: refusal 3", self.refused_with_3[2]),
            ("4 bytes: refusal 3", self.refused_with_3[3]),
        ]
    }

    /// Whatever was never reached.
    pub fn missing(&self) -> Vec<String> {
        let lines = self.lines().into_iter();
        let never = lines.filter(|(_, count)| *count == 0);
        never.map(|(name, _)| name.to_string()).collect()
    }

    pub fn print(&self) {
        for (name, count) in self.lines() {
            println!("{name:25} {count}");
        }
    }
}
