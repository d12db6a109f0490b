//! The days that are asked of generated months.

use compare::random::Random;

/// A day, and numbers that are said to be holidays.
pub struct Question {
    pub day: i64,
    pub holidays: Vec<i64>,
}

/// The question of a seed.
pub fn of_seed(seed: u64) -> Question {
    // Not the numbers that the seed's file was drawn with.
    let mut random = Random::new(seed.rotate_left(32) ^ seed);
    let any = random.between(1, 31);
    let day = random.pick(&[0, 1, 28, 29, 30, 31, 32, 200, any, any, any, any, any, any]);
    let count = random.pick(&[0, 0, 1, 2, 5]);
    let mut holidays = Vec::new();
    for _ in 0..count {
        let other = random.between(1, 31);
        holidays.push(random.pick(&[day, 0, 32, 200, 65_536 + day, other, other]));
    }
    Question { day, holidays }
}

impl Question {
    /// As `stor day` takes it, of a file on standard input.
    pub fn words(&self) -> Vec<String> {
        let mut words = vec!["-".to_string(), self.day.to_string()];
        if !self.holidays.is_empty() {
            let holidays: Vec<String> = self.holidays.iter().map(i64::to_string).collect();
            words.extend(["--holidays".to_string(), holidays.join(",")]);
        }
        words
    }
}
