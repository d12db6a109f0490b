//! A month to order: a full-size unit file from a seed, and the book and
//! readings that it leaves.

use crate::plain::{Book, Contract, Instruction, Window};

pub const DAYS: i32 = 31;
pub const MINUTES: usize = 44_640;
/// The bytes of every such file; a revision has one more than a reading.
pub const FILE_BYTES: usize = 313_391;
pub const REVISED_BYTES: usize = FILE_BYTES + MINUTES;
const WINDOW_COUNT: i32 = 93;
const INSTRUCTION_COUNT: i32 = 64;

#[derive(Default)]
pub struct Month {
    pub file: Vec<u8>,
    /// The same month with a revision for every reading.
    pub revised: Vec<u8>,
    pub book: Book,
    pub meter: Vec<i32>,
}

/// By which number each minute of the revised file has its reading.
pub fn numbers() -> Vec<u8> {
    (1..=u8::MAX).cycle().take(MINUTES).collect()
}

struct Draws(u32);

impl Draws {
    fn below(&mut self, limit: u32) -> i32 {
        self.0 = self.0.wrapping_mul(1_664_525).wrapping_add(1_013_904_223);
        ((self.0 >> 16) % limit) as i32
    }
}

/// Appendix 2's contract for a whole month, flexible and with an hour's recovery.
const CONTRACT: Contract = Contract {
    days: DAYS,
    kind: 0,
    service: 1,
    kw: 12_000,
    ramp_up: 2_000,
    ramp_down: 2_000,
    response: 20,
    recovery: 60,
    availability_rate: 900,
    utilisation_rate: 30_000,
    optional_rate: 55_000,
};

/// Draws go in the order of the file.
pub fn of_seed(seed: u32) -> Month {
    let mut draws = Draws(seed);
    let mut book = Book {
        has_contract: true,
        closed: true,
        contract: CONTRACT,
        span: MINUTES as i32,
        window_count: WINDOW_COUNT as usize,
        instruction_count: INSTRUCTION_COUNT as usize,
        ..Book::default()
    };
    for (k, window) in (0..WINDOW_COUNT).zip(&mut book.windows) {
        let start = 480 * k + 30 * draws.below(8);
        *window = Window {
            start,
            end: start + 240,
            rejected: i32::from(draws.below(4) == 0),
        };
    }
    for (k, instruction) in (0..INSTRUCTION_COUNT).zip(&mut book.instructions) {
        let issue = 690 * k + 3 + draws.below(300);
        *instruction = Instruction {
            issue,
            cease: issue + 20 + draws.below(300),
        };
    }
    let meter: Vec<i32> = (0..MINUTES).map(|_| draws.below(24_001) - 6_000).collect();
    Month {
        file: file(&book, &meter, &[0; MINUTES]),
        revised: file(&book, &meter, &numbers()),
        book,
        meter,
    }
}

/// A number of 0 stands for a plain reading.
fn file(book: &Book, meter: &[i32], numbers: &[u8]) -> Vec<u8> {
    let mut file = Vec::with_capacity(REVISED_BYTES);
    let c = &book.contract;
    file.extend([b'C', c.days as u8, c.kind as u8, c.service as u8]);
    for operand in [c.kw, c.ramp_up, c.ramp_down] {
        file.extend(operand.to_be_bytes());
    }
    for operand in [c.response, c.recovery] {
        file.extend((operand as u16).to_be_bytes());
    }
    for operand in [c.availability_rate, c.utilisation_rate, c.optional_rate] {
        file.extend(operand.to_be_bytes());
    }
    for window in &book.windows[..book.window_count] {
        file.push(b'W');
        file.extend((window.start as u16).to_be_bytes());
        file.extend((window.end as u16).to_be_bytes());
        file.push(window.rejected as u8);
    }
    for instruction in &book.instructions[..book.instruction_count] {
        file.push(b'I');
        file.extend((instruction.issue as u16).to_be_bytes());
        file.extend((instruction.cease as u16).to_be_bytes());
    }
    for (minute, (kw, &number)) in (0_u16..).zip(meter.iter().zip(numbers)) {
        file.push(if number == 0 { b'M' } else { b'R' });
        file.extend(minute.to_be_bytes());
        file.extend((number > 0).then_some(number));
        file.extend(kw.to_be_bytes());
    }
    file.push(b'Z');
    file
}
