//! What `stor list --explain` says under a row.

use stor::{Refusal, Statement};

/// The page for course users, whose table of refusals is the program's too.
const COURSE: &str = include_str!("../../../docs/COURSE.md");

/// What is wrong, the refused command, and where to look; what there is of
/// them.
pub fn refusal(refusal: Refusal, file: &[u8]) -> Vec<String> {
    let mut lines = Vec::new();
    let (wrong, look) = meaning(refusal.number).unwrap_or_default();
    if !wrong.is_empty() {
        lines.push(wrong.to_string());
    }
    // A month that cannot be settled is refused behind its last command.
    let command = usize::try_from(refusal.offset)
        .ok()
        .and_then(|offset| file.get(offset..))
        .filter(|bytes| !bytes.is_empty());
    if let Some(bytes) = command {
        lines.push(text::describe(bytes));
    }
    if !look.is_empty() {
        lines.push(format!("where to look: {look}"));
    }
    lines
}

/// What is wrong, and where to look, by the page's table.
fn meaning(number: u8) -> Option<(&'static str, &'static str)> {
    COURSE.lines().find_map(|line| {
        let mut cells = line.strip_prefix('|')?.split('|').map(str::trim);
        (cells.next()?.parse() == Ok(number)).then_some((cells.next()?, cells.next()?))
    })
}

/// The totals in MWh and pounds.
pub fn statement(statement: &Statement) -> Vec<String> {
    vec![format!(
        "capped {} MWh; utilisation {}, availability {}, all {} pounds",
        fixed(statement.capped, 3),
        fixed(statement.utilisation_pence, 2),
        fixed(statement.availability_pence, 2),
        fixed(statement.all_pence, 2)
    )]
}

/// A number with so many of its digits behind the point.
fn fixed(number: i64, places: u32) -> String {
    let unit = 10_u64.pow(places);
    let sign = if number < 0 { "-" } else { "" };
    let size = number.unsigned_abs();
    format!(
        "{sign}{}.{:0width$}",
        size / unit,
        size % unit,
        width = places as usize
    )
}

#[cfg(test)]
mod tests {
    use super::*;

    #[test]
    fn every_refusal_of_a_file_has_words() {
        let met = [1, 2, 3, 4, 5].into_iter().chain(12..=25).chain(27..=30);
        for number in met {
            let (wrong, _) = meaning(number).unwrap_or_default();
            assert!(!wrong.is_empty(), "{number}");
        }
        // Not met by files, and not in the table.
        assert_eq!((meaning(11), meaning(26)), (None, None));
    }

    #[test]
    fn digits_behind_the_point() {
        assert_eq!(fixed(0, 3), "0.000");
        assert_eq!(fixed(12_800, 3), "12.800");
        assert_eq!(fixed(-1, 2), "-0.01");
        assert_eq!(fixed(-45_000, 2), "-450.00");
        assert_eq!(fixed(i64::MIN, 2), "-92233720368547758.08");
    }
}
