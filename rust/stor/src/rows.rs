//! A statement or a refusal as the lister prints it, running totals, and a kind of
//! day.

use crate::{Day, Line, Rate, Refusal, Stage, Statement, Totals};
use std::fmt::Write;

/// Its L, A and T rows.
pub fn statement_rows(statement: &Statement) -> String {
    let mut rows = String::new();
    for line in &statement.lines {
        line_row(&mut rows, line);
    }
    for (number, pay) in (1..).zip(&statement.windows) {
        put(
            &mut rows,
            format_args!("A {number} {} {}", pay.paid_periods, pay.pence),
        );
    }
    rows + &month_row(statement)
}

/// Its T row alone.
pub fn month_row(statement: &Statement) -> String {
    format!(
        "T {} {} {} {}\n",
        statement.capped,
        statement.utilisation_pence,
        statement.availability_pence,
        statement.all_pence
    )
}

/// The M row of running totals.
pub fn total_row(totals: &Totals) -> String {
    format!(
        "M {} {} {} {} {} {} {}\n",
        totals.instruction,
        totals.minute,
        totals.base,
        totals.expected,
        totals.delivered,
        totals.capped,
        totals.pence
    )
}

/// A kind of day in words.
pub fn day_row(day: Day) -> &'static str {
    match day {
        Day::None => "no such day\n",
        Day::Working => "working\n",
        Day::NonWorking => "non-working\n",
    }
}

/// Its R row.
pub fn refusal_row(refusal: Refusal) -> String {
    format!("R {} {}\n", refusal.number, refusal.offset)
}

fn line_row(rows: &mut String, line: &Line) {
    let stage = match line.stage {
        Stage::RampUp => 'U',
        Stage::Steady => 'S',
        Stage::RampDown => 'D',
    };
    let rate = match line.rate {
        Rate::Utilisation => 'C',
        Rate::Optional => 'O',
    };
    put(
        rows,
        format_args!(
            "L {} {} {stage} {rate} {} {} {} {}",
            line.instruction, line.period, line.expected, line.delivered, line.capped, line.pence
        ),
    );
}

fn put(rows: &mut String, row: std::fmt::Arguments) {
    writeln!(rows, "{row}").expect("text takes every row");
}
