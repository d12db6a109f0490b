//! Segments that run backwards: they earn nothing and cost nothing.

use super::*;

/// A call until the response expires, without a steady minute, from a base load
/// of 30 kW: these readings in the ramp up, and these in the ramp down.
fn called(contract: Contract, up: [i64; 6], down: [i64; 6]) -> Vec<Command> {
    let mut commands = vec![
        Command::Contract(contract),
        window(0, 180),
        instruction(5, 25),
    ];
    commands.extend((2..6).map(|minute| reading(minute, 30)));
    let read = (19..).zip(up.into_iter().chain(down));
    commands.extend(read.map(|(minute, kw)| reading(minute, kw)));
    commands.push(Command::Close);
    commands
}

/// Delivered and capped kWh, and pence, of each line.
fn lines(commands: &[Command], switch: Switch) -> Vec<[i64; 3]> {
    let (book, memory) = book_of(commands);
    let statement = settle::settle_any(&book, &memory, 719, switch).expect("all is read");
    let amounts = statement
        .lines
        .iter()
        .map(|line| [line.delivered, line.capped, line.pence]);
    amounts.collect()
}

#[test]
fn what_runs_backwards_is_listed_and_not_paid() {
    let stopped = called(appendix_2(), [0; 6], [0; 6]);
    assert_eq!(lines(&stopped, RIGHT), [[-3, 0, 0], [-2, 0, 0], [0, 0, 0]]);
    let statement = settled(&stopped).expect("all is read");
    let sums = (statement.capped, statement.utilisation_pence);
    assert_eq!(sums, (0, 0));
    assert_eq!(statement.availability_pence, 32_400);
    for (wrong, expected) in [
        (Wrong::NoFloor, [-3, -3, -90]),
        (Wrong::DeliveredFloored, [0, 0, 0]),
        (Wrong::FloorOnPaymentAlone, [-3, -3, 0]),
    ] {
        assert_eq!(lines(&stopped, Switch(Some(wrong)))[0], expected);
    }
}

#[test]
fn a_demand_reducer_that_takes_more_pays_nothing() {
    let mut contract = appendix_2();
    contract.kind = 1;
    let rises = called(contract, [1_030; 6], [30; 6]);
    assert_eq!(lines(&rises, RIGHT), [[-100, 0, 0], [0, 0, 0], [0, 0, 0]]);
}

#[test]
fn the_floor_is_the_segments() {
    // Three minutes 1,000 kW below the base load and three 3,000 kW above it,
    // then five minutes and one below it.
    let up = [-970, -970, -970, 3_030, 3_030, 3_030];
    let mixed = called(appendix_2(), up, [-970; 6]);
    let right = [[100, 100, 3_000], [-83, 0, 0], [-17, 0, 0]];
    assert_eq!(lines(&mixed, RIGHT), right);
    let by_minute = lines(&mixed, Switch(Some(Wrong::FloorByMinute)));
    assert_eq!(by_minute[0], [100, 150, 4_500]);
}

#[test]
fn totals_never_fall() {
    let up = [3_030; 6];
    let falls = called(appendix_2(), up, [-970; 6]);
    let totals = shown(&falls, RIGHT);
    assert_eq!(after(&totals, 24), [120, 144_000, 72_000, 300, 9_000]);
    assert_eq!(after(&totals, 29), [120, 120_000, -20_000, 300, 9_000]);
    assert_eq!(after(&totals, 30), [120, 24_000, -4_000, 300, 9_000]);
    let floored = shown(&falls, Switch(Some(Wrong::DeliveredFloored)));
    assert_eq!(after(&floored, 29), [120, 120_000, 0, 300, 9_000]);
}
