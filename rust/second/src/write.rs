//! The writer: a book and its readings, with their revisions, as a unit file.

use crate::book::{self, Book};
use crate::bytes::{bytes_of, Command, Reading, Revision};
use crate::memory::Memory;
use crate::switches::{Switch, Wrong};

/// The file of a book that commands alone have made, or 15, or 26 where it
/// does not fit into `room` bytes.
pub fn write(book: &Book, memory: &Memory, room: usize, switch: Switch) -> Result<Vec<u8>, u8> {
    if memory.room(switch) < book.asked_minutes(switch) {
        return Err(15);
    }
    let mut commands = Vec::new();
    commands.extend(book.contract.map(Command::Contract));
    if !switch.is(Wrong::DateUnwritten) {
        commands.extend(book.date.map(Command::Date));
    }
    commands.extend(book.windows.iter().copied().map(Command::Window));
    commands.extend(book.instructions.iter().copied().map(Command::Instruction));
    commands.extend(book.defaults.iter().copied().map(Command::Default));
    for minute in 0..book.span(switch) {
        if memory.has_reading(minute) {
            commands.push(reading(memory, minute, switch));
        }
    }
    commands.extend(book.closed.then_some(Command::Close));
    let file: Vec<u8> = commands
        .iter()
        .flat_map(|command| bytes_of(command, switch))
        .collect();
    if file.len() > room {
        return Err(26);
    }
    Ok(file)
}

/// A minute's reading by the command that gives it its revision too.
fn reading(memory: &Memory, minute: i64, switch: Switch) -> Command {
    let kw = memory.kw(minute);
    match memory.revision(minute) {
        number if number > 0 && !switch.is(Wrong::RevisedWrittenPlain) => {
            Command::Revision(Revision { minute, number, kw })
        }
        _ => Command::Reading(Reading { minute, kw }),
    }
}

/// Writes any book, also one that somebody made up.
pub fn write_any(book: &Book, memory: &Memory, room: usize, switch: Switch) -> Result<Vec<u8>, u8> {
    if !book::sound(book, switch) {
        return Err(11);
    }
    write(book, memory, room, switch)
}

/// A file's book as a file again; nothing where a command is refused.
pub fn written(file: &[u8], minutes: usize, switch: Switch) -> Vec<u8> {
    let mut book = Book::default();
    let mut memory = Memory::of_minutes(minutes);
    let entered = book::enter_file(file, &mut book, &mut memory, true, switch);
    match entered.last().map_or(Ok(()), |last| last.answer) {
        Ok(()) => write(&book, &memory, usize::MAX, switch).expect("nothing to turn down"),
        Err(_) => Vec::new(),
    }
}

/// The book after all of a file's commands, the refused ones left out, as a
/// file again.
pub fn rewrite(file: &[u8], minutes: usize, switch: Switch) -> Vec<u8> {
    let mut book = Book::default();
    let mut memory = Memory::of_minutes(minutes);
    book::enter_file(file, &mut book, &mut memory, false, switch);
    // Commands alone made this book in this memory, and there is room.
    write(&book, &memory, usize::MAX, switch).expect("nothing to turn down")
}
