//! One case from the command line, as a mismatch prints it.

use crate::run;
use desk_compare::cases::{
    board, command, commute, config, decide, explain, gust, join, journal, report, section, sheet,
};
use desk_compare::ours::{self, of_bytes, Plain};
use desk_compare::second::gust::Felt;

/// Runs the case and gives the exit status, or says what is wrong with the words. `@FILE` stands for words in a file.
pub fn case(words: &[String]) -> Result<i32, String> {
    let words = words.join(" ");
    let words = match words.strip_prefix('@') {
        Some(file) => std::fs::read_to_string(file).map_err(|why| format!("{file}: {why}"))?,
        None => words,
    };
    let words: Vec<&str> = words.split_whitespace().collect();
    match words.first() {
        Some(&("packed-read" | "packed-write" | "report" | "record")) => run::one(report_case(&words)?),
        Some(&"track") => run::one(track_case(&words)?),
        Some(&("command" | "command-record")) => run::one(command_case(&words)?),
        Some(&"section") => run::one(section_case(&words)?),
        Some(&("reset" | "apply")) => run::one(config_case(&words)?),
        Some(&"difference") => run::one(difference_case(&words)?),
        Some(&"decide") => run::one(decide_case(&words[1..])?),
        Some(&"explain") => run::one(explain::Case::from(decide_case(&words[1..])?)),
        Some(&"join") => run::one(join_case(&words)?),
        Some(&"commute") => run::one(commute_case(&words)?),
        Some(&("board-check" | "board-add" | "board-take" | "office-add")) => run::one(board_case(&words)?),
        Some(&("tails-make" | "tails-find" | "tails-add" | "tails-take")) => run::one(tails_case(&words)?),
        Some(word) if word.starts_with("journal-") => run::one(journal_case(&words)?),
        Some(&"gust") => run::one(gust_case(&words)?),
        Some(&("sheet" | "sheet-record")) => run::one(sheet_case(&words)?),
        _ => no_such_case(),
    }
}

fn no_such_case<T>() -> Result<T, String> {
    Err("no such case".to_string())
}

fn report_case(words: &[&str]) -> Result<report::Case, String> {
    Ok(match words {
        ["packed-read", field] => report::Case::PackedRead(bytes(field)?),
        ["packed-write", number, given, width, at] => {
            let figure = ours::Figure { number: parse(number)?, given: parse(given)? };
            report::Case::PackedWrite { figure, width: parse(width)?, room: room(at)? }
        }
        ["report", text] => report::Case::Report(bytes(text)?),
        ["record", record, at] => report::Case::Record { record: plain(record)?, room: room(at)? },
        _ => return no_such_case(),
    })
}

fn sheet_case(words: &[&str]) -> Result<sheet::Case, String> {
    Ok(match words {
        ["sheet", text] => sheet::Case::Text(bytes(text)?),
        ["sheet-record", record, at] => sheet::Case::Record { record: plain(record)?, room: room(at)? },
        _ => return no_such_case(),
    })
}

fn track_case(words: &[&str]) -> Result<desk_compare::cases::track::Case, String> {
    match words {
        ["track", text] => Ok(desk_compare::cases::track::Case(bytes(text)?)),
        _ => no_such_case(),
    }
}

fn command_case(words: &[&str]) -> Result<command::Case, String> {
    Ok(match words {
        ["command", text] => command::Case::Text(bytes(text)?),
        ["command-record", record, at] => command::Case::Record { record: plain(record)?, room: room(at)? },
        _ => return no_such_case(),
    })
}

fn section_case(words: &[&str]) -> Result<section::Case, String> {
    match words {
        ["section", number, text] => Ok(section::Case { text: bytes(text)?, numbers: vec![parse(number)?] }),
        _ => no_such_case(),
    }
}

fn config_case(words: &[&str]) -> Result<config::Case, String> {
    Ok(match words {
        ["reset"] => config::Case::Reset,
        ["apply", settings, text] => config::Case::Apply { settings: plain(settings)?, text: bytes(text)? },
        _ => return no_such_case(),
    })
}

fn difference_case(words: &[&str]) -> Result<desk_compare::cases::difference::Case, String> {
    match words {
        ["difference", first, second, at] => {
            let settings = Box::new([*plain(first)?, *plain(second)?]);
            Ok(desk_compare::cases::difference::Case { settings, room: room(at)? })
        }
        _ => no_such_case(),
    }
}

fn decide_case(words: &[&str]) -> Result<decide::Case, String> {
    let [settings, phase, latitude, longitude, hour, name] = words else {
        return no_such_case();
    };
    let name = bytes(name)?;
    let mut airfield = [0; 6];
    airfield.get_mut(..name.len()).ok_or("an airfield has at most 6 bytes here")?.copy_from_slice(&name);
    let question = decide::Question {
        phase: parse(phase)?,
        hour: parse(hour)?,
        latitude: parse(latitude)?,
        longitude: parse(longitude)?,
        airfield,
        length: name.len() as u8,
    };
    Ok(decide::Case { settings: plain(settings)?, questions: vec![question] })
}

fn join_case(words: &[&str]) -> Result<join::Case, String> {
    match words {
        ["join", first, second, at] => Ok(join::Case { first: bytes(first)?, second: bytes(second)?, room: room(at)? }),
        _ => no_such_case(),
    }
}

fn commute_case(words: &[&str]) -> Result<commute::Case, String> {
    match words {
        ["commute", first, second, settings] => {
            Ok(commute::Case { first: bytes(first)?, second: bytes(second)?, settings: plain(settings)? })
        }
        _ => no_such_case(),
    }
}

fn board_case(words: &[&str]) -> Result<board::Case, String> {
    let (slots, area, event) = match words {
        ["board-check", slots, area] => (slots, area, board::Event::Check),
        ["office-add", slots, area, designator, text, own, other] => {
            let grants = [of_bytes(&bytes(own)?), of_bytes(&bytes(other)?)];
            (slots, area, board::Event::Office { grants, designator: bytes(designator)?, text: bytes(text)? })
        }
        ["board-add", slots, area, designator, text] => {
            (slots, area, board::Event::Add { designator: bytes(designator)?, text: bytes(text)? })
        }
        ["board-take", slots, area, designator, at] => {
            (slots, area, board::Event::Take { designator: bytes(designator)?, room: room(at)? })
        }
        _ => return no_such_case(),
    };
    board_with(bytes(slots)?, bytes(area)?, Vec::new(), event)
}

fn board_with(slots: Vec<u8>, area: Vec<u8>, list: Vec<u8>, event: board::Event) -> Result<board::Case, String> {
    if !slots.len().is_multiple_of(8) {
        return Err("a slot has 8 bytes".to_string());
    }
    Ok(board::Case { slots: slots.chunks(8).map(of_bytes).collect(), area, list, events: vec![event] })
}

/// With the list beside the board.
fn tails_case(words: &[&str]) -> Result<board::Case, String> {
    let [word, slots, area, list, more @ ..] = words else {
        return no_such_case();
    };
    let event = match (*word, more) {
        ("tails-make", []) => board::Event::Make,
        ("tails-find", [designator]) => board::Event::Find { designator: bytes(designator)? },
        ("tails-add", [designator, text]) => {
            board::Event::ListedAdd { designator: bytes(designator)?, text: bytes(text)? }
        }
        ("tails-take", [designator, at]) => {
            board::Event::ListedTake { designator: bytes(designator)?, room: room(at)? }
        }
        _ => return no_such_case(),
    };
    board_with(bytes(slots)?, bytes(area)?, bytes(list)?, event)
}

fn journal_case(words: &[&str]) -> Result<journal::Case, String> {
    let [word, buffer, end, more @ ..] = words else {
        return no_such_case();
    };
    let call = match (*word, more) {
        ("journal-check", []) => journal::Call::Check,
        ("journal-last", []) => journal::Call::Last,
        ("journal-add", [designator, text]) => {
            journal::Call::Add { designator: bytes(designator)?, text: bytes(text)? }
        }
        ("journal-drop", [count]) => journal::Call::Drop { count: parse(count)? },
        ("journal-print", [room]) => journal::Call::Print { room: parse::<u32>(room)? as usize },
        ("journal-replay", [designator]) => journal::Call::Replay { designator: bytes(designator)? },
        _ => return no_such_case(),
    };
    let event = journal::Event::Ask { end: parse(end)?, call };
    Ok(journal::Case { buffer: bytes_up_to(1 << 20, buffer)?, events: vec![event] })
}

fn gust_case(words: &[&str]) -> Result<gust::Case, String> {
    match words {
        ["gust", row, height, mass, acceleration, speed] => {
            let felt = Felt {
                height: parse(height)?,
                mass: parse(mass)?,
                acceleration: parse(acceleration)?,
                speed: parse(speed)?,
            };
            Ok(gust::Case { row: parse(row)?, felt })
        }
        _ => no_such_case(),
    }
}

fn parse<T: std::str::FromStr>(word: &str) -> Result<T, String> {
    word.parse().map_err(|_| format!("no number here: {word}"))
}

/// A question has two bytes for a room.
fn room(word: &str) -> Result<usize, String> {
    parse::<u16>(word).map(usize::from)
}

/// A struct of the header.
fn plain<T: Plain>(word: &str) -> Result<Box<T>, String> {
    let bytes = bytes(word)?;
    if bytes.len() != size_of::<T>() {
        return Err(format!("{} bytes for a record of {}", bytes.len(), size_of::<T>()));
    }
    Ok(Box::new(of_bytes(&bytes)))
}

/// A question has two bytes for a byte string's length.
fn bytes(word: &str) -> Result<Vec<u8>, String> {
    bytes_up_to(usize::from(u16::MAX), word)
}

fn bytes_up_to(most: usize, word: &str) -> Result<Vec<u8>, String> {
    if word == "-" {
        return Ok(Vec::new());
    }
    let wrong = || format!("no bytes in hex, at most {most}: {word}");
    if !word.len().is_multiple_of(2) || !word.is_ascii() || word.len() / 2 > most {
        return Err(wrong());
    }
    let pairs = (0..word.len()).step_by(2).map(|at| u8::from_str_radix(&word[at..at + 2], 16));
    pairs.collect::<Result<_, _>>().map_err(|_| wrong())
}
