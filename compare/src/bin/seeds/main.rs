//! Inputs for the fuzzer to begin with: valid texts, records, configurations, boards and journals, in the form that the
//! targets of host/fuzz take apart. `seeds FOLDER` writes FOLDER/CALL/0, 1, 2 and so on for every call.

mod downlink;
mod journals;
mod uplink;

use desk_compare::random::Random;
use std::fs;
use std::path::Path;

/// Seeds of a call.
const COUNT: usize = 12;

/// One input of a call; `index` runs through the forms that differ most.
type Maker = fn(&mut Random, usize) -> Vec<u8>;

const CALLS: [(&str, Maker); 35] = [
    ("esk_packed_read", downlink::packed_read),
    ("esk_packed_write", downlink::packed_write),
    ("esk_report_check", downlink::report_text),
    ("esk_report_read", downlink::report_text),
    ("esk_report_track", downlink::report_text),
    ("esk_report_write", downlink::report_write),
    ("esk_gust", downlink::gust),
    ("esk_sheet_check", downlink::sheet_text),
    ("esk_sheet_read", downlink::sheet_text),
    ("esk_sheet_write", downlink::sheet_write),
    ("esk_command_check", uplink::command_text),
    ("esk_command_read", uplink::command_text),
    ("esk_command_write", uplink::command_write),
    ("esk_section", uplink::section),
    ("esk_reset", |_, index| vec![index as u8]),
    ("esk_settings_valid", uplink::settings),
    ("esk_apply", uplink::apply),
    ("esk_difference", uplink::difference),
    ("esk_decide", uplink::decide),
    ("esk_join", uplink::join),
    ("esk_commute", uplink::commute),
    ("esk_board_check", uplink::board),
    ("esk_board_add", uplink::board_add),
    ("esk_board_take", uplink::board_take),
    ("esk_office_add", uplink::office_add),
    ("esk_tails_make", uplink::tails_make),
    ("esk_tails_find", uplink::tails_find),
    ("esk_tails_add", uplink::tails_add),
    ("esk_tails_take", uplink::tails_take),
    ("esk_journal_check", journals::whole),
    ("esk_journal_last", journals::whole),
    ("esk_journal_add", journals::add),
    ("esk_journal_drop", journals::dropped),
    ("esk_journal_print", journals::printed),
    ("esk_journal_replay", journals::replay),
];

fn write(folder: &Path) -> std::io::Result<()> {
    for (call, maker) in CALLS {
        let folder = folder.join(call);
        fs::create_dir_all(&folder)?;
        let mut random = Random::new(1, call);
        for index in 0..COUNT {
            fs::write(folder.join(index.to_string()), maker(&mut random, index))?;
        }
    }
    Ok(())
}

fn main() {
    let Some(folder) = std::env::args().nth(1) else {
        eprintln!("usage: seeds FOLDER");
        std::process::exit(2);
    };
    if let Err(why) = write(Path::new(&folder)) {
        eprintln!("seeds: {folder}: {why}");
        std::process::exit(2);
    }
}
