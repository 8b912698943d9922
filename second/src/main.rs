//! The command line of the second program.

mod codec;
mod codec_cases;
mod codec_inputs;
mod history;
#[cfg(test)]
mod history_tests;
mod listing;
mod log;
mod log_cases;
mod log_catalogue;
#[cfg(test)]
mod log_coverage;
mod log_damage;
mod log_inputs;
mod log_lengths;
mod log_parts;
mod log_runs;
mod log_scripts;
mod log_shapes;
#[cfg(test)]
mod log_tests;
mod monitor;
mod monitor_cases;
#[cfg(test)]
mod monitor_coverage;
mod monitor_histories;
mod monitor_host;
mod monitor_inputs;
mod monitor_scenes;
#[cfg(test)]
mod monitor_tests;
mod monitor_wander;
mod random;
mod refusal;
mod sheet;
#[cfg(test)]
mod sheet_case_tests;
mod sheet_cases;
mod sheet_catalogue;
mod sheet_changes;
#[cfg(test)]
mod sheet_coverage;
mod sheet_inputs;
mod sheet_lines;
mod sheet_parts;
#[cfg(test)]
mod sheet_places;
mod sheet_shapes;
#[cfg(test)]
mod sheet_tally;
#[cfg(test)]
mod sheet_tests;
mod sheet_values;
#[cfg(test)]
mod sheet_writer_tests;
mod sheet_writes;

use std::io::{self, BufWriter, Read, Write};
use std::path::Path;
use std::process::ExitCode;

const USAGE: &str = "usage: second codec-inputs SEED COUNT   write COUNT records of codec cases
       second codec-answers             answer the codec cases on standard input
       second monitor-inputs SEED RUNS  write RUNS runs of monitor cases
       second monitor-answers           answer the monitor cases on standard input
       second monitor-histories         compare two readings of the cases on standard input
       second log-inputs SEED COUNT     write COUNT log cases
       second log-answers               answer the log cases on standard input
       second log-files DIR             write the log cases on standard input as files
       second replay                    list the log on standard input
       second sheet-inputs SEED COUNT   write COUNT sheet cases
       second sheet-answers             answer the sheet cases on standard input
       second sheet-files DIR           write the sheets on standard input as files
       second sheet                     judge the sheet on standard input";

/// What the command line asks for.
enum Command {
    CodecInputs { seed: u64, count: u64 },
    CodecAnswers,
    MonitorInputs { seed: u64, runs: u64 },
    MonitorAnswers,
    MonitorHistories,
    LogInputs { seed: u64, count: u64 },
    LogAnswers,
    LogFiles { directory: String },
    Replay,
    SheetInputs { seed: u64, count: u64 },
    SheetAnswers,
    SheetFiles { directory: String },
    Sheet,
}

fn command(arguments: &[String]) -> Option<Command> {
    let arguments: Vec<&str> = arguments.iter().map(String::as_str).collect();
    match arguments.as_slice() {
        ["codec-inputs", seed, count] => {
            Some(Command::CodecInputs { seed: seed.parse().ok()?, count: count.parse().ok()? })
        }
        ["codec-answers"] => Some(Command::CodecAnswers),
        ["monitor-inputs", seed, runs] => {
            Some(Command::MonitorInputs { seed: seed.parse().ok()?, runs: runs.parse().ok()? })
        }
        ["monitor-answers"] => Some(Command::MonitorAnswers),
        ["monitor-histories"] => Some(Command::MonitorHistories),
        ["log-inputs", seed, count] => {
            Some(Command::LogInputs { seed: seed.parse().ok()?, count: count.parse().ok()? })
        }
        ["log-answers"] => Some(Command::LogAnswers),
        ["log-files", directory] => Some(Command::LogFiles { directory: directory.to_string() }),
        ["replay"] => Some(Command::Replay),
        ["sheet-inputs", seed, count] => {
            Some(Command::SheetInputs { seed: seed.parse().ok()?, count: count.parse().ok()? })
        }
        ["sheet-answers"] => Some(Command::SheetAnswers),
        ["sheet-files", directory] => {
            Some(Command::SheetFiles { directory: directory.to_string() })
        }
        ["sheet"] => Some(Command::Sheet),
        _ => None,
    }
}

/// All of standard input.
fn cases() -> io::Result<Vec<u8>> {
    let mut cases = Vec::new();
    io::stdin().lock().read_to_end(&mut cases)?;
    Ok(cases)
}

/// Does what was asked for. Gives false if a comparison found a difference.
fn run(command: &Command) -> io::Result<bool> {
    let mut same = true;
    let mut out = BufWriter::with_capacity(1 << 16, io::stdout().lock());
    match command {
        Command::CodecInputs { seed, count } => codec_inputs::write_all(*seed, *count, &mut out)?,
        Command::CodecAnswers => codec_cases::answer_all(&cases()?, &mut out)?,
        Command::MonitorInputs { seed, runs } => monitor_inputs::write_all(*seed, *runs, &mut out)?,
        Command::MonitorAnswers => monitor_cases::answer_all(&cases()?, &mut out)?,
        Command::MonitorHistories => {
            same = monitor_histories::compare_all(&cases()?, &mut out)?;
        }
        Command::LogInputs { seed, count } => log_inputs::write_all(*seed, *count, &mut out)?,
        Command::LogAnswers => log_cases::answer_all(&cases()?, &mut out)?,
        Command::LogFiles { directory } => {
            log_cases::write_files(&cases()?, Path::new(directory))?;
        }
        Command::Replay => {
            let bytes = listing::input(io::stdin().lock())?;
            out.write_all(listing::replay(&bytes).as_bytes())?;
        }
        Command::SheetInputs { seed, count } => sheet_inputs::write_all(*seed, *count, &mut out)?,
        Command::SheetAnswers => sheet_cases::answer_all(&cases()?, &mut out)?,
        Command::SheetFiles { directory } => {
            sheet_cases::write_files(&cases()?, Path::new(directory))?;
        }
        Command::Sheet => out.write_all(sheet::program(&cases()?).as_bytes())?,
    }
    out.flush()?;
    Ok(same)
}

fn main() -> ExitCode {
    let arguments: Option<Vec<String>> =
        std::env::args_os().skip(1).map(|argument| argument.into_string().ok()).collect();
    let Some(command) = arguments.and_then(|arguments| command(&arguments)) else {
        eprintln!("{USAGE}");
        return ExitCode::from(2);
    };
    match run(&command) {
        Ok(true) => ExitCode::SUCCESS,
        Ok(false) => ExitCode::from(1),
        Err(error) => {
            eprintln!("second: {error}");
            ExitCode::from(1)
        }
    }
}
