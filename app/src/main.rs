//! Benchdowel for the floor: checks drafts under the tables, keeps the night's verdicts and shows them on the wall.

#![deny(unsafe_code)]

mod check;
mod element;
mod engine;
mod explain;
mod files;
mod formats;
mod night;
mod store;
mod tables;
mod text;
mod wall;
mod words;

use clap::error::ErrorKind;
use clap::{Parser, Subcommand};
use std::io::{self, Write};
use std::path::PathBuf;
use std::process::ExitCode;
use text::{complain, shown};

/// How the program ends; the highest of several counts.
#[derive(Clone, Copy, PartialEq, Eq, PartialOrd, Ord, Debug)]
pub enum Status {
    /// All clean, or all as it should be.
    Clean = 0,
    /// Findings; of `verify`, a difference.
    Findings = 1,
    /// A refusal.
    Refused = 2,
    /// Wrong words, a file that cannot be read or written, or a bad store.
    Failed = 3,
}

/// Checks SPL drafts under the tables of a filing bureau
#[derive(Parser)]
#[command(name = "benchdowel", version, after_help = STATUSES)]
struct Cli {
    #[command(subcommand)]
    command: Command,
}

const STATUSES: &str = "Status 0: all clean; 1: findings; 2: something is refused; 3: wrong words, or a file that cannot be used.";

#[derive(Subcommand)]
enum Command {
    /// Judges drafts and prints what is found
    Check(check::CheckArgs),
    /// Says what a procedure (12) or a refusal (r7) is about, what to do and where it is printed; without a number, all of them
    Explain {
        /// 12, r7, or `refusal 7`
        #[arg(value_name = "NUMBER")]
        asked: Vec<String>,
    },
    /// Looks at tables files
    #[command(subcommand)]
    Tables(TablesCommand),
    /// Judges the drafts of a night and keeps drafts, tables and verdicts in a store
    Night(night::NightArgs),
    /// Takes rows that came later into the store, and says what they change
    Add(night::AddArgs),
    /// Judges all drafts of the store afresh under all its tables, and compares
    Verify(night::VerifyArgs),
    /// Writes or serves a page that shows how each draft of the store is
    Wall(wall::WallArgs),
}

#[derive(Subcommand)]
enum TablesCommand {
    /// Says whether a tables file is accepted, or which line breaks which rule
    Check {
        #[arg(value_name = "FILE")]
        tables: PathBuf,
    },
    /// Writes the file that has, in each section, the rows of A before those of B
    Join {
        a: PathBuf,
        b: PathBuf,
        /// The file to write, if not standard output
        #[arg(long, value_name = "FILE")]
        out: Option<PathBuf>,
    },
}

/// An error is one of standard output.
fn run(command: &Command) -> io::Result<Status> {
    match command {
        Command::Check(args) => check::run(args),
        Command::Explain { asked } => explain::run(asked),
        Command::Tables(TablesCommand::Check { tables }) => tables::run_check(tables),
        Command::Tables(TablesCommand::Join { a, b, out }) => tables::run_join(a, b, out.as_ref()),
        Command::Night(args) => night::run_night(args),
        Command::Add(args) => night::run_add(args),
        Command::Verify(args) => night::run_verify(args),
        Command::Wall(args) => wall::run(args),
    }
}

/// Wrong words get one line; help and version are printed as they are.
fn parse() -> Result<Cli, Status> {
    Cli::try_parse().map_err(|error| {
        let text = error.to_string();
        if !error.use_stderr() {
            return end_of(io::stdout().write_all(text.as_bytes()).map(|()| Status::Clean));
        }
        // What is wrong stands before the first empty line; then comes how it is used. Where a command is missing, all of it is that.
        let wrong = match error.kind() {
            ErrorKind::DisplayHelpOnMissingArgumentOrSubcommand => "error: a command is missing".to_string(),
            _ => text.lines().take_while(|line| !line.is_empty()).map(str::trim).collect::<Vec<_>>().join(" "),
        };
        complain(&format!("{} (benchdowel --help says how it is used)", shown(wrong.as_bytes())));
        Status::Failed
    })
}

fn end_of(answer: io::Result<Status>) -> Status {
    answer.and_then(|status| io::stdout().flush().map(|()| status)).unwrap_or_else(|error| {
        // Whoever closed a pipe has seen enough. What was not printed whole is not called clean.
        if error.kind() != io::ErrorKind::BrokenPipe {
            complain(&format!("standard output cannot be written: {error}"));
        }
        Status::Failed
    })
}

/// Does the work on a thread with enough stack.
fn work(cli: &Cli) -> Status {
    match engine::on_stack(|| end_of(run(&cli.command))) {
        Ok(status) => status.unwrap_or(Status::Failed),
        Err(why) => {
            complain(&format!("the work cannot be begun: {why}"));
            Status::Failed
        }
    }
}

fn main() -> ExitCode {
    std::panic::set_hook(Box::new(|fault| complain(&format!("a fault in the program itself: {}", shown(fault.to_string().as_bytes())))));
    if !engine::is_known() {
        complain("the program was built around functions of another interface: it has to be built anew");
        return ExitCode::from(Status::Failed as u8);
    }
    let status = parse().map_or_else(|status| status, |cli| work(&cli));
    ExitCode::from(status as u8)
}
