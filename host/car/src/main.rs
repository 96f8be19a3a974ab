//! A car's screens in one terminal: tap, ask and gossip by hand or from a script, and see what each book becomes.

mod car;
mod command;
mod show;

use std::fs::File;
use std::io::{self, BufRead, BufReader, IsTerminal, Write};
use std::process::ExitCode;

use car::Car;
use command::{Command, HELP};
use consent::numbers::{LEAST_SCREENS, MOST_SCREENS};

fn main() -> ExitCode {
    let arguments: Vec<String> = std::env::args().skip(1).collect();
    match run(&arguments) {
        Ok(()) => ExitCode::SUCCESS,
        Err(message) => {
            eprintln!("{message}");
            ExitCode::FAILURE
        }
    }
}

fn usage() -> String {
    format!(
        "usage: car SCREENS [SCRIPT]
  SCREENS  {LEAST_SCREENS} to {MOST_SCREENS}
  SCRIPT   a file of commands, one to a line; without it they are read from standard input"
    )
}

fn run(arguments: &[String]) -> Result<(), String> {
    let (screens, script) = match arguments {
        [screens] => (screens, None),
        [screens, script] => (screens, Some(script)),
        _ => return Err(usage()),
    };
    let screens = screens.parse().map_err(|_| usage())?;
    let mut car = Car::open(screens).map_err(|refusal| format!("{refusal}\n{}", usage()))?;
    match script {
        Some(path) => {
            let file = File::open(path).map_err(|error| format!("{path}: {error}"))?;
            drive(&mut car, BufReader::new(file), false)
        }
        None => {
            let input = io::stdin();
            let by_hand = input.is_terminal();
            drive(&mut car, input.lock(), by_hand)
        }
    }
}

/// Carries out the commands until they end. What is not typed by hand is repeated before its answer.
fn drive(car: &mut Car, mut input: impl BufRead, by_hand: bool) -> Result<(), String> {
    let mut output = io::stdout().lock();
    let mut line = String::new();
    loop {
        if by_hand {
            write!(output, "> ").and_then(|()| output.flush()).map_err(|error| error.to_string())?;
        }
        line.clear();
        if input.read_line(&mut line).map_err(|error| error.to_string())? == 0 {
            return Ok(());
        }
        let Some(answer) = answer(car, line.trim()) else {
            return Ok(());
        };
        let repeated = if by_hand { String::new() } else { repeated(line.trim()) };
        write!(output, "{repeated}{answer}").map_err(|error| error.to_string())?;
    }
}

/// A line of a script as it is shown: a command stands after a mark, a remark stands for itself.
fn repeated(line: &str) -> String {
    let mark = if line.is_empty() || line.starts_with('#') { "" } else { "> " };
    format!("{mark}{line}\n")
}

/// What a line brings; none when it ends the drive.
fn answer(car: &mut Car, line: &str) -> Option<String> {
    match Command::parse(line) {
        Ok(Command::Quit) => None,
        Ok(Command::Nothing) => Some(String::new()),
        Ok(Command::Help) => Some(HELP.to_string()),
        Ok(Command::Tap(screen, request)) => Some(car.tap(screen, request)),
        Ok(Command::Ask(screen, question)) => Some(car.ask(screen, question)),
        Ok(Command::Gossip(from, to)) => Some(car.gossip(from, to)),
        Ok(Command::Show(screen)) => Some(car.show(screen)),
        Err(complaint) => Some(format!("{complaint}\n")),
    }
}
