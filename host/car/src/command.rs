//! The lines that a person types, and what they ask for.

use consent::{Answer, Question, Stamp};

pub const HELP: &str = "\
tap SCREEN PROMPT accept|decline [front N] [serial N] [showing N] [label A,B,..]
    somebody taps; without a serial the next free one is used, without a label nothing need be known
ask SCREEN PROMPT [label A,B,..]
    how does the prompt stand there, and may the car do it?
gossip FROM TO
    one screen tells another what it knows
show [SCREEN]
    the book of a screen, or of all
help
quit
Screens and prompts count from 0. A line from # on is a remark.
";

/// One line, understood.
pub enum Command {
    Nothing,
    Help,
    Quit,
    Tap(usize, TapRequest),
    Ask(usize, Question),
    Gossip(usize, usize),
    Show(Option<usize>),
}

/// A tap whose serial may be left to the car.
pub struct TapRequest {
    pub prompt: u8,
    pub answer: Answer,
    pub front_end: u8,
    pub serial: Option<u32>,
    pub showing: u16,
    pub label: Stamp,
}

impl Command {
    pub fn parse(line: &str) -> Result<Command, String> {
        let said = line.split('#').next().unwrap_or_default();
        let words: Vec<&str> = said.split_whitespace().collect();
        match words.as_slice() {
            [] => Ok(Command::Nothing),
            ["help"] => Ok(Command::Help),
            ["quit"] => Ok(Command::Quit),
            ["show"] => Ok(Command::Show(None)),
            ["show", screen] => Ok(Command::Show(Some(number(screen)?))),
            ["gossip", from, to] => Ok(Command::Gossip(number(from)?, number(to)?)),
            ["ask", screen, prompt, rest @ ..] => {
                let label = label_in(rest)?;
                Ok(Command::Ask(number(screen)?, Question { prompt: number(prompt)?, label }))
            }
            ["tap", screen, prompt, answer, rest @ ..] => {
                let request = TapRequest::parse(prompt, answer, rest)?;
                Ok(Command::Tap(number(screen)?, request))
            }
            _ => Err("That is no command; try help.".to_string()),
        }
    }
}

impl TapRequest {
    fn parse(prompt: &str, answer: &str, rest: &[&str]) -> Result<TapRequest, String> {
        let mut request = TapRequest {
            prompt: number(prompt)?,
            answer: answer_of(answer)?,
            front_end: 0,
            serial: None,
            showing: 1,
            label: Stamp::ZERO,
        };
        for pair in rest.chunks(2) {
            match pair {
                ["front", value] => request.front_end = number(value)?,
                ["serial", value] => request.serial = Some(number(value)?),
                ["showing", value] => request.showing = number(value)?,
                ["label", value] => request.label = label(value)?,
                _ => return Err(format!("I do not understand: {}", pair.join(" "))),
            }
        }
        Ok(request)
    }
}

fn answer_of(word: &str) -> Result<Answer, String> {
    match word {
        "accept" => Ok(Answer::Accept),
        "decline" => Ok(Answer::Decline),
        _ => Err(format!("Say accept or decline, not {word}.")),
    }
}

fn label_in(words: &[&str]) -> Result<Stamp, String> {
    match words {
        [] => Ok(Stamp::ZERO),
        ["label", value] => label(value),
        _ => Err(format!("I do not understand: {}", words.join(" "))),
    }
}

fn label(text: &str) -> Result<Stamp, String> {
    let mut stamp = Stamp::ZERO;
    for (at, part) in text.split(',').enumerate() {
        *stamp.0.get_mut(at).ok_or("A label has no such part.")? = number(part)?;
    }
    Ok(stamp)
}

fn number<T: std::str::FromStr>(word: &str) -> Result<T, String> {
    word.parse().map_err(|_| format!("{word} is no number that fits here."))
}
