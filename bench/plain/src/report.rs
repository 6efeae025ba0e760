//! What is printed about a question and a board.

use crate::board::{open, read_question, Refused};
use crate::decide::{decide, Step, Verdict, Way};
use crate::text::Kind;
use std::fmt::Write;

/// What stands before the first byte 10, and what follows it.
pub fn parts(input: &[u8]) -> (&[u8], &[u8]) {
    match input.iter().position(|byte| *byte == b'\n') {
        Some(end) => (&input[..end], &input[end + 1..]),
        None => (input, &[]),
    }
}

/// The verdict about the question in the first line, on the board in the lines after it.
pub fn answer(input: &[u8]) -> Result<(Kind, Verdict), Refused> {
    let (question, text) = parts(input);
    let board = open(text)?;
    let question = read_question(question)?;
    Ok((question.kind, decide(&board, question.kind, &question.comparison)))
}

pub fn report(input: &[u8]) -> String {
    match answer(input) {
        Ok((kind, verdict)) => verdict_lines(kind, &verdict),
        Err(refused) => refusal_line(refused),
    }
}

pub fn refusal_line(refused: Refused) -> String {
    format!("refused {} line {}\n", refused.number, refused.line)
}

/// The first line up to the length of a run.
pub fn verdict_words(kind: Kind, yes: bool) -> &'static str {
    match (kind, yes) {
        (Kind::Possible, true) => "possible yes",
        (Kind::Possible, false) => "possible no",
        (Kind::Necessary, true) => "necessary yes",
        (Kind::Necessary, false) => "necessary no",
    }
}

fn verdict_lines(kind: Kind, verdict: &Verdict) -> String {
    let mut lines = String::from(verdict_words(kind, verdict.yes));
    if let Some(run) = &verdict.run {
        write!(lines, " {}", run.len()).expect("a string takes all");
    }
    lines.push('\n');
    for step in verdict.run.iter().flatten() {
        write_step(&mut lines, step);
    }
    lines
}

fn write_step(lines: &mut String, step: &Step) {
    let Step { actor, way, user, role, rule } = step;
    let way = match way {
        Way::Adds => "adds",
        Way::Removes => "removes",
    };
    writeln!(lines, "u{actor} {way} u{user} r{role} rule {rule}").expect("a string takes all");
}
