//! `plain < INPUT` prints the report about a question and a board.
//! `plain --check INPUT REPORT ...` says of each printed report whether it may stand, and ends with status 1 where one may not.

use std::io::{self, Read, Write};
use std::process::ExitCode;

fn main() -> io::Result<ExitCode> {
    let arguments: Vec<String> = std::env::args().skip(1).collect();
    match arguments.iter().map(String::as_str).collect::<Vec<_>>()[..] {
        [] => {
            let mut input = Vec::new();
            io::stdin().lock().read_to_end(&mut input)?;
            io::stdout().lock().write_all(plain::report::report(&input).as_bytes())?;
            Ok(ExitCode::SUCCESS)
        }
        ["--check", ref pairs @ ..] if pairs.len() % 2 == 0 => {
            let mut code = ExitCode::SUCCESS;
            for pair in pairs.chunks_exact(2) {
                match plain::check::check(&std::fs::read(pair[0])?, &std::fs::read(pair[1])?) {
                    Ok(()) => println!("{}: stands", pair[1]),
                    Err(why) => {
                        println!("{}: does not stand: {why}", pair[1]);
                        code = ExitCode::FAILURE;
                    }
                }
            }
            Ok(code)
        }
        _ => {
            eprintln!("usage: plain < INPUT, or plain --check INPUT REPORT ...");
            Ok(ExitCode::from(2))
        }
    }
}
