//! Puts the same inputs through the Rust, or where it has no such call through what rules.rs has, and through the port,
//! counts cases and differences, and ends with 1 if there is any difference; README.md says what is compared.

mod choices;
mod exhaustive;
mod fewer_days;
mod files;
mod late;
mod models;
mod port;
mod published;
mod question;
mod random;
mod refusals;
mod tally;

use std::process::ExitCode;

use tally::Tally;

const PARTS: [(&str, fn(&mut Tally)); 7] = [
    ("exhaustive", exhaustive::run),
    ("refusals", refusals::run),
    ("choices", choices::run),
    ("random", random::run),
    ("files", files::run),
    ("late", late::run),
    ("fewer_days", fewer_days::run),
];

fn main() -> ExitCode {
    let words: Vec<String> = std::env::args().skip(1).collect();
    if let Some(word) = words
        .iter()
        .find(|word| PARTS.iter().all(|(name, _)| name != word))
    {
        let names = PARTS.map(|(name, _)| name).join(", ");
        eprintln!("no part {word:?}: {names}");
        return ExitCode::from(2);
    }
    models::check();
    let mut tally = Tally::default();
    for (name, run) in PARTS {
        if words.is_empty() || words.iter().any(|word| word == name) {
            run(&mut tally);
        }
    }
    if tally.end() {
        ExitCode::SUCCESS
    } else {
        ExitCode::FAILURE
    }
}
