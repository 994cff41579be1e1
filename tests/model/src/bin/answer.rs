//! The model's answers, as expected rows of tests/vectors need them.
//!
//!     answer [--places N] IMAGE [PATH ..]
//!
//! For each path the line that the small program writes (S12.2): status, reason,
//! kind, count and the record numbers. Paths are taken from standard input, one a
//! line (S12.1), if none is named. The list has N places (4,096).

use std::io::{Read, Write};
use std::os::unix::ffi::OsStringExt;
use std::process::ExitCode;

const USAGE: &str = "usage: answer [--places N] IMAGE [PATH ..]";

/// The lines of a text; a last one without a line feed counts too.
fn lines(mut text: Vec<u8>) -> Vec<Vec<u8>> {
    if text.last() == Some(&b'\n') {
        text.pop();
    } else if text.is_empty() {
        return Vec::new();
    }
    let lines = text.split(|&byte| byte == b'\n');
    lines.map(<[u8]>::to_vec).collect()
}

fn line(path: &[u8], image: &[u8], checked: &model::Checked, places: usize) -> String {
    let mut list = vec![0; places];
    let reply = model::answer_checked(path, image, checked, &mut list);
    let mut numbers = vec![reply.status, reply.reason, reply.kind, reply.count];
    if reply.reason == 0 {
        numbers.extend(&list[..reply.count as usize]);
    }
    let texts: Vec<String> = numbers.iter().map(u32::to_string).collect();
    texts.join(" ") + "\n"
}

fn run() -> Result<(), String> {
    let mut words: Vec<Vec<u8>> = std::env::args_os()
        .skip(1)
        .map(OsStringExt::into_vec)
        .collect();
    let mut places = model::MOST_RECORDS;
    if words.first().is_some_and(|word| word == b"--places") {
        let number = words.get(1).map(|word| String::from_utf8_lossy(word));
        places = number.and_then(|number| number.parse().ok()).ok_or(USAGE)?;
        words.drain(..2);
    }
    if words.is_empty() {
        return Err(USAGE.to_string());
    }
    let name = String::from_utf8_lossy(&words.remove(0)).into_owned();
    let image = std::fs::read(&name).map_err(|error| format!("{name}: {error}"))?;
    if words.is_empty() {
        let mut text = Vec::new();
        let mut input = std::io::stdin().lock();
        input
            .read_to_end(&mut text)
            .map_err(|error| format!("standard input: {error}"))?;
        words = lines(text);
    }
    let checked = model::check(&image);
    let answers: String = words
        .iter()
        .map(|path| line(path, &image, &checked, places))
        .collect();
    let mut output = std::io::stdout().lock();
    output
        .write_all(answers.as_bytes())
        .map_err(|error| format!("standard output: {error}"))
}

fn main() -> ExitCode {
    match run() {
        Ok(()) => ExitCode::SUCCESS,
        Err(message) => {
            eprintln!("{message}");
            ExitCode::FAILURE
        }
    }
}
