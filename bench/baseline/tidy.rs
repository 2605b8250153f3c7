//! The job of `jop tidy` in plain Rust, to measure the proved program against: reads an item text from standard input and
//! prints its canonical text. It takes no notice of its words. Built by `bench/tidy` with `rustc -O`.

use std::fmt;
use std::io::{self, Read, Write};
use std::process::ExitCode;

/// The most bytes that are read.
const LIMIT: u64 = 16_777_216;

const BLANKS: [char; 5] = [' ', '\t', '\x0b', '\x0c', '\r'];

struct Item<'a> {
    title: Option<&'a str>,
    body: &'a str,
    props: Vec<(&'a str, &'a str)>,
}

enum Refusal {
    Input,
    TooLarge,
    Bad { line: usize, why: &'static str },
    Output,
}

impl Refusal {
    fn exit(&self) -> u8 {
        match self {
            Refusal::Input => 11,
            Refusal::Output => 12,
            Refusal::TooLarge => 18,
            Refusal::Bad { .. } => 21,
        }
    }
}

impl fmt::Display for Refusal {
    fn fmt(&self, f: &mut fmt::Formatter) -> fmt::Result {
        match self {
            Refusal::Input => write!(f, "input fault"),
            Refusal::Output => write!(f, "output fault"),
            Refusal::TooLarge => write!(f, "too large {}", LIMIT + 1),
            Refusal::Bad { line, why } => write!(f, "bad item line {line} {why}"),
        }
    }
}

fn read_input() -> Result<Vec<u8>, Refusal> {
    let mut bytes = Vec::new();
    io::stdin()
        .lock()
        .take(LIMIT + 1)
        .read_to_end(&mut bytes)
        .map_err(|_| Refusal::Input)?;
    if bytes.len() as u64 > LIMIT {
        return Err(Refusal::TooLarge);
    }
    Ok(bytes)
}

fn trimmed(text: &str) -> &str {
    text.trim_matches(BLANKS)
}

/// How many lines the text has.
fn line_count(text: &str) -> usize {
    text.bytes().filter(|byte| *byte == b'\n').count() + 1
}

/// What stands above the last empty line, and the pairs below it.
fn read_block(text: &str) -> Result<(Option<&str>, Vec<(&str, &str)>), Refusal> {
    let mut props = Vec::new();
    let mut rest = Some(text);
    while let Some(part) = rest {
        let (above, line) = match part.rsplit_once('\n') {
            Some((above, line)) => (Some(above), line),
            None => (None, part),
        };
        if trimmed(line).is_empty() {
            props.reverse();
            return Ok((above, props));
        }
        let Some((key, value)) = line.split_once(':') else {
            return Err(Refusal::Bad {
                line: line_count(part),
                why: "no colon",
            });
        };
        props.push((trimmed(key), trimmed(value)));
        rest = above;
    }
    props.reverse();
    Ok((None, props))
}

fn check_type(text: &str, props: &[(&str, &str)]) -> Result<(), Refusal> {
    let Some(place) = props.iter().position(|(key, _)| *key == "type_") else {
        return Err(Refusal::Bad {
            line: 0,
            why: "no type",
        });
    };
    let value = props[place].1;
    if (1..=3).contains(&value.len()) && value.bytes().all(|byte| byte.is_ascii_digit()) {
        return Ok(());
    }
    Err(Refusal::Bad {
        line: line_count(text) - props.len() + place + 1,
        why: "type value",
    })
}

fn read_item(bytes: &[u8]) -> Result<Item<'_>, Refusal> {
    let text = std::str::from_utf8(bytes).map_err(|_| Refusal::Bad {
        line: 0,
        why: "not text",
    })?;
    let (above, props) = read_block(text)?;
    check_type(text, &props)?;
    let mut head = above.into_iter().flat_map(|above| above.splitn(3, '\n'));
    let title = head.next();
    let body = head.nth(1).unwrap_or("");
    Ok(Item { title, body, props })
}

fn write_item(item: &Item) -> String {
    let mut out = String::new();
    if let Some(title) = item.title {
        out.push_str(title);
        out.push_str("\n\n");
    }
    if !item.body.is_empty() {
        out.push_str(item.body);
        out.push_str("\n\n");
    }
    for (place, (key, value)) in item.props.iter().enumerate() {
        if place > 0 {
            out.push('\n');
        }
        out.push_str(key);
        out.push_str(": ");
        out.push_str(value);
    }
    out
}

fn tidy() -> Result<(), Refusal> {
    let bytes = read_input()?;
    let item = read_item(&bytes)?;
    let text = write_item(&item);
    let mut out = io::stdout().lock();
    out.write_all(text.as_bytes())
        .and_then(|()| out.flush())
        .map_err(|_| Refusal::Output)
}

fn main() -> ExitCode {
    match tidy() {
        Ok(()) => ExitCode::SUCCESS,
        Err(refusal) => {
            let _ = writeln!(io::stderr(), "{refusal}");
            ExitCode::from(refusal.exit())
        }
    }
}
