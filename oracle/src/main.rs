//! Reads filters with the original, one in each line of hexadecimal, and says what it makes of them.
//! Its argument is what to say: `lines` (if none), `tree`, `why`, or `short`: what comes of writing into a buffer
//! that is one byte too short.
#[macro_use]
extern crate bitflags;

mod original;
mod raw;
mod tree;
mod why;

use std::io::{stdin, stdout, BufRead, BufWriter, Write};
use std::panic::{catch_unwind, set_hook};

use netlink_packet_core::{DecodeError, Emitable, NlasIterator, Parseable};
use original::{ip, tc};
use raw::AddressFamily;
use tc::{TcActionAttribute, TcFilterU32Option};

/// The options of a filter, or the place of the first that fails and why it fails.
fn read(filter: &[u8]) -> Result<Vec<TcFilterU32Option>, (usize, DecodeError)> {
    let mut options = Vec::new();
    let mut place = 0;
    for attribute in NlasIterator::new(filter) {
        let attribute = attribute.map_err(|error| (place, error))?;
        let option = TcFilterU32Option::parse(&attribute);
        options.push(option.map_err(|error| (place, error))?);
        place += (4 + attribute.value().len()).next_multiple_of(4);
    }
    Ok(options)
}

/// How many options, actions and action options there are.
pub fn counts(options: &[TcFilterU32Option]) -> (usize, usize, usize) {
    let mut all = 0;
    let mut inner = 0;
    for option in options {
        if let TcFilterU32Option::Action(actions) = option {
            all += actions.len();
            for attribute in actions.iter().flat_map(|action| &action.attributes) {
                if let TcActionAttribute::Options(options) = attribute {
                    inner += options.len();
                }
            }
        }
    }
    (options.len(), all, inner)
}

/// Written into bytes that were not zero, so that what is not written is seen.
fn written(options: &[TcFilterU32Option]) -> Vec<u8> {
    let mut buffer = vec![0xA5; options.buffer_len()];
    options.emit(&mut buffer);
    buffer
}

pub fn hexadecimal(bytes: &[u8]) -> String {
    if bytes.is_empty() {
        return "-".to_string();
    }
    bytes.iter().map(|byte| format!("{byte:02x}")).collect()
}

fn bytes(line: &[u8]) -> Option<Vec<u8>> {
    if line.len() % 2 != 0 {
        return None;
    }
    let digit = |c: u8| (c as char).to_digit(16).map(|digit| digit as u8);
    line.chunks(2).map(|pair| Some(digit(pair[0])? * 16 + digit(pair[1])?)).collect()
}

fn answer(mode: &str, line: &[u8]) -> String {
    let Some(filter) = bytes(line.trim_ascii()) else {
        return "not hex".to_string();
    };
    let said = catch_unwind(|| match (read(&filter), mode) {
        (Ok(options), "tree") => tree::of(&options),
        (Ok(options), "short") => {
            let mut buffer = vec![0xA5; options.as_slice().buffer_len().saturating_sub(1)];
            options.as_slice().emit(&mut buffer);
            "written".to_string()
        }
        (Ok(options), _) => {
            let (outer, actions, inner) = counts(&options);
            format!("ok {outer} {actions} {inner} {}", hexadecimal(&written(&options)))
        }
        (Err((place, error)), "why") => why::numbers(place, &error.to_string()),
        (Err(_), _) => "refused".to_string(),
    });
    said.unwrap_or_else(|_| "panic".to_string())
}

fn main() {
    let mode = std::env::args().nth(1).unwrap_or_else(|| "lines".to_string());
    set_hook(Box::new(|_| ()));
    let mut out = BufWriter::new(stdout().lock());
    for line in stdin().lock().split(b'\n') {
        let line = line.expect("a line of input");
        writeln!(out, "{}", answer(&mode, &line)).expect("room for output");
        if mode == "tree" {
            writeln!(out, ".").expect("room for output");
        }
    }
}
