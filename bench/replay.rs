//! Replays a log of calls on a new reader and a new sheet, and tells the answer to each.
use crate::plain::{Card, File, Layout, Reader, Refusal, Row, Sheet};
use std::collections::HashMap;
use std::fmt::Write;

fn told(call: &str, result: Result<Option<u32>, Refusal>) -> String {
    match result {
        Ok(None) => format!("{call}: ok\n"),
        Ok(Some(count)) => format!("{call}: ok {count}\n"),
        Err(refusal) => match refusal.cause {
            None => format!("{call}: refused {} at {}\n", refusal.number(), refusal.place),
            Some(cause) => {
                format!("{call}: refused {} at {} cause {}\n", refusal.number(), refusal.place, cause as u8)
            }
        },
    }
}

fn number(word: &str) -> Result<u32, String> {
    word.parse().map_err(|_| format!("no number: {word}"))
}

type Files = HashMap<String, Vec<u8>>;

/// Reads every file that the log names.
fn load(log: &str) -> Result<Files, String> {
    let mut files = Files::new();
    for line in log.lines() {
        let mut words = words(line);
        if matches!(words.next(), Some("begin" | "file")) {
            for name in words {
                let bytes = std::fs::read(name).map_err(|error| format!("{name}: {error}"))?;
                files.insert(name.to_string(), bytes);
            }
        }
    }
    Ok(files)
}

fn words(line: &str) -> impl Iterator<Item = &str> {
    line.split('#').next().unwrap_or("").split_whitespace()
}

pub fn replay(log: &str) -> Result<String, String> {
    let files = load(log)?;
    let mut reader = Reader::new();
    let mut sheet = Sheet::new(Layout::Flat, 0);
    let mut out = String::new();
    for line in log.lines() {
        let words: Vec<&str> = words(line).collect();
        match words[..] {
            [] => {}
            ["sheet", "flat", capacity] => sheet = Sheet::new(Layout::Flat, number(capacity)? as usize),
            ["sheet", "outline", capacity] => sheet = Sheet::new(Layout::Outline, number(capacity)? as usize),
            ["begin", file, card] => out += &begin(&mut reader, &files[file], &files[card]),
            ["row", kind, a, b, c] => {
                let row = Row { kind: number(kind)?, a: number(a)?, b: number(b)?, c: number(c)? };
                out += &told("row", reader.row(&mut sheet, row).map(|()| None));
            }
            ["file", file, card] => match Card::check(&files[card]) {
                Err(refusal) => out += &told("card", Err(refusal)),
                Ok(card) => {
                    let result = reader.file(&mut sheet, &files[file], &card.knowledge, &card.extensions);
                    out += &told("file", result.map(Some));
                }
            },
            ["finish"] => out += &told("finish", reader.finish(&mut sheet).map(Some)),
            ["abandon"] => out += &told("abandon", reader.abandon(&mut sheet).map(|()| None)),
            _ => return Err(format!("no call: {line}")),
        }
    }
    _ = writeln!(out, "sealed {}", sheet.sealed().len());
    for placed in sheet.sealed() {
        let Row { kind, a, b, c } = placed.row;
        _ = writeln!(out, "{} {kind} {a} {b} {c}", placed.place);
    }
    Ok(out)
}

/// The record file is tried first, then the card; if one is refused the call is not made.
fn begin<'a>(reader: &mut Reader<'a>, file: &'a [u8], card: &'a [u8]) -> String {
    let file = match File::check(file) {
        Ok(file) => file,
        Err(refusal) => return told("begin", Err(refusal)),
    };
    match Card::check(card) {
        Ok(card) => told("begin", reader.begin(file.texts, &card.knowledge, &card.extensions).map(|()| None)),
        Err(refusal) => told("card", Err(refusal)),
    }
}
