//! The plain reader as a program: replays logs, makes records to compare readers on, and times itself.
//!
//!     rustc -O --edition 2024 -o target/plain bench/main.rs
mod generate;
mod plain;
mod records;
mod replay;

use plain::{Card, File, Layout, Reader, Row, Sheet};
use std::cell::RefCell;
use std::hint::black_box;
use std::process::{Command, ExitCode};
use std::time::Instant;

const USAGE: &str = "plain replay LOG                       the answer to each call, and the sealed rows
plain generate FOLDER SEED COUNT       writes so many records, cards, logs and answers to them
plain compare FOLDER PROGRAM [ARG ..]  runs PROGRAM ARG .. LOG for every log there and compares the answers
plain bench                            times of the records for benchmarks
plain records FOLDER                   writes these records and their cards";

fn main() -> ExitCode {
    let arguments: Vec<String> = std::env::args().skip(1).collect();
    let arguments: Vec<&str> = arguments.iter().map(String::as_str).collect();
    let result = match arguments[..] {
        ["replay", log] => std::fs::read_to_string(log)
            .map_err(|error| format!("{log}: {error}"))
            .and_then(|log| replay::replay(&log))
            .map(|out| print!("{out}")),
        ["generate", folder, seed, count] => match (seed.parse(), count.parse()) {
            (Ok(seed), Ok(count)) => generate(folder, seed, count),
            _ => Err(USAGE.to_string()),
        },
        ["compare", folder, program, ref arguments @ ..] => compare(folder, program, arguments),
        ["bench"] => bench(),
        ["records", folder] => write_samples(folder).map_err(|error| error.to_string()),
        _ => Err(USAGE.to_string()),
    };
    match result {
        Ok(()) => ExitCode::SUCCESS,
        Err(words) => {
            eprintln!("{words}");
            ExitCode::FAILURE
        }
    }
}

fn write(name: String, bytes: &[u8]) -> Result<(), String> {
    std::fs::write(&name, bytes).map_err(|error| format!("{name}: {error}"))
}

/// NUMBER.record, NUMBER.card, NUMBER.log and what is answered to the log, NUMBER.out.
fn generate(folder: &str, seed: u64, count: usize) -> Result<(), String> {
    std::fs::create_dir_all(folder).map_err(|error| format!("{folder}: {error}"))?;
    for number in 0..count {
        let case = generate::case(folder, seed, number);
        write(format!("{folder}/{number:06}.record"), &case.record)?;
        write(format!("{folder}/{number:06}.card"), &case.card)?;
        write(format!("{folder}/{number:06}.log"), case.log.as_bytes())?;
        write(format!("{folder}/{number:06}.out"), replay::replay(&case.log)?.as_bytes())?;
    }
    Ok(())
}

fn compare(folder: &str, program: &str, arguments: &[&str]) -> Result<(), String> {
    let (mut logs, mut different) = (0, 0);
    loop {
        let (log, out) = (format!("{folder}/{logs:06}.log"), format!("{folder}/{logs:06}.out"));
        let Ok(wanted) = std::fs::read(&out) else { break };
        let output = Command::new(program).args(arguments).arg(&log).output();
        let given = output.map_err(|error| format!("{program}: {error}"))?.stdout;
        if given != wanted {
            different += 1;
            let line = wanted.split(|b| *b == b'\n').zip(given.split(|b| *b == b'\n')).position(|(a, b)| a != b);
            println!("{log}: other answers, first in line {}", line.map_or(0, |line| line + 1));
        }
        logs += 1;
    }
    println!("{logs} logs, {different} different");
    if logs > 0 && different == 0 { Ok(()) } else { Err("not the same".to_string()) }
}

fn write_samples(folder: &str) -> std::io::Result<()> {
    std::fs::create_dir_all(folder)?;
    for sample in records::samples() {
        std::fs::write(format!("{folder}/{}.record", sample.name), sample.record)?;
        std::fs::write(format!("{folder}/{}.card", sample.name), sample.card)?;
    }
    Ok(())
}

const ROUNDS: usize = 3000;

/// The least time of a round, in nanoseconds. What a round prepares is not timed.
fn best<T>(mut prepare: impl FnMut() -> T, mut round: impl FnMut(T)) -> f64 {
    let times = (0..ROUNDS).map(|_| {
        let prepared = prepare();
        let begun = Instant::now();
        round(prepared);
        begun.elapsed().as_nanos() as f64
    });
    times.fold(f64::INFINITY, f64::min)
}

/// For each record the times of a file's check, of the call file, and of begin, rows and finish.
fn bench() -> Result<(), String> {
    println!("ns a row   {:>5} {:>6} {:>8} {:>8} {:>8}", "rows", "sealed", "check", "file", "calls");
    for sample in records::samples() {
        let failed = |refusal| format!("{}: {refusal:?}", sample.name);
        let card = Card::check(&sample.card).map_err(failed)?;
        let rows: Vec<Row> = File::check(&sample.record).map_err(failed)?.rows().collect();
        let reader = RefCell::new(Reader::new());
        let sheet = RefCell::new(Sheet::new(Layout::Flat, rows.len()));
        let whole =
            || reader.borrow_mut().file(&mut sheet.borrow_mut(), &sample.record, &card.knowledge, &card.extensions);
        let calls = |texts| {
            let (reader, sheet) = (&mut *reader.borrow_mut(), &mut *sheet.borrow_mut());
            reader.begin(texts, &card.knowledge, &card.extensions)?;
            rows.iter().try_for_each(|row| reader.row(sheet, *row))?;
            reader.finish(sheet)
        };
        let sealed = whole().map_err(failed)?;
        sheet.borrow_mut().clear();
        let texts = || File::check(&sample.record).map(|file| file.texts);
        if sealed != sample.sealed || texts().and_then(calls) != Ok(sealed) {
            return Err(format!("{}: {sealed} rows sealed", sample.name));
        }
        let clear = || sheet.borrow_mut().clear();
        let times = [
            best(|| (), |()| _ = black_box(texts().is_ok())),
            best(clear, |()| _ = black_box(whole())),
            best(|| (clear(), texts()), |((), texts)| _ = black_box(texts.and_then(calls))),
        ];
        let [check, file, calls] = times.map(|time| time / rows.len() as f64);
        println!("{:<10} {:>5} {sealed:>6} {check:>8.2} {file:>8.2} {calls:>8.2}", sample.name, rows.len());
    }
    Ok(())
}
