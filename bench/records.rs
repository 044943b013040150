//! Record files and cards made in memory, and the records of the benchmarks.
use crate::plain::{ATTRIBUTE, DECLARATION, END, MC, Row, START, TEXT};
use std::collections::HashMap;

/// Gathers texts and rows, and gives the bytes of a file.
pub struct Maker {
    texts: Vec<Vec<u8>>,
    numbers: HashMap<Vec<u8>, u32>,
    pub rows: Vec<Row>,
}

impl Maker {
    pub fn new() -> Maker {
        Maker { texts: vec![Vec::new()], numbers: HashMap::from([(Vec::new(), 0)]), rows: Vec::new() }
    }

    pub fn number(&mut self, text: impl AsRef<[u8]>) -> u32 {
        let text = text.as_ref();
        if let Some(number) = self.numbers.get(text) {
            return *number;
        }
        let number = self.texts.len() as u32;
        self.texts.push(text.to_vec());
        self.numbers.insert(text.to_vec(), number);
        number
    }

    pub fn texts(&self) -> &[Vec<u8>] {
        &self.texts
    }

    pub fn row(&mut self, kind: u32, a: u32, b: u32, c: u32) {
        self.rows.push(Row { kind, a, b, c });
    }

    pub fn start(&mut self, namespace: impl AsRef<[u8]>, local: impl AsRef<[u8]>) {
        let (a, b) = (self.number(namespace), self.number(local));
        self.row(START, a, b, 0);
    }

    pub fn declare(&mut self, prefix: impl AsRef<[u8]>, namespace: impl AsRef<[u8]>) {
        let (a, b) = (self.number(prefix), self.number(namespace));
        self.row(DECLARATION, a, b, 0);
    }

    pub fn attribute(&mut self, namespace: impl AsRef<[u8]>, local: impl AsRef<[u8]>, value: impl AsRef<[u8]>) {
        let (a, b, c) = (self.number(namespace), self.number(local), self.number(value));
        self.row(ATTRIBUTE, a, b, c);
    }

    pub fn text(&mut self, text: impl AsRef<[u8]>) {
        let a = self.number(text);
        self.row(TEXT, a, 0, 0);
    }

    pub fn end(&mut self) {
        self.row(END, 0, 0, 0);
    }

    pub fn bytes(&self) -> Vec<u8> {
        file(&self.texts, &self.rows)
    }
}

/// A file with its texts end to end.
pub fn file(texts: &[Vec<u8>], rows: &[Row]) -> Vec<u8> {
    spaced_file(texts, rows, || 0)
}

/// A file with gaps of these lengths before the texts but the first, and behind the last.
pub fn spaced_file(texts: &[Vec<u8>], rows: &[Row], mut gap: impl FnMut() -> usize) -> Vec<u8> {
    let mut pairs = Vec::new();
    let mut text_bytes = Vec::new();
    for text in texts {
        if !pairs.is_empty() {
            text_bytes.extend(std::iter::repeat_n(b'-', gap()));
        }
        pairs.push((text_bytes.len() as u32, text.len() as u32));
        text_bytes.extend_from_slice(text);
    }
    text_bytes.extend(std::iter::repeat_n(b'-', gap()));
    let mut bytes = Vec::new();
    let mut put = |number: u32| bytes.extend_from_slice(&number.to_le_bytes());
    [texts.len(), rows.len(), text_bytes.len()].into_iter().for_each(|count| put(count as u32));
    pairs.into_iter().flat_map(|pair| [pair.0, pair.1]).for_each(&mut put);
    rows.iter().flat_map(|row| [row.kind, row.a, row.b, row.c]).for_each(&mut put);
    bytes.extend(text_bytes);
    bytes
}

pub fn card(names: &[&str], stems: &[&str], extensions: &[(&str, &str)]) -> Vec<u8> {
    let mut maker = Maker::new();
    for name in names {
        let a = maker.number(name);
        maker.row(21, a, 0, 0);
    }
    for stem in stems {
        let a = maker.number(stem);
        maker.row(22, a, 0, 0);
    }
    for (namespace, local) in extensions {
        let (a, b) = (maker.number(namespace), maker.number(local));
        maker.row(23, a, b, 0);
    }
    maker.bytes()
}

/// A record for a benchmark, with its card and the count of rows that are sealed of it.
pub struct Sample {
    pub name: &'static str,
    pub record: Vec<u8>,
    pub card: Vec<u8>,
    pub sealed: u32,
}

pub fn samples() -> Vec<Sample> {
    vec![bench(), suppliers(), deep(), search()]
}

const PUMP: &str = "urn:pump:1";
const ROWS: usize = 2048;

/// Fills the record up to its last row with texts directly in the root, and ends the root.
fn close(maker: &mut Maker) {
    while maker.rows.len() < ROWS - 1 {
        maker.text("\n");
    }
    maker.end();
}

/// Points of flow and head, with plain attributes. All is kept.
fn bench() -> Sample {
    let mut maker = Maker::new();
    maker.start(PUMP, "Test");
    let mut point = 0;
    while maker.rows.len() + 8 <= ROWS {
        maker.start(PUMP, "Point");
        for (i, name) in ["Flow", "Head", "Speed", "Power"].iter().enumerate() {
            maker.attribute("", name, format!("{}.{}", (point * (i + 3)) % 97, i));
        }
        maker.text(format!("{}", point % 50));
        maker.end();
        point += 1;
    }
    close(&mut maker);
    Sample { name: "bench", record: maker.bytes(), card: card(&[PUMP], &[], &[]), sealed: 2048 }
}

/// Twelve suppliers, ignorable; elements of them are ignored or unwrapped, and there are alternatives with a fallback.
fn suppliers() -> Sample {
    let mut maker = Maker::new();
    let prefixes: Vec<String> = (0..12).map(|i| format!("s{i}")).collect();
    let names: Vec<String> = (0..12).map(|i| format!("urn:supplier:{i}")).collect();
    maker.start(PUMP, "Test");
    maker.declare("p", PUMP);
    for (prefix, name) in prefixes.iter().zip(&names) {
        maker.declare(prefix, name);
    }
    maker.attribute(MC, "Ignorable", prefixes.join(" "));
    let boxes: Vec<String> = prefixes.iter().map(|prefix| format!("{prefix}:Box")).collect();
    maker.attribute(MC, "ProcessContent", boxes.join(" "));
    let mut point = 0;
    while maker.rows.len() + 29 <= ROWS {
        let (name, other) = (&names[point % 12], &names[(point * 5 + 1) % 12]);
        let number = format!("{}", point % 80);
        maker.start(PUMP, "Point");
        maker.attribute("", "Flow", &number);
        maker.attribute(name, "Noise", &number);
        maker.attribute(MC, "MustUnderstand", "p");
        maker.attribute(name, "Drift", &number);
        maker.start(name, "Box");
        maker.attribute(name, "Id", &number);
        maker.start(PUMP, "Head");
        maker.text(&number);
        maker.end();
        maker.end();
        maker.start(other, "Note");
        maker.attribute("", "By", &number);
        maker.text(&number);
        maker.end();
        maker.start(MC, "AlternateContent");
        maker.start(MC, "Choice");
        maker.attribute("", "Requires", &prefixes[point % 12]);
        maker.text(&number);
        maker.end();
        maker.start(MC, "Fallback");
        maker.start(PUMP, "Head");
        maker.text(&number);
        maker.end();
        maker.end();
        maker.end();
        maker.end();
        point += 1;
    }
    close(&mut maker);
    Sample { name: "suppliers", record: maker.bytes(), card: card(&[PUMP], &[], &[]), sealed: 684 }
}

/// Down to the 64th level and up again, many times.
fn deep() -> Sample {
    let mut maker = Maker::new();
    maker.start(PUMP, "Test");
    while maker.rows.len() + 4 * 63 < ROWS {
        for level in 1..64 {
            maker.start(PUMP, "Part");
            maker.attribute("", "Level", format!("{level}"));
            maker.text("12");
        }
        for _ in 1..64 {
            maker.end();
        }
    }
    close(&mut maker);
    Sample { name: "deep", record: maker.bytes(), card: card(&[PUMP], &[], &[]), sealed: 2048 }
}

/// 128 entries in each list; look-ups that hit the eldest entry or none.
fn search() -> Sample {
    let mut maker = Maker::new();
    let prefix = |i: usize| format!("n{i:03}");
    let name = |i: usize| format!("urn:supplier:{i:03}");
    for level in 0..4 {
        let own = 32 * level..32 * level + 32;
        maker.start(PUMP, "Test");
        own.clone().for_each(|i| maker.declare(prefix(i), name(i)));
        let ignorable: Vec<String> = own.clone().map(prefix).collect();
        maker.attribute(MC, "Ignorable", ignorable.join(" "));
        let processed: Vec<String> = own.map(|i| format!("n{i:03}:Box")).collect();
        maker.attribute(MC, "ProcessContent", processed.join(" "));
    }
    let eldest = name(1);
    while maker.rows.len() + 19 + 4 <= ROWS {
        maker.start(PUMP, "Point");
        maker.attribute(MC, "MustUnderstand", [prefix(0).as_str(); 8].join(" "));
        maker.attribute(&eldest, "Noise", "12");
        maker.attribute(&eldest, "Drift", "12");
        maker.attribute(name(2), "Noise", "12");
        maker.attribute("", "Flow", "12");
        maker.start(&eldest, "Box");
        maker.text("12");
        maker.end();
        maker.start(&eldest, "Note");
        maker.attribute("urn:other", "Noise", "12");
        maker.start("urn:other", "Note");
        maker.end();
        maker.start(&eldest, "Note");
        maker.end();
        maker.end();
        maker.end();
    }
    while maker.rows.len() < ROWS - 4 {
        maker.text("\n");
    }
    (0..4).for_each(|_| maker.end());
    Sample { name: "search", record: maker.bytes(), card: card(&[PUMP, &name(0)], &[], &[]), sealed: 470 }
}
