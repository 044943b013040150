//! Random small records, whole and damaged, with random cards and logs of calls: for comparing two readers.
use crate::plain::{ATTRIBUTE, DECLARATION, END, MC, Row, START, TEXT, XML};
use crate::records::{Maker, spaced_file};
use std::fmt::Write;

/// SplitMix64.
pub struct Random(u64);

impl Random {
    fn next(&mut self) -> u64 {
        self.0 = self.0.wrapping_add(0x9e37_79b9_7f4a_7c15);
        let z = (self.0 ^ (self.0 >> 30)).wrapping_mul(0xbf58_476d_1ce4_e5b9);
        let z = (z ^ (z >> 27)).wrapping_mul(0x94d0_49bb_1331_11eb);
        z ^ (z >> 31)
    }

    fn below(&mut self, bound: usize) -> usize {
        (self.next() % bound as u64) as usize
    }

    fn percent(&mut self, chance: u32) -> bool {
        self.below(100) < chance as usize
    }

    fn pick<T: Copy>(&mut self, list: &[T]) -> T {
        list[self.below(list.len())]
    }

    fn shuffle<T>(&mut self, list: &mut [T]) {
        for i in (1..list.len()).rev() {
            let j = self.below(i + 1);
            list.swap(i, j);
        }
    }
}

type Name = &'static [u8];

const P: Name = b"urn:p";
const Q: Name = b"urn:q";
const S: Name = b"urn:s";
const P2: Name = b"urn:p:2";
const E: Name = b"urn:e";
const NONE: Name = b"";
const NAMESPACES: [Name; 5] = [P, Q, S, P2, E];
/// The prefixes with the namespaces that they mostly have.
const USUAL: [(Name, Name); 6] = [(b"p", P), (b"q", Q), (b"s", S), (b"t", P2), (b"e", E), (b"mc", MC)];
const LOCALS: [Name; 4] = [b"W", b"X", b"Y", b"*a"];
/// Items of ProcessContent that are malformed, or that mostly stand for nothing ignorable.
const ODD_PAIRS: [Name; 12] =
    [b"q", b"z:W", b"q:*", b"q:", b":W", b"q:W:X", b":", b"mc:W", b"xml:W", b"s:W", b"*:W", b"::"];
const BLANKS: [&[u8]; 7] = [b" ", b" ", b" ", b"\t", b"\n", b"\r", b" \r\n\t"];

/// What a card says.
#[derive(Default)]
struct Known {
    names: Vec<Name>,
    stems: Vec<Name>,
    extensions: Vec<(Name, Name)>,
}

impl Known {
    fn random(random: &mut Random) -> Known {
        let mut known = Known::default();
        for (name, chance) in [(P, 90), (Q, 25), (S, 20), (P2, 30), (E, 30), (XML, 5), (b"W", 3)] {
            if random.percent(chance) {
                known.names.push(name);
            }
        }
        for (stem, chance) in [(P, 12), (b"urn:" as Name, 4), (b"h", 4), (MC, 2), (b"urn:q:and:more", 4), (XML, 2)] {
            if random.percent(chance) {
                known.stems.push(stem);
            }
        }
        if random.percent(35) {
            for (name, chance) in
                [((E, b"W" as Name), 60), ((Q, b"X"), 40), ((NONE, b"Y"), 25), ((P, b"Y"), 20), ((XML, MC), 5)]
            {
                if random.percent(chance) {
                    known.extensions.push(name);
                }
            }
        }
        known
    }

    fn understands(&self, namespace: Name) -> bool {
        namespace == XML
            || namespace != MC
                && (self.names.contains(&namespace) || self.stems.iter().any(|stem| namespace.starts_with(stem)))
    }

    fn card(&self, random: &mut Random) -> Maker {
        let mut maker = Maker::new();
        let mut rows: Vec<(u32, Name, Name)> = self.names.iter().map(|name| (21, *name, NONE)).collect();
        rows.extend(self.stems.iter().map(|stem| (22, *stem, NONE)));
        rows.extend(self.extensions.iter().map(|(namespace, local)| (23, *namespace, *local)));
        random.shuffle(&mut rows);
        if random.percent(10) && !rows.is_empty() {
            rows.push(rows[0]);
        }
        for (kind, a, b) in rows {
            let (a, b) = (maker.number(a), maker.number(b));
            maker.row(kind, a, b, 0);
        }
        maker
    }
}

/// Writes one record. A fault is made with a chance of `risk` in 1,000 wherever one can be.
struct Writer<'r> {
    random: &'r mut Random,
    known: &'r Known,
    maker: Maker,
    risk: usize,
    bound: Vec<(Name, Name)>,
    ignorable: Vec<Name>,
    processed: Vec<(Name, Name)>,
    in_extension: bool,
}

struct Attribute {
    namespace: Name,
    local: Name,
    value: Vec<u8>,
}

impl Writer<'_> {
    /// A fault against the rules: often inside extension elements, where there are none.
    fn fault(&mut self) -> bool {
        let risk = if self.in_extension { 250 } else { self.risk };
        self.random.below(1000) < risk
    }

    /// A fault of form, which counts everywhere.
    fn fault_of_form(&mut self) -> bool {
        self.random.below(1000) < self.risk / 4
    }

    fn namespace_of(&self, prefix: Name) -> Option<Name> {
        if prefix == b"xml" {
            return Some(XML);
        }
        self.bound.iter().rev().find(|entry| entry.0 == prefix).map(|entry| entry.1)
    }

    /// Prefixes of namespaces that pass the test, the nearest declaration counting.
    fn prefixes(&self, test: impl Fn(&Self, Name) -> bool) -> Vec<Name> {
        let all = USUAL.iter().map(|entry| entry.0).chain([b"xml" as Name]);
        all.filter(|prefix| self.namespace_of(prefix).is_some_and(|namespace| test(self, namespace))).collect()
    }

    fn list(&mut self, items: &[Vec<u8>]) -> Vec<u8> {
        let mut value = Vec::new();
        for (i, item) in items.iter().enumerate() {
            if i > 0 || self.random.percent(8) {
                value.extend_from_slice(self.random.pick(&BLANKS));
            }
            value.extend_from_slice(item);
        }
        if self.random.percent(8) {
            value.extend_from_slice(self.random.pick(&BLANKS));
        }
        value
    }

    /// A list of prefixes from those given; with a fault, also others.
    fn prefix_list(&mut self, from: &[Name], least: usize) -> Vec<u8> {
        let count = least + self.random.below(3);
        let mut items = Vec::new();
        for _ in 0..count {
            if self.fault() {
                items.push(self.random.pick(&[b"z" as Name, b"mc", b"q:W", b":", b"xml", b"s", b"Q"]).to_vec());
            } else if !from.is_empty() {
                items.push(self.random.pick(from).to_vec());
            }
        }
        self.list(&items)
    }

    fn ignorable(&mut self) -> Attribute {
        let mut from = self.prefixes(|_, namespace| namespace != MC && namespace != XML);
        if self.random.percent(5) {
            from.push(b"xml");
        }
        if !self.random.percent(15) {
            from.retain(|prefix| *prefix != b"p");
        }
        let value = self.prefix_list(&from, 0);
        for item in value.split(|byte| b" \t\r\n".contains(byte)) {
            let namespace = USUAL.iter().find(|entry| entry.0 == item).and_then(|entry| self.namespace_of(entry.0));
            self.ignorable.extend(namespace.filter(|namespace| *namespace != MC));
        }
        Attribute { namespace: MC, local: b"Ignorable", value }
    }

    fn process_content(&mut self) -> Attribute {
        let from = self.prefixes(|writer, namespace| writer.ignorable.contains(&namespace));
        let mut items = Vec::new();
        for _ in 0..self.random.below(3) {
            if self.fault() {
                items.push(self.random.pick(&ODD_PAIRS).to_vec());
            } else if !from.is_empty() {
                let (prefix, local) = (self.random.pick(&from), self.random.pick(&LOCALS));
                self.processed.extend(self.namespace_of(prefix).map(|namespace| (namespace, local)));
                items.push([prefix, b":", local].concat());
            }
        }
        Attribute { namespace: MC, local: b"ProcessContent", value: self.list(&items) }
    }

    fn must_understand(&mut self) -> Attribute {
        let any = self.random.percent(15);
        let from = self.prefixes(|writer, namespace| any || writer.known.understands(namespace));
        Attribute { namespace: MC, local: b"MustUnderstand", value: self.prefix_list(&from, 0) }
    }

    fn requires(&mut self) -> Attribute {
        let from = self.prefixes(|_, _| true);
        let empty = from.is_empty() || self.fault();
        let value = if empty { self.random.pick(&[NONE, b" ", b"\t\n "]).to_vec() } else { self.prefix_list(&from, 1) };
        Attribute { namespace: NONE, local: b"Requires", value }
    }

    /// Whether a name of this namespace is no mismatch.
    fn is_fine(&self, namespace: Name) -> bool {
        namespace.is_empty() || self.known.understands(namespace) || self.ignorable.contains(&namespace)
    }

    fn namespace(&mut self) -> Name {
        let namespace = self.random.pick(&[P, P, P, P, Q, Q, S, P2, E, NONE, XML]);
        if self.is_fine(namespace) || self.fault() { namespace } else { P }
    }

    fn declarations(&mut self, root: bool) {
        let mut declared: Vec<(Name, Name)> = Vec::new();
        let chance = if root { 85 } else { 4 };
        for (prefix, namespace) in USUAL {
            if self.random.percent(chance) {
                let other = self.random.percent(8);
                declared.push((prefix, if other { self.random.pick(&[P, Q, S, MC, XML, E]) } else { namespace }));
            }
        }
        if self.random.percent(6) {
            declared.push((NONE, self.random.pick(&[NONE, P, Q, MC, XML])));
        }
        if self.fault_of_form() {
            declared.push(self.random.pick(&[(b"xml" as Name, XML), (b"q", NONE), (b"p", Q), (b"xml", P)]));
        }
        self.random.shuffle(&mut declared);
        for (prefix, namespace) in &declared {
            self.maker.declare(prefix, namespace);
        }
        self.bound.extend(declared);
    }

    fn plain_attribute(&mut self) -> Attribute {
        let value = self.random.pick(&[b"12" as Name, b"words", NONE, b"q", b"\n"]).to_vec();
        let (namespace, local) = match self.random.below(10) {
            0..4 => (NONE, self.random.pick(&[b"Flow" as Name, b"id", b"W", b"Requires"])),
            4 => (XML, self.random.pick(&[b"lang" as Name, b"base", b"space", b"id"])),
            _ => (self.namespace(), self.random.pick(&[b"Noise" as Name, b"W", b"lang", b"Ignorable"])),
        };
        if namespace == XML && local != b"id" && !self.processed.is_empty() && self.random.percent(70) {
            return Attribute { namespace: NONE, local, value };
        }
        Attribute { namespace, local, value }
    }

    /// An attribute that an element of MC may have.
    fn ignorable_attribute(&mut self) -> Option<Attribute> {
        let from: Vec<Name> = self.ignorable.iter().copied().filter(|namespace| *namespace != XML).collect();
        if from.is_empty() {
            return None;
        }
        Some(Attribute { namespace: self.random.pick(&from), local: b"Noise", value: b"12".to_vec() })
    }

    fn attributes(&mut self, root: bool, element: (Name, Name)) {
        let mut list = Vec::new();
        if self.random.percent(if root { 70 } else { 12 }) {
            list.push(self.ignorable());
        }
        if self.random.percent(if root { 45 } else { 8 }) {
            list.push(self.process_content());
        }
        if self.random.percent(if root { 20 } else { 8 }) {
            list.push(self.must_understand());
        }
        if element.0 == MC {
            if self.random.percent(15) {
                list.extend(self.ignorable_attribute());
            }
            if element.1 == b"Choice" && !self.fault() {
                list.push(self.requires());
            }
        }
        if element.0 != MC || self.fault() {
            for _ in 0..self.random.below(4) {
                let attribute = self.plain_attribute();
                let repeated =
                    |other: &Attribute| other.namespace == attribute.namespace && other.local == attribute.local;
                if !list.iter().any(repeated) || self.fault_of_form() {
                    list.push(attribute);
                }
            }
        }
        if self.random.percent(30) && self.fault() {
            let local = self.random.pick(&[b"Foo" as Name, b"Requires", b"Choice"]);
            list.push(Attribute { namespace: MC, local, value: b"q".to_vec() });
        }
        self.random.shuffle(&mut list);
        for attribute in list {
            self.maker.attribute(attribute.namespace, attribute.local, attribute.value);
        }
    }

    fn element(&mut self, depth: usize, name: (Name, Name)) {
        let lengths = (self.bound.len(), self.ignorable.len(), self.processed.len(), self.in_extension);
        self.maker.start(name.0, name.1);
        self.declarations(depth == 0);
        self.in_extension |= self.known.extensions.contains(&name);
        self.attributes(depth == 0, name);
        if name == (MC, b"AlternateContent") {
            self.branches(depth);
        } else {
            self.content(depth);
        }
        self.maker.end();
        self.bound.truncate(lengths.0);
        self.ignorable.truncate(lengths.1);
        self.processed.truncate(lengths.2);
        self.in_extension = lengths.3;
    }

    fn content(&mut self, depth: usize) {
        let most = if depth > 5 || self.maker.rows.len() > 70 { 0 } else { 4 };
        let count = self.random.below(most + 1).max(usize::from(depth == 0));
        for _ in 0..count {
            if self.random.percent(30) {
                self.maker.text(self.random.pick(&[b"12" as Name, b"words", NONE]));
            } else {
                let name = self.child();
                self.element(depth + 1, name);
            }
        }
    }

    fn child(&mut self) -> (Name, Name) {
        if self.fault() {
            return (MC, self.random.pick(&[b"Choice" as Name, b"Fallback", b"Foo", b"Ignorable"]));
        }
        if self.random.percent(18) {
            return (MC, b"AlternateContent");
        }
        if !self.processed.is_empty() && self.random.percent(30) {
            return self.random.pick(&self.processed);
        }
        if !self.known.extensions.is_empty() && self.random.percent(15) {
            return self.random.pick(&self.known.extensions);
        }
        (self.namespace(), self.random.pick(&LOCALS))
    }

    fn branches(&mut self, depth: usize) {
        let mut children: Vec<(Name, Name)> = vec![(MC, b"Choice"); 1 + self.random.below(3)];
        if self.random.percent(60) {
            children.push((MC, b"Fallback"));
        }
        if self.fault() {
            match self.random.below(5) {
                0 => self.random.shuffle(&mut children),
                1 => children.push((MC, b"Fallback")),
                2 => children.push((MC, b"AlternateContent")),
                3 => children.retain(|child| child.1 != b"Choice"),
                _ => children.push(self.child()),
            }
        }
        if self.random.percent(30) && !self.ignorable.is_empty() {
            let namespace = self.random.pick(&self.ignorable);
            let local = self.random.pick(&LOCALS);
            let stray = self.known.understands(namespace)
                || self.processed.contains(&(namespace, local))
                || self.known.extensions.contains(&(namespace, local));
            if !stray || self.random.percent(30) {
                let at = self.random.below(children.len() + 1);
                children.insert(at, (namespace, local));
            }
        }
        for child in children {
            if self.random.percent(10) {
                self.maker.text("12");
            }
            self.element(depth + 1, child);
        }
    }
}

fn record(random: &mut Random, known: &Known) -> Maker {
    let risk = random.pick(&[0, 0, 6, 15, 50]);
    let mut writer = Writer {
        known,
        maker: Maker::new(),
        risk,
        bound: Vec::new(),
        ignorable: Vec::new(),
        processed: Vec::new(),
        in_extension: false,
        random,
    };
    let root = match writer.random.below(20) {
        0 => (MC, b"AlternateContent" as Name),
        1 => writer.child(),
        2 => (writer.random.pick(&NAMESPACES), writer.random.pick(&LOCALS)),
        3 => (NONE, b"r" as Name),
        _ => (P, b"r" as Name),
    };
    writer.element(0, root);
    writer.maker
}

/// A record at one of the fixed limits, below or above it.
fn at_a_limit(random: &mut Random) -> Maker {
    let mut maker = Maker::new();
    let mut open = 1;
    maker.start(P, "r");
    match random.below(7) {
        0 => {
            open = 62 + random.below(5);
            (1..open).for_each(|_| maker.start(P, "W"));
        }
        1 => (0..30 + random.below(5)).for_each(|i| maker.declare(format!("d{i}"), P)),
        2 => (0..30 + random.below(5)).for_each(|i| maker.attribute("", format!("a{i}"), "12")),
        3 => {
            open = 5;
            for level in 0..4 {
                (0..32).for_each(|i| maker.declare(format!("d{i}"), NAMESPACES[level]));
                maker.start(P, "W");
            }
            (0..random.below(3)).for_each(|i| maker.declare(format!("d{i}"), Q));
            if random.percent(50) {
                maker.attribute(MC, "MustUnderstand", "d31 d3 d2");
            }
        }
        4 => {
            open = 2;
            maker.declare("q", Q);
            maker.attribute(MC, "Ignorable", "q ".repeat(64));
            maker.start(P, "W");
            maker.attribute(MC, "Ignorable", "q ".repeat(62 + random.below(5)));
            maker.attribute(MC, "ProcessContent", "q:W");
        }
        5 => {
            open = 2;
            maker.declare("q", Q);
            maker.attribute(MC, "Ignorable", "q");
            maker.attribute(MC, "ProcessContent", "q:X ".repeat(64));
            maker.start(Q, "W");
            maker.attribute(MC, "ProcessContent", "q:W ".repeat(62 + random.below(5)));
        }
        _ => {
            let rows = 2045 + random.below(4);
            (0..rows).for_each(|_| maker.text("12"));
        }
    }
    (0..open).for_each(|_| maker.end());
    maker
}

/// Deletes, doubles, swaps, alters or adds a row.
fn damage_rows(random: &mut Random, rows: &mut Vec<Row>, texts: usize) {
    if rows.is_empty() {
        return;
    }
    let last = rows.len() - 1;
    let at = random.below(last + 1);
    match random.below(6) {
        0 => _ = rows.remove(at),
        1 => rows.insert(at, rows[at]),
        2 => rows.swap(at, (at + 1).min(last)),
        3 => rows.truncate(at),
        4 => rows.insert(at, odd_row(random, texts)),
        _ => {
            let number = odd_number(random, texts);
            match random.below(4) {
                0 => rows[at].kind = random.below(7) as u32,
                1 => rows[at].a = number,
                2 => rows[at].b = number,
                _ => rows[at].c = number,
            }
        }
    }
}

fn odd_number(random: &mut Random, texts: usize) -> u32 {
    match random.below(12) {
        0 => texts as u32,
        1 => u32::MAX,
        2 => 0,
        _ => random.below(texts) as u32,
    }
}

fn odd_row(random: &mut Random, texts: usize) -> Row {
    let mut number = || odd_number(random, texts);
    let (a, b, c) = (number(), number(), number());
    match random.below(9) {
        0 => Row { kind: START, a, b, c: 0 },
        1 => Row { kind: DECLARATION, a, b, c: 0 },
        2 => Row { kind: ATTRIBUTE, a, b, c },
        3 => Row { kind: TEXT, a, b: 0, c: 0 },
        4 => Row { kind: END, a: 0, b: 0, c: 0 },
        5 => Row { kind: random.pick(&[0, 6, 21, u32::MAX]), a, b, c },
        _ => Row { kind: 1 + random.below(5) as u32, a, b, c },
    }
}

fn put_number(bytes: &mut [u8], at: usize, number: u32) {
    if let Some(place) = bytes.get_mut(at..at + 4) {
        place.copy_from_slice(&number.to_le_bytes());
    }
}

/// Alters the counts, the pairs, the text bytes or the length of a file.
fn damage_file(random: &mut Random, bytes: &mut Vec<u8>, pairs: usize) {
    match random.below(10) {
        0 => bytes.truncate(random.below(20)),
        1 => bytes.truncate(bytes.len() - 1 - random.below(8.min(bytes.len() - 1))),
        2 => bytes.push(0),
        3 => {
            let at = 4 * random.below(3);
            let number = random.pick(&[0, 1, 1024, 1025, 2048, 2049, 16_384, 16_385, u32::MAX]);
            put_number(bytes, at, number);
        }
        4 | 5 => {
            let at = 12 + 4 * random.below(2 * pairs);
            let number = random.pick(&[0, 1, 2, 5, 60, 16_385, u32::MAX, u32::MAX - 3]);
            put_number(bytes, at, number);
        }
        6 => {
            let at = random.below(bytes.len());
            bytes[at] ^= 1 << random.below(8);
        }
        7 => put_number(bytes, 12 + 8 * random.below(pairs) + 4, 0),
        _ => repeat_text(random, bytes, pairs),
    }
}

/// Gives a text the bytes of an earlier one of its length, if there is one.
fn repeat_text(random: &mut Random, bytes: &mut [u8], pairs: usize) {
    let number = |at: usize| u32::from_le_bytes([bytes[at], bytes[at + 1], bytes[at + 2], bytes[at + 3]]) as usize;
    let texts = 12 + 8 * pairs + 16 * number(4);
    let pair = |i: usize| (texts + number(12 + 8 * i), number(12 + 8 * i + 4));
    let later = random.below(pairs);
    let (offset, length) = pair(later);
    if let Some((from, _)) = (0..later).map(pair).find(|earlier| earlier.1 == length) {
        bytes.copy_within(from..from + length, offset);
    }
}

/// The texts in another order, and the rows that go with it.
fn rearranged(random: &mut Random, maker: &Maker) -> (Vec<Vec<u8>>, Vec<Row>) {
    let mut order: Vec<usize> = (1..maker.texts().len()).collect();
    random.shuffle(&mut order);
    order.insert(0, 0);
    let mut numbers = vec![0; order.len()];
    order.iter().enumerate().for_each(|(new, old)| numbers[*old] = new as u32);
    let texts = order.iter().map(|old| maker.texts()[*old].clone()).collect();
    let renumber = |row: &Row| {
        let used = numbers_of(row.kind);
        let number = |i: usize, old: u32| if i < used { numbers[old as usize] } else { old };
        Row { kind: row.kind, a: number(0, row.a), b: number(1, row.b), c: number(2, row.c) }
    };
    (texts, maker.rows.iter().map(renumber).collect())
}

/// How many numbers of a row of this kind name texts.
fn numbers_of(kind: u32) -> usize {
    match kind {
        START | DECLARATION | 23 => 2,
        ATTRIBUTE => 3,
        TEXT | 21 | 22 => 1,
        _ => 0,
    }
}

/// A record or card as bytes, and its rows.
struct Made {
    bytes: Vec<u8>,
    rows: Vec<Row>,
    texts: usize,
}

fn made(random: &mut Random, maker: &Maker, row_damage: u32, file_damage: u32) -> Made {
    let (texts, mut rows) = rearranged(random, maker);
    if random.percent(row_damage) {
        for _ in 0..1 + random.below(2) {
            damage_rows(random, &mut rows, texts.len());
        }
    }
    let spaced = random.percent(15);
    let mut bytes = spaced_file(&texts, &rows, || if spaced { random.below(3) } else { 0 });
    if random.percent(file_damage) {
        damage_file(random, &mut bytes, texts.len());
    }
    Made { bytes, rows, texts: texts.len() }
}

/// One case: a record, a card and a log of calls. The log may name the record and card of the case before.
pub struct Case {
    pub record: Vec<u8>,
    pub card: Vec<u8>,
    pub log: String,
}

/// The case of this number, from the seed and the number alone. The folder stands in the log before each file's name.
pub fn case(folder: &str, seed: u64, number: usize) -> Case {
    let mut random = Random(seed ^ (number as u64).wrapping_mul(0xd6e8_feb8_6659_fd93));
    let random = &mut random;
    random.next();
    let known = Known::random(random);
    let limit = random.percent(3);
    let maker = if limit { at_a_limit(random) } else { record(random, &known) };
    let record = made(random, &maker, 20, 6);
    let card = known.card(random);
    let card = made(random, &card, 5, 3);
    let mut log = Log {
        text: String::new(),
        own: (format!("{folder}/{number:06}.record"), format!("{folder}/{number:06}.card")),
        before: number.checked_sub(1).map(|n| (format!("{folder}/{n:06}.record"), format!("{folder}/{n:06}.card"))),
        random,
    };
    log.session(&record);
    Case { log: log.text, record: record.bytes, card: card.bytes }
}

struct Log<'r> {
    text: String,
    own: (String, String),
    before: Option<(String, String)>,
    random: &'r mut Random,
}

impl Log<'_> {
    fn line(&mut self, line: &str) {
        self.text += line;
        self.text.push('\n');
    }

    fn row(&mut self, row: Row) {
        _ = writeln!(self.text, "row {} {} {} {}", row.kind, row.a, row.b, row.c);
    }

    /// The files of this case, now and then one of the case before.
    fn files(&mut self) -> String {
        let (mut record, mut card) = self.own.clone();
        if let Some(before) = self.before.clone() {
            if self.random.percent(10) {
                record = before.0;
            } else if self.random.percent(10) {
                card = before.1;
            }
        }
        format!("{record} {card}")
    }

    fn session(&mut self, record: &Made) {
        let layout = self.random.pick(&["flat", "outline"]);
        let capacity = if self.random.percent(70) { 8192 } else { self.random.below(2 * record.rows.len() + 2) };
        _ = writeln!(self.text, "sheet {layout} {capacity}");
        if self.random.percent(5) {
            self.stray();
        }
        let first = format!("file {} {}", self.own.0, self.own.1);
        self.line(&first);
        let most = if record.rows.len() > 500 { 1 } else { 3 };
        for _ in 0..1 + self.random.below(most) {
            if self.random.percent(25) {
                let files = self.files();
                self.line(&format!("file {files}"));
            } else {
                self.row_by_row(record);
            }
        }
    }

    /// A call that may be out of turn.
    fn stray(&mut self) {
        let files = self.files();
        let call = match self.random.below(6) {
            0 => "abandon".to_string(),
            1 => format!("begin {files}"),
            2 => format!("file {files}"),
            3 => "row 4 0 0 0".to_string(),
            _ => "finish".to_string(),
        };
        self.line(&call);
    }

    fn row_by_row(&mut self, record: &Made) {
        let own = format!("begin {} {}", self.own.0, self.own.1);
        let begin = if self.random.percent(85) { own } else { format!("begin {}", self.files()) };
        self.line(&begin);
        let stop = self.random.percent(10).then(|| self.random.below(record.rows.len() + 1));
        let odd = self.random.pick(&[0, 0, 2, 10]);
        for (i, row) in record.rows.iter().enumerate() {
            if stop == Some(i) {
                break;
            }
            if self.random.percent(odd) {
                if self.random.percent(70) {
                    let row = odd_row(self.random, record.texts);
                    self.row(row);
                } else {
                    self.stray();
                }
            }
            self.row(*row);
        }
        let call = if self.random.percent(90) { "finish" } else { "abandon" };
        self.line(call);
        if self.random.percent(80) {
            self.line("abandon");
        }
    }
}
