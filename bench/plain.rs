//! A reader of pump test records in plain Rust, written from the documents and not from the proved code: what the
//! proved reader is measured against and compared with. The numbers in comments are those of docs/REFUSALS.md.
use std::collections::{HashMap, HashSet};

pub const MC: &[u8] = b"http://schemas.openxmlformats.org/markup-compatibility/2006";
pub const XML: &[u8] = b"http://www.w3.org/XML/1998/namespace";

const MAX_TEXTS: usize = 1024;
const MAX_ROWS: usize = 2048;
const MAX_BYTES: usize = 16_384;
const MAX_LEVELS: usize = 64;
const MAX_DECLARATIONS: usize = 32;
const MAX_ATTRIBUTES: usize = 32;
const MAX_IN_SCOPE: usize = 128;

pub const START: u32 = 1;
pub const DECLARATION: u32 = 2;
pub const ATTRIBUTE: u32 = 3;
pub const TEXT: u32 = 4;
pub const END: u32 = 5;

// Refusals

#[derive(Clone, Copy, PartialEq, Eq, Debug)]
#[repr(u8)]
pub enum Reason {
    TooShort = 1,
    OutsideLimits,
    WrongLength,
    MisplacedText,
    RepeatedText,
    BadCardRow,
    OutOfTurn,
    Spoilt,
    BadRow,
    OutOfOrder,
    Forbidden,
    TooMany,
    ScopeFull,
    BadItem,
    Unbound,
    NotIgnorable,
    UnknownName,
    BadAttribute,
    Misplaced,
    XmlAttribute,
    NoRoom,
    Mismatch,
    NotForSheet,
}

#[derive(Clone, Copy, PartialEq, Eq, Debug)]
#[repr(u8)]
pub enum Cause {
    MustUnderstand = 1,
    StrayChild,
    ForeignName,
}

#[derive(Clone, Copy, PartialEq, Eq, Debug)]
pub struct Refusal {
    pub reason: Reason,
    pub place: u32,
    pub cause: Option<Cause>,
}

impl Refusal {
    pub fn number(&self) -> u8 {
        self.reason as u8
    }
}

fn refuse<T>(reason: Reason, place: u32) -> Result<T, Refusal> {
    Err(Refusal { reason, place, cause: None })
}

// Files

#[derive(Clone, Copy, PartialEq, Eq, Debug)]
pub struct Row {
    pub kind: u32,
    pub a: u32,
    pub b: u32,
    pub c: u32,
}

#[derive(Clone, Copy, PartialEq, Eq, Debug)]
pub struct Placed {
    pub place: u32,
    pub row: Row,
}

/// The texts of a file, pairwise distinct, by number and by bytes.
pub struct Texts<'a> {
    list: Vec<&'a [u8]>,
    numbers: HashMap<&'a [u8], u32>,
}

impl<'a> Texts<'a> {
    pub fn number(&self, text: &[u8]) -> Option<u32> {
        self.numbers.get(text).copied()
    }
}

/// A file whose form was checked (1 to 5).
pub struct File<'a> {
    pub texts: Texts<'a>,
    rows: &'a [u8],
}

fn number_at(bytes: &[u8], at: usize) -> u32 {
    u32::from_le_bytes([bytes[at], bytes[at + 1], bytes[at + 2], bytes[at + 3]])
}

fn rows_of(bytes: &[u8]) -> impl Iterator<Item = Row> {
    bytes.chunks_exact(16).map(|row| Row {
        kind: number_at(row, 0),
        a: number_at(row, 4),
        b: number_at(row, 8),
        c: number_at(row, 12),
    })
}

impl<'a> File<'a> {
    pub fn check(bytes: &'a [u8]) -> Result<File<'a>, Refusal> {
        if bytes.len() < 12 {
            return refuse(Reason::TooShort, 0);
        }
        let pairs = number_at(bytes, 0) as usize;
        let rows = number_at(bytes, 4) as usize;
        let text_bytes = number_at(bytes, 8) as usize;
        if !(1..=MAX_TEXTS).contains(&pairs) || rows > MAX_ROWS || text_bytes > MAX_BYTES {
            return refuse(Reason::OutsideLimits, 0);
        }
        if bytes.len() != 12 + 8 * pairs + 16 * rows + text_bytes {
            return refuse(Reason::WrongLength, 0);
        }
        let (pairs, rest) = bytes[12..].split_at(8 * pairs);
        let (rows, text_bytes) = rest.split_at(16 * rows);
        Ok(File { texts: Self::texts(pairs, text_bytes)?, rows })
    }

    fn texts(pairs: &[u8], bytes: &'a [u8]) -> Result<Texts<'a>, Refusal> {
        let mut list = Vec::with_capacity(pairs.len() / 8);
        let mut least = 0;
        for (i, pair) in pairs.chunks_exact(8).enumerate() {
            let offset = u64::from(number_at(pair, 0));
            let end = offset + u64::from(number_at(pair, 4));
            if offset < least || end > bytes.len() as u64 || i == 0 && (offset, end) != (0, 0) {
                return refuse(Reason::MisplacedText, i as u32);
            }
            list.push(&bytes[offset as usize..end as usize]);
            least = end;
        }
        let mut numbers = HashMap::with_capacity(list.len());
        for (i, text) in list.iter().enumerate() {
            if numbers.insert(*text, i as u32).is_some() {
                return refuse(Reason::RepeatedText, i as u32);
            }
        }
        Ok(Texts { list, numbers })
    }

    pub fn rows(&self) -> impl Iterator<Item = Row> + use<'a> {
        rows_of(self.rows)
    }
}

// Cards

pub trait Knowledge {
    fn knows(&self, name: &[u8]) -> bool;
}

pub struct NameList<'a>(HashSet<&'a [u8]>);
pub struct Family<'a>(Vec<&'a [u8]>);
pub struct Either<A, B>(pub A, pub B);

impl Knowledge for NameList<'_> {
    fn knows(&self, name: &[u8]) -> bool {
        self.0.contains(name)
    }
}

impl Knowledge for Family<'_> {
    fn knows(&self, name: &[u8]) -> bool {
        self.0.iter().any(|stem| name.starts_with(stem))
    }
}

impl<A: Knowledge, B: Knowledge> Knowledge for Either<A, B> {
    fn knows(&self, name: &[u8]) -> bool {
        self.0.knows(name) || self.1.knows(name)
    }
}

/// Namespace and local name of each element on the extension list.
pub type Extensions<'a> = Vec<(&'a [u8], &'a [u8])>;

pub struct Card<'a> {
    pub knowledge: Either<NameList<'a>, Family<'a>>,
    pub extensions: Extensions<'a>,
}

impl<'a> Card<'a> {
    pub fn check(bytes: &'a [u8]) -> Result<Card<'a>, Refusal> {
        let file = File::check(bytes)?;
        let text = |number: u32| file.texts.list.get(number as usize).copied();
        let (mut names, mut stems, mut extensions) = (HashSet::new(), Vec::new(), Vec::new());
        for (i, row) in file.rows().enumerate() {
            let (Some(a), Some(b), 0) = (text(row.a), text(row.b), row.c) else {
                return refuse(Reason::BadCardRow, i as u32);
            };
            match row.kind {
                21 if row.a != 0 && row.b == 0 && a != MC => _ = names.insert(a),
                22 if row.a != 0 && row.b == 0 => stems.push(a),
                23 if row.b != 0 && a != MC => extensions.push((a, b)),
                _ => return refuse(Reason::BadCardRow, i as u32),
            }
        }
        Ok(Card { knowledge: Either(NameList(names), Family(stems)), extensions })
    }
}

// Sheets

#[derive(Clone, Copy, PartialEq, Eq, Debug)]
pub enum Layout {
    Flat,
    Outline,
}

/// Sealed rows and behind them a draft, in one list.
pub struct Sheet {
    layout: Layout,
    capacity: usize,
    rows: Vec<Placed>,
    sealed: usize,
    sealed_cost: usize,
    cost: usize,
    open_starts: usize,
}

impl Sheet {
    pub fn new(layout: Layout, capacity: usize) -> Sheet {
        Sheet { layout, capacity, rows: Vec::new(), sealed: 0, sealed_cost: 0, cost: 0, open_starts: 0 }
    }

    pub fn sealed(&self) -> &[Placed] {
        &self.rows[..self.sealed]
    }

    fn cost_of(&self, kind: u32) -> usize {
        match self.layout {
            Layout::Outline if kind == END => 0,
            _ => 1,
        }
    }

    pub fn put(&mut self, place: u32, row: Row) -> Result<(), Refusal> {
        let formed = match row.kind {
            START | DECLARATION => row.c == 0,
            ATTRIBUTE => true,
            TEXT => row.b == 0 && row.c == 0,
            END => row.a == 0 && row.b == 0 && row.c == 0,
            _ => false,
        };
        let above = self.rows[self.sealed..].last().is_none_or(|last| last.place < place);
        if !formed || !above || row.kind == END && self.open_starts == 0 {
            return refuse(Reason::NotForSheet, 0);
        }
        let cost = self.cost + self.cost_of(row.kind);
        if cost > self.capacity {
            return refuse(Reason::NoRoom, place);
        }
        match row.kind {
            START => self.open_starts += 1,
            END => self.open_starts -= 1,
            _ => {}
        }
        self.cost = cost;
        self.rows.push(Placed { place, row });
        Ok(())
    }

    pub fn seal(&mut self) -> Result<u32, Refusal> {
        if self.open_starts > 0 {
            return refuse(Reason::NotForSheet, 0);
        }
        let count = self.rows.len() - self.sealed;
        self.sealed = self.rows.len();
        self.sealed_cost = self.cost;
        Ok(count as u32)
    }

    pub fn drop_draft(&mut self) {
        self.rows.truncate(self.sealed);
        self.cost = self.sealed_cost;
        self.open_starts = 0;
    }

    /// Forgets all rows and keeps the memory.
    pub fn clear(&mut self) {
        self.rows.clear();
        (self.sealed, self.sealed_cost, self.cost, self.open_starts) = (0, 0, 0, 0);
    }
}

// What a record is read with

/// Above every number of a text: stands for a name that no text of the record has.
const ABSENT: u32 = u32::MAX;
/// The namespace XML where no text of the record has it: the prefix `xml` is bound to it all the same.
const XML_ABSENT: u32 = u32::MAX - 1;

/// The numbers of the fixed names among the texts of a record.
#[derive(Clone, Copy)]
struct Names {
    mc: u32,
    xml: u32,
    xml_prefix: u32,
    ignorable: u32,
    process_content: u32,
    must_understand: u32,
    alternate_content: u32,
    choice: u32,
    fallback: u32,
    requires: u32,
    base: u32,
    lang: u32,
    space: u32,
}

impl Names {
    fn find(texts: &Texts) -> Names {
        let number = |name: &[u8]| texts.number(name).unwrap_or(ABSENT);
        Names {
            mc: number(MC),
            xml: texts.number(XML).unwrap_or(XML_ABSENT),
            xml_prefix: number(b"xml"),
            ignorable: number(b"Ignorable"),
            process_content: number(b"ProcessContent"),
            must_understand: number(b"MustUnderstand"),
            alternate_content: number(b"AlternateContent"),
            choice: number(b"Choice"),
            fallback: number(b"Fallback"),
            requires: number(b"Requires"),
            base: number(b"base"),
            lang: number(b"lang"),
            space: number(b"space"),
        }
    }
}

struct Context<'a> {
    texts: Texts<'a>,
    names: Names,
    understood: Vec<bool>,
    extensions: HashSet<(u32, u32)>,
}

impl<'a> Context<'a> {
    fn new(texts: Texts<'a>, knowledge: &impl Knowledge, extensions: &Extensions) -> Context<'a> {
        let names = Names::find(&texts);
        let understood =
            (0..).zip(&texts.list).map(|(i, text)| i == names.xml || i != names.mc && knowledge.knows(text)).collect();
        // a name that is no text of the record is on none of its elements
        let extensions = extensions
            .iter()
            .filter_map(|(namespace, local)| Some((texts.number(namespace)?, texts.number(local)?)))
            .collect();
        Context { texts, names, understood, extensions }
    }

    fn text(&self, number: u32) -> &'a [u8] {
        self.texts.list[number as usize]
    }

    fn understands(&self, namespace: u32) -> bool {
        namespace == self.names.xml || self.understood[namespace as usize]
    }

    fn is_extension(&self, element: Row) -> bool {
        !self.extensions.is_empty() && self.extensions.contains(&(element.a, element.b))
    }

    /// 9, less the order.
    fn well_formed(&self, row: Row) -> bool {
        let count = self.understood.len() as u32;
        if row.a >= count || row.b >= count || row.c >= count {
            return false;
        }
        match row.kind {
            START => row.b != 0 && row.c == 0,
            DECLARATION => row.c == 0,
            ATTRIBUTE => row.b != 0,
            TEXT => row.b == 0 && row.c == 0,
            END => row.a == 0 && row.b == 0 && row.c == 0,
            _ => false,
        }
    }
}

// Lists in scope

/// All names by their numbers, so that a search compares no bytes.
#[derive(Default)]
struct Scope {
    /// Prefix and namespace.
    bindings: Vec<(u32, u32)>,
    ignorable: Vec<u32>,
    /// Namespace and local name, which is `ABSENT` if no element can have it.
    processed: Vec<(u32, u32)>,
}

/// The lengths of the three lists.
#[derive(Clone, Copy, Default)]
struct Marks {
    bindings: usize,
    ignorable: usize,
    processed: usize,
}

fn push<T>(list: &mut Vec<T>, entry: T, place: u32) -> Result<(), Refusal> {
    if list.len() >= MAX_IN_SCOPE {
        return refuse(Reason::ScopeFull, place);
    }
    list.push(entry);
    Ok(())
}

impl Scope {
    fn marks(&self) -> Marks {
        Marks { bindings: self.bindings.len(), ignorable: self.ignorable.len(), processed: self.processed.len() }
    }

    fn back_to(&mut self, marks: Marks) {
        self.bindings.truncate(marks.bindings);
        self.ignorable.truncate(marks.ignorable);
        self.processed.truncate(marks.processed);
    }

    fn is_ignorable(&self, namespace: u32) -> bool {
        self.ignorable.iter().rev().any(|entry| *entry == namespace)
    }

    fn is_processed(&self, namespace: u32, local: u32) -> bool {
        self.processed.iter().rev().any(|entry| *entry == (namespace, local))
    }

    fn namespace_of(&self, prefix: u32) -> Option<u32> {
        self.bindings.iter().rev().find(|entry| entry.0 == prefix).map(|entry| entry.1)
    }
}

fn items(value: &[u8]) -> impl Iterator<Item = &[u8]> {
    value.split(|byte| matches!(byte, b' ' | b'\t' | b'\n' | b'\r')).filter(|item| !item.is_empty())
}

fn two_parts(item: &[u8]) -> Option<(&[u8], &[u8])> {
    let colon = item.iter().position(|byte| *byte == b':')?;
    let (prefix, local) = (&item[..colon], &item[colon + 1..]);
    let formed = !prefix.is_empty() && !local.is_empty() && local != b"*" && !local.contains(&b':');
    formed.then_some((prefix, local))
}

// The reader

#[derive(Clone, Copy, PartialEq)]
enum State {
    Kept,
    Unwrapped,
    Ignored,
    Alternate(Branches),
    Branch { selected: bool },
    Extension,
}

/// What an AlternateContent has had among its children.
#[derive(Clone, Copy, PartialEq, Default)]
struct Branches {
    choice: bool,
    fallback: bool,
    selected: bool,
}

/// An open element that was judged.
#[derive(Clone, Copy)]
struct Frame {
    state: State,
    reached: bool,
    /// The lists as they were before the element.
    around: Marks,
}

impl Frame {
    fn lets_reach(&self) -> bool {
        self.reached && !matches!(self.state, State::Ignored | State::Branch { selected: false })
    }

    fn keeps_text(&self) -> bool {
        let holds_text = match self.state {
            State::Kept | State::Unwrapped | State::Extension => true,
            State::Branch { selected } => selected,
            State::Ignored | State::Alternate(_) => false,
        };
        self.reached && holds_text
    }

    fn keeps_end(&self) -> bool {
        self.reached && matches!(self.state, State::Kept | State::Extension)
    }
}

/// The element whose declarations and attributes are coming.
struct Waiting {
    element: Row,
    place: u32,
    declarations: Vec<Row>,
    attributes: Vec<Row>,
}

impl Waiting {
    /// The attributes with their places, which follow those of the declarations.
    fn attributes(&self) -> impl Iterator<Item = (u32, Row)> {
        (self.place + 1 + self.declarations.len() as u32..).zip(self.attributes.iter().copied())
    }

    fn declarations(&self) -> impl Iterator<Item = (u32, Row)> {
        (self.place + 1..).zip(self.declarations.iter().copied())
    }
}

#[derive(Clone, Copy, PartialEq)]
enum Turn {
    Closed,
    Open,
    Spoilt,
}

pub struct Reader<'a> {
    turn: Turn,
    context: Context<'a>,
    scope: Scope,
    frames: Vec<Frame>,
    waits: bool,
    waiting: Waiting,
    rows: u32,
    mismatch: Option<(u32, Cause)>,
}

/// The attributes of an element that have a meaning in markup compatibility: place and value.
#[derive(Default)]
struct Markup {
    ignorable: Option<(u32, u32)>,
    process_content: Option<(u32, u32)>,
    must_understand: Option<(u32, u32)>,
    requires: Option<(u32, u32)>,
}

impl<'a> Reader<'a> {
    pub fn new() -> Reader<'a> {
        let texts = Texts { list: Vec::new(), numbers: HashMap::new() };
        let names = Names::find(&texts);
        Reader {
            turn: Turn::Closed,
            context: Context { texts, names, understood: Vec::new(), extensions: HashSet::new() },
            scope: Scope::default(),
            frames: Vec::with_capacity(MAX_LEVELS),
            waits: false,
            waiting: Waiting {
                element: Row { kind: START, a: 0, b: 0, c: 0 },
                place: 0,
                declarations: Vec::with_capacity(MAX_DECLARATIONS),
                attributes: Vec::with_capacity(MAX_ATTRIBUTES),
            },
            rows: 0,
            mismatch: None,
        }
    }

    pub fn begin(
        &mut self,
        texts: Texts<'a>,
        knowledge: &impl Knowledge,
        extensions: &Extensions,
    ) -> Result<(), Refusal> {
        if self.turn != Turn::Closed {
            return refuse(Reason::OutOfTurn, 0);
        }
        self.context = Context::new(texts, knowledge, extensions);
        self.scope.back_to(Marks::default());
        self.frames.clear();
        self.waits = false;
        self.rows = 0;
        self.mismatch = None;
        self.turn = Turn::Open;
        Ok(())
    }

    pub fn row(&mut self, sheet: &mut Sheet, row: Row) -> Result<(), Refusal> {
        self.in_turn()?;
        self.check(row)?;
        match row.kind {
            DECLARATION => self.waiting.declarations.push(row),
            ATTRIBUTE => self.waiting.attributes.push(row),
            _ => self.judge(sheet, row)?,
        }
        self.rows += 1;
        Ok(())
    }

    pub fn file(
        &mut self,
        sheet: &mut Sheet,
        bytes: &'a [u8],
        knowledge: &impl Knowledge,
        extensions: &Extensions,
    ) -> Result<u32, Refusal> {
        if self.turn != Turn::Closed {
            return refuse(Reason::OutOfTurn, 0);
        }
        let file = File::check(bytes)?;
        let mut rows = file.rows();
        self.begin(file.texts, knowledge, extensions)?;
        let result = rows.try_for_each(|row| self.row(sheet, row)).and_then(|()| self.finish(sheet));
        if result.is_err() && self.turn != Turn::Closed {
            self.abandon(sheet)?;
        }
        result
    }

    pub fn finish(&mut self, sheet: &mut Sheet) -> Result<u32, Refusal> {
        self.in_turn()?;
        if self.levels() > 0 || self.rows == 0 {
            return refuse(Reason::OutOfOrder, self.rows);
        }
        if let Some((place, cause)) = self.mismatch {
            sheet.drop_draft();
            self.turn = Turn::Closed;
            return Err(Refusal { reason: Reason::Mismatch, place, cause: Some(cause) });
        }
        let count = sheet.seal()?;
        self.turn = Turn::Closed;
        Ok(count)
    }

    pub fn abandon(&mut self, sheet: &mut Sheet) -> Result<(), Refusal> {
        if self.turn == Turn::Closed {
            return refuse(Reason::OutOfTurn, 0);
        }
        sheet.drop_draft();
        self.turn = Turn::Closed;
        Ok(())
    }

    fn in_turn(&self) -> Result<(), Refusal> {
        match self.turn {
            Turn::Closed => refuse(Reason::OutOfTurn, 0),
            Turn::Spoilt => refuse(Reason::Spoilt, 0),
            Turn::Open => Ok(()),
        }
    }

    fn levels(&self) -> usize {
        self.frames.len() + usize::from(self.waits)
    }

    /// 9 to 12.
    fn check(&self, row: Row) -> Result<(), Refusal> {
        if !self.context.well_formed(row) {
            return refuse(Reason::BadRow, self.rows);
        }
        if !self.in_order(row.kind) {
            return refuse(Reason::OutOfOrder, self.rows);
        }
        let Waiting { declarations, attributes, .. } = &self.waiting;
        let (forbidden, full) = match row.kind {
            START => (false, self.levels() >= MAX_LEVELS),
            DECLARATION => {
                let forbidden = row.a == self.context.names.xml_prefix
                    || row.a != 0 && row.b == 0
                    || declarations.iter().any(|other| other.a == row.a);
                (forbidden, declarations.len() >= MAX_DECLARATIONS)
            }
            ATTRIBUTE => {
                let repeated = attributes.iter().any(|other| (other.a, other.b) == (row.a, row.b));
                (repeated, attributes.len() >= MAX_ATTRIBUTES)
            }
            _ => (false, false),
        };
        if forbidden {
            return refuse(Reason::Forbidden, self.rows);
        }
        if full || self.rows as usize >= MAX_ROWS {
            return refuse(Reason::TooMany, self.rows);
        }
        Ok(())
    }

    fn in_order(&self, kind: u32) -> bool {
        match kind {
            START => self.levels() > 0 || self.rows == 0,
            DECLARATION => self.waits && self.waiting.attributes.is_empty(),
            ATTRIBUTE => self.waits,
            _ => self.levels() > 0,
        }
    }

    /// A start, a text or an end. If the sheet answers 23, which it can to the first put only, all is as before; any
    /// other refusal spoils the record.
    fn judge(&mut self, sheet: &mut Sheet, row: Row) -> Result<(), Refusal> {
        let (marks, levels, top, mismatch) =
            (self.scope.marks(), self.frames.len(), self.frames.last().copied(), self.mismatch);
        let result = self.judge_in_order(sheet, row);
        let Err(refusal) = result else { return result };
        if refusal.reason == Reason::NotForSheet {
            self.scope.back_to(marks);
            self.frames.truncate(levels);
            if let (Some(frame), Some(top)) = (self.frames.last_mut(), top) {
                *frame = top;
            }
            self.mismatch = mismatch;
        } else {
            sheet.drop_draft();
            self.turn = Turn::Spoilt;
        }
        result
    }

    fn judge_in_order(&mut self, sheet: &mut Sheet, row: Row) -> Result<(), Refusal> {
        if self.waits {
            self.judge_waiting(sheet)?;
        }
        match row.kind {
            START => {
                self.waiting.element = row;
                self.waiting.place = self.rows;
                self.waiting.declarations.clear();
                self.waiting.attributes.clear();
            }
            TEXT => {
                if self.frames.last().is_some_and(Frame::keeps_text) {
                    sheet.put(self.rows, row)?;
                }
            }
            _ => self.judge_end(sheet, row)?,
        }
        self.waits = row.kind == START;
        Ok(())
    }

    fn judge_end(&mut self, sheet: &mut Sheet, row: Row) -> Result<(), Refusal> {
        let Some(&frame) = self.frames.last() else { return Ok(()) };
        if matches!(frame.state, State::Alternate(branches) if !branches.choice) {
            return refuse(Reason::Misplaced, self.rows);
        }
        if frame.keeps_end() {
            sheet.put(self.rows, row)?;
        }
        self.frames.pop();
        self.scope.back_to(frame.around);
        Ok(())
    }

    fn judge_waiting(&mut self, sheet: &mut Sheet) -> Result<(), Refusal> {
        let element = self.waiting.element;
        let around = self.scope.marks();
        let frame = match self.frames.last() {
            Some(&Frame { state: State::Extension, reached, .. }) => Frame { state: State::Extension, reached, around },
            _ if self.context.is_extension(element) => self.judge_extension(around)?,
            _ => self.judge_by_rules(around)?,
        };
        if frame.reached {
            match frame.state {
                State::Extension => self.put_all(sheet)?,
                State::Kept => self.put_kept(sheet)?,
                _ => {}
            }
        }
        self.frames.push(frame);
        Ok(())
    }

    /// Whether an element that is no branch is reached. Directly in an AlternateContent it is not, and is a mismatch
    /// unless it is ignored.
    fn reach(&mut self, state: State) -> bool {
        match self.frames.last() {
            None => true,
            Some(around) if matches!(around.state, State::Alternate(_)) => {
                if around.reached && state != State::Ignored {
                    self.mismatched(self.waiting.place, Cause::StrayChild);
                }
                false
            }
            Some(around) => around.lets_reach(),
        }
    }

    fn mismatched(&mut self, place: u32, cause: Cause) {
        if self.mismatch.is_none_or(|first| place < first.0) {
            self.mismatch = Some((place, cause));
        }
    }

    fn in_alternate(&self) -> Option<Branches> {
        match self.frames.last()?.state {
            State::Alternate(branches) => Some(branches),
            _ => None,
        }
    }

    fn judge_extension(&mut self, around: Marks) -> Result<Frame, Refusal> {
        if self.in_alternate().is_some() && !self.scope.is_ignorable(self.waiting.element.a) {
            return refuse(Reason::Misplaced, self.waiting.place);
        }
        Ok(Frame { state: State::Extension, reached: self.reach(State::Extension), around })
    }

    /// 13 to 20 of an element outside extension elements, in the order of trial.
    fn judge_by_rules(&mut self, around: Marks) -> Result<Frame, Refusal> {
        let (element, place) = (self.waiting.element, self.waiting.place);
        for row in &self.waiting.declarations {
            push(&mut self.scope.bindings, (row.a, row.b), place)?;
        }
        let markup = self.known_names()?;
        self.read_ignorable(&markup)?;
        self.read_process_content(&markup)?;
        let demands_met = match markup.must_understand {
            Some((place, value)) => self.all_understood(place, value)?.unwrap_or(true),
            None => true,
        };
        let (state, reached) =
            if element.a == self.context.names.mc { self.judge_markup(&markup)? } else { self.judge_outside_markup()? };
        if let Some((place, _)) = markup.must_understand
            && !demands_met
            && reached
            && !matches!(state, State::Ignored | State::Branch { selected: false })
        {
            self.mismatched(place, Cause::MustUnderstand);
        }
        Ok(Frame { state, reached, around })
    }

    /// 17, and the attributes that the later trials are about.
    fn known_names(&self) -> Result<Markup, Refusal> {
        let names = &self.context.names;
        let element = self.waiting.element;
        let in_mc = element.a == names.mc;
        if in_mc && ![names.alternate_content, names.choice, names.fallback].contains(&element.b) {
            return refuse(Reason::UnknownName, self.waiting.place);
        }
        let mut markup = Markup::default();
        for (place, row) in self.waiting.attributes() {
            if row.a == names.mc {
                let slot = if row.b == names.ignorable {
                    &mut markup.ignorable
                } else if row.b == names.process_content {
                    &mut markup.process_content
                } else if row.b == names.must_understand {
                    &mut markup.must_understand
                } else {
                    return refuse(Reason::UnknownName, place);
                };
                *slot = Some((place, row.c));
            } else if in_mc && row.a == 0 && row.b == names.requires {
                markup.requires = Some((place, row.c));
            }
        }
        Ok(markup)
    }

    fn namespace_of(&self, prefix: &[u8], place: u32) -> Result<u32, Refusal> {
        if prefix == b"xml" {
            return Ok(self.context.names.xml);
        }
        // a prefix that is no text of the record is nowhere declared
        let number = self.context.texts.number(prefix);
        match number.and_then(|prefix| self.scope.namespace_of(prefix)) {
            Some(namespace) => Ok(namespace),
            None => refuse(Reason::Unbound, place),
        }
    }

    fn read_ignorable(&mut self, markup: &Markup) -> Result<(), Refusal> {
        let Some((place, value)) = markup.ignorable else { return Ok(()) };
        for item in items(self.context.text(value)) {
            if item.contains(&b':') {
                return refuse(Reason::BadItem, place);
            }
            let namespace = self.namespace_of(item, place)?;
            if namespace == self.context.names.mc {
                return refuse(Reason::NotIgnorable, place);
            }
            push(&mut self.scope.ignorable, namespace, place)?;
        }
        Ok(())
    }

    fn read_process_content(&mut self, markup: &Markup) -> Result<(), Refusal> {
        let Some((place, value)) = markup.process_content else { return Ok(()) };
        for item in items(self.context.text(value)) {
            let Some((prefix, local)) = two_parts(item) else { return refuse(Reason::BadItem, place) };
            let namespace = self.namespace_of(prefix, place)?;
            if !self.scope.is_ignorable(namespace) {
                return refuse(Reason::NotIgnorable, place);
            }
            let local = self.context.texts.number(local).unwrap_or(ABSENT);
            push(&mut self.scope.processed, (namespace, local), place)?;
        }
        Ok(())
    }

    /// Whether all the prefixes of a list are of understood namespaces; nothing for a list without items.
    fn all_understood(&self, place: u32, value: u32) -> Result<Option<bool>, Refusal> {
        let mut all = None;
        for item in items(self.context.text(value)) {
            if item.contains(&b':') {
                return refuse(Reason::BadItem, place);
            }
            let understood = self.context.understands(self.namespace_of(item, place)?);
            all = Some(all.unwrap_or(true) && understood);
        }
        Ok(all)
    }

    /// An element of MC: 19, 18 and what a Choice requires.
    fn judge_markup(&mut self, markup: &Markup) -> Result<(State, bool), Refusal> {
        let names = self.context.names;
        let (element, place) = (self.waiting.element, self.waiting.place);
        let branches = self.in_alternate();
        let is_choice = element.b == names.choice;
        let is_alternate = element.b == names.alternate_content;
        let placed = match branches {
            None => is_alternate,
            Some(branches) => !is_alternate && !branches.fallback,
        };
        if !placed {
            return refuse(Reason::Misplaced, place);
        }
        self.check_markup_attributes(is_choice, markup)?;
        let required = match markup.requires {
            Some((place, value)) => match self.all_understood(place, value)? {
                Some(all) => all,
                None => return refuse(Reason::BadItem, place),
            },
            None => true,
        };
        let Some(around) = self.frames.last_mut() else {
            return Ok((State::Alternate(Branches::default()), true));
        };
        let reached = around.lets_reach();
        let State::Alternate(branches) = &mut around.state else {
            return Ok((State::Alternate(Branches::default()), reached));
        };
        let selected = required && !branches.selected;
        branches.choice |= is_choice;
        branches.fallback |= !is_choice;
        branches.selected |= selected;
        Ok((State::Branch { selected }, reached))
    }

    /// 18.
    fn check_markup_attributes(&self, is_choice: bool, markup: &Markup) -> Result<(), Refusal> {
        if is_choice && markup.requires.is_none() {
            return refuse(Reason::BadAttribute, self.waiting.place);
        }
        let names = &self.context.names;
        for (place, row) in self.waiting.attributes() {
            let allowed = if row.a == 0 {
                is_choice && row.b == names.requires
            } else {
                row.a == names.mc || row.a != names.xml && self.scope.is_ignorable(row.a)
            };
            if !allowed {
                return refuse(Reason::BadAttribute, place);
            }
        }
        Ok(())
    }

    /// An element outside MC: 19 and 20.
    fn judge_outside_markup(&mut self) -> Result<(State, bool), Refusal> {
        let (element, place) = (self.waiting.element, self.waiting.place);
        if self.in_alternate().is_some() && !self.scope.is_ignorable(element.a) {
            return refuse(Reason::Misplaced, place);
        }
        let state = if !self.is_passed_over(element.a) {
            State::Kept
        } else if self.scope.is_processed(element.a, element.b) {
            State::Unwrapped
        } else {
            State::Ignored
        };
        if state == State::Unwrapped {
            let names = &self.context.names;
            for (place, row) in self.waiting.attributes() {
                if row.a == names.xml && [names.base, names.lang, names.space].contains(&row.b) {
                    return refuse(Reason::XmlAttribute, place);
                }
            }
        }
        Ok((state, self.reach(state)))
    }

    /// Whether names of this namespace are ignored: it is ignorable and not understood.
    fn is_passed_over(&self, namespace: u32) -> bool {
        namespace != 0 && !self.context.understands(namespace) && self.scope.is_ignorable(namespace)
    }

    fn put_all(&mut self, sheet: &mut Sheet) -> Result<(), Refusal> {
        sheet.put(self.waiting.place, self.waiting.element)?;
        for (place, row) in self.waiting.declarations().chain(self.waiting.attributes()) {
            sheet.put(place, row)?;
        }
        Ok(())
    }

    /// The kept rows of a kept element, and its foreign names.
    fn put_kept(&mut self, sheet: &mut Sheet) -> Result<(), Refusal> {
        let mc = self.context.names.mc;
        let foreign = |namespace: u32| namespace != 0 && !self.context.understands(namespace);
        let mut first_foreign = foreign(self.waiting.element.a).then_some(self.waiting.place);
        sheet.put(self.waiting.place, self.waiting.element)?;
        for (place, row) in self.waiting.declarations() {
            if row.b != mc && !self.is_passed_over(row.b) {
                sheet.put(place, row)?;
            }
        }
        for (place, row) in self.waiting.attributes() {
            if row.a == mc {
                continue;
            }
            if foreign(row.a) {
                if self.scope.is_ignorable(row.a) {
                    continue;
                }
                first_foreign = first_foreign.or(Some(place));
            }
            sheet.put(place, row)?;
        }
        if let Some(place) = first_foreign {
            self.mismatched(place, Cause::ForeignName);
        }
        Ok(())
    }
}
