//! Reading a message to records: the loop that generated code has, directed by a schema. The crate reads every byte; the records are noted on the way.
use std::cell::RefCell;
use std::rc::Rc;

use protobuf::descriptor::field_descriptor_proto::Type;
use protobuf::rt::{self, WireType};
use protobuf::{CodedInputStream, CodedOutputStream, Enum, Message, MessageField, Result, SpecialFields, UnknownFields, UnknownValueRef};

use crate::calls::utf8_prefix;
use crate::scalars;
use crate::words::{both, bytes, number, refusal, schema, show, stream, Entry, Line, Parsed, Record};

/// What is noted while the crate reads.
#[derive(Default)]
struct Notes {
    schema: Rc<Vec<Entry>>,
    bytes: Rc<Vec<u8>>,
    /// dropped spans are asked for
    dropped: bool,
    records: Vec<Record>,
    /// the crate let a message's or packed field's length run past the slice
    past: bool,
    /// where a string that was refused is broken
    broken: Option<u64>,
    /// what the next message to be made is
    next: Node,
}

thread_local!(static NOTES: RefCell<Notes> = RefCell::default());

#[derive(Clone, Copy, Default, PartialEq)]
struct Node {
    of_type: u32,
    /// depth of its fields
    depth: u64,
    /// number of the field that it is; 0 for the root
    number: u32,
    /// place of that field's tag
    tag: u64,
}

/// A field whose tag was read: the tag, and where the stream was before it.
#[derive(Clone, Copy)]
struct Tagged {
    tag: u32,
    at: u64,
}

#[derive(Clone, Default, PartialEq)]
struct Read {
    node: Node,
    special: SpecialFields,
}

fn note<T>(f: impl FnOnce(&mut Notes) -> T) -> T {
    NOTES.with(|n| f(&mut n.borrow_mut()))
}

fn put(depth: u64, number: u32, kind: u64, value: u64, start: u64, end: u64, tag: u64) {
    note(|n| n.records.push(Record { depth, number: u64::from(number), kind, value, start, end, tag }));
}

/// What the crate read and kept nothing of, from the place of its tag up to where the stream is: noted where that is asked for.
fn dropped(depth: u64, t: Tagged, end: u64) {
    if note(|n| n.dropped) {
        put(depth, t.tag >> 3, 25, 0, t.at, end, t.at);
    }
}

/// A second stream, which has come as far as the first.
fn again(bytes: &[u8], from: u64) -> CodedInputStream<'_> {
    let mut is = CodedInputStream::from_bytes(bytes);
    is.skip_raw_bytes(from as u32).expect("as far as the first stream was");
    is
}

/// A string that the crate refused, its length at this place: read again as bytes, it is broken after the longest front that the crate takes.
fn broken(from: u64) {
    let bytes = note(|n| n.bytes.clone());
    let mut is = again(&bytes, from);
    let content = is.read_bytes().expect("the first stream had them");
    let start = is.pos() - content.len() as u64;
    note(|n| n.broken = Some(start + utf8_prefix(&content) as u64));
}

/// A length that the crate has taken, up to this place.
fn taken(end: u64) {
    note(|n| n.past |= end > n.bytes.len() as u64);
}

/// A string; where the crate refuses it for a broken letter, the place is noted.
fn text(is: &mut CodedInputStream) -> Result<String> {
    let from = is.pos();
    is.read_string().inspect_err(|e| {
        if refusal(e) == 6 {
            broken(from);
        }
    })
}

fn wire_of(kind: u32) -> u32 {
    WireType::for_type(Type::from_i32(kind as i32).expect("a kind")) as u32
}

impl Read {
    fn field(&self, t: Tagged, is: &mut CodedInputStream) -> Result<()> {
        let (node, tag) = (self.node, t.tag);
        let schema = note(|n| n.schema.clone());
        let known = schema.iter().find(|e| e.owner == node.of_type && e.number == tag >> 3);
        match known {
            Some(e) if tag == e.number << 3 | wire_of(e.kind) => self.typed(e, t, is),
            Some(e) if e.repeated && !matches!(e.kind, 9 | 11 | 12) && tag == e.number << 3 | 2 => self.packed(e, t, is),
            _ => self.unknown(t, is),
        }
    }

    fn typed(&self, e: &Entry, t: Tagged, is: &mut CodedInputStream) -> Result<()> {
        let depth = self.node.depth;
        match e.kind {
            9 | 12 => {
                let length = if e.kind == 9 { text(is)?.len() } else { is.read_bytes()?.len() } as u64;
                put(depth, e.number, u64::from(e.kind), 0, is.pos() - length, is.pos(), t.at);
            }
            11 => {
                note(|n| n.next = Node { of_type: e.child, depth: depth + 1, number: e.number, tag: t.at });
                if e.repeated {
                    is.read_message::<Read>()?;
                } else {
                    rt::read_singular_message_into_field(is, &mut MessageField::<Read>::none())?;
                }
            }
            kind => {
                let start = is.pos();
                let value = scalars::read(kind, is)?;
                put(depth, e.number, u64::from(kind), value, start, is.pos(), t.at);
            }
        }
        Ok(())
    }

    /// The crate's packed call gives the answer and the values; a second stream, at the same place and under the same limit, their places.
    fn packed(&self, e: &Entry, t: Tagged, is: &mut CodedInputStream) -> Result<()> {
        let bytes = note(|n| n.bytes.clone());
        let (from, left) = (is.pos(), is.bytes_until_limit());
        let mut values = Vec::new();
        let answer = scalars::read_packed(e.kind, is, &mut values);
        let mut again = again(&bytes, from);
        if left != u64::MAX {
            again.push_limit(left).expect("as the first stream has it");
        }
        let places = self.elements(e, t, &mut again, &values);
        assert_eq!(places.as_ref().map_err(refusal), answer.as_ref().map_err(refusal));
        assert_eq!(again.pos(), is.pos());
        answer
    }

    fn elements(&self, e: &Entry, t: Tagged, is: &mut CodedInputStream, values: &[u64]) -> Result<()> {
        let length = is.read_raw_varint64()?;
        let (depth, first) = (self.node.depth, is.pos());
        let old = is.push_limit(length)?;
        taken(first.saturating_add(length));
        let mut count = 0;
        while !is.eof()? {
            if count == 0 {
                put(depth, e.number, 20, 0, first, first.saturating_add(length), t.at);
            }
            let start = is.pos();
            let value = scalars::read(e.kind, is)?;
            assert_eq!(value, values[count]);
            count += 1;
            put(depth + 1, e.number, u64::from(e.kind), value, start, is.pos(), t.at);
        }
        is.pop_limit(old);
        if length == 0 {
            dropped(depth, t, is.pos());
        }
        assert_eq!(count, values.len());
        Ok(())
    }

    fn unknown(&self, t: Tagged, is: &mut CodedInputStream) -> Result<()> {
        let (depth, start) = (self.node.depth, is.pos());
        let mut fields = UnknownFields::new();
        rt::read_unknown_or_skip_group(t.tag, is, &mut fields)?;
        let end = is.pos();
        if fields.iter().next().is_none() {
            dropped(depth, t, end);
        }
        for (number, value) in fields.iter() {
            match value {
                UnknownValueRef::Varint(v) => put(depth, number, 21, v, start, end, t.at),
                UnknownValueRef::Fixed64(v) => put(depth, number, 22, v, start, end, t.at),
                UnknownValueRef::LengthDelimited(v) => put(depth, number, 23, 0, end - v.len() as u64, end, t.at),
                UnknownValueRef::Fixed32(v) => put(depth, number, 24, u64::from(v), start, end, t.at),
            }
        }
        Ok(())
    }
}

impl Message for Read {
    const NAME: &'static str = "Read";
    fn merge_from(&mut self, is: &mut CodedInputStream) -> Result<()> {
        if self.node.number != 0 {
            let start = is.pos();
            let end = start.saturating_add(is.bytes_until_limit());
            taken(end);
            put(self.node.depth - 1, self.node.number, 11, 0, start, end, self.node.tag);
        }
        loop {
            let at = is.pos();
            let Some(tag) = is.read_raw_tag_or_eof()? else { return Ok(()) };
            self.field(Tagged { tag, at }, is)?;
        }
    }
    fn new() -> Read {
        Read { node: note(|n| n.next), special: SpecialFields::new() }
    }
    fn is_initialized(&self) -> bool {
        true
    }
    fn special_fields(&self) -> &SpecialFields {
        &self.special
    }
    fn mut_special_fields(&mut self) -> &mut SpecialFields {
        &mut self.special
    }
    fn compute_size(&self) -> u64 {
        unreachable!("only read")
    }
    fn write_to_with_cached_sizes(&self, _: &mut CodedOutputStream) -> Result<()> {
        unreachable!("only read")
    }
    fn default_instance() -> &'static Read {
        unreachable!("only read")
    }
}

struct Outcome {
    refused: u32,
    broken: Option<u64>,
    records: Vec<Record>,
    past: bool,
}

fn outcome(schema: &Rc<Vec<Entry>>, bytes: &Rc<Vec<u8>>, dropped: bool, limited: bool) -> Outcome {
    note(|n| *n = Notes { schema: schema.clone(), bytes: bytes.clone(), dropped, ..Notes::default() });
    let answer = Read::new().merge_from(&mut stream(bytes, limited, 0));
    let notes = note(std::mem::take);
    Outcome { refused: answer.map_or_else(|e| refusal(&e), |()| 0), broken: notes.broken, records: notes.records, past: notes.past }
}

impl Outcome {
    /// The crate gives no places; that of a broken letter is found by asking it again.
    fn place(&self) -> String {
        self.broken.map_or("?".to_string(), |p| p.to_string())
    }
}

/// Both streams' answers, shown in the verb's way.
fn shown(schema: Vec<Entry>, bytes: Vec<u8>, dropped: bool, show: impl Fn(&Outcome) -> String) -> String {
    let (schema, bytes) = (Rc::new(schema), Rc::new(bytes));
    let (limited, bare) = (outcome(&schema, &bytes, dropped, true), outcome(&schema, &bytes, dropped, false));
    both(show(&limited), show(&bare), bare.past)
}

/// The crate has no room: where there are more records than that, only the first ones are given.
pub fn read(line: &Line, dropped: bool) -> Parsed<String> {
    let w = line.words(3)?;
    let room: usize = number(w[1])?;
    Some(shown(schema(w[0])?, bytes(w[2])?, dropped, |o| {
        let kept = &o.records[..o.records.len().min(room)];
        let list = if kept.is_empty() { "-".to_string() } else { show(kept, ',', ";") };
        match (o.records.len() > room, o.refused) {
            (true, _) => format!("? {} ? {}", kept.len(), list),
            (false, 0) => format!("0 {} 0 {}", kept.len(), list),
            (false, no) => format!("{} {} {} {}", no, kept.len(), o.place(), list),
        }
    }))
}

/// As the program `records` prints them, which has room for 1,024.
pub fn records(line: &Line) -> Parsed<String> {
    let w = line.words(2)?;
    Some(shown(schema(w[0])?, bytes(w[1])?, false, |o| {
        let kept = &o.records[..o.records.len().min(1024)];
        let mut text = "depth number kind value start end tag/".to_string() + &show(kept, ' ', "/");
        if !kept.is_empty() {
            text.push('/');
        }
        text + &match (o.records.len() > kept.len(), o.refused) {
            (true, _) => "refused ? at ?".to_string(),
            (false, 0) => format!("ok {}", kept.len()),
            (false, no) => format!("refused {} at {}", no, o.place()),
        }
    }))
}
