//! The pull reader's steps. The crate's stream moves on by what it read before a refusal, the pull reader stays; so each step is taken by a stream
//! over what is left, and as long as no step is refused, all are also taken by one stream, in whose messages the inner steps run.
use std::cell::RefCell;

use protobuf::{rt, CodedInputStream, CodedOutputStream, Message, Result, SpecialFields};

use crate::scalars;
use crate::words::{both, bytes, number, refusal, stream, Line, Parsed};

const KINDS: [(&str, u32); 14] = [
    ("double", 1),
    ("float", 2),
    ("int64", 3),
    ("uint64", 4),
    ("int32", 5),
    ("fixed64", 6),
    ("fixed32", 7),
    ("bool", 8),
    ("uint32", 13),
    ("enum", 14),
    ("sfixed32", 15),
    ("sfixed64", 16),
    ("sint32", 17),
    ("sint64", 18),
];

#[derive(Clone, Copy, PartialEq)]
enum Step {
    Tag,
    Number(u32),
    Bytes,
    Text,
    Skip(u32),
    Enter,
    Leave,
}

fn step(word: &str) -> Parsed<Step> {
    if let Some(tag) = word.strip_prefix("skip:") {
        return Some(Step::Skip(number(tag)?));
    }
    Some(match word {
        "tag" => Step::Tag,
        "bytes" => Step::Bytes,
        "string" => Step::Text,
        "enter" => Step::Enter,
        "leave" => Step::Leave,
        _ => Step::Number(KINDS.iter().find(|(name, _)| *name == word)?.1),
    })
}

/// What a step other than entering and leaving says before its `@`; `base` is where the reader's own slice begins in the stream.
fn plain(step: Step, is: &mut CodedInputStream, base: u64) -> Result<String> {
    let start = is.pos();
    let content = |length: usize, is: &CodedInputStream| format!("{}-{}", is.pos() - base - length as u64, is.pos() - base);
    Ok(match step {
        Step::Tag => is.read_raw_tag_or_eof()?.map_or("end".to_string(), |t| t.to_string()),
        Step::Number(kind) => scalars::read(kind, is)?.to_string(),
        Step::Bytes => content(is.read_bytes()?.len(), is),
        Step::Text => content(is.read_string()?.len(), is),
        Step::Skip(tag) => {
            rt::skip_field_for_tag(tag, is)?;
            (is.pos() - start).to_string()
        }
        Step::Enter | Step::Leave => unreachable!("not plain"),
    })
}

/// The answer for a message that was entered, and what is to run inside it.
#[derive(Default)]
struct Inside {
    /// where the outer reader's own slice begins in the stream
    outer: u64,
    /// the message's content in the stream
    range: (u64, u64),
    /// steps that are still to be run by the one stream, the next one last; none where each step has a stream of its own
    steps: Vec<Step>,
    said: Vec<String>,
    left: bool,
}

thread_local!(static INSIDE: RefCell<Inside> = RefCell::default());

fn inside<T>(f: impl FnOnce(&mut Inside) -> T) -> T {
    INSIDE.with(|i| f(&mut i.borrow_mut()))
}

#[derive(Clone, Default, PartialEq)]
struct Entered(SpecialFields);

impl Message for Entered {
    const NAME: &'static str = "Entered";
    fn merge_from(&mut self, is: &mut CodedInputStream) -> Result<()> {
        let (start, end) = (is.pos(), is.pos().saturating_add(is.bytes_until_limit()));
        inside(|i| {
            i.range = (start, end);
            i.said.push(format!("{}-{}@{}", start - i.outer, end - i.outer, end - i.outer));
        });
        run(is, start)?;
        while !is.eof()? {
            is.read_raw_byte()?;
        }
        Ok(())
    }
    fn new() -> Entered {
        Entered::default()
    }
    fn is_initialized(&self) -> bool {
        true
    }
    fn compute_size(&self) -> u64 {
        unreachable!("only read")
    }
    fn write_to_with_cached_sizes(&self, _: &mut CodedOutputStream) -> Result<()> {
        unreachable!("only read")
    }
    fn special_fields(&self) -> &SpecialFields {
        &self.0
    }
    fn mut_special_fields(&mut self) -> &mut SpecialFields {
        &mut self.0
    }
    fn default_instance() -> &'static Entered {
        unreachable!("only read")
    }
}

/// Steps on one stream, up to the one that leaves this reader; the first refusal ends all.
fn run(is: &mut CodedInputStream, base: u64) -> Result<()> {
    while let Some(step) = inside(|i| i.steps.pop()) {
        let said = match step {
            Step::Leave if base == 0 => "none".to_string(),
            Step::Leave => {
                inside(|i| i.left = true);
                return Ok(());
            }
            Step::Enter => {
                inside(|i| i.outer = base);
                is.merge_message(&mut Entered::default())?;
                if !inside(|i| std::mem::take(&mut i.left)) {
                    return Ok(());
                }
                "left".to_string()
            }
            _ => plain(step, is, base)?,
        };
        inside(|i| i.said.push(format!("{}@{}", said, is.pos() - base)));
    }
    Ok(())
}

/// What one stream over all the bytes says, up to the first refusal.
fn by_one_stream(bytes: &[u8], level: u64, steps: &[Step]) -> Vec<String> {
    inside(|i| *i = Inside { steps: steps.iter().rev().copied().collect(), ..Inside::default() });
    let _refused = run(&mut stream(bytes, true, level), 0);
    inside(|i| std::mem::take(&mut i.said))
}

/// A reader: its own slice, from and to, and where it is, all in the whole slice.
struct Reader {
    from: usize,
    to: usize,
    at: usize,
}

/// Every step by a stream of its own.
struct Steps<'a> {
    bytes: &'a [u8],
    level: u64,
    limited: bool,
    readers: Vec<Reader>,
    past: bool,
}

impl Steps<'_> {
    fn said(&mut self, step: Step) -> String {
        if step == Step::Leave {
            return self.leave();
        }
        let level = self.level + self.readers.len() as u64 - 1;
        let top = self.readers.last().expect("a reader");
        let (from, at) = (top.from, top.at);
        let mut is = stream(&self.bytes[at..top.to], self.limited, level);
        inside(|i| *i = Inside::default());
        let answer = match step {
            Step::Enter => is.merge_message(&mut Entered::default()).map(|()| String::new()),
            _ => plain(step, &mut is, 0),
        };
        match answer {
            Err(e) => format!("r{}@{}", refusal(&e), at - from),
            Ok(_) if step == Step::Enter => self.enter(from, at),
            Ok(said) => self.moved(step, said, is.pos() as usize),
        }
    }

    /// Contents are places in the reader's own slice.
    fn moved(&mut self, step: Step, said: String, used: usize) -> String {
        let top = self.readers.last_mut().expect("a reader");
        let before = top.at - top.from;
        top.at += used;
        let here = top.at - top.from;
        match (step, said.split_once('-')) {
            (Step::Bytes | Step::Text, Some((start, _))) => {
                let start: usize = start.parse().expect("a place");
                format!("{}-{}@{}", before + start, here, here)
            }
            _ => format!("{}@{}", said, here),
        }
    }

    fn enter(&mut self, from: usize, at: usize) -> String {
        let (start, end) = inside(|i| i.range);
        let top = self.readers.last_mut().expect("a reader");
        if end > (top.to - at) as u64 {
            self.past = true;
            return "past".to_string();
        }
        let (start, end) = (at + start as usize, at + end as usize);
        top.at = end;
        self.readers.push(Reader { from: start, to: end, at: start });
        format!("{}-{}@{}", start - from, end - from, end - from)
    }

    fn leave(&mut self) -> String {
        let outer = self.readers.len() > 1;
        if outer {
            self.readers.pop();
        }
        let top = self.readers.last().expect("a reader");
        format!("{}@{}", if outer { "left" } else { "none" }, top.at - top.from)
    }
}

fn step_by_step(bytes: &[u8], level: u64, limited: bool, steps: &[Step]) -> (Vec<String>, bool) {
    let whole = Reader { from: 0, to: bytes.len(), at: 0 };
    let mut all = Steps { bytes, level, limited, readers: vec![whole], past: false };
    let said = steps.iter().map(|s| all.said(*s)).collect();
    (said, all.past)
}

pub fn pull(line: &Line) -> Parsed<String> {
    let w = line.words(3)?;
    let (level, bytes): (u64, Vec<u8>) = (number(w[0])?, bytes(w[2])?);
    let steps: Vec<Step> = w[1].split(',').map(step).collect::<Parsed<_>>()?;
    if level > 100 {
        return None;
    }
    let (limited, _) = step_by_step(&bytes, level, true, &steps);
    let (bare, past) = step_by_step(&bytes, level, false, &steps);
    let taken = limited.iter().take_while(|s| !s.starts_with('r')).count();
    if by_one_stream(&bytes, level, &steps) != limited[..taken] {
        return Some("one stream says something else than one for each step".to_string());
    }
    Some(both(limited.join(","), bare.join(","), past))
}
