//! Call lists: calls of the library as lines of text, so that a small program
//! around any library can be run over them, and the table be seen.
//!
//! `table=LENGTH,INDEX:WORD,...` comes first and names the words that are not
//! 0. Then come `load=`, `edit=` and `request=` with their bytes in hex,
//! `write=LENGTH,BYTE` with a buffer of that many bytes, `length=` with nothing
//! behind it, and `c=FILE,BLOCK` for the call for hosts in C. Each call prints its
//! answer as the office program would (`write=` number and length, `length=` bytes,
//! `c=` number), then `words=` with the words of the table that are not 0; a write
//! prints `buffer=` and the whole buffer before that. Lengths and indexes are
//! decimal, bytes and words are hex.

use crate::answer::Decision;
use crate::book::c_call;
use crate::line::pieces;
use crate::office::{print, print_write, read_hex};
use crate::session::{Buffer, Call, Engine, LedgerEngine, Session, TableEngine};
use crate::TABLE_WORDS;
use std::ops::Range;

/// The longest buffer that a line may ask for.
pub const LONGEST_BUFFER: usize = 1 << 20;

/// An engine whose table can be looked at.
trait Shown: Engine {
    fn words(&self) -> Vec<u64>;
    fn c_call(&mut self, file: &[u8], block: &[u8]) -> u8;
}

impl Shown for TableEngine {
    fn words(&self) -> Vec<u64> {
        self.table.clone()
    }

    fn c_call(&mut self, file: &[u8], block: &[u8]) -> u8 {
        c_call(file, block, &mut self.table)
    }
}

/// The ledger has no table: it says what the words must be.
struct LedgerWords {
    engine: LedgerEngine,
    table: Vec<u64>,
}

impl LedgerWords {
    fn new(table: Vec<u64>) -> LedgerWords {
        LedgerWords { engine: LedgerEngine::new(table.len()), table }
    }

    /// An accepted edit, for which nothing is printed.
    fn change(&mut self, line: &[u8]) -> Option<Vec<u8>> {
        let edit = read_hex(line.strip_prefix(b"edit=")?)?;
        self.engine.ledger.change(&edit).ok()?;
        Some(Vec::new())
    }
}

impl Engine for LedgerWords {
    fn load(&mut self, file: &[u8]) -> crate::LoadAnswer {
        self.engine.load(file)
    }

    fn edit(&mut self, line: &[u8]) -> crate::EditAnswer {
        self.engine.edit(line)
    }

    fn request(&mut self, block: &[u8]) -> Decision {
        self.engine.request(block)
    }

    fn write(&self, buffer: &mut [u8]) -> crate::WriteAnswer {
        self.engine.write(buffer)
    }

    fn length(&self) -> usize {
        self.engine.length()
    }
}

impl Shown for LedgerWords {
    fn words(&self) -> Vec<u64> {
        if self.table.len() == TABLE_WORDS {
            self.engine.ledger.words()
        } else {
            self.table.clone()
        }
    }

    fn c_call(&mut self, file: &[u8], block: &[u8]) -> u8 {
        if let Err(refused) = self.load(file) {
            return refused.refusal.number();
        }
        match self.request(block) {
            Decision::Permit(_) => 0,
            Decision::Deny => 64,
            Decision::Undefined(_) => 65,
            Decision::Refused(refusal) => refusal.number(),
        }
    }
}

/// What the list prints, or the number of the line that is not of its form.
pub fn run(list: &[u8]) -> Result<Vec<u8>, usize> {
    answer(list, TableEngine::new, |_, line, engine| answer_with_words(line, engine))
}

/// The same, told by the ledger.
pub fn run_by_ledger(list: &[u8]) -> Result<Vec<u8>, usize> {
    run_by_ledger_without(list, &(0..0))
}

/// The same without the answers to some edits, given by their places among the calls.
/// The ledger goes through all ties above each holder for every answer, which takes it
/// minutes for thousands of edits of a book with many ties. One of these that is
/// refused, or is no edit, is told as a line that is not of the form.
pub fn run_by_ledger_without(list: &[u8], unanswered: &Range<usize>) -> Result<Vec<u8>, usize> {
    answer(list, LedgerWords::new, |place, line, ledger| {
        if unanswered.contains(&place) {
            ledger.change(line)
        } else {
            answer_with_words(line, ledger)
        }
    })
}

fn answer<E>(
    list: &[u8],
    start: impl Fn(Vec<u64>) -> E,
    call: impl Fn(usize, &[u8], &mut E) -> Option<Vec<u8>>,
) -> Result<Vec<u8>, usize> {
    let mut lines = pieces(list).map(|line| line.strip_suffix(b"\n").unwrap_or(line));
    let table = lines.next().and_then(read_table).ok_or(1_usize)?;
    let mut engine = start(table);
    let mut output = Vec::new();
    for (place, line) in lines.enumerate() {
        output.extend(call(place, line, &mut engine).ok_or(place + 2)?);
    }
    Ok(output)
}

fn answer_with_words(line: &[u8], engine: &mut impl Shown) -> Option<Vec<u8>> {
    let mut output = answer_line(line, engine)?;
    output.extend(show("words=", &engine.words()).into_bytes());
    Some(output)
}

fn answer_line(line: &[u8], engine: &mut impl Shown) -> Option<Vec<u8>> {
    if let Some(rest) = line.strip_prefix(b"c=") {
        let comma = rest.iter().position(|&byte| byte == b',')?;
        let (file, block) = (read_hex(&rest[..comma])?, read_hex(&rest[comma + 1..])?);
        return Some(format!("c={}\n", engine.c_call(&file, &block)).into_bytes());
    }
    if let Some(rest) = line.strip_prefix(b"write=") {
        return Some(answer_write(read_buffer(rest)?, engine));
    }
    let equals = line.iter().position(|&byte| byte == b'=')?;
    let bytes = read_hex(&line[equals + 1..])?;
    let call = match &line[..equals] {
        b"load" => Call::Load(bytes),
        b"edit" => Call::Edit(bytes),
        b"request" => Call::Request(bytes),
        b"length" if bytes.is_empty() => Call::Length,
        _ => return None,
    };
    Some(print(engine.call(&call)))
}

/// `LENGTH,BYTE`, the byte as one hex pair.
fn read_buffer(text: &[u8]) -> Option<Buffer> {
    let (length, byte) = std::str::from_utf8(text).ok()?.split_once(',')?;
    let length = length.parse().ok().filter(|_| length.bytes().all(|byte| byte.is_ascii_digit()))?;
    if length > LONGEST_BUFFER {
        return None;
    }
    match read_hex(byte.as_bytes())?.as_slice() {
        &[byte] => Some(Buffer { length, byte }),
        _ => None,
    }
}

fn answer_write(lent: Buffer, engine: &impl Shown) -> Vec<u8> {
    let mut buffer = lent.filled();
    let written = print_write(engine.write(&mut buffer));
    format!("{written}\nbuffer={}\n", hex(&buffer)).into_bytes()
}

fn read_table(line: &[u8]) -> Option<Vec<u64>> {
    let text = std::str::from_utf8(line).ok()?.strip_prefix("table=")?;
    let mut fields = text.split(',');
    let mut table = vec![0; fields.next()?.parse().ok()?];
    for field in fields {
        let (index, word) = field.split_once(':')?;
        let place: &mut u64 = table.get_mut(index.parse::<usize>().ok()?)?;
        *place = u64::from_str_radix(word, 16).ok()?;
    }
    Some(table)
}

/// The words that are not 0, behind `head` and parted by commas.
fn show(head: &str, words: &[u64]) -> String {
    let some = words.iter().enumerate().filter(|(_, word)| **word != 0);
    let shown: Vec<String> = some.map(|(index, word)| format!("{index}:{word:x}")).collect();
    format!("{head}{}\n", shown.join(","))
}

/// A session as a call list.
pub fn write(session: &Session) -> Vec<u8> {
    let mut list = show(&format!("table={},", session.table.len()), &session.table);
    if session.table.iter().all(|&word| word == 0) {
        list = format!("table={}\n", session.table.len());
    }
    for call in &session.calls {
        list += &match call {
            Call::Load(file) => format!("load={}\n", hex(file)),
            Call::Edit(line) => format!("edit={}\n", hex(line)),
            Call::Request(block) => format!("request={}\n", hex(block)),
            Call::Write(Buffer { length, byte }) => format!("write={length},{byte:02x}\n"),
            Call::Length => "length=\n".to_string(),
        };
    }
    list.into_bytes()
}

pub fn hex(bytes: &[u8]) -> String {
    let digit = |four: u8| char::from(b"0123456789abcdef"[usize::from(four)]);
    bytes.iter().flat_map(|byte| [digit(byte >> 4), digit(byte & 15)]).collect()
}
