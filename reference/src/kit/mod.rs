//! The conformance kit: sessions of the office program with the answers that
//! document 01 gives them, and call lists. Every expected answer is typed from
//! the paper, but for the folder `mixed`; `check` holds both engines to it before
//! a file is written. Of one call list the ledger answers a part.

mod blocks;
mod cause_rules;
mod causes;
mod edits;
mod files;
mod joins;
mod joins_limit;
mod length;
mod length_limit;
mod length_lines;
mod library;
mod list;
mod mixed;
mod numbers;
mod office;
mod policies;
mod sets;
mod told;
mod valley;
mod writer;

pub use valley::valley as valley_file;

use crate::calls;
use crate::line::pieces;
use crate::office::{gate, gate_by_ledger};
use std::collections::BTreeSet;
use std::ops::Range;

/// One session of the kit.
#[derive(Clone, Debug)]
pub struct Vector {
    /// The heading of document 01 that it belongs to.
    pub folder: &'static str,
    pub name: String,
    /// The sentence that it exercises, and the rule where it needs a reading.
    pub sentence: String,
    pub input: Vec<u8>,
    pub expected: Vec<u8>,
    /// Edits of a call list that the ledger makes and does not answer, by their places
    /// among the calls: too many for it. No write stands before them.
    pub unanswered: Range<usize>,
}

impl Vector {
    /// What the two engines print.
    fn outputs(&self) -> [Vec<u8>; 2] {
        if self.folder != "library" {
            return [gate(&self.input), gate_by_ledger(&self.input)];
        }
        let no_list = |line: usize| format!("line {line} is not of a call list").into_bytes();
        [calls::run(&self.input), calls::run_by_ledger_without(&self.input, &self.unanswered)]
            .map(|output| output.unwrap_or_else(no_list))
    }

    /// What each engine must print, and what it prints.
    fn typed_and_printed(&self) -> [(Vec<u8>, Vec<u8>); 2] {
        let [by_table, by_ledger] = self.outputs();
        [(self.expected.clone(), by_table), (self.expected_of_ledger(), by_ledger)]
    }

    /// What the ledger must print: two lines for each call that it answers.
    fn expected_of_ledger(&self) -> Vec<u8> {
        let lines = pieces(&self.expected).enumerate();
        let answered = lines.filter(|(place, _)| !self.unanswered.contains(&(place / 2)));
        answered.flat_map(|(_, line)| line.iter().copied()).collect()
    }
}

/// Collects the vectors of one folder.
pub struct Kit {
    folder: &'static str,
    sentence: String,
    vectors: Vec<Vector>,
}

impl Kit {
    pub fn new(folder: &'static str) -> Kit {
        Kit { folder, sentence: String::new(), vectors: Vec::new() }
    }

    /// The sentence for the vectors that follow.
    pub fn says(&mut self, sentence: &str) {
        self.sentence = sentence.to_string();
    }

    /// A session: the whole input and its answers, parted by spaces.
    pub fn case(&mut self, name: &str, input: impl AsRef<[u8]>, answers: &str) {
        self.case_with_unanswered(name, input, answers, 0..0);
    }

    /// A call list and its answers, some of which the ledger does not give.
    fn case_with_unanswered(
        &mut self,
        name: &str,
        input: impl AsRef<[u8]>,
        answers: &str,
        unanswered: Range<usize>,
    ) {
        let expected: String = answers.split(' ').map(|one| format!("{one}\n")).collect();
        self.vectors.push(Vector {
            folder: self.folder,
            name: name.to_string(),
            sentence: self.sentence.clone(),
            input: input.as_ref().to_vec(),
            expected: expected.into_bytes(),
            unanswered,
        });
    }

    /// A file that is `before` and one more line, and the number that this
    /// line gets. 0 is an accepted file.
    pub fn line(&mut self, name: &str, before: &str, line: impl AsRef<[u8]>, number: u8) {
        let count = before.bytes().filter(|&byte| byte == b'\n').count() + 1;
        let input = [before.as_bytes(), line.as_ref(), b"\n"].concat();
        self.case(name, input, &format!("load={number},{count}"));
    }
}

/// All vectors, folder by folder in the order of document 01.
pub fn all() -> Vec<Vector> {
    let kits = [
        files::kit(),
        sets::kit(),
        joins::sets(),
        edits::kit(),
        joins::kit(),
        policies::kit(),
        causes::kit(),
        blocks::kit(),
        cause_rules::kit(),
        numbers::kit(),
        office::kit(),
        cause_rules::office(),
        joins::office(),
        valley::kit(),
        library::kit(),
        writer::kit(),
        length::kit(),
        cause_rules::calls(),
        joins::calls(),
        mixed::kit(),
    ];
    kits.into_iter().flat_map(|kit| kit.vectors).collect()
}

/// Holds both engines to the typed answers, the ledger but for those that it does not
/// give. The error names each difference.
pub fn check(vectors: &[Vector]) -> Result<(), String> {
    let mut wrong = String::new();
    let mut names = BTreeSet::new();
    for one in vectors {
        if !names.insert((one.folder, &one.name)) {
            wrong += &format!("{}/{}: two vectors have this name\n", one.folder, one.name);
        }
        for (expected, output) in one.typed_and_printed() {
            if output != expected {
                let (paper, given) = (lossy(&expected), lossy(&output));
                let name = format!("{}/{}", one.folder, one.name);
                wrong += &format!("{name}: paper {paper:?}, reference {given:?}\n");
            }
        }
    }
    if wrong.is_empty() {
        Ok(())
    } else {
        Err(wrong)
    }
}

fn lossy(bytes: &[u8]) -> String {
    String::from_utf8_lossy(bytes).into_owned()
}

/// The files of the kit: path inside `vectors/`, and content.
pub fn files() -> Vec<(String, Vec<u8>)> {
    let vectors = all();
    let mut files = vec![("INDEX.md".to_string(), index(&vectors).into_bytes())];
    for one in vectors {
        let path = format!("{}/{}", one.folder, one.name);
        files.push((format!("{path}.in"), one.input));
        files.push((format!("{path}.out"), one.expected));
    }
    files
}

/// Which vector exercises which sentence.
fn index(vectors: &[Vector]) -> String {
    let mut text = String::from(
        "# Index\n\nFolders are headings of document 01. Each sentence stands above the \
         sessions that\nexercise it, with the request that has it if document 01 has it not; words \
         outside\nquotation marks say how the sentence is read.\n",
    );
    let (mut folder, mut sentence) = ("", "");
    for one in vectors {
        if one.folder != folder {
            folder = one.folder;
            text += &format!("\n## {folder}\n");
        }
        if one.sentence != sentence {
            sentence = &one.sentence;
            text += &format!("\n{sentence}\n\n");
        }
        text += &format!("- `{}`\n", one.name);
    }
    text + &format!("\n{} sessions.\n", vectors.len())
}
