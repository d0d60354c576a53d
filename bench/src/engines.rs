//! Both engines side by side on the inputs of one case, held to the same answers and the same words.

use crate::case::{Calls, Case};
use crate::library::Library;
use crate::told::Told;
use reference::file::FILE_LIMIT;
use reference::session::{Engine, TableEngine};
use reference::{c_call, TABLE_WORDS};

pub struct Engines {
    pub ours: Library,
    pub reference: TableEngine,
}

impl Engines {
    /// Both with the case's file loaded, and the edits made that come before what is timed.
    pub fn start(case: &Case) -> Result<Engines, String> {
        let reference = TableEngine::new(vec![0; TABLE_WORDS]);
        let mut engines = Engines { ours: Library::new(), reference };
        engines.load(case)?;
        for line in &case.before {
            let wanted = Told::of_edit(engines.reference.edit(line.as_bytes()));
            let ours = Told::of_edit_call(engines.ours.edit(line.as_bytes()));
            engines.compare(line.trim_end(), ours, wanted, wanted)?;
        }
        Ok(engines)
    }

    /// Makes each call of the case once. The error says where the engines differ, or what the case did not
    /// expect.
    pub fn agree(&mut self, case: &Case) -> Result<(), String> {
        match &case.calls {
            Calls::Load => self.load(case),
            Calls::Edits(edits) => edits.iter().try_for_each(|(line, wanted)| self.edit(line, *wanted)),
            Calls::Request(block, wanted) => self.request(block, *wanted),
            Calls::Write(length) => self.write(*length),
            Calls::Length(length) => self.length(*length),
            Calls::Pass(block, wanted) => self.pass(&case.file, block, *wanted),
        }
    }

    fn load(&mut self, case: &Case) -> Result<(), String> {
        let ours = Told::of_library(self.ours.load(&case.file));
        let reference = Told::of_load(self.reference.load(&case.file));
        self.compare("load", ours, reference, Told::new(0, case.lines()))
    }

    fn edit(&mut self, line: &str, wanted: Told) -> Result<(), String> {
        let ours = Told::of_edit_call(self.ours.edit(line.as_bytes()));
        let reference = Told::of_edit(self.reference.edit(line.as_bytes()));
        self.compare(line.trim_end(), ours, reference, wanted)
    }

    fn request(&mut self, block: &[u8], wanted: Told) -> Result<(), String> {
        let ours = Told::of_request(self.ours.request(block));
        let reference = Told::of_decision(self.reference.request(block));
        self.compare("request", ours, reference, wanted)
    }

    /// Both buffers are held against each other to their ends, so that bytes behind the text count too.
    fn write(&self, length: usize) -> Result<(), String> {
        let (mut by_ours, mut by_reference) = (vec![0xaa; FILE_LIMIT], vec![0xaa; FILE_LIMIT]);
        let ours = Told::of_library(self.ours.write(&mut by_ours));
        let reference = Told::of_write(self.reference.write(&mut by_reference));
        if let Some(byte) = (0..FILE_LIMIT).find(|&byte| by_ours[byte] != by_reference[byte]) {
            return Err(format!("write: byte {byte} of the buffer differs"));
        }
        self.compare("write", ours, reference, Told::new(0, length))
    }

    fn length(&self, wanted: usize) -> Result<(), String> {
        let ours = Told::new(0, self.ours.length() as usize);
        let reference = Told::new(0, self.reference.length());
        self.compare("length", ours, reference, Told::new(0, wanted))
    }

    fn pass(&mut self, file: &[u8], block: &[u8], wanted: u32) -> Result<(), String> {
        let ours = Told::new(self.ours.pass(file, block), 0);
        let reference = Told::new(c_call(file, block, &mut self.reference.table).into(), 0);
        self.compare("the one C call", ours, reference, Told::new(wanted, 0))
    }

    fn compare(&self, call: &str, ours: Told, reference: Told, wanted: Told) -> Result<(), String> {
        if ours != reference {
            return Err(format!("{call}: the library answers {ours:?}, the reference {reference:?}"));
        }
        if ours != wanted {
            return Err(format!("{call}: both answer {ours:?}, but {wanted:?} was to be timed"));
        }
        let differs = |word: &usize| self.ours.table[*word] != self.reference.table[*word];
        match (0..TABLE_WORDS).find(differs) {
            Some(word) => Err(format!("{call}: word {word} of the table differs")),
            None => Ok(()),
        }
    }
}
