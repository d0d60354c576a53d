//! The conformance kit: what is typed holds, and the files are as typed.

use reference::line::pieces;
use reference::{calls, kit};
use std::collections::BTreeMap;
use std::fs;
use std::path::{Path, PathBuf};

#[test]
fn both_engines_give_the_typed_answers() {
    if let Err(wrong) = kit::check(&kit::all()) {
        panic!("{wrong}");
    }
}

/// Short call lists without a write, so that each call prints two lines.
fn short_lists() -> Vec<kit::Vector> {
    let writes = |list: &[u8]| pieces(list).any(|line| line.starts_with(b"write="));
    let wanted =
        |one: &kit::Vector| one.folder == "library" && one.input.len() < 10_000 && !writes(&one.input);
    kit::all().into_iter().filter(wanted).collect()
}

#[test]
fn an_edit_that_the_ledger_does_not_answer_is_made_all_the_same() {
    let (mut made, mut others) = (0, 0);
    for list in short_lists() {
        let told: Vec<&[u8]> = pieces(&list.expected).collect();
        for place in 0..told.len() / 2 {
            let output = calls::run_by_ledger_without(&list.input, &(place..place + 1));
            if told[2 * place].starts_with(b"edit=0,") {
                let rest = [&told[..2 * place], &told[2 * place + 2..]].concat().concat();
                assert_eq!(output, Ok(rest), "{}, call {place}", list.name);
                made += 1;
            } else {
                assert_eq!(output, Err(place + 2), "{}, call {place}", list.name);
                others += 1;
            }
        }
    }
    assert!(made > 10 && others > 10, "{made} edits made, {others} others");
}

#[test]
fn the_files_in_vectors_are_those_of_the_source() {
    let folder = Path::new(env!("CARGO_MANIFEST_DIR")).join("../vectors");
    let mut found = BTreeMap::new();
    collect(&folder, &folder, &mut found);
    for own in ["README.md", "run", ".gitattributes"] {
        assert!(found.remove(own).is_some(), "vectors/{own} is missing");
    }
    let expected: BTreeMap<String, Vec<u8>> = kit::files().into_iter().collect();
    for (path, content) in &expected {
        let same = found.get(path) == Some(content);
        assert!(same, "vectors/{path} differs: run `vectors` again");
    }
    let unknown: Vec<&String> = found.keys().filter(|path| !expected.contains_key(*path)).collect();
    assert!(unknown.is_empty(), "not from the source: {unknown:?}");
}

/// Paths inside `top` and contents of all files below `folder`.
fn collect(top: &Path, folder: &Path, found: &mut BTreeMap<String, Vec<u8>>) {
    for entry in fs::read_dir(folder).unwrap() {
        let path: PathBuf = entry.unwrap().path();
        if path.is_dir() {
            collect(top, &path, found);
        } else {
            let name = path.strip_prefix(top).unwrap().to_string_lossy().into_owned();
            found.insert(name, fs::read(&path).unwrap());
        }
    }
}
