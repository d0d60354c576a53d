//! Writes the sessions of the conformance kit as equations about the specification, `gate input ≡ output`,
//! one module for some dozen of them, for the prover to compute: `equations VECTORS FOLDER`.

use std::fs;
use std::io::{self, Write as _};
use std::path::{Path, PathBuf};

/// Sessions to a module, and the longest input that the prover computes in reasonable time.
const TO_A_MODULE: usize = 60;
const LONGEST: usize = 4000;
/// Sessions that are left out, as they take more steps than the prover gives one equation: a set goes through 64 groups one
/// above another; the lowest of twenty diamonds is reached on a million paths; for the joins of each edit every one of many
/// holders is asked whether it is below, and for its ties up.
const TOO_MANY_STEPS: [&str; 9] = [
    "chain-of-64-groups.in",
    "joins-of-twenty-diamonds.in",
    "joins-of-a-user-in-64-groups.in",
    "joins-of-an-object-in-64-groups.in",
    "joins-printed-99-100-and-101.in",
    "seed-5.in",
    "seed-25.in",
    "seed-35.in",
    "seed-45.in",
];

const HEADER: &str = "-- Sessions of the conformance kit.
use mathlib.Core.Path.{◌≡◌, refl}
use Rattle.model.specs.Bytes.{bytes}
use Rattle.model.specs.Gate.{gate}
use Rattle.model.proofs.Computing.{computing}
";

/// Bytes as a quoted text of the prover's language.
fn quoted(bytes: &[u8]) -> String {
    let mut text = String::from("\"");
    for &byte in bytes {
        match byte {
            b'"' => text.push_str("\\\""),
            b'\\' => text.push_str("\\\\"),
            32..=126 => text.push(char::from(byte)),
            _ => text.push_str(&format!("\\u{{{byte:x}}}")),
        }
    }
    text.push('"');
    text
}

/// The inputs of the kit for the office program, in the order of their names.
fn inputs(kit: &Path) -> io::Result<Vec<PathBuf>> {
    let mut found = Vec::new();
    for folder in fs::read_dir(kit)? {
        let folder = folder?.path();
        if !folder.is_dir() || folder.ends_with("library") {
            continue;
        }
        for file in fs::read_dir(folder)? {
            let file = file?.path();
            if file.extension().is_some_and(|end| end == "in") {
                found.push(file);
            }
        }
    }
    found.sort();
    Ok(found)
}

fn equation(number: usize, input: &Path) -> io::Result<String> {
    let given = quoted(&fs::read(input)?);
    let printed = quoted(&fs::read(input.with_extension("out"))?);
    let name = input.display();
    Ok(format!("\n-- {name}\ns{number} : gate (bytes {given}) ≡ bytes {printed}\nunfolding computing\ns{number} = refl\n"))
}

fn main() -> io::Result<()> {
    let arguments: Vec<String> = std::env::args().collect();
    let [_, kit, folder] = arguments.as_slice() else {
        return Err(io::Error::other("usage: equations VECTORS FOLDER"));
    };
    let folder = Path::new(folder);
    fs::create_dir_all(folder)?;
    let mut chosen = Vec::new();
    let all = inputs(Path::new(kit))?;
    for input in &all {
        let short = fs::metadata(input)?.len() <= LONGEST as u64;
        if short && !TOO_MANY_STEPS.iter().any(|name| input.ends_with(name)) {
            chosen.push(input);
        }
    }
    let mut root = fs::File::create(folder.join("Lib.antt"))?;
    for (index, group) in chosen.chunks(TO_A_MODULE).enumerate() {
        let mut module = String::from(HEADER);
        for (number, input) in group.iter().enumerate() {
            module.push_str(&equation(number, input)?);
        }
        fs::write(folder.join(format!("Sessions{index}.antt")), module)?;
        writeln!(root, "pub mod Sessions{index}")?;
    }
    println!("{} of {} sessions written as equations", chosen.len(), all.len());
    Ok(())
}
