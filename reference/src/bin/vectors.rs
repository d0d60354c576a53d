//! Writes the conformance kit into the folder named, after holding both
//! engines to the typed answers.

use reference::kit;
use std::path::Path;
use std::{env, fs, process};

fn main() -> std::io::Result<()> {
    let Some(folder) = env::args().nth(1) else {
        eprintln!("usage: vectors FOLDER");
        process::exit(2);
    };
    if let Err(wrong) = kit::check(&kit::all()) {
        eprint!("{wrong}");
        process::exit(1);
    }
    let files = kit::files();
    for (path, content) in &files {
        let path = Path::new(&folder).join(path);
        fs::create_dir_all(path.parent().unwrap_or(Path::new(".")))?;
        fs::write(path, content)?;
    }
    println!("{} files written", files.len());
    Ok(())
}
