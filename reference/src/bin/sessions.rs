//! Writes random inputs and the outputs expected: `sessions --seed N --count M
//! --dir D [--damaged | --mixed | --calls] [--stream]` gives D/N.in and D/N.out
//! for each seed from N on. They are inputs of the office program (damaged, or
//! with `--mixed` every third damaged), or call lists with `--calls`. With
//! `--stream` all inputs go into D/in, each behind a line with its seed and its
//! length, and the outputs into D/out, each behind a line `session=SEED`: one
//! program can then run them all. In a stream the file as it stands at the end of
//! a session of the office program is told too: `write=` as in call lists, with a
//! buffer that no file is too long for, and `text=` with its bytes in hex.

use reference::file::FILE_LIMIT;
use reference::office::{gate_and_book, print_write};
use reference::{calls, gate, generate, Book};
use std::io::{BufWriter, Write};
use std::path::PathBuf;
use std::{env, fs, process};

struct Options {
    seed: u64,
    count: u64,
    dir: PathBuf,
    damaged: bool,
    mixed: bool,
    calls: bool,
    stream: bool,
}

fn options() -> Option<Options> {
    let dir = PathBuf::new();
    let mut options =
        Options { seed: 1, count: 100, dir, damaged: false, mixed: false, calls: false, stream: false };
    let mut words = env::args().skip(1);
    while let Some(word) = words.next() {
        match word.as_str() {
            "--seed" => options.seed = words.next()?.parse().ok()?,
            "--count" => options.count = words.next()?.parse().ok()?,
            "--dir" => options.dir = PathBuf::from(words.next()?),
            "--damaged" => options.damaged = true,
            "--mixed" => options.mixed = true,
            "--calls" => options.calls = true,
            "--stream" => options.stream = true,
            _ => return None,
        }
    }
    (!options.dir.as_os_str().is_empty()).then_some(options)
}

fn main() -> std::io::Result<()> {
    let Some(options) = options() else {
        eprintln!("usage: sessions --seed N --count M --dir D [--damaged | --mixed | --calls] [--stream]");
        process::exit(2);
    };
    fs::create_dir_all(&options.dir)?;
    if options.stream {
        return write_stream(&options);
    }
    for seed in options.seed..options.seed + options.count {
        let (input, output) = drawn(seed, &options);
        fs::write(options.dir.join(format!("{seed}.in")), input)?;
        fs::write(options.dir.join(format!("{seed}.out")), output)?;
    }
    Ok(())
}

fn write_stream(options: &Options) -> std::io::Result<()> {
    let mut inputs = BufWriter::new(fs::File::create(options.dir.join("in"))?);
    let mut outputs = BufWriter::new(fs::File::create(options.dir.join("out"))?);
    for seed in options.seed..options.seed + options.count {
        let (input, output) = drawn(seed, options);
        writeln!(inputs, "{seed} {}", input.len())?;
        inputs.write_all(&input)?;
        writeln!(outputs, "session={seed}")?;
        outputs.write_all(&output)?;
    }
    inputs.flush()?;
    outputs.flush()
}

fn drawn(seed: u64, options: &Options) -> (Vec<u8>, Vec<u8>) {
    if options.calls {
        let list = calls::write(&generate::session(seed));
        let output = calls::run(&list).expect("what is written is a call list");
        return (list, output);
    }
    let damaged = options.damaged || options.mixed && seed.is_multiple_of(3);
    let input = if damaged { generate::damaged_input(seed) } else { generate::gate_input(seed) };
    if !options.stream {
        let output = gate(&input);
        return (input, output);
    }
    let (mut output, book) = gate_and_book(&input);
    output.extend(book.iter().flat_map(file_lines));
    (input, output)
}

/// What the writer answers, and the text.
fn file_lines(book: &Book) -> Vec<u8> {
    let mut buffer = vec![0; FILE_LIMIT];
    let written = book.write(&mut buffer);
    let text = &buffer[..written.unwrap_or(0)];
    format!("{}\ntext={}\n", print_write(written), calls::hex(text)).into_bytes()
}
