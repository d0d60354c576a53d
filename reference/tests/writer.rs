//! The writer of document 02, E1: what it promises, over drawn lists of calls.

mod states;

use reference::file::FILE_LIMIT;
use reference::generate::Rng;
use reference::line::pieces;
use reference::{Book, Ledger, Refusal, TABLE_WORDS};
use states::each_state;

/// The file as it stands, if it is not too long.
fn written(book: &Book) -> Option<Vec<u8>> {
    let mut buffer = vec![0; FILE_LIMIT];
    let length = book.write(&mut buffer).ok()?;
    buffer.truncate(length);
    Some(buffer)
}

#[test]
fn both_engines_write_the_same_bytes() {
    let (mut done, mut refused) = (0, 0);
    each_state(|seed, by_table, ledger| {
        for byte in [0, 0xff] {
            let mut buffer = vec![byte; FILE_LIMIT + 10];
            let (answer, after) = ledger.write(&buffer);
            assert_eq!(by_table.book.write(&mut buffer), answer, "seed {seed}");
            assert_eq!(buffer, after, "seed {seed}");
            let kept = &buffer[answer.unwrap_or(0)..];
            assert!(kept.iter().all(|&one| one == byte), "seed {seed}");
            done += usize::from(answer.is_ok());
            refused += usize::from(answer.is_err());
        }
    });
    assert!(done > 5_000 && refused > 20, "{done} written, {refused} refused");
}

#[test]
fn one_byte_too_few_is_18_and_leaves_the_buffer() {
    each_state(|seed, by_table, ledger| {
        let Some(text) = written(&by_table.book) else {
            return;
        };
        let mut short = vec![7; text.len() - 1];
        assert_eq!(by_table.book.write(&mut short), Err(Refusal::DoesNotFit), "seed {seed}");
        assert_eq!(ledger.write(&short), (Err(Refusal::DoesNotFit), short.clone()), "seed {seed}");
        assert!(short.iter().all(|&one| one == 7), "seed {seed}");
        let mut exact = vec![7; text.len()];
        assert_eq!(by_table.book.write(&mut exact), Ok(text.len()), "seed {seed}");
        assert_eq!(exact, text, "seed {seed}");
    });
}

#[test]
fn a_text_is_refused_only_over_32768_bytes() {
    each_state(|seed, by_table, _| {
        let text = by_table.book.text();
        let mut buffer = vec![9; text.len() + 100];
        let answer = by_table.book.write(&mut buffer);
        let wanted = if text.len() > 32_768 { Err(Refusal::DoesNotFit) } else { Ok(text.len()) };
        assert_eq!(answer, wanted, "seed {seed}");
    });
}

#[test]
fn what_is_written_loads_as_the_same_state_and_is_written_again() {
    each_state(|seed, by_table, ledger| {
        let Some(text) = written(&by_table.book) else {
            return;
        };
        let mut table = vec![u64::MAX; TABLE_WORDS];
        let (book, loaded) = Book::load(&text, &mut table);
        assert_eq!(loaded, Ok(pieces(&text).count()), "seed {seed}");
        // Declarations, rule tokens among them, and ties.
        assert_eq!(book, by_table.book, "seed {seed}");
        assert_eq!(table, ledger.words(), "seed {seed}");
        assert_eq!(written(&book), Some(text.clone()), "seed {seed}");
        let mut again = Ledger::default();
        assert_eq!(again.load(&text, TABLE_WORDS), loaded, "seed {seed}");
        assert_eq!(&again, ledger, "seed {seed}");
    });
}

#[test]
fn no_line_is_over_255_bytes_and_no_two_spaces_stand_outside_strings() {
    each_state(|seed, by_table, _| {
        let text = by_table.book.text();
        for line in pieces(&text) {
            assert!(line.len() <= 256, "seed {seed}");
            let outside = line.split(|&byte| byte == b'"').step_by(2);
            for part in outside {
                let word = |byte: &u8| byte.is_ascii_alphanumeric() || matches!(byte, b'_' | b'.');
                let spaces = (0..part.len()).filter(|&place| part[place] == b' ');
                for place in spaces {
                    let between = place > 0 && place + 1 < part.len();
                    assert!(between && word(&part[place - 1]) && word(&part[place + 1]), "seed {seed}");
                }
            }
        }
    });
}

/// The lines of a text that are ties, and the others before and behind them.
fn parts(text: &[u8]) -> [Vec<&[u8]>; 3] {
    let tie = |line: &&[u8]| [&b"parent="[..], b"member=", b"value="].iter().any(|key| line.starts_with(key));
    let rule = |line: &&[u8]| line.starts_with(b"rule=");
    let lines = || pieces(text);
    [
        lines().filter(|line| !tie(line) && !rule(line)).collect(),
        lines().filter(tie).collect(),
        lines().filter(rule).collect(),
    ]
}

fn shuffle<T>(rng: &mut Rng, list: &mut [T]) {
    for place in (1..list.len()).rev() {
        list.swap(place, rng.below(place + 1));
    }
}

/// Each space outside strings more than once, and some more of them at the end.
fn spaced(rng: &mut Rng, rule: &[u8]) -> Vec<u8> {
    let mut line = Vec::new();
    let mut in_string = false;
    let start = rule.iter().position(|&byte| byte == b',').map_or(0, |place| place + 1);
    for (place, &byte) in rule.iter().enumerate() {
        in_string ^= byte == b'"';
        let sign = matches!(byte, b'(' | b')' | b'{' | b'}' | b',' | b' ' | b'\n');
        let room = rule.len() + 2 < 250 && line.len() + rule.len() - place < 250;
        if place >= start && sign && !in_string && room && rng.chance(60) {
            line.extend(b" ".repeat(rng.between(1, 2)));
        }
        line.push(byte);
    }
    line
}

#[test]
fn equal_states_by_other_ways_write_equal_bytes() {
    let mut states = 0;
    each_state(|seed, by_table, _| {
        let Some(text) = written(&by_table.book) else {
            return;
        };
        let rng = &mut Rng::new(seed);
        let [declared, mut ties, rules] = parts(&text);
        let rules: Vec<Vec<u8>> = rules.into_iter().map(|rule| spaced(rng, rule)).collect();
        shuffle(rng, &mut ties);
        // Some ties come with the file, which has keys in order, the others by edits.
        let (with_file, by_edits) = ties.split_at(rng.below(ties.len() + 1));
        let key = |line: &&[u8]| {
            ["parent=", "member=", "value="].iter().position(|key| line.starts_with(key.as_bytes()))
        };
        let mut with_file = with_file.to_vec();
        with_file.sort_by_key(key);
        let file = [declared.concat(), with_file.concat(), rules.concat()].concat();
        if file.len() > FILE_LIMIT {
            return;
        }
        let mut table = vec![0; TABLE_WORDS];
        let (mut book, loaded) = Book::load(&file, &mut table);
        assert!(loaded.is_ok(), "seed {seed}: {loaded:?}");
        for line in by_edits {
            assert!(book.edit(&[b"+", *line].concat(), &mut table).is_ok(), "seed {seed}");
            // Taken and added again.
            if rng.chance(30) {
                assert!(book.edit(&[b"-", *line].concat(), &mut table).is_ok(), "seed {seed}");
                assert!(book.edit(&[b"+", *line].concat(), &mut table).is_ok(), "seed {seed}");
            }
        }
        assert_eq!(book, by_table.book, "seed {seed}");
        assert_eq!(written(&book).as_ref(), Some(&text), "seed {seed}");
        states += 1;
    });
    assert!(states > 2_500, "only {states} states");
}

#[test]
fn other_states_write_other_bytes() {
    let load = |rules: &str| {
        let file = format!("rights=1\nattr=user,a,int\nop=o\nop=p\n{rules}");
        let (book, loaded) = Book::load(file.as_bytes(), &mut [0; TABLE_WORDS]);
        assert!(loaded.is_ok(), "{rules}");
        book
    };
    let rules = [
        "",
        "rule=o,1=1\n",
        "rule=p,1=1\n",
        "rule=o,1={1}\n",
        "rule=o,{1}=1\n",
        "rule=o,{1,2}=1\n",
        "rule=o,{2,1}=1\n",
        "rule=o,(1=1)\n",
        "rule=o,\"1\"=1\n",
        "rule=o,1 IN 1\n",
        "rule=o,1=1\nrule=o,1=1\n",
        "rule=o,1=1\nrule=p,1=1\n",
        "rule=p,1=1\nrule=o,1=1\n",
    ];
    for one in rules {
        for other in rules {
            let (first, second) = (load(one), load(other));
            assert_eq!(first == second, one == other, "{one} {other}");
            assert_eq!(first.text() == second.text(), one == other, "{one} {other}");
        }
    }
}

#[test]
fn the_empty_book_is_the_first_line() {
    for length in 0..9 {
        let mut buffer = vec![1; length];
        assert_eq!(Book::default().write(&mut buffer), Err(Refusal::DoesNotFit));
        assert_eq!(buffer, vec![1; length]);
    }
    let mut buffer = [1; 11];
    assert_eq!(Book::default().write(&mut buffer), Ok(9));
    assert_eq!(&buffer, b"rights=1\n\x01\x01");
    assert_eq!(Ledger::default().write(&[1; 11]), (Ok(9), b"rights=1\n\x01\x01".to_vec()));
}
