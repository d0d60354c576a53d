//! The length of document 02, E14, against the writer: over drawn lists of calls,
//! and over books with as many ties as can stand.

mod states;

use reference::generate::session;
use reference::session::{Answer, Call, Engine, TableEngine};
use reference::{calls, Book, Ledger, Refusal, TABLE_WORDS};
use states::{each_state, SESSIONS};

#[test]
fn the_length_is_that_of_the_text() {
    each_state(|seed, by_table, ledger| {
        let length = by_table.book.length();
        assert_eq!(length, by_table.book.text().len(), "seed {seed}");
        assert_eq!(length, ledger.length(), "seed {seed}");
    });
}

/// "precisely when this length is over its buffer or over 32,768"
fn wanted(length: usize, room: usize) -> Result<usize, Refusal> {
    if length > room || length > 32_768 {
        Err(Refusal::DoesNotFit)
    } else {
        Ok(length)
    }
}

#[test]
fn the_writer_refuses_precisely_when_the_length_is_over_its_buffer_or_32768() {
    let (mut done, mut short, mut long) = (0, 0, 0);
    each_state(|seed, by_table, ledger| {
        let length = by_table.book.length();
        for room in [length - 1, length, length + 1, 32_767, 32_768, 40_000] {
            let wanted = wanted(length, room);
            let mut buffer = vec![7; room];
            let by_ledger = ledger.write(&buffer);
            assert_eq!(by_table.book.write(&mut buffer), wanted, "seed {seed}, {room} bytes");
            assert_eq!(by_ledger, (wanted, buffer), "seed {seed}, {room} bytes");
            done += usize::from(wanted.is_ok());
            short += usize::from(wanted.is_err() && length <= 32_768);
            long += usize::from(wanted.is_err() && room > length);
        }
    });
    assert!(done > 10_000 && short > 2_500 && long > 20, "{done} written, {short} and {long} refused");
}

#[test]
fn an_edit_moves_the_length_by_its_line_and_requests_writes_and_refusals_leave_it() {
    let mut moved = 0;
    for seed in 1..=SESSIONS {
        let drawn = session(seed);
        let mut engine = TableEngine::new(drawn.table.clone());
        for (place, call) in drawn.calls.iter().enumerate() {
            let before = engine.length();
            let answer = engine.call(call);
            let wanted = match (call, &answer) {
                (Call::Load(_), Answer::Load(Err(_))) => 9,
                (Call::Load(_), _) => engine.book.text().len(),
                (Call::Edit(line), Answer::Edit(Ok(_))) => {
                    moved += 1;
                    after_edit(before, line)
                }
                _ => before,
            };
            assert_eq!(engine.length(), wanted, "seed {seed}, call {place}");
            if let (Call::Load(file), Answer::Load(Ok(_))) = (call, &answer) {
                // Its rules may have more spaces.
                assert!(wanted <= file.len(), "seed {seed}, call {place}");
            }
            if let Answer::Length(told) = answer {
                assert_eq!(told, before, "seed {seed}, call {place}");
            }
        }
    }
    assert!(moved > 5_000, "only {moved} accepted edits");
}

/// The line is written as the edit has it, without the sign.
fn after_edit(before: usize, edit: &[u8]) -> usize {
    match edit.split_first() {
        Some((b'+', line)) => before + line.len(),
        Some((b'-', line)) => before - line.len(),
        _ => panic!("an accepted edit has a sign"),
    }
}

/// Declarations, and all ties that can stand between them: a group has all those
/// before it as parents, a party is a member of all groups.
struct Full {
    declared: String,
    values: Vec<String>,
    links: Vec<String>,
}

/// Every parent, then every member line of these.
fn links(groups: &[String], parties: &[String]) -> Vec<String> {
    let parents = groups.iter().enumerate().flat_map(|(number, child)| {
        groups[..number].iter().map(move |parent| format!("parent={child},{parent}\n"))
    });
    let members =
        parties.iter().flat_map(|party| groups.iter().map(move |group| format!("member={party},{group}\n")));
    parents.chain(members).collect()
}

fn values<'v>(holders: impl Iterator<Item = &'v String>, pairs: &[(&str, String)]) -> Vec<String> {
    let of_holder = |holder: &'v String| {
        pairs.iter().map(move |(attribute, atom)| format!("value={holder},{attribute},{atom}\n"))
    };
    holders.flat_map(of_holder).collect()
}

fn lines(head: &str, names: &[String]) -> String {
    names.iter().map(|name| format!("{head}{name}\n")).collect()
}

/// As many ties as can stand in any book, each with the longest line of its key:
/// names and strings have 12 bytes, and each of the 255 holders can be given each of
/// the 256 pairs. The text can still be longer by its other lines: there could be more
/// attributes, operations and rules, and objects in place of users.
fn all_ties() -> Full {
    let groups: Vec<String> = (0..64).map(|number| format!("lift_group{number:02}")).collect();
    let users: Vec<String> = (0..191).map(|number| format!("visitor_{number:04}")).collect();
    let atoms: Vec<String> = (0..256).map(|number| format!("\"value_{number:06}\"")).collect();
    let head = "rights=1\nattr=user,privilege_no,str\n";
    let pairs: Vec<(&str, String)> = atoms.iter().map(|atom| ("privilege_no", atom.clone())).collect();
    let declared = [
        head.to_string(),
        lines("atom=user.privilege_no,", &atoms),
        lines("ugroup=", &groups),
        lines("user=", &users),
    ];
    Full {
        declared: declared.concat(),
        values: values(groups.iter().chain(&users), &pairs),
        links: links(&groups, &users),
    }
}

#[test]
fn each_edit_up_to_all_ties_that_can_stand_and_back_moves_the_length_by_its_line() {
    let Full { declared, values, links } = all_ties();
    assert_eq!((values.len(), links.len()), (255 * 256, 2_016 + 191 * 64));
    let mut table = vec![0; TABLE_WORDS];
    let (mut book, loaded) = Book::load(declared.as_bytes(), &mut table);
    assert!(loaded.is_ok(), "{loaded:?}");
    let without_ties = 9 + 27 + 256 * 38 + 64 * 20 + 191 * 18;
    let mut length = without_ties;
    assert_eq!(book.length(), length);
    let mut edit = |book: &mut Book, sign: char, line: &str| {
        let edit = format!("{sign}{line}");
        assert!(book.edit(edit.as_bytes(), &mut table).is_ok(), "{edit}");
        length = after_edit(length, edit.as_bytes());
        assert_eq!(book.length(), length, "{edit}");
    };
    for line in values.iter().chain(&links) {
        edit(&mut book, '+', line);
    }
    let with_all = without_ties + 65_280 * 47 + 14_240 * 33;
    assert_eq!(book.length(), with_all);
    assert_eq!(book.text().len(), with_all);
    for room in [32_768, with_all - 1, with_all, with_all + 1] {
        assert_eq!(book.write(&mut vec![0; room]), Err(Refusal::DoesNotFit));
    }
    for line in links.iter().chain(&values) {
        edit(&mut book, '-', line);
    }
    assert_eq!(book.length(), without_ties);
}

/// Both sorts and admin, names of 2 to 12 bytes, short and long atoms of each type.
fn varied() -> Full {
    let named = |letter: char, count: usize| -> Vec<String> {
        let name = |number: usize| format!("{letter}{number:0width$}", width = number * 5 % 12);
        (0..count).map(name).collect()
    };
    let (ugroups, ogroups) = (named('g', 8), named('h', 5));
    let (users, objects) = (named('u', 9), named('t', 6));
    let pairs = |attribute, atoms: &[&str]| -> Vec<(&str, String)> {
        atoms.iter().map(|atom| (attribute, atom.to_string())).collect()
    };
    let numbers = pairs("n", &["0", "9", "10", "4294967295", "100000"]);
    let texts = pairs("text_of_pass", &["\"\"", "\" , \"", "\"twelve bytes\""]);
    let truths = pairs("open", &["TRUE", "FALSE"]);
    let atoms = |source: &str, pairs: &[(&str, String)]| -> String {
        pairs.iter().map(|(attribute, atom)| format!("atom={source}.{attribute},{atom}\n")).collect()
    };
    let of_users = [numbers, texts.clone()].concat();
    let declared = [
        "rights=1\nattr=user,n,int\nattr=user,text_of_pass,str\nattr=object,text_of_pass,str\n".to_string(),
        "attr=admin,open,bool\nattr=env,hour,int\nop=o\n".to_string(),
        atoms("user", &of_users) + &atoms("object", &texts) + &atoms("admin", &truths),
        lines("ugroup=", &ugroups) + &lines("ogroup=", &ogroups),
        lines("user=", &users) + &lines("object=", &objects),
        "rule=o,  user.n  IN  {1, 2}  AND  NOT  env.hour\n".to_string(),
    ];
    let given = [
        values([&"admin".to_string()].into_iter(), &truths),
        values(ugroups.iter().chain(&users), &of_users),
        values(ogroups.iter().chain(&objects), &texts),
    ];
    let links = [links(&ugroups, &users), links(&ogroups, &objects)];
    Full { declared: declared.concat(), values: given.concat(), links: links.concat() }
}

#[test]
fn both_engines_tell_the_length_of_all_ties_that_can_stand() {
    let Full { declared, values, links } = varied();
    let mut table = vec![0; TABLE_WORDS];
    let (mut book, loaded) = Book::load(declared.as_bytes(), &mut table);
    let mut ledger = Ledger::default();
    assert!(loaded.is_ok(), "{loaded:?}");
    assert_eq!(ledger.load(declared.as_bytes(), TABLE_WORDS), loaded);
    let mut edit = |sign: char, line: &str| {
        let edit = format!("{sign}{line}");
        let before = ledger.length();
        let answer = book.edit(edit.as_bytes(), &mut table);
        assert!(answer.is_ok(), "{edit}");
        assert_eq!(ledger.edit(edit.as_bytes(), TABLE_WORDS), answer);
        assert_eq!(ledger.length(), after_edit(before, edit.as_bytes()), "{edit}");
        assert_eq!(book.length(), ledger.length(), "{edit}");
        assert_eq!(book.text().len(), ledger.length(), "{edit}");
    };
    links.iter().chain(&values).for_each(|line| edit('+', line));
    links.iter().chain(&values).for_each(|line| edit('-', line));
}

#[test]
fn the_empty_book_has_9_bytes() {
    assert_eq!(Book::default().length(), 9);
    assert_eq!(Ledger::default().length(), 9);
    let (refused, _) = Book::load(b"rights=1\nop=A\n", &mut [0; TABLE_WORDS]);
    assert_eq!(refused.length(), 9);
    let (on_wrong_table, _) = Book::load(b"rights=1\nop=a\n", &mut [0; 1_023]);
    assert_eq!(on_wrong_table.length(), 9);
}

#[test]
fn nothing_stands_behind_the_equals_sign_of_a_call_list() {
    let told = b"length=9\nwords=\n".to_vec();
    for list in [&b"table=1024\nlength=\n"[..], b"table=1024\nlength="] {
        assert_eq!(calls::run(list), Ok(told.clone()));
        assert_eq!(calls::run_by_ledger(list), Ok(told.clone()));
    }
    for line in
        ["length", "length=0", "length=00", "length= ", "length=\r", " length=", "length=,", "Length="]
    {
        let list = format!("table=1024\n{line}\n");
        assert_eq!(calls::run(list.as_bytes()), Err(2), "{line:?}");
        assert_eq!(calls::run_by_ledger(list.as_bytes()), Err(2), "{line:?}");
    }
}
