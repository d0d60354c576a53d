//! What the office program cannot show: tables of another length, the frame
//! of an edit call, what a call leaves in book and table, and the C call.

use reference::{c_call, Book, Decision, Edited, Ledger, Refusal, RefusedLine};

const FILE: &[u8] = b"rights=1
attr=user,n,int
attr=env,e,int
op=o
atom=user.n,1
ugroup=g
user=u
object=t
member=u,g
value=g,n,1
rule=o,user.n = 1 AND env.e < 9
";
const LINES: usize = 11;
const GOOD: &[u8] = &[1, 2, 3, 0, 1, 0, 0, 0, 1, 0, 1, 8, 0, 0, 0];
const LATE: &[u8] = &[1, 2, 3, 0, 1, 0, 0, 0, 1, 0, 1, 9, 0, 0, 0];
const BARE: &[u8] = &[1, 2, 3, 0, 1, 0, 0, 0, 0, 0];

fn loaded() -> (Book, Vec<u64>) {
    let mut table = vec![7; 1024];
    let (book, answer) = Book::load(FILE, &mut table);
    assert_eq!(answer, Ok(LINES));
    (book, table)
}

#[test]
fn a_table_of_another_length_is_1_for_every_call_and_untouched() {
    let (mut book, _) = loaded();
    for length in [0, 1, 1023, 1025, 4096] {
        let mut table = vec![5; length];
        let (empty, answer) = Book::load(FILE, &mut table);
        let refusal = Refusal::TableLength;
        assert_eq!(answer, Err(RefusedLine { refusal, line: 0 }));
        assert_eq!(empty, Book::default());
        assert_eq!(book.edit(b"-value=g,n,1\n", &mut table), Err(refusal));
        assert_eq!(book.request(GOOD, &table), Decision::Refused(refusal));
        assert_eq!(c_call(FILE, GOOD, &mut table), 1);
        assert!(table.iter().all(|&word| word == 5));
    }
}

#[test]
fn number_1_comes_before_every_other() {
    let mut table = vec![5; 8];
    let long = vec![b'x'; 40_000];
    let (_, answer) = Book::load(&long, &mut table);
    assert_eq!(answer.unwrap_err().refusal, Refusal::TableLength);
    let mut book = Book::default();
    assert_eq!(book.edit(b"", &mut table), Err(Refusal::TableLength));
    let refused = Decision::Refused(Refusal::TableLength);
    assert_eq!(book.request(b"", &table), refused);
    assert_eq!(c_call(&long, b"", &mut table), 1);
}

#[test]
fn an_edit_on_a_wrong_table_keeps_its_book() {
    let (mut book, mut table) = loaded();
    let before = book.clone();
    assert!(book.edit(b"-value=g,n,1\n", &mut [0; 3]).is_err());
    assert_eq!(book, before);
    assert_eq!(book.edit(b"-value=g,n,1\n", &mut table), Ok(Edited { count: 2, joins: 3 }));
}

#[test]
fn the_frame_of_an_edit_call() {
    let (mut book, mut table) = loaded();
    let cases: [&[u8]; 9] = [
        b"",
        b"\n",
        b"value=g,n,1\n",
        b"*value=g,n,1\n",
        b"-value=g,n,1",
        b"-value=g,n,1\n\n",
        b"-value=g,n,1\n\0",
        b"-value=g,n,1\n-value=g,n,1\n",
        b"\n-value=g,n,1\n",
    ];
    for line in cases {
        assert_eq!(book.edit(line, &mut table), Err(Refusal::LineFrame));
    }
    assert_eq!(book.edit(b"-value=g,n,1\n", &mut table), Ok(Edited { count: 2, joins: 3 }));
}

#[test]
fn load_and_edits_write_the_words_of_effective() {
    let (mut book, mut table) = loaded();
    let mut expected = vec![0; 1024];
    (expected[4], expected[8]) = (1, 1);
    assert_eq!(table, expected);
    assert_eq!(book.edit(b"-member=u,g\n", &mut table), Ok(Edited { count: 1, joins: 1 }));
    expected[8] = 0;
    assert_eq!(table, expected);
    assert_eq!(book.edit(b"-value=g,n,1\n", &mut table), Ok(Edited { count: 1, joins: 1 }));
    assert_eq!(table, vec![0; 1024]);
}

#[test]
fn a_refused_load_gives_the_empty_book_and_a_table_of_0() {
    let (_, mut table) = loaded();
    let (book, answer) = Book::load(b"rights=1\nop=A\n", &mut table);
    let refusal = Refusal::Malformed;
    assert_eq!(answer, Err(RefusedLine { refusal, line: 2 }));
    assert_eq!(book, Book::default());
    assert_eq!(table, vec![0; 1024]);
}

#[test]
fn admin_is_in_the_empty_book() {
    let mut table = vec![0; 1024];
    let answer = Book::default().edit(b"+parent=admin,admin\n", &mut table);
    assert_eq!(answer, Err(Refusal::WrongSort));
    let answer = Ledger::default().edit(b"+parent=admin,admin\n", 1024);
    assert_eq!(answer, Err(Refusal::WrongSort));
}

#[test]
fn the_c_call_answers_one_number_and_leaves_the_table_of_the_load() {
    let (_, after_load) = loaded();
    let cases: [(&[u8], u8); 6] = [
        (GOOD, 0),
        (LATE, 64),
        (BARE, 65),
        (&[], 15),
        (&[1, 1, 3, 0, 0, 0, 0, 0, 0, 0], 16),
        (&[1, 2, 3, 0, 2, 0, 0, 0, 0, 0], 17),
    ];
    for (block, number) in cases {
        let mut table = vec![9; 1024];
        assert_eq!(c_call(FILE, block, &mut table), number);
        assert_eq!(table, after_load);
    }
}

#[test]
fn the_c_call_gives_a_refused_load_before_any_look_at_the_block() {
    let cases: [(&[u8], u8); 5] = [
        (&[b'x'; 32_769], 2),
        (b"", 3),
        (b"rights=1\n\n", 4),
        (b"rights=1\nuser=a\nop=a\n", 5),
        (b"rights=1\nugroup=g\nparent=g,g\n", 12),
    ];
    for (file, number) in cases {
        let mut table = vec![9; 1024];
        assert_eq!(c_call(file, b"", &mut table), number);
        assert_eq!(table, vec![0; 1024]);
    }
}

#[test]
fn a_table_that_is_not_the_books_stays_in_bounds() {
    let (mut book, _) = loaded();
    let mut table = vec![u64::MAX; 1024];
    assert_eq!(book.request(GOOD, &table), Decision::Permit(0));
    assert!(book.edit(b"-value=g,n,1\n", &mut table).is_ok());
}
