//! Vectors for "Office program".

use super::files::file_of;
use super::valley::valley;
use super::Kit;

pub fn kit() -> Kit {
    let mut kit = Kit::new("office-program");
    end(&mut kit);
    tries(&mut kit);
    other_lines(&mut kit);
    edit_lines(&mut kit);
    last_lines(&mut kit);
    goes_on(&mut kit);
    sizes(&mut kit);
    kit
}

fn end(kit: &mut Kit) {
    kit.says("\"`gate` reads standard input: file lines, a line `end=`, then edit lines ... and `try=`\": the first line that is exactly `end=`, looked for before the file is judged.");
    kit.case("end-first", "end=\n", "load=3,1");
    kit.case("end-behind-one-line", "rights=1\nend=\n", "load=0,1");
    kit.case("end-behind-a-bad-file", "x\nend=\ntry=\n", "load=3,1 try=refused,15");
    kit.case("end-behind-a-line-without-equals", "rights=1\nx\nend=\n+\n", "load=4,2 edit=4,0,0");
    kit.case("end-with-text", "rights=1\nend=x\ntry=\n", "load=4,2");
    kit.case("end-with-space", "rights=1\nend= \ntry=\n", "load=4,2");
    kit.case("end-with-cr", "rights=1\nend=\r\ntry=\n", "load=4,2");
    kit.case("end-behind-space", "rights=1\n end=\ntry=\n", "load=4,2");
    kit.case("end-capitals", "rights=1\nEND=\ntry=\n", "load=4,2");
    kit.case("end-without-equals", "rights=1\nend\ntry=\n", "load=4,2");
    kit.case("end-after-a-false-end", "rights=1\nend=x\nend=\ntry=\n", "load=4,2 try=refused,15");
    kit.case("end-twice", "rights=1\nend=\nend=\n", "load=0,1 bad=");
    kit.says("\"Without `end=` all is file.\"");
    kit.case("no-end", valley(), "load=0,27");
    kit.case("no-end-empty-input", "", "load=3,1");
    kit.case("no-end-try-is-a-file-line", "rights=1\ntry=01\n", "load=4,2");
    kit.case("no-end-edit-is-a-file-line", "rights=1\n+parent=a,b\n", "load=4,2");
}

fn tries(kit: &mut Kit) {
    kit.says("\"`try=` with the block in lower-case hex pairs\" and \"`bad=` for other lines, bad hex among them\". No pairs are a block of 0 bytes.");
    let good = [("try-no-pairs", ""), ("try-one-pair", "01"), ("try-letters", "abcdef")];
    for (name, hex) in good {
        kit.case(name, format!("rights=1\nend=\ntry={hex}\n"), "load=0,1 try=refused,15");
    }
    let bad = [
        ("try-odd-count", "try=0"),
        ("try-odd-count-of-many", "try=01020300000000000000000"),
        ("try-capitals", "try=0A"),
        ("try-letter-g", "try=0g"),
        ("try-space-between", "try=01 02"),
        ("try-space-behind", "try=01 "),
        ("try-space-before", "try= 01"),
        ("try-cr", "try=01\r"),
        ("try-nul", "try=01\0\0"),
        ("try-comma", "try=01,02"),
        ("try-prefix", "try=0x01"),
        ("try-without-equals", "try"),
        ("try-key-capitals", "TRY=01"),
        ("try-key-behind-space", " try=01"),
        ("try-key-space-behind", "try =01"),
        ("try-byte-beyond-ascii", "try=\u{e9}"),
    ];
    for (name, line) in bad {
        kit.case(name, format!("rights=1\nend=\n{line}\n"), "load=0,1 bad=");
    }
    kit.says("\"15: byte 0, 8, 9 or length wrong\": a try line has no limit of its own.");
    let long = format!("rights=1\nend=\ntry={}\n", "00".repeat(300));
    kit.case("try-of-300-bytes", long, "load=0,1 try=refused,15");
}

fn other_lines(kit: &mut Kit) {
    kit.says("\"`bad=` for other lines\": every line behind `end=` that is neither an edit nor a good try; none follows the last byte 10.");
    let lines = [
        ("other-empty", ""),
        ("other-word", "x"),
        ("other-tie-without-sign", "parent=a,b"),
        ("other-rights", "rights=1"),
        ("other-op", "op=a"),
        ("other-sign-behind-space", " +parent=a,b"),
        ("other-cr", "\r"),
        ("other-nul", "\0"),
        ("other-star", "*parent=a,b"),
    ];
    for (name, line) in lines {
        kit.case(name, format!("rights=1\nend=\n{line}\n"), "load=0,1 bad=");
    }
    kit.case("other-long", format!("rights=1\nend=\n{}\n", "x".repeat(400)), "load=0,1 bad=");
    kit.case("other-several", "rights=1\nend=\n\n\nx\n\n", "load=0,1 bad= bad= bad= bad=");
    kit.case("other-between", "rights=1\nend=\ntry=\nx\n+\n", "load=0,1 try=refused,15 bad= edit=4,0,0");
}

fn edit_lines(kit: &mut Kit) {
    kit.says(
        "\"edit lines (those that begin with `+` or `-`)\" and \"`edit=` number, count (0 if refused)\", with the joins of document 02, E3, behind the count.",
    );
    kit.case("edit-sign-alone", "rights=1\nend=\n+\n-\n", "load=0,1 edit=4,0,0 edit=4,0,0");
    kit.case(
        "edit-cr-lf",
        "rights=1\nugroup=a\nugroup=b\nend=\n+parent=a,b\r\n+parent=a,b\n",
        "load=0,3 edit=6,0,0 edit=0,0,2",
    );
    kit.case("edit-nul", "rights=1\nugroup=a\nugroup=b\nend=\n+parent=a,b\0\n", "load=0,3 edit=6,0,0");
    kit.case(
        "edit-too-long",
        format!("rights=1\nend=\n+parent={}\n", "a".repeat(300)),
        "load=0,1 edit=4,0,0",
    );
}

fn last_lines(kit: &mut Kit) {
    kit.says("\"A last `end=` or `try=` line needs no byte 10; a last edit line without one is 4.\"");
    kit.case("last-end", "rights=1\nend=", "load=0,1");
    kit.case("last-end-alone", "end=", "load=3,1");
    kit.case("last-end-cut", "rights=1\nend", "load=4,2");
    kit.case("last-try", "rights=1\nend=\ntry=01", "load=0,1 try=refused,15");
    kit.case("last-try-no-pairs", "rights=1\nend=\ntry=", "load=0,1 try=refused,15");
    kit.case("last-try-bad", "rights=1\nend=\ntry=0", "load=0,1 bad=");
    kit.case("last-edit", "rights=1\nugroup=a\nugroup=b\nend=\n+parent=a,b", "load=0,3 edit=4,0,0");
    kit.case(
        "last-edit-taking",
        "rights=1\nugroup=a\nugroup=b\nparent=a,b\nend=\n-parent=a,b",
        "load=0,4 edit=4,0,0",
    );
    kit.case("last-edit-sign", "rights=1\nend=\n-", "load=0,1 edit=4,0,0");
    kit.case("last-other", "rights=1\nend=\nx", "load=0,1 bad=");
    kit.case("last-end-again", "rights=1\nend=\nend=", "load=0,1 bad=");
}

fn goes_on(kit: &mut Kit) {
    kit.says("\"After a refused load it goes on with the empty book.\" It knows admin and nothing else: edits give 4, 6, 8, 9 or 13, blocks 15 or 16.");
    let lines = "end=\n+parent=day,season\n+parent=admin,admin\n-parent=day,day\n+rule=pass,TRUE\n+x\n\
                 +value=day,zone,\ntry=01040500030000000000\ntry=01000000000000000000\ntry=02\n";
    let input = format!("{}{lines}", valley().replacen("op=pass", "op=Pass", 1));
    let answers =
        "load=6,7 edit=8,0,0 edit=9,0,0 edit=8,0,0 edit=13,0,0 edit=4,0,0 edit=6,0,0 try=refused,16 \
                   try=refused,16 try=refused,15";
    kit.case("refused-load", input, answers);
}

fn sizes(kit: &mut Kit) {
    kit.says("\"Over 65,536 bytes: `load=2,0` alone.\" 65,536 bytes are read.");
    let input = |length: usize| {
        let head = "rights=1\nend=\n\ntry=";
        format!("{head}{}\n", "0".repeat(length - head.len() - 1))
    };
    kit.case("input-of-65536-bytes", input(65_536), "load=0,1 bad= try=refused,15");
    kit.case("input-of-65537-bytes", input(65_537), "load=2,0");
    kit.says("\"2: over 32,768 bytes\": the bytes before the `end=` line, or all of them without one.");
    let file = file_of(32_768);
    let lines = file.lines().count();
    let fits = format!("{file}end=\ntry=01010200000000000000\n");
    kit.case("file-of-32768-bytes-then-end", fits, &format!("load=0,{lines} try=refused,16"));
    kit.case("no-end-32769-bytes", file_of(32_769), "load=2,0");
    let late_end = format!("{}end=\ntry=\n+\n", "x\n".repeat(20_000));
    kit.case("end-behind-40000-bytes", late_end, "load=2,0 try=refused,15 edit=4,0,0");
}
