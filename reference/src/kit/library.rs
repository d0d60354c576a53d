//! Call lists for what the office program cannot show.

use super::files::nine_deep;
use super::sets::DIAMOND;
use super::valley::valley;
use super::Kit;
use crate::calls::hex;

pub fn kit() -> Kit {
    let mut kit = Kit::new("library");
    words(&mut kit);
    places(&mut kit);
    table_length(&mut kit);
    refused_loads(&mut kit);
    edit_frames(&mut kit);
    c_decisions(&mut kit);
    c_refusals(&mut kit);
    kit
}

/// A list: lines such as `edit=+parent=a,b` and byte 10, here still as text.
pub fn list(kit: &mut Kit, name: &str, table: &str, calls: &[(&str, &[u8])], answers: &str) {
    let mut text = format!("table={table}\n");
    for (key, bytes) in calls {
        text += &format!("{key}={}\n", hex(bytes));
    }
    kit.case(name, text, answers);
}

const BLOCK: &[u8] = &[1, 4, 5, 0, 3, 0, 0, 0, 1, 0, 4, 10, 0, 0, 0];

fn words(kit: &mut Kit) {
    kit.says("\"Load and edits keep it equal to effective(k). Unused words are 0.\" and \"A first words of holders 0 to 5 are 0, 5, 15, 16, 15, 16\"; a request writes nothing.");
    let file = valley();
    let loaded = "load=0,27 words=4:5,8:f,12:10,16:f,20:10";
    let load = ("load", file.as_bytes());
    list(kit, "words-of-the-valley-file", "1024", &[load], loaded);
    list(kit, "words-on-a-table-in-use", "1024,0:ff,4:1,24:7,1023:ffffffffffffffff", &[load], loaded);
    let request = ("request", BLOCK);
    let answers = format!("{loaded} try=permit,0 words=4:5,8:f,12:10,16:f,20:10");
    list(kit, "words-after-a-request", "1024", &[load, request], &answers);
    let taken: (&str, &[u8]) = ("edit", b"-parent=season,day\n");
    let answers = format!("{loaded} edit=0,2,3 words=4:5,8:a,12:10,16:a,20:10");
    list(kit, "words-after-an-edit", "1024", &[load, taken], &answers);
    let two: [(&str, &[u8]); 3] =
        [load, ("edit", b"+value=day,zone,2\n"), ("edit", b"-value=season,zone,2\n")];
    let same = "words=4:d,8:f,12:10,16:f,20:10";
    list(kit, "words-of-case-g", "1024", &two, &format!("{loaded} edit=0,1,5 {same} edit=0,0,4 {same}"));
    let refused: [(&str, &[u8]); 3] =
        [load, ("edit", b"+parent=day,season\n"), ("edit", b"-member=p17,day\n")];
    let same = "words=4:5,8:f,12:10,16:f,20:10";
    list(
        kit,
        "words-after-refused-edits",
        "1024",
        &refused,
        &format!("{loaded} edit=12,0,0 {same} edit=14,0,0 {same}"),
    );
    let answers = format!("{loaded} edit=0,2,3 words=4:5,8:a,12:10,16:a,20:10 {loaded}");
    list(kit, "words-after-a-second-load", "1024", &[load, taken, load], &answers);
}

fn places(kit: &mut Kit) {
    kit.says("\"Holder k's stored set is the four words from word 4k; pair p is bit p modulo 64 (0 lowest) of word p/64 of these.\"");
    let pairs: String = (0..256).map(|value| format!("atom=user.n,{value}\n")).collect();
    let users: String = (1..256).map(|number| format!("user=p{number}\n")).collect();
    let values = "value=p255,n,0\nvalue=p255,n,63\nvalue=p255,n,64\nvalue=p255,n,255\n";
    let file = format!("rights=1\nattr=user,n,int\n{pairs}{users}{values}");
    let edits: [(&str, &[u8]); 3] =
        [("load", file.as_bytes()), ("edit", b"+value=p1,n,128\n"), ("edit", b"-value=p255,n,63\n")];
    let answers = "load=0,517 words=1020:8000000000000001,1021:1,1023:8000000000000000 \
                   edit=0,1,1 words=6:1,1020:8000000000000001,1021:1,1023:8000000000000000 \
                   edit=0,1,1 words=6:1,1020:1,1021:1,1023:8000000000000000";
    list(kit, "places-of-first-and-last-pairs", "1024", &edits, answers);
    let admin: [(&str, &[u8]); 1] =
        [("load", b"rights=1\nattr=admin,n,int\natom=admin.n,1\natom=admin.n,2\nvalue=admin,n,2\n")];
    list(kit, "places-of-admin", "1024", &admin, "load=0,5 words=0:2");
}

fn table_length(kit: &mut Kit) {
    kit.says("\"1: table not 1,024 words, any call. Table untouched\", before every other number.");
    let file = valley();
    let calls: [(&str, &[u8]); 5] = [
        ("load", file.as_bytes()),
        ("load", b""),
        ("edit", b"+parent=admin,admin\n"),
        ("edit", b""),
        ("request", BLOCK),
    ];
    for (length, words) in [("0", ""), ("1", "0:7"), ("1023", "0:7"), ("1025", "1024:7"), ("4096", "4095:7")]
    {
        let table = [length, words].join(if words.is_empty() { "" } else { "," });
        let answers = ["load=1,0", "load=1,0", "edit=1,0,0", "edit=1,0,0", "try=refused,1"]
            .map(|answer| format!("{answer} words={words}"));
        list(kit, &format!("table-of-{length}-words"), &table, &calls, &answers.join(" "));
    }
}

fn refused_loads(kit: &mut Kit) {
    kit.says("\"Book empty, table all 0\" after a refused file, whatever was loaded before.");
    let file = valley();
    let calls: [(&str, &[u8]); 5] = [
        ("load", file.as_bytes()),
        ("load", b"rights=1\nop=A\n"),
        ("edit", b"-parent=season,day\n"),
        ("edit", b"+parent=admin,admin\n"),
        ("request", BLOCK),
    ];
    let answers = "load=0,27 words=4:5,8:f,12:10,16:f,20:10 load=6,2 words= edit=8,0,0 words= \
                   edit=9,0,0 words= try=refused,16 words=";
    list(kit, "refused-load-after-a-good-one", "1024", &calls, answers);
    let empty: [(&str, &[u8]); 1] = [("load", b"")];
    list(kit, "refused-load-clears-a-table-in-use", "1024,0:1,1023:1", &empty, "load=3,1 words=");
    let long = vec![b'x'; 32_769];
    list(kit, "refused-load-over-32768-bytes", "1024,5:5", &[("load", &long)], "load=2,0 words=");
}

fn edit_frames(kit: &mut Kit) {
    kit.says(
        "\"4: ... no byte 10 or bytes after it, ... edit sign missing\": an edit call is one line, whole.",
    );
    let cases: [(&str, &[u8]); 9] = [
        ("edit-empty", b""),
        ("edit-byte-10-alone", b"\n"),
        ("edit-without-sign", b"value=u,z,1\n"),
        ("edit-other-sign", b"*value=u,z,1\n"),
        ("edit-without-byte-10", b"+value=u,z,1"),
        ("edit-byte-10-twice", b"+value=u,z,1\n\n"),
        ("edit-byte-behind", b"+value=u,z,1\n\0"),
        ("edit-two-lines", b"+value=u,z,1\n+value=v,z,1\n"),
        ("edit-byte-10-before", b"\n+value=u,z,1\n"),
    ];
    for (name, line) in cases {
        let calls: [(&str, &[u8]); 3] =
            [("load", DIAMOND.as_bytes()), ("edit", line), ("edit", b"+value=u,z,1\n")];
        let answers = "load=0,23 words= edit=4,0,0 words= edit=0,1,2 words=28:1";
        list(kit, name, "1024", &calls, answers);
    }
}

const C_FILE: &str = "rights=1\nattr=user,n,int\nattr=env,e,int\nop=o\natom=user.n,1\nugroup=g\nuser=u\n\
                      object=t\nmember=u,g\nvalue=g,n,1\nrule=o,user.n = 1 AND env.e < 9\n";

/// One call for hosts in C.
pub fn c(kit: &mut Kit, name: &str, table: &str, file: &[u8], block: &str, answers: &str) {
    let text = format!("table={table}\nc={},{}\n", hex(file), block.replace(' ', ""));
    kit.case(name, text, answers);
}

fn c_decisions(kit: &mut Kit) {
    kit.says("\"One call for hosts in C takes file, block and table, loads, then decides: 0 permit, 64 deny, 65 undefined, else the refusal. Table as after the load.\"");
    let cases = [
        ("c-permit", "01 02 03 00 01000000 01 00 0108000000", 0),
        ("c-deny", "01 02 03 00 01000000 01 00 0109000000", 64),
        ("c-undefined", "01 02 03 00 01000000 00 00", 65),
        ("c-15", "", 15),
        ("c-16", "01 01 03 00 01000000 00 00", 16),
        ("c-17", "01 02 03 00 02000000 00 00", 17),
    ];
    for (name, block, number) in cases {
        let answers = format!("c={number} words=4:1,8:1");
        c(kit, name, "1024,99:9", C_FILE.as_bytes(), block, &answers);
    }
    c(kit, "c-1", "1000,99:9", C_FILE.as_bytes(), "", "c=1 words=99:9");
}

fn c_refusals(kit: &mut Kit) {
    kit.says("A refused load gives its number, and the block is not looked at.");
    let deep = format!("rights=1\nop=o\nrule=o,{}\n", nine_deep());
    let ops = "rights=1\nop=a\nop=b\nop=c\nop=d\nop=e\nop=f\nop=g\nop=h\nop=i\n";
    let files: [(u8, &str); 10] = [
        (3, ""),
        (4, "rights=1\n\n"),
        (5, "rights=1\nuser=a\nop=a\n"),
        (6, "rights=1\nop=A\n"),
        (7, &deep),
        (8, "rights=1\nparent=a,b\n"),
        (9, "rights=1\nparent=admin,admin\n"),
        (10, "rights=1\nuser=admin\n"),
        (11, ops),
        (12, "rights=1\nugroup=g\nparent=g,g\n"),
    ];
    for (number, file) in files {
        let answers = format!("c={number} words=");
        c(kit, &format!("c-{number}"), "1024,99:9", file.as_bytes(), "", &answers);
    }
    c(kit, "c-2", "1024,99:9", &[b'x'; 32_769], "", "c=2 words=");
}
