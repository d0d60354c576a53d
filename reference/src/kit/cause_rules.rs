//! Vectors for document 02, E2: the cause of a decision, where rules of one
//! operation meet, where block and edits change it, and what is printed.

use super::causes::parts;
use super::library::{c, list};
use super::Kit;
use crate::calls::hex;
use crate::office::read_hex;

/// The attributes that `parts` writes, and object.n: user 2 holds s "a" and n 1,
/// object 3 nothing. Operations 0 pass and 1 other. 17 lines.
const BOOK: &str = "rights=1
attr=user,s,str
attr=user,n,int
attr=user,no_n,int
attr=object,n,int
attr=env,no_b,bool
op=pass
op=other
atom=user.s,\"a\"
atom=user.n,1
atom=object.n,1
atom=object.n,2
ogroup=area
user=u
object=t
value=u,s,\"a\"
value=u,n,1
";

/// User u at object t with s and n activated.
const PASS: &str = "01 02 03 00 03000000 00 00";
const OTHER: &str = "01 02 03 01 03000000 00 00";

/// `BOOK` with rules such as `pass a` (an operation and a template).
fn with_rules(rules: &[&str]) -> String {
    let line = |rule: &&str| {
        let (operation, template) = rule.split_once(' ').expect("an operation and a template");
        format!("rule={operation},{}\n", parts(template))
    };
    format!("{BOOK}{}", rules.iter().map(line).collect::<String>())
}

fn tried(block: &str) -> String {
    format!("try={}\n", block.replace(' ', ""))
}

/// The pass block.
pub fn kit() -> Kit {
    let mut kit = Kit::new("pass-block");
    several(&mut kit);
    other_rules(&mut kit);
    false_rules(&mut kit);
    all_rules(&mut kit);
    blocks(&mut kit);
    kit
}

fn decided(kit: &mut Kit, name: &str, rules: &[&str], answer: &str) {
    let input = format!("{}end=\n{}", with_rules(rules), tried(PASS));
    kit.case(name, input, &format!("load=0,{} try={answer}", 17 + rules.len()));
}

fn several(kit: &mut Kit) {
    kit.says("Document 02, E2: \"A decision is undefined-absent if one of its UNDEF rules is absent.\" One is enough, in any place; a permit or a deny has no cause.");
    decided(kit, "cause-absent-then-unlike", &["pass a", "pass u"], "undefined,absent");
    decided(kit, "cause-unlike-then-absent", &["pass u", "pass a"], "undefined,absent");
    decided(kit, "cause-absent-between-unlike", &["pass u", "pass l", "pass c"], "undefined,absent");
    decided(kit, "cause-unlike-between-absent", &["pass l", "pass c", "pass a"], "undefined,absent");
    decided(kit, "cause-all-absent", &["pass a", "pass l"], "undefined,absent");
    decided(kit, "cause-all-unlike", &["pass u", "pass c", "pass n"], "undefined,unlike");
    decided(kit, "cause-repeated-rule", &["pass u", "pass u"], "undefined,unlike");
    decided(kit, "cause-permit-behind-absent", &["pass a", "pass t"], "permit,1");
    decided(kit, "cause-permit-before-absent", &["pass t", "pass a"], "permit,0");
    decided(kit, "cause-permit-behind-both", &["pass u", "pass a", "pass c", "pass t"], "permit,3");
}

fn other_rules(kit: &mut Kit) {
    kit.says("Document 02, E2: \"one of its UNDEF rules\": its rules are those of the operation, as \"The rules of the operation are evaluated\"; what is lacking in rules of another counts for nothing.");
    decided(kit, "cause-other-operation-absent-first", &["other a", "pass u"], "undefined,unlike");
    decided(kit, "cause-other-operation-absent-last", &["pass u", "other a"], "undefined,unlike");
    decided(kit, "cause-other-operation-unlike", &["other u", "pass a", "other c"], "undefined,absent");
    decided(kit, "cause-other-operation-true", &["other t", "pass u"], "undefined,unlike");
    decided(kit, "cause-other-operation-and-deny", &["other a", "pass f", "other u"], "deny");
    let rules = ["pass u", "other a", "pass f", "other c"];
    let input = format!("{}end=\n{}{}{}", with_rules(&rules), tried(PASS), tried(OTHER), tried(PASS));
    let answers = "load=0,21 try=undefined,unlike try=undefined,absent try=undefined,unlike";
    kit.case("cause-of-each-operation", input, answers);
}

fn false_rules(kit: &mut Kit) {
    kit.says("Document 02, E2: \"one of its UNDEF rules\": a rule that is FALSE is none of them, also if something is lacking in it.");
    decided(kit, "cause-false-then-unlike", &["pass f", "pass u"], "undefined,unlike");
    decided(kit, "cause-unlike-then-false", &["pass u", "pass f"], "undefined,unlike");
    decided(kit, "cause-false-around-absent", &["pass f", "pass a", "pass f"], "undefined,absent");
    decided(kit, "cause-absent-part-of-false", &["pass f AND a", "pass u"], "undefined,unlike");
    decided(kit, "cause-absent-part-of-false-last", &["pass c", "pass a AND f"], "undefined,unlike");
    decided(kit, "cause-absent-parts-of-false-alone", &["pass a AND f", "pass f AND l"], "deny");
    decided(kit, "cause-absent-part-of-true", &["pass u", "pass a OR t"], "permit,1");
    decided(kit, "cause-absent-part-of-unlike", &["pass c", "pass f AND a OR u"], "undefined,unlike");
}

fn all_rules(kit: &mut Kit) {
    kit.says("Document 02, E2: \"one of its UNDEF rules\", among 32 of them.");
    let mut rules = vec!["pass u"; 32];
    decided(kit, "cause-32-unlike", &rules, "undefined,unlike");
    rules[31] = "pass a";
    decided(kit, "cause-last-of-32-absent", &rules, "undefined,absent");
    rules.swap(0, 31);
    decided(kit, "cause-first-of-32-absent", &rules, "undefined,absent");
    rules[31] = "pass t";
    decided(kit, "cause-permit-by-last-of-32", &rules, "permit,31");
}

fn blocks(kit: &mut Kit) {
    kit.says("Document 02, E2, and \"`user.` names read the user's effective values of activated attributes only\" and \"`env.` and `connect.` the entries\": one that is not activated or has no entry lacks values, with it the types count.");
    let file = format!("{BOOK}rule=pass,user.s = 1\nrule=other,user.n = 1\n");
    let tries = ["00 03000000", "00 02000000", "00 00000000", "01 01000000", "01 02000000"];
    let tries = tries.map(|rest| tried(&format!("01 02 03 {rest} 00 00"))).concat();
    let answers = "try=undefined,unlike try=undefined,absent try=undefined,absent \
                   try=undefined,absent try=permit,1";
    kit.case("cause-by-activation", format!("{file}end=\n{tries}"), &format!("load=0,19 {answers}"));
    let file = "rights=1\nattr=env,hour,int\nattr=connect,lane,int\nop=pass\nop=other\nuser=u\nobject=t\n\
                rule=pass,env.hour = \"noon\"\nrule=other,connect.lane\n";
    let tries = [
        "00 00000000 00 00",
        "00 00000000 01 00 000c000000",
        "00 00000000 01 00 010c000000",
        "01 00000000 00 00",
        "01 00000000 01 00 0101000000",
        "01 00000000 01 00 0001000000",
    ];
    let tries = tries.map(|rest| tried(&format!("01 01 02 {rest}"))).concat();
    let answers = "try=undefined,absent try=undefined,unlike try=undefined,absent \
                   try=undefined,absent try=undefined,unlike try=undefined,absent";
    kit.case("cause-by-entry", format!("{file}end=\n{tries}"), &format!("load=0,9 {answers}"));
}

/// The office program.
pub fn office() -> Kit {
    let mut kit = Kit::new("office-program");
    printed(&mut kit);
    edited(&mut kit);
    kit
}

fn printed(kit: &mut Kit) {
    kit.says("Document 02, E2: \"`gate` prints `try=undefined,absent` or `try=undefined,unlike`\", with no rule number; a permit, a deny and a refusal are printed as before.");
    let file = format!("{}end=\n", with_rules(&["pass a", "other u"]));
    let (pass, other) = (tried(PASS), tried(OTHER));
    kit.case("cause-printed-absent", format!("{file}{pass}"), "load=0,19 try=undefined,absent");
    kit.case("cause-printed-unlike", format!("{file}{other}"), "load=0,19 try=undefined,unlike");
    let last = other.trim_end();
    let answers = "load=0,19 try=undefined,absent try=refused,15 bad= try=undefined,unlike \
                   try=refused,17 try=undefined,unlike";
    let refused = tried("01 02 03 00 04000000 00 00");
    let input = format!("{file}{pass}try=\nx\n{other}{refused}{last}");
    kit.case("cause-printed-in-turn", input, answers);
    let each = with_rules(&["pass t", "other f"]);
    let input = format!("{each}end=\n{pass}{other}");
    kit.case("cause-printed-for-undefined-alone", input, "load=0,19 try=permit,0 try=deny");
}

fn edited(kit: &mut Kit) {
    kit.says("Document 02, E2, after edits: the cause is that of the sets as they stand, of a group's too.");
    let pass = tried(PASS);
    let file = format!("{BOOK}rule=pass,user.n = object.n\nend=\n");
    let lines = format!("{pass}+value=t,n,2\n{pass}+value=t,n,1\n{pass}-value=t,n,2\n-value=t,n,1\n{pass}");
    let answers = "load=0,18 try=undefined,absent edit=0,1,1 try=deny edit=0,1,1 try=permit,0 \
                   edit=0,1,1 edit=0,1,1 try=undefined,absent";
    kit.case("cause-edited-from-absent-to-permit", format!("{file}{lines}"), answers);
    let file = format!("{BOOK}rule=pass,user.s = object.n\nend=\n");
    let lines = format!(
        "{pass}+value=area,n,1\n{pass}+member=t,area\n{pass}+value=t,n,1\n{pass}-member=t,area\n{pass}\
         -value=t,n,1\n{pass}"
    );
    let answers = "load=0,18 try=undefined,absent edit=0,1,1 try=undefined,absent edit=0,1,2 \
                   try=undefined,unlike edit=0,0,2 try=undefined,unlike edit=0,0,1 try=undefined,unlike \
                   edit=0,1,1 try=undefined,absent";
    kit.case("cause-edited-from-absent-to-unlike", format!("{file}{lines}"), answers);
    let admin = "rights=1\nattr=admin,n,int\nop=o\natom=admin.n,1\nuser=u\nobject=t\nrule=o,admin.n\nend=\n";
    let pass = "try=01010200000000000000\n";
    let lines = format!("{pass}+value=admin,n,1\n{pass}-value=admin,n,1\n{pass}");
    let answers =
        "load=0,7 try=undefined,absent edit=0,1,1 try=undefined,unlike edit=0,1,1 try=undefined,absent";
    kit.case("cause-edited-admin", format!("{admin}{lines}"), answers);
}

/// Calls of the library.
pub fn calls() -> Kit {
    let mut kit = Kit::new("library");
    requests(&mut kit);
    for_hosts_in_c(&mut kit);
    kit
}

fn bytes(block: &str) -> Vec<u8> {
    read_hex(block.replace(' ', "").as_bytes()).expect("hex pairs")
}

fn requests(kit: &mut Kit) {
    kit.says("Document 02, E2: \"printed results are compared with that text from here on\": a call list prints the cause of a request as `gate` does.");
    let file = format!("{BOOK}rule=pass,user.s = object.n\nrule=other,UNDEF\n");
    let (pass, other) = (bytes(PASS), bytes(OTHER));
    let calls: [(&str, &[u8]); 6] = [
        ("load", file.as_bytes()),
        ("request", &pass),
        ("request", &other),
        ("edit", b"+value=t,n,2\n"),
        ("request", &pass),
        ("request", b""),
    ];
    let (before, after) = ("words=8:3", "words=8:3,12:8");
    let answers = format!(
        "load=0,19 {before} try=undefined,absent {before} try=undefined,unlike {before} edit=0,1,1 {after} \
         try=undefined,unlike {after} try=refused,15 {after}"
    );
    list(kit, "cause-of-requests", "1024", &calls, &answers);
}

fn for_hosts_in_c(kit: &mut Kit) {
    kit.says("Document 02, E2: \"The C call keeps 65 for both.\"");
    let words = "words=8:3";
    let mut number = |name: &str, rules: &[&str], number: u8| {
        c(kit, name, "1024", with_rules(rules).as_bytes(), PASS, &format!("c={number} {words}"));
    };
    number("cause-c-absent", &["pass a"], 65);
    number("cause-c-unlike", &["pass u"], 65);
    number("cause-c-absent-and-unlike", &["pass a", "pass u"], 65);
    number("cause-c-absent-and-permit", &["pass a", "pass t"], 0);
    number("cause-c-absent-part-of-false", &["pass a AND f"], 64);
    let (file, block) = (hex(with_rules(&["pass c"]).as_bytes()), PASS.replace(' ', ""));
    let input = format!("table=1024\nload={file}\nrequest={block}\nc={file},{block}\n");
    let answers = format!("load=0,18 {words} try=undefined,unlike {words} c=65 {words}");
    kit.case("cause-c-behind-a-request", input, &answers);
}
