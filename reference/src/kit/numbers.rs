//! Vectors for "Numbers a caller may meet": which number wins.

use super::files::{file_of, nine_deep};
use super::sets::DIAMOND;
use super::Kit;

pub fn kit() -> Kit {
    let mut kit = Kit::new("numbers");
    whole_call(&mut kit);
    within_a_line(&mut kit);
    policies(&mut kit);
    edits(&mut kit);
    after_refusal(&mut kit);
    kit
}

fn whole_call(kit: &mut Kit) {
    kit.says("\"Lower numbers win within a line or call; the first offending line of a file decides.\" 2 is about the whole file and comes before 3.");
    kit.case("2-before-3", format!("x{}", file_of(32_768)), "load=2,0");
    let wrong = file_of(32_768).replacen("rights=1", "rights=3", 1);
    kit.case("3-at-32768-bytes", wrong, "load=3,1");
    kit.case("2-before-4", format!("{}x", file_of(32_768)), "load=2,0");
    kit.case("6-in-an-earlier-line-than-4", "rights=1\nop=A\nx\n", "load=6,2");
    kit.case("10-in-an-earlier-line-than-6", "rights=1\nop=a\nop=a\nop=A\n", "load=10,3");
    kit.case("12-in-an-earlier-line-than-5", "rights=1\nugroup=g\nparent=g,g\nop=a\n", "load=12,3");
    kit.case("3-before-any-line", "rights=0\nx\n", "load=3,1");
}

fn within_a_line(kit: &mut Kit) {
    kit.says("\"Lower numbers win within a line\", whichever field they are about; 5 is judged against the line before, before any look at the fields.");
    let op = "rights=1\nop=o\n";
    kit.line("4-before-5-too-long", op, format!("attr=user,{}", "a".repeat(246)), 4);
    kit.line("5-at-255-bytes", op, format!("attr=user,{}", "a".repeat(245)), 5);
    kit.line("4-before-5-unknown-key", "rights=1\nuser=u\n", "aop=x", 4);
    kit.line("4-before-5-rights", "rights=1\nuser=u\n", "rights=1", 4);
    kit.case("4-before-5-no-byte-10", "rights=1\nop=o\nattr=user,a,int", "load=4,3");
    kit.line("5-before-6", op, "attr=,,", 5);
    kit.line("5-before-8", "rights=1\nuser=u\n", "atom=user.x,1", 5);
    kit.line("5-before-9", op, "attr=env,a,str", 5);
    kit.line("5-before-10", "rights=1\nop=o\nuser=u\n", "op=o", 5);
    let eight = "rights=1\nop=a\nop=b\nop=c\nop=d\nop=e\nop=f\nop=g\nop=h\nuser=u\n";
    kit.line("5-before-11", eight, "op=i", 5);
    kit.line("5-before-12", "rights=1\nugroup=g\nuser=u\nmember=u,g\n", "parent=g,g", 5);
    let head = "rights=1\nattr=user,i,int\nattr=env,e,int\natom=user.i,1\nugroup=g\nuser=u\n";
    kit.line("6-before-8-parent", head, "parent=x,G", 6);
    kit.line("6-before-8-value", head, "value=x,i,1a", 6);
    kit.line("6-before-9-attr", "rights=1\n", "attr=env,A,str", 6);
    kit.line("6-before-9-atom", "rights=1\nattr=env,e,int\n", "atom=env.e,\"", 6);
    kit.line("6-before-12", head, "parent=G,G", 6);
    kit.line("8-before-9-parent", head, "parent=u,x", 8);
    kit.line("8-before-9-member", head, "member=g,x", 8);
    kit.line("8-before-9-atom", "rights=1\nattr=env,e,int\n", "atom=env.x,\"1\"", 8);
    kit.line("8-before-12", head, "parent=x,x", 8);
    kit.line("9-before-12", head, "parent=u,u", 9);
    kit.line("9-before-12-admin", head, "parent=admin,admin", 9);
}

fn policies(kit: &mut Kit) {
    kit.says("\"6: ... policy malformed, the policy judged without the limits of 7\"; then 7, then 8, over both fields of a rule.");
    let head = "rights=1\nattr=user,i,int\nop=o\n";
    let deep = nine_deep();
    kit.line("6-before-7", head, format!("rule=o,{deep} TRUE"), 6);
    kit.line("6-before-7-operation", head, format!("rule=O,{deep}"), 6);
    kit.line("6-before-8-rule", head, "rule=x,TRUE TRUE", 6);
    kit.line("6-before-8-attribute", head, "rule=o,user.x = TRUE", 6);
    kit.line("7-before-8-operation", head, format!("rule=x,{deep}"), 7);
    kit.line("7-before-8-attribute", head, format!("rule=o,{deep} OR user.x"), 7);
    kit.line("8-operation-and-attribute", head, "rule=x,user.x", 8);
}

fn edits(kit: &mut Kit) {
    kit.says("\"13: another known key; comes after 4, before the rest. 14: `-` of a tie not standing.\"");
    let cases = [
        ("edit-6-before-8", "+parent=x,Top", "6"),
        ("edit-6-before-14", "-parent=alone,Top", "6"),
        ("edit-8-before-9", "+member=top,x", "8"),
        ("edit-8-before-14", "-member=u,x", "8"),
        ("edit-9-before-12", "+parent=u,u", "9"),
        ("edit-9-before-14", "-parent=u,u", "9"),
        ("edit-13-before-6", "+attr=user", "13"),
        ("edit-13-before-8", "-rule=x,user.x", "13"),
        ("edit-13-before-10", "+ugroup=top", "13"),
        ("edit-13-not-14", "-user=nobody", "13"),
        ("edit-14-not-12", "-parent=top,low", "14"),
    ];
    for (name, line, number) in cases {
        let input = format!("{DIAMOND}end=\n{line}\n");
        kit.case(name, input, &format!("load=0,23 edit={number},0,0"));
    }
    let long = format!("{DIAMOND}end=\n+op={}\n", "a".repeat(253));
    kit.case("edit-4-before-13", long, "load=0,23 edit=4,0,0");
}

fn after_refusal(kit: &mut Kit) {
    kit.says("\"Ticket office, file ... Book empty, table all 0\": every number of a file, then an edit that only the empty book's admin answers with 9, and a block.");
    let head = "rights=1\nattr=user,i,int\nop=o\natom=user.i,1\nugroup=g\nuser=u\nobject=t\n";
    let ops = "rights=1\nop=a\nop=b\nop=c\nop=d\nop=e\nop=f\nop=g\nop=h\nop=i\n".to_string();
    let files = [
        ("3", "rights\n".to_string(), 1),
        ("4", format!("{head}what\n"), 8),
        ("5", format!("{head}op=p\n"), 8),
        ("6", format!("{head}value=u,i,I\n"), 8),
        ("7", format!("{head}rule=o,{}\n", nine_deep()), 8),
        ("8", format!("{head}value=u,i,2\n"), 8),
        ("9", format!("{head}parent=u,g\n"), 8),
        ("10", format!("{head}value=u,i,1\nvalue=u,i,1\n"), 9),
        ("11", ops, 10),
        ("12", format!("{head}parent=g,g\n"), 8),
    ];
    for (number, file, line) in files {
        let input = format!("{file}end=\n+value=u,i,1\n+parent=admin,admin\ntry=01020300000000000000\n");
        let answers = format!("load={number},{line} edit=8,0,0 edit=9,0,0 try=refused,16");
        kit.case(&format!("empty-book-after-{number}"), input, &answers);
    }
}
