//! Vectors for "Edits".

use super::sets::DIAMOND;
use super::Kit;

pub fn kit() -> Kit {
    let mut kit = Kit::new("edits");
    frames(&mut kit);
    other_keys(&mut kit);
    fields(&mut kit);
    lookups(&mut kit);
    standing(&mut kit);
    not_standing(&mut kit);
    counts(&mut kit);
    empty_book(&mut kit);
    kit
}

/// One edit on the diamond: its line, and the answer's number, count and joins.
fn one(kit: &mut Kit, name: &str, line: &str, answer: &str) {
    let input = format!("{DIAMOND}end=\n{line}\n");
    kit.case(name, input, &format!("load=0,23 edit={answer}"));
}

/// The same line with either sign, answered alike.
fn both(kit: &mut Kit, name: &str, line: &str, answer: &str) {
    let input = format!("{DIAMOND}end=\n+{line}\n-{line}\n");
    let answers = format!("load=0,23 edit={answer} edit={answer}");
    kit.case(name, input, &answers);
}

fn several(kit: &mut Kit, name: &str, lines: &[&str], answers: &str) {
    let input = format!("{DIAMOND}end=\n{}\n", lines.join("\n"));
    kit.case(name, input, &format!("load=0,23 {answers}"));
}

fn frames(kit: &mut Kit) {
    kit.says("\"`+` or `-` before one whole parent, member or value line with its byte 10\"; else 4, `rights` and unknown keys too.");
    let cases = [
        ("sign-alone-plus", "+"),
        ("sign-alone-minus", "-"),
        ("sign-doubled", "++parent=alone,top"),
        ("sign-other-behind", "+-parent=alone,top"),
        ("space-behind-sign", "+ parent=alone,top"),
        ("no-equals", "+parent"),
        ("key-unknown", "+parents=alone,top"),
        ("key-capitals", "+PARENT=alone,top"),
        ("key-rights", "+rights=1"),
        ("key-rights-taken", "-rights=1"),
        ("key-end", "+end="),
        ("key-try", "+try=01"),
        ("key-empty", "+=alone,top"),
        ("key-apart", "+apart=left,right"),
    ];
    for (name, line) in cases {
        one(kit, name, line, "4,0,0");
    }
    let unended = format!("{DIAMOND}end=\n+parent=alone,top");
    kit.case("last-line-without-byte-10", unended, "load=0,23 edit=4,0,0");
    kit.says("\"the sign is not counted in its length\": 255 bytes behind it are judged on.");
    let long = |key: &str, length: usize| {
        format!("+{}", format_args!("{key}={}", "b".repeat(length - key.len() - 1)))
    };
    one(kit, "tie-line-of-255-bytes", &long("parent", 255), "6,0,0");
    one(kit, "tie-line-of-256-bytes", &long("parent", 256), "4,0,0");
    one(kit, "other-line-of-255-bytes", &long("user", 255), "13,0,0");
    one(kit, "other-line-of-256-bytes", &long("user", 256), "4,0,0");
}

fn other_keys(kit: &mut Kit) {
    kit.says("\"13: another known key; comes after 4, before the rest\": whatever its fields look like, with either sign.");
    let lines = [
        ("attr", "attr=user,y,int"),
        ("op", "op=y"),
        ("atom", "atom=user.z,3"),
        ("ugroup", "ugroup=y"),
        ("ogroup", "ogroup=y"),
        ("user", "user=y"),
        ("object", "object=y"),
        ("rule", "rule=o,TRUE"),
    ];
    for (key, line) in lines {
        both(kit, &format!("other-key-{key}"), line, "13,0,0");
    }
    one(kit, "other-key-empty-fields", "+attr=", "13,0,0");
    one(kit, "other-key-malformed-policy", "+rule=o,((", "13,0,0");
    one(kit, "other-key-repeated", "+user=u", "13,0,0");
}

fn fields(kit: &mut Kit) {
    kit.says("\"6: field count, SRC, TYPE, name, atom or policy malformed\", with either sign.");
    let cases = [
        ("malformed-parent-one-field", "parent=alone"),
        ("malformed-parent-three-fields", "parent=alone,top,top"),
        ("malformed-parent-capital", "parent=Alone,top"),
        ("malformed-parent-cr", "parent=alone,top\r"),
        ("malformed-member-space", "member=v, low"),
        ("malformed-value-two-fields", "value=u,z"),
        ("malformed-value-leading-zero", "value=u,z,01"),
        ("malformed-value-dotted", "value=u,user.z,1"),
        ("malformed-value-empty-atom", "value=u,z,"),
    ];
    for (name, line) in cases {
        both(kit, name, line, "6,0,0");
    }
}

fn lookups(kit: &mut Kit) {
    kit.says("\"8: undeclared name or pair\" and \"9: parent or member of the wrong sort\", with either sign; admin is declared, so it is of the wrong sort.");
    let cases = [
        ("undeclared-child", "parent=x,top", "8,0,0"),
        ("undeclared-parent", "parent=alone,x", "8,0,0"),
        ("undeclared-party", "member=x,top", "8,0,0"),
        ("undeclared-group", "member=u,x", "8,0,0"),
        ("undeclared-holder", "value=x,z,1", "8,0,0"),
        ("undeclared-attribute", "value=u,y,1", "8,0,0"),
        ("undeclared-pair", "value=u,z,3", "8,0,0"),
        ("undeclared-pair-of-the-source", "value=t,z,2", "8,0,0"),
        ("undeclared-pair-of-the-type", "value=u,z,\"1\"", "8,0,0"),
        ("undeclared-pair-of-admin", "value=admin,z,1", "8,0,0"),
        ("undeclared-min-group", "parent=alone,min_group", "8,0,0"),
        ("undeclared-and-wrong-sort", "parent=u,x", "8,0,0"),
        ("wrong-sort-two-sorts", "parent=top,area", "9,0,0"),
        ("wrong-sort-user-as-child", "parent=u,top", "9,0,0"),
        ("wrong-sort-user-itself", "parent=u,u", "9,0,0"),
        ("wrong-sort-admin-child", "parent=admin,top", "9,0,0"),
        ("wrong-sort-admin-parent", "parent=alone,admin", "9,0,0"),
        ("wrong-sort-user-in-ogroup", "member=u,area", "9,0,0"),
        ("wrong-sort-object-in-ugroup", "member=t,top", "9,0,0"),
        ("wrong-sort-group-as-party", "member=alone,top", "9,0,0"),
        ("wrong-sort-admin-party", "member=admin,top", "9,0,0"),
        ("wrong-sort-admin-group", "member=u,admin", "9,0,0"),
    ];
    for (name, line, answer) in cases {
        both(kit, name, line, answer);
    }
}

fn standing(kit: &mut Kit) {
    kit.says("\"10: already declared or standing.\"");
    one(kit, "standing-parent", "+parent=left,top", "10,0,0");
    one(kit, "standing-member", "+member=u,low", "10,0,0");
    several(kit, "standing-value", &["+value=v,z,1", "+value=v,z,1"], "edit=0,1,1 edit=10,0,0");
    kit.says("\"12: parent tie that closes a circle, itself included.\"");
    one(kit, "circle-itself", "+parent=top,top", "12,0,0");
    one(kit, "circle-of-two", "+parent=top,left", "12,0,0");
    one(kit, "circle-of-three", "+parent=top,low", "12,0,0");
    several(
        kit,
        "circle-opened",
        &["+parent=top,left", "-parent=left,top", "+parent=top,left", "+parent=left,top"],
        "edit=12,0,0 edit=0,0,6 edit=0,0,9 edit=12,0,0",
    );
    several(
        kit,
        "circle-through-an-edit",
        &["+parent=alone,low", "+parent=top,alone", "-parent=alone,low", "+parent=top,alone"],
        "edit=0,0,2 edit=12,0,0 edit=0,0,1 edit=0,0,11",
    );
}

fn not_standing(kit: &mut Kit) {
    kit.says("\"14: `-` of a tie not standing.\" and \"A `-` line never gets 10 or 12.\"");
    one(kit, "not-standing-parent", "-parent=alone,top", "14,0,0");
    one(kit, "not-standing-turned", "-parent=top,left", "14,0,0");
    one(kit, "not-standing-itself", "-parent=top,top", "14,0,0");
    one(kit, "not-standing-member-of-group-above", "-member=u,top", "14,0,0");
    one(kit, "not-standing-value", "-value=u,z,1", "14,0,0");
    several(
        kit,
        "not-standing-inherited-value",
        &["+value=top,z,1", "-value=u,z,1", "-value=low,z,1"],
        "edit=0,5,10 edit=14,0,0 edit=14,0,0",
    );
    several(
        kit,
        "not-standing-taken-twice",
        &["-member=u,low", "-member=u,low", "+member=u,low", "-member=u,low"],
        "edit=0,0,1 edit=14,0,0 edit=0,0,2 edit=0,0,1",
    );
}

fn counts(kit: &mut Kit) {
    kit.says("\"The answer is 0 and the number of holders whose stored set changed.\" It is 0 where no set changes.");
    one(kit, "count-parent-without-values", "+parent=alone,top", "0,0,2");
    one(kit, "count-taken-parent-without-values", "-parent=low,left", "0,0,4");
    several(
        kit,
        "count-edited-holder-unchanged",
        &["+value=left,z,1", "+value=top,z,1", "-value=left,z,1", "+member=v,low", "-member=v,low"],
        "edit=0,3,7 edit=0,2,10 edit=0,0,7 edit=0,1,2 edit=0,1,1",
    );
    several(
        kit,
        "count-many-members",
        &["+member=v,low", "+value=top,z,2", "+value=right,z,2", "-parent=right,top", "-parent=left,top"],
        "edit=0,0,2 edit=0,6,12 edit=0,0,9 edit=0,0,8 edit=0,1,8",
    );
    kit.says("\"a refused edit changes nothing\"");
    several(
        kit,
        "refused-edits-change-nothing",
        &[
            "+value=top,z,1",
            "+value=top,z,1",
            "+parent=top,low",
            "-value=low,z,1",
            "+member=t,top",
            "-value=top,z,1",
        ],
        "edit=0,5,10 edit=10,0,0 edit=12,0,0 edit=14,0,0 edit=9,0,0 edit=0,5,10",
    );
}

fn empty_book(kit: &mut Kit) {
    kit.says("\"After a refused load it goes on with the empty book.\" admin is always there, so it is declared in the empty book too.");
    let lines = "+parent=admin,admin\n-parent=admin,admin\n+member=admin,admin\n+parent=left,top\n\
                 +value=admin,z,1\n+value=u,z,1\n-member=u,low\n+parent=Left,top\n+op=a\n+x=\n+parent=admin,top\n";
    kit.case(
        "edits-on-the-empty-book",
        format!("rights=2\nend=\n{lines}"),
        "load=3,1 edit=9,0,0 edit=9,0,0 edit=9,0,0 edit=8,0,0 edit=8,0,0 edit=8,0,0 edit=8,0,0 edit=6,0,0 edit=13,0,0 edit=4,0,0 edit=8,0,0",
    );
    let late = format!(
        "{DIAMOND}rule=o,FALSE FALSE\nend=\n+parent=alone,top\n-parent=left,top\n-parent=admin,admin\n"
    );
    kit.case("nothing-left-of-a-refused-file", late, "load=6,24 edit=8,0,0 edit=8,0,0 edit=9,0,0");
}
