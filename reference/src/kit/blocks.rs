//! Vectors for "The pass block".

use super::Kit;

/// User 3 (in group 1) and object 4; operations 0 o, 1 q, 2 none; attributes
/// 0 user.n (held by the group), 1 user.m (not held), 2 object.n, 3 admin.n,
/// 4 env.e, 5 env.b, 6 connect.c.
const BOOK: &str = "rights=1
attr=user,n,int
attr=user,m,int
attr=object,n,int
attr=admin,n,int
attr=env,e,int
attr=env,b,bool
attr=connect,c,int
op=o
op=q
op=none
atom=user.n,1
atom=object.n,1
ugroup=g
ogroup=h
user=u
object=t
member=u,g
value=g,n,1
value=t,n,1
rule=q,FALSE
rule=o,user.n = object.n AND env.e < 9
rule=o,env.b
rule=q,connect.c = {1,300}
rule=o,user.n = 1 AND NOT env.b
";

pub fn kit() -> Kit {
    let mut kit = Kit::new("pass-block");
    frame(&mut kit);
    numbers(&mut kit);
    entries(&mut kit);
    mask(&mut kit);
    several(&mut kit);
    decisions(&mut kit);
    sets_of_entries(&mut kit);
    kit
}

fn block(kit: &mut Kit, name: &str, hex: &str, answer: &str) {
    let digits = hex.replace(' ', "");
    let input = format!("{BOOK}end=\ntry={digits}\n");
    kit.case(name, input, &format!("load=0,25 try={answer}"));
}

fn each(kit: &mut Kit, answer: &str, cases: &[(&str, &str)]) {
    for (name, hex) in cases {
        block(kit, name, hex, answer);
    }
}

fn frame(kit: &mut Kit) {
    kit.says("\"15: byte 0, 8, 9 or length wrong.\" \"Length exactly 10 + 5n\", n 0 to 8.");
    each(
        kit,
        "refused,15",
        &[
            ("frame-0-bytes", ""),
            ("frame-1-byte", "01"),
            ("frame-9-bytes", "01 03 04 00 01000000 00"),
            ("frame-11-bytes", "01 03 04 00 01000000 00 00 00"),
            ("frame-byte-0-is-0", "00 03 04 00 01000000 00 00"),
            ("frame-byte-0-is-2", "02 03 04 00 01000000 00 00"),
            ("frame-byte-9-is-1", "01 03 04 00 01000000 00 01"),
            ("frame-n-1-without-entry", "01 03 04 00 01000000 01 00"),
            ("frame-n-0-with-entry", "01 03 04 00 01000000 00 00 0408000000"),
            ("frame-entry-cut", "01 03 04 00 01000000 01 00 04080000"),
            ("frame-entry-too-long", "01 03 04 00 01000000 01 00 040800000000"),
            ("frame-n-255", "01 03 04 00 01000000 ff 00"),
        ],
    );
    let entry = "0408000000";
    let nine = format!("01 03 04 00 01000000 09 00 {}", entry.repeat(9));
    block(kit, "frame-n-9-of-right-length", &nine, "refused,15");
    let eight = format!("01 03 04 00 01000000 08 00 {}", entry.repeat(8));
    block(kit, "frame-n-8", &eight, "permit,1");
}

fn numbers(kit: &mut Kit) {
    kit.says(
        "\"16: unknown or wrong-sort number\": byte 1 must be a user, byte 2 an object, byte 3 an operation.",
    );
    each(
        kit,
        "refused,16",
        &[
            ("user-is-admin", "01 00 04 00 01000000 00 00"),
            ("user-is-ugroup", "01 01 04 00 01000000 00 00"),
            ("user-is-ogroup", "01 02 04 00 01000000 00 00"),
            ("user-is-object", "01 04 04 00 01000000 00 00"),
            ("user-unknown", "01 05 04 00 01000000 00 00"),
            ("user-255", "01 ff 04 00 01000000 00 00"),
            ("object-is-admin", "01 03 00 00 01000000 00 00"),
            ("object-is-ogroup", "01 03 02 00 01000000 00 00"),
            ("object-is-user", "01 03 03 00 01000000 00 00"),
            ("object-unknown", "01 03 05 00 01000000 00 00"),
            ("user-and-object-swapped", "01 04 03 00 01000000 00 00"),
            ("operation-unknown", "01 03 04 03 01000000 00 00"),
            ("operation-255", "01 03 04 ff 01000000 00 00"),
        ],
    );
}

fn entries(kit: &mut Kit) {
    kit.says("\"16: ... entry not env or connect, bool above 1\": judged on all 32 bits, and whether or not a rule reads the entry.");
    each(
        kit,
        "refused,16",
        &[
            ("entry-of-user-attribute", "01 03 04 00 01000000 01 00 0001000000"),
            ("entry-of-object-attribute", "01 03 04 00 01000000 01 00 0201000000"),
            ("entry-of-admin-attribute", "01 03 04 00 01000000 01 00 0301000000"),
            ("entry-of-unknown-attribute", "01 03 04 00 01000000 01 00 0701000000"),
            ("entry-of-attribute-255", "01 03 04 00 01000000 01 00 ff01000000"),
            ("entry-bool-2", "01 03 04 00 01000000 01 00 0502000000"),
            ("entry-bool-256", "01 03 04 00 01000000 01 00 0500010000"),
            ("entry-bool-highest-bit", "01 03 04 00 01000000 01 00 0500000080"),
            ("entry-second-is-wrong", "01 03 04 00 01000000 02 00 0408000000 0208000000"),
            ("entry-not-read-by-a-rule", "01 03 04 02 00000000 01 00 0502000000"),
        ],
    );
}

fn mask(kit: &mut Kit) {
    kit.says("\"17: activated bit that is no user attribute held by that user\": held is effective, so by a group too; bits without attribute are 17.");
    each(
        kit,
        "refused,17",
        &[
            ("mask-attribute-not-held", "01 03 04 00 02000000 00 00"),
            ("mask-object-attribute", "01 03 04 00 04000000 00 00"),
            ("mask-admin-attribute", "01 03 04 00 08000000 00 00"),
            ("mask-env-attribute", "01 03 04 00 10000000 00 00"),
            ("mask-connect-attribute", "01 03 04 00 40000000 00 00"),
            ("mask-bit-without-attribute", "01 03 04 00 80000000 00 00"),
            ("mask-highest-bit", "01 03 04 00 00000080 00 00"),
            ("mask-held-and-not-held", "01 03 04 00 03000000 00 00"),
            ("mask-high-byte-first", "01 03 04 00 00000001 00 00"),
            ("mask-env-attribute-with-entry", "01 03 04 00 10000000 01 00 0408000000"),
        ],
    );
    block(kit, "mask-held-by-group", "01 03 04 00 01000000 01 00 0408000000", "permit,1");
    block(kit, "mask-0", "01 03 04 00 00000000 01 00 0501000000", "permit,2");
}

fn several(kit: &mut Kit) {
    kit.says("\"Lower numbers win within a line or call\": 15, then 16, then 17.");
    block(kit, "several-15-and-16", "02 00 04 00 01000000 00 00", "refused,15");
    block(kit, "several-15-and-17", "01 03 04 00 02000000 00 01", "refused,15");
    block(kit, "several-16-and-17", "01 03 04 03 02000000 00 00", "refused,16");
    block(kit, "several-entry-and-17", "01 03 04 00 80000000 01 00 0001000000", "refused,16");
    block(kit, "several-all", "00 00 00 ff ffffffff 09 01 ffffffffff", "refused,15");
}

fn decisions(kit: &mut Kit) {
    kit.says("\"The rules of the operation are evaluated. Permit, with the lowest TRUE rule number; else undefined if some is UNDEF; else deny.\" Rule numbers run over the whole file.");
    let cases = [
        ("decide-no-entries", "01 03 04 00 01000000 00 00", "undefined,absent"),
        ("decide-first-rule", "01 03 04 00 01000000 01 00 0408000000", "permit,1"),
        ("decide-undef-stays", "01 03 04 00 01000000 01 00 0409000000", "undefined,absent"),
        ("decide-second-rule", "01 03 04 00 01000000 02 00 0409000000 0501000000", "permit,2"),
        ("decide-lowest-of-two", "01 03 04 00 01000000 02 00 0408000000 0501000000", "permit,1"),
        ("decide-last-rule", "01 03 04 00 01000000 02 00 0409000000 0500000000", "permit,4"),
        ("decide-other-operation-deny", "01 03 04 01 01000000 01 00 0602000000", "deny"),
        ("decide-other-operation-permit", "01 03 04 01 01000000 01 00 0601000000", "permit,3"),
        ("decide-other-operation-undefined", "01 03 04 01 01000000 00 00", "undefined,absent"),
        ("decide-operation-without-rules", "01 03 04 02 01000000 00 00", "deny"),
    ];
    for (name, hex, answer) in cases {
        block(kit, name, hex, answer);
    }
    kit.says("\"`user.` names read the user's effective values of activated attributes only\": one that is not activated is absent, so UNDEF and not FALSE.");
    block(
        kit,
        "not-activated-undefined",
        "01 03 04 00 00000000 02 00 0408000000 0500000000",
        "undefined,absent",
    );
    block(kit, "not-activated-other-rule", "01 03 04 00 00000000 02 00 0408000000 0501000000", "permit,2");
}

fn sets_of_entries(kit: &mut Kit) {
    kit.says("\"Repeated attributes form a set.\" and \"a 32-bit value, low byte first\"");
    let cases = [
        ("entries-repeated", "01 03 04 01 00000000 02 00 0602000000 0601000000", "permit,3"),
        ("entries-equal", "01 03 04 01 00000000 02 00 0602000000 0602000000", "deny"),
        ("entries-bool-both", "01 03 04 00 00000000 02 00 0500000000 0501000000", "permit,2"),
        ("entries-order-over-set", "01 03 04 00 01000000 02 00 0409000000 0408000000", "permit,1"),
        ("entries-300-low-byte-first", "01 03 04 01 00000000 01 00 062c010000", "permit,3"),
        ("entries-300-high-byte-first", "01 03 04 01 00000000 01 00 060000012c", "deny"),
        ("entries-highest-value", "01 03 04 00 01000000 01 00 04ffffffff", "undefined,absent"),
    ];
    for (name, hex, answer) in cases {
        block(kit, name, hex, answer);
    }
}
