//! Vectors for "The rights file".

use super::Kit;

pub fn kit() -> Kit {
    let mut kit = Kit::new("rights-file");
    length(&mut kit);
    frame(&mut kit);
    first_line(&mut kit);
    keys(&mut kit);
    order(&mut kit);
    fields(&mut kit);
    attributes(&mut kit);
    operations(&mut kit);
    pairs(&mut kit);
    full_pairs(&mut kit);
    holders(&mut kit);
    parents(&mut kit);
    members(&mut kit);
    values(&mut kit);
    rules(&mut kit);
    names(&mut kit);
    atoms(&mut kit);
    kit
}

/// A file of exactly `length` bytes: value ties, then two rules padded with
/// spaces.
pub fn file_of(length: usize) -> String {
    let mut file = String::from("rights=1\nattr=user,n,int\nop=a\n");
    for value in 0..100 {
        file += &format!("atom=user.n,{value}\n");
    }
    for user in 0..30 {
        file += &format!("user=u{user}\n");
    }
    for number in 0.. {
        let tie = format!("value=u{},n,{}\n", number / 100, number % 100);
        if file.len() + tie.len() + 300 > length {
            break;
        }
        file += &tie;
    }
    let left = length - file.len();
    for part in [left / 2, left - left / 2] {
        file += &format!("{:width$}\n", "rule=a,TRUE", width = part - 1);
    }
    file
}

pub fn line_count(file: &str) -> usize {
    file.lines().count()
}

fn length(kit: &mut Kit) {
    kit.says("\"At most 32,768 bytes.\"");
    let fits = file_of(32_768);
    kit.case("bytes-32768", &fits, &format!("load=0,{}", line_count(&fits)));
    kit.case("bytes-32769", file_of(32_769), "load=2,0");
    let over = file_of(32_769) + "end=\n+parent=admin,admin\ntry=01\n";
    kit.case("bytes-32769-then-end", over, "load=2,0 edit=9,0,0 try=refused,15");
}

fn frame(kit: &mut Kit) {
    kit.says("\"Lines end with byte 10 and have at most 255 bytes before it.\"");
    let head = "rights=1\nop=a\n";
    kit.line("line-of-255-bytes", head, format!("{:255}", "rule=a,TRUE"), 0);
    kit.line("line-of-256-bytes", head, format!("{:256}", "rule=a,TRUE"), 4);
    kit.line("line-of-255-bytes-judged-on", head, format!("user={}", "b".repeat(250)), 6);
    kit.line("line-of-256-bytes-name", head, format!("user={}", "b".repeat(251)), 4);
    kit.case("last-line-without-byte-10", "rights=1\nop=a\nop=b", "load=4,3");
    kit.case("last-byte-alone", "rights=1\nop=a\nx", "load=4,3");
    kit.case("no-line-after-last-byte-10", "rights=1\n", "load=0,1");
    kit.case("empty-line-at-end", "rights=1\n\n", "load=4,2");
    kit.case("empty-line-between", "rights=1\nop=a\n\nop=b\n", "load=4,3");
    kit.says("\"Lines end with byte 10\": CR, NUL and other bytes end no line and are ordinary bytes of a field (6) or key (4).");
    kit.line("cr-in-field", "rights=1\n", "op=a\r", 6);
    kit.line("cr-in-type", "rights=1\n", "attr=user,a,int\r", 6);
    kit.line("cr-alone", "rights=1\n", "\r", 4);
    kit.line("cr-in-key", "rights=1\n", "\rop=a", 4);
    kit.line("nul-in-field", "rights=1\n", "op=a\0", 6);
    kit.line("nul-in-key", "rights=1\n", "op\0=a", 4);
    kit.line("nul-alone", "rights=1\n", "\0", 4);
    kit.line("byte-255-in-field", "rights=1\n", b"op=\xff", 6);
    kit.line("vertical-tab-in-field", "rights=1\n", "op=a\x0bop=b", 6);
}

fn first_line(kit: &mut Kit) {
    kit.says("\"The first is `rights=1`.\" and \"3: first line, with its byte 10, wrong or missing (line 1)\", also where 4 would apply.");
    let cases: [(&str, &str); 12] = [
        ("first-missing", ""),
        ("first-without-byte-10", "rights=1"),
        ("first-cr-lf", "rights=1\r\n"),
        ("first-other-edition", "rights=2\n"),
        ("first-leading-zero", "rights=01\n"),
        ("first-space-behind", "rights=1 \n"),
        ("first-space-before", " rights=1\n"),
        ("first-capital", "Rights=1\n"),
        ("first-empty-line", "\nrights=1\n"),
        ("first-other-key", "op=a\n"),
        ("first-no-value", "rights=\n"),
        ("first-nul", "rights=1\0\n"),
    ];
    for (name, input) in cases {
        kit.case(name, input, "load=3,1");
    }
    kit.case("first-of-300-bytes", format!("{}\n", "r".repeat(300)), "load=3,1");
    kit.case("first-byte-order-mark", "\u{feff}rights=1\n", "load=3,1");
}

fn keys(kit: &mut Kit) {
    kit.says("\"4: ... no `=`, unknown key (a later `rights` too)\"");
    let cases = [
        ("key-unknown", "apart=a,b"),
        ("key-later-rights", "rights=1"),
        ("key-capitals", "OP=a"),
        ("key-space-behind", "op =a"),
        ("key-space-before", " op=a"),
        ("key-empty", "=a"),
        ("key-no-equals", "op"),
        ("key-no-equals-comma", "op,a"),
        ("key-plural", "ops=a"),
        ("key-cut", "o=a"),
        ("key-edit-sign", "+parent=a,b"),
        ("key-try", "try=01"),
        ("key-admin", "admin=a"),
        ("key-min-group", "min_group=a"),
    ];
    for (name, line) in cases {
        kit.line(name, "rights=1\n", line, 4);
    }
    kit.line("key-later-rights-at-end", "rights=1\nop=a\nrule=a,TRUE\n", "rights=1", 4);
}

/// One good line of each key, in order; each leans on those before it.
const IN_ORDER: [&str; 11] = [
    "attr=user,a,int",
    "op=o",
    "atom=user.a,1",
    "ugroup=g",
    "ogroup=h",
    "user=u",
    "object=t",
    "parent=g,f",
    "member=u,g",
    "value=u,a,1",
    "rule=o,TRUE",
];

fn order(kit: &mut Kit) {
    kit.says("\"keys in this order, each key zero or more times\": eleven keys, the four holder keys too in the order in which they are written.");
    let all = "rights=1\nattr=user,a,int\nop=o\natom=user.a,1\nugroup=f\nugroup=g\nogroup=h\n\
               user=u\nobject=t\nparent=g,f\nmember=u,g\nvalue=u,a,1\nrule=o,TRUE\n";
    kit.case("order-all-keys", all, "load=0,13");
    for pair in IN_ORDER.windows(2) {
        let (earlier, later) = (pair[0], pair[1]);
        let word = |line: &str| line.split('=').next().unwrap_or("").to_string();
        let name = format!("order-{}-behind-{}", word(earlier), word(later));
        // The later line must itself be accepted: it gets what it leans on.
        let before = needed_by(later);
        kit.line(&name, &format!("{before}{later}\n"), earlier, 5);
    }
    kit.line("order-attr-behind-rule", "rights=1\nop=o\nrule=o,TRUE\n", "attr=user,a,int", 5);
    kit.line("order-repeated-key", "rights=1\nuser=t\nuser=v\n", "user=u", 0);
}

/// The lines that must stand before `line`, without the key before its own.
fn needed_by(line: &str) -> String {
    let needed = match line {
        "atom=user.a,1" => "attr=user,a,int\n",
        "parent=g,f" => "ugroup=f\nugroup=g\n",
        "member=u,g" => "ugroup=g\nuser=u\n",
        "value=u,a,1" => "attr=user,a,int\natom=user.a,1\nuser=u\n",
        "rule=o,TRUE" => "op=o\n",
        _ => "",
    };
    format!("rights=1\n{needed}")
}

fn fields(kit: &mut Kit) {
    kit.says("\"The first `=` ends the key; commas part the fields, and the last field runs to the line's end, commas included\"");
    let head = "rights=1\nattr=user,s,str\n";
    kit.line("fields-second-equals", head, "op=a=b", 6);
    kit.line("fields-comma-in-one-field", head, "op=a,b", 6);
    kit.line("fields-empty-rest", head, "op=", 6);
    kit.line("fields-attr-two", head, "attr=user,a", 6);
    kit.line("fields-attr-four", head, "attr=user,a,int,", 6);
    kit.line("fields-attr-empty", head, "attr=,,", 6);
    kit.line("fields-attr-none", head, "attr=", 6);
    kit.line("fields-atom-one", head, "atom=user.s", 6);
    kit.line("fields-atom-commas-in-string", head, "atom=user.s,\"a,b,\"", 0);
    kit.line("fields-equals-in-string", head, "atom=user.s,\"a=b\"", 0);
    let value = "rights=1\nattr=user,s,str\natom=user.s,\",\"\nuser=u\n";
    kit.line("fields-value-commas-in-string", value, "value=u,s,\",\"", 0);
    kit.line("fields-value-two", value, "value=u,s", 6);
    let groups = "rights=1\nugroup=f\nugroup=g\n";
    kit.line("fields-parent-one", groups, "parent=g", 6);
    kit.line("fields-parent-three", groups, "parent=g,f,f", 6);
    kit.line("fields-member-one", groups, "member=u", 6);
    kit.line("fields-rule-one", "rights=1\nop=o\n", "rule=o", 6);
    kit.says("\"No spaces outside strings and policies.\"");
    kit.line("spaces-in-attr", head, "attr=user, a,int", 6);
    kit.line("spaces-behind-type", head, "attr=user,a,int ", 6);
    kit.line("spaces-before-atom", head, "atom=user.s, \"a\"", 6);
    kit.line("spaces-in-string", head, "atom=user.s,\" a \"", 0);
    kit.line("spaces-before-operation", "rights=1\nop=o\n", "rule= o,TRUE", 6);
    kit.line("spaces-behind-operation", "rights=1\nop=o\n", "rule=o ,TRUE", 6);
    kit.line("spaces-before-policy", "rights=1\nop=o\n", "rule=o, TRUE", 0);
    kit.line("spaces-behind-policy", "rights=1\nop=o\n", "rule=o,TRUE  ", 0);
}

fn attributes(kit: &mut Kit) {
    kit.says("\"SRC is user, object, admin, env or connect; TYPE is int, str or bool.\"");
    let every = "rights=1\nattr=user,i,int\nattr=user,s,str\nattr=user,b,bool\nattr=object,i,int\n\
                 attr=object,s,str\nattr=object,b,bool\nattr=admin,i,int\nattr=admin,s,str\n\
                 attr=admin,b,bool\nattr=env,i,int\nattr=env,b,bool\nattr=connect,i,int\n\
                 attr=connect,b,bool\n";
    kit.case("attr-every-source-and-type", every, "load=0,14");
    kit.line("attr-bad-source", "rights=1\n", "attr=group,a,int", 6);
    kit.line("attr-source-in-capitals", "rights=1\n", "attr=USER,a,int", 6);
    kit.line("attr-float", "rights=1\n", "attr=user,a,float", 6);
    kit.line("attr-bad-name", "rights=1\n", "attr=user,A,int", 6);
    kit.says("\"env and connect are never str.\" (9)");
    kit.line("attr-env-str", "rights=1\n", "attr=env,a,str", 9);
    kit.line("attr-connect-str", "rights=1\n", "attr=connect,a,str", 9);
    kit.line("attr-env-str-repeated", "rights=1\nattr=env,a,int\n", "attr=env,a,str", 9);
    kit.says("\"Unique by SRC and NAME.\"");
    let one = "rights=1\nattr=user,a,int\n";
    kit.line("attr-repeated", one, "attr=user,a,int", 10);
    kit.line("attr-repeated-with-other-type", one, "attr=user,a,str", 10);
    kit.line("attr-same-name-other-source", one, "attr=object,a,int", 0);
    kit.line("attr-named-like-a-source", one, "attr=user,user,int", 0);
    kit.says("\"At most 32, numbered from 0.\"");
    let most: String = (0..32).map(|number| format!("attr=user,a{number},int\n")).collect();
    let full = format!("rights=1\n{most}");
    kit.line("attr-32-then-op", &full, "op=o", 0);
    kit.line("attr-33rd", &full, "attr=user,b,int", 11);
    kit.line("attr-33rd-repeated", &full, "attr=user,a0,int", 10);
    kit.line("attr-33rd-env-str", &full, "attr=env,b,str", 9);
    kit.line("attr-33rd-malformed", &full, "attr=env,b,", 6);
}

fn operations(kit: &mut Kit) {
    kit.says("\"`op=NAME`: at most 8, numbered from 0.\" A repeated one is already declared (10).");
    let full = "rights=1\nop=a\nop=b\nop=c\nop=d\nop=e\nop=f\nop=g\n";
    kit.line("op-8th", full, "op=h", 0);
    kit.line("op-9th", &format!("{full}op=h\n"), "op=i", 11);
    kit.line("op-9th-repeated", &format!("{full}op=h\n"), "op=a", 10);
    kit.line("op-repeated", "rights=1\nop=a\n", "op=a", 10);
    kit.line("op-named-admin", "rights=1\n", "op=admin", 0);
    kit.line("op-named-like-a-key", "rights=1\n", "op=op", 0);
}

fn pairs(kit: &mut Kit) {
    kit.says("\"`atom=SRC.NAME,ATOM`: a pair of a user, object or admin attribute and a value of its type.\" Undeclared attribute 8; env, connect or another type 9; repeated 10.");
    let head = "rights=1\nattr=user,i,int\nattr=user,s,str\nattr=user,b,bool\nattr=object,i,int\n\
                attr=admin,i,int\nattr=env,e,int\nattr=connect,c,bool\n";
    let cases: [(&str, &str, u8); 20] = [
        ("atom-of-object", "atom=object.i,1", 0),
        ("atom-of-admin", "atom=admin.i,1", 0),
        ("atom-undeclared-name", "atom=user.x,1", 8),
        ("atom-declared-of-other-source", "atom=object.s,\"a\"", 8),
        ("atom-of-env", "atom=env.e,1", 9),
        ("atom-of-connect", "atom=connect.c,TRUE", 9),
        ("atom-of-env-undeclared", "atom=env.x,1", 8),
        ("atom-of-env-and-other-type", "atom=env.e,\"1\"", 9),
        ("atom-of-env-malformed", "atom=env.e,x", 6),
        ("atom-str-for-int", "atom=user.i,\"1\"", 9),
        ("atom-int-for-str", "atom=user.s,1", 9),
        ("atom-int-for-bool", "atom=user.b,1", 9),
        ("atom-bool-for-int", "atom=user.i,TRUE", 9),
        ("atom-word-for-str", "atom=user.s,a", 6),
        ("atom-without-dot", "atom=useri,1", 6),
        ("atom-bad-source", "atom=users.i,1", 6),
        ("atom-two-dots", "atom=user.i.j,1", 6),
        ("atom-empty-name", "atom=user.,1", 6),
        ("atom-name-alone", "atom=i,1", 6),
        ("atom-malformed-and-undeclared", "atom=user.x,01", 6),
    ];
    for (name, line, number) in cases {
        kit.line(name, head, line, number);
    }
    kit.line("atom-repeated", &format!("{head}atom=user.i,1\n"), "atom=user.i,1", 10);
    kit.line("atom-same-value-other-source", &format!("{head}atom=user.i,1\n"), "atom=object.i,1", 0);
}

fn full_pairs(kit: &mut Kit) {
    kit.says("\"At most 256, numbered from 0.\"");
    let most: String = (0..256).map(|value| format!("atom=user.i,{value}\n")).collect();
    let full = format!("rights=1\nattr=user,i,int\nattr=user,s,str\n{most}");
    kit.line("atom-256-then-user", &full, "user=u", 0);
    kit.line("atom-257th", &full, "atom=user.i,256", 11);
    kit.line("atom-257th-repeated", &full, "atom=user.i,255", 10);
    kit.line("atom-257th-other-type", &full, "atom=user.s,1", 9);
    kit.line("atom-257th-undeclared", &full, "atom=user.x,1", 8);
}

fn holders(kit: &mut Kit) {
    kit.says("\"Holder 0 is `admin`, always there.\" and \"Names are unique among holders.\"");
    for key in ["ugroup", "ogroup", "user", "object"] {
        let line = format!("{key}=admin");
        kit.line(&format!("holder-{key}-admin"), "rights=1\n", line, 10);
    }
    kit.line("holder-repeated", "rights=1\nuser=a\n", "user=a", 10);
    kit.line("holder-repeated-other-key", "rights=1\nugroup=a\n", "object=a", 10);
    kit.line("holder-named-like-an-operation", "rights=1\nop=a\n", "user=a", 0);
    kit.line("holder-bad-name", "rights=1\n", "user=a-b", 6);
    kit.says("\"Others are numbered from 1 in file order, at most 255, of which at most 64 groups (both sorts together).\" A 65th group is 11 though the holder table has room.");
    let groups = |key: &str, count: usize| -> String {
        (0..count).map(|number| format!("{key}={}{number}\n", &key[..1])).collect()
    };
    let user_groups = format!("rights=1\n{}", groups("ugroup", 64));
    kit.line("holder-64-ugroups-then-user", &user_groups, "user=a", 0);
    kit.line("holder-65th-ugroup", &user_groups, "ugroup=a", 11);
    kit.line("holder-65th-ugroup-repeated", &user_groups, "ugroup=u0", 10);
    kit.line("holder-65th-group-is-ogroup", &user_groups, "ogroup=a", 11);
    let mixed = format!("rights=1\n{}{}", groups("ugroup", 30), groups("ogroup", 34));
    kit.line("holder-65th-group-mixed", &mixed, "ogroup=a", 11);
    let users: String = (0..254).map(|number| format!("user=p{number}\n")).collect();
    let nearly = format!("rights=1\n{users}");
    kit.line("holder-255th", &nearly, "object=t", 0);
    kit.line("holder-256th-user", &format!("{nearly}user=q\n"), "user=r", 11);
    kit.line("holder-256th-object", &format!("{nearly}object=t\n"), "object=v", 11);
    kit.line("holder-256th-repeated", &format!("{nearly}object=t\n"), "object=p0", 10);
    kit.says("\"A group without parent lines stands under the source's min_group\": no declared holder has this name, and a group may take it.");
    kit.line("holder-min-group-undeclared", "rights=1\nugroup=g\n", "parent=g,min_group", 8);
    kit.line("holder-min-group-declared", "rights=1\nugroup=g\nugroup=min_group\n", "parent=g,min_group", 0);
}

const GROUPS: &str = "rights=1\nattr=user,i,int\natom=user.i,1\nugroup=f\nugroup=g\nugroup=k\n\
                      ogroup=h\nogroup=j\nuser=u\nobject=t\n";

fn parents(kit: &mut Kit) {
    kit.says("\"`parent=CHILD,PARENT`: two groups of one sort.\" Undeclared 8; a wrong sort in either place 9; standing 10; a circle 12.");
    let cases: [(&str, &str, u8); 14] = [
        ("parent-ugroups", "parent=g,f", 0),
        ("parent-ogroups", "parent=j,h", 0),
        ("parent-child-undeclared", "parent=x,f", 8),
        ("parent-parent-undeclared", "parent=g,x", 8),
        ("parent-of-two-sorts", "parent=g,h", 9),
        ("parent-child-a-user", "parent=u,g", 9),
        ("parent-parent-a-user", "parent=g,u", 9),
        ("parent-child-an-object", "parent=t,h", 9),
        ("parent-admin-child", "parent=admin,g", 9),
        ("parent-admin-parent", "parent=g,admin", 9),
        ("parent-admin-itself", "parent=admin,admin", 9),
        ("parent-user-itself", "parent=u,u", 9),
        ("parent-undeclared-and-user", "parent=u,x", 8),
        ("parent-itself", "parent=g,g", 12),
    ];
    for (name, line, number) in cases {
        kit.line(name, GROUPS, line, number);
    }
    kit.line("parent-standing", &format!("{GROUPS}parent=g,f\n"), "parent=g,f", 10);
    kit.line("parent-circle-of-two", &format!("{GROUPS}parent=g,f\n"), "parent=f,g", 12);
    kit.line("parent-circle-of-three", &format!("{GROUPS}parent=g,f\nparent=k,g\n"), "parent=f,k", 12);
    kit.line("parent-shortcut-is-no-circle", &format!("{GROUPS}parent=g,f\nparent=k,g\n"), "parent=k,f", 0);
    kit.line("parent-child-before-parent-declared", GROUPS, "parent=f,g", 0);
}

fn members(kit: &mut Kit) {
    kit.says("\"`member=PARTY,GROUP`: a user in a ugroup or an object in an ogroup.\"");
    let cases: [(&str, &str, u8); 11] = [
        ("member-user", "member=u,g", 0),
        ("member-object", "member=t,h", 0),
        ("member-party-undeclared", "member=x,g", 8),
        ("member-group-undeclared", "member=u,x", 8),
        ("member-user-in-ogroup", "member=u,h", 9),
        ("member-object-in-ugroup", "member=t,g", 9),
        ("member-group-in-group", "member=g,f", 9),
        ("member-user-in-user", "member=u,u", 9),
        ("member-turned", "member=g,u", 9),
        ("member-admin-party", "member=admin,g", 9),
        ("member-admin-group", "member=u,admin", 9),
    ];
    for (name, line, number) in cases {
        kit.line(name, GROUPS, line, number);
    }
    kit.line("member-standing", &format!("{GROUPS}member=u,g\n"), "member=u,g", 10);
    kit.line("member-of-several-groups", &format!("{GROUPS}member=u,g\n"), "member=u,f", 0);
}

fn values(kit: &mut Kit) {
    kit.says("\"`value=HOLDER,NAME,ATOM`: gives a declared pair\" and \"8: ... (for value: no such pair of the attribute source that the holder's sort fixes)\": a value line never gets 9.");
    let head = "rights=1\nattr=user,i,int\nattr=object,i,int\nattr=object,o,int\nattr=admin,i,int\n\
                attr=env,e,int\natom=user.i,1\natom=object.i,2\natom=object.o,1\natom=admin.i,3\n\
                ugroup=g\nogroup=h\nuser=u\nobject=t\n";
    let cases: [(&str, &str, u8); 16] = [
        ("value-of-user", "value=u,i,1", 0),
        ("value-of-ugroup", "value=g,i,1", 0),
        ("value-of-object", "value=t,i,2", 0),
        ("value-of-ogroup", "value=h,o,1", 0),
        ("value-of-admin", "value=admin,i,3", 0),
        ("value-holder-undeclared", "value=x,i,1", 8),
        ("value-name-undeclared", "value=u,x,1", 8),
        ("value-pair-undeclared", "value=u,i,9", 8),
        ("value-pair-of-other-source", "value=u,i,2", 8),
        ("value-attribute-of-other-source", "value=u,o,1", 8),
        ("value-admin-of-user-pair", "value=admin,i,1", 8),
        ("value-of-env", "value=u,e,1", 8),
        ("value-of-other-type", "value=u,i,\"1\"", 8),
        ("value-malformed-atom", "value=u,i,01", 6),
        ("value-malformed-and-undeclared", "value=x,i,a", 6),
        ("value-dotted-name", "value=u,user.i,1", 6),
    ];
    for (name, line, number) in cases {
        kit.line(name, head, line, number);
    }
    kit.line("value-standing", &format!("{head}value=u,i,1\n"), "value=u,i,1", 10);
    kit.line("value-of-several-holders", &format!("{head}value=u,i,1\n"), "value=g,i,1", 0);
}

fn rules(kit: &mut Kit) {
    kit.says("\"`rule=OP,POLICY`: at most 32, numbered from 0; a repeat is allowed.\"");
    let head = "rights=1\nattr=user,i,int\nop=o\n";
    kit.line("rule-repeated", &format!("{head}rule=o,TRUE\n"), "rule=o,TRUE", 0);
    kit.line("rule-operation-undeclared", head, "rule=x,TRUE", 8);
    kit.line("rule-attribute-undeclared", head, "rule=o,user.x = 1", 8);
    kit.line("rule-attribute-of-other-source", head, "rule=o,object.i = 1", 8);
    kit.line("rule-operation-malformed", head, "rule=O,TRUE", 6);
    kit.line("rule-constant-needs-no-pair", head, "rule=o,user.i = 99", 0);
    let full = format!("{head}{}", "rule=o,FALSE\n".repeat(32));
    kit.case("rule-32", &full, "load=0,35");
    kit.line("rule-33rd", &full, "rule=o,TRUE", 11);
    kit.line("rule-33rd-undeclared", &full, "rule=x,TRUE", 8);
    kit.line("rule-33rd-over-limit", &full, format!("rule=o,{}", nine_deep()), 7);
    kit.line("rule-33rd-malformed", &full, "rule=o,TRUE TRUE", 6);
}

pub fn nine_deep() -> String {
    format!("{}TRUE{}", "(".repeat(9), ")".repeat(9))
}

fn names(kit: &mut Kit) {
    kit.says("\"NAME: 1 to 12 bytes of a-z, 0-9, `_`.\"");
    let cases: [(&str, &str, u8); 11] = [
        ("name-12-bytes", "abcdefghijkl", 0),
        ("name-13-bytes", "abcdefghijklm", 6),
        ("name-empty", "", 6),
        ("name-digits", "0123456789", 0),
        ("name-underscore", "_", 0),
        ("name-capital", "aB", 6),
        ("name-hyphen", "a-b", 6),
        ("name-space", "a b", 6),
        ("name-dot", "a.b", 6),
        ("name-quoted", "\"a\"", 6),
        ("name-letter-beyond-ascii", "\u{e4}", 6),
    ];
    for (name, text, number) in cases {
        kit.line(name, "rights=1\n", format!("user={text}"), number);
    }
}

fn atoms(kit: &mut Kit) {
    kit.says("\"ATOM: int 0 to 4294967295 without leading zeros; str in double quotes, 0 to 12 bytes of 32 to 126 without 34; bool TRUE or FALSE.\"");
    let cases: [(&str, &str, u8); 12] = [
        ("int-0", "user.i,0", 0),
        ("int-4294967295", "user.i,4294967295", 0),
        ("int-4294967296", "user.i,4294967296", 6),
        ("int-20-digits", "user.i,18446744073709551617", 6),
        ("int-leading-zero", "user.i,01", 6),
        ("int-two-zeros", "user.i,00", 6),
        ("int-plus", "user.i,+1", 6),
        ("int-minus", "user.i,-1", 6),
        ("int-empty", "user.i,", 6),
        ("int-hex", "user.i,0x1", 6),
        ("bool-true", "user.b,TRUE", 0),
        ("bool-false", "user.b,FALSE", 0),
    ];
    let strings: [(&str, &str, u8); 15] = [
        ("bool-small-letters", "user.b,true", 6),
        ("bool-undef", "user.b,UNDEF", 6),
        ("bool-null", "user.b,NULL", 6),
        ("str-empty", "user.s,\"\"", 0),
        ("str-12-bytes", "user.s,\"abcdefghijkl\"", 0),
        ("str-13-bytes", "user.s,\"abcdefghijklm\"", 6),
        ("str-byte-126", "user.s,\"~\"", 0),
        ("str-byte-127", "user.s,\"\x7f\"", 6),
        ("str-tab", "user.s,\"\t\"", 6),
        ("str-backslash", "user.s,\"\\\"", 0),
        ("str-no-escapes", "user.s,\"\\\"\"", 6),
        ("str-unclosed", "user.s,\"a", 6),
        ("str-one-quote", "user.s,\"", 6),
        ("str-bytes-behind", "user.s,\"a\"b", 6),
        ("str-single-quotes", "user.s,'a'", 6),
    ];
    let head = "rights=1\nattr=user,i,int\nattr=user,s,str\nattr=user,b,bool\n";
    for (name, text, number) in cases.into_iter().chain(strings) {
        kit.line(name, head, format!("atom={text}"), number);
    }
}
