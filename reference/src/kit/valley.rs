//! Vectors for "Valley cases" and the example of "Office program".

use super::Kit;

/// The valley file without its rules, 25 lines.
pub const DECLARED: &str = "rights=1
attr=user,kind,str
attr=user,zone,int
attr=user,staff,bool
attr=object,zone,int
attr=env,hour,int
op=pass
atom=user.kind,\"day\"
atom=user.kind,\"season\"
atom=user.zone,1
atom=user.zone,2
atom=object.zone,2
ugroup=day
ugroup=season
ogroup=upper
user=p17
object=g2
parent=season,day
member=p17,season
member=g2,upper
value=day,kind,\"day\"
value=day,zone,1
value=season,kind,\"season\"
value=season,zone,2
value=upper,zone,2
";

const RULES: &str = "rule=pass,user.zone = object.zone AND env.hour < 17
rule=pass,user.staff
";

/// The valley file, 27 lines.
pub fn valley() -> String {
    format!("{DECLARED}{RULES}")
}

/// The valley file as it is written: its ties stand in the right order.
pub fn valley_text() -> String {
    format!("{DECLARED}rule=pass,user.zone=object.zone AND env.hour<17\nrule=pass,user.staff\n")
}

/// The words that are not 0 after its load.
pub const VALLEY_WORDS: &str = "4:5,8:f,12:10,16:f,20:10";

const HOUR_16: &str = "try=010405000300000001000410000000\n";
const HOUR_17: &str = "try=010405000300000001000411000000\n";
const NO_ENTRY: &str = "try=01040500030000000000\n";

pub fn kit() -> Kit {
    let mut kit = Kit::new("valley");
    cases(&mut kit);
    policies(&mut kit);
    look_out(&mut kit);
    kit
}

fn after(kit: &mut Kit, name: &str, lines: &str, answers: &str) {
    let input = format!("{}end=\n{lines}", valley());
    kit.case(name, input, &format!("load=0,27 {answers}"));
}

fn cases(kit: &mut Kit) {
    kit.says("\"Then `end=`, `try=0104...`, `-parent=season,day`: prints `load=0,27`, `try=permit,0`, `edit=0,2`.\" By document 02, E3, the last is `edit=0,2,3`: one for season, which has no parent any more, and two for p17, a member of season.");
    let example = "try=01040500030000000100040a000000\n-parent=season,day\n";
    after(kit, "office-example", example, "try=permit,0 edit=0,2,3");
    kit.says("\"B hour 16 permit. C hour 17 undefined. D no entry undefined. E mask 4: 17.\" By document 02, E2, C and D are absent: there is no staff value for rule 1, in D no hour for rule 0 either.");
    after(kit, "b-hour-16", HOUR_16, "try=permit,0");
    after(kit, "c-hour-17", HOUR_17, "try=undefined,absent");
    after(kit, "d-no-entry", NO_ENTRY, "try=undefined,absent");
    after(kit, "e-mask-4", "try=01040500040000000000\n", "try=refused,17");
    kit.says("\"F `+parent=day,season`: 12.\"");
    after(kit, "f-circle", "+parent=day,season\n", "edit=12,0,0");
    kit.says("\"G `+value=day,zone,2`: count 1; then `-value=season,zone,2`: count 0.\" The pair that the other path still gives stays.");
    let take = format!("+value=day,zone,2\n-value=season,zone,2\n{HOUR_16}");
    after(kit, "g-value-by-two-paths", &take, "edit=0,1,5 edit=0,0,4 try=permit,0");
    kit.says("\"H `+member=p17,upper`: 9. I `-member=p17,day`: 14.\"");
    after(kit, "h-member-of-other-sort", "+member=p17,upper\n", "edit=9,0,0");
    after(kit, "i-tie-not-standing", "-member=p17,day\n", "edit=14,0,0");
}

fn policies(kit: &mut Kit) {
    kit.says(
        "\"J `FALSE AND TRUE OR TRUE`: TRUE. K `\"b\" < \"c\"`: UNDEF. L `NOT user.kind = \"day\"`: 6.\" By document 02, E2, K is unlike: both strings are there.",
    );
    let alone = |policy: &str| format!("{DECLARED}rule=pass,{policy}\nend=\n{NO_ENTRY}");
    kit.case("j-and-binds-tighter", alone("FALSE AND TRUE OR TRUE"), "load=0,26 try=permit,0");
    kit.case("k-order-of-strings", alone("\"b\" < \"c\""), "load=0,26 try=undefined,unlike");
    let malformed = "NOT user.kind = \"day\"";
    kit.case("l-not-before-comparison", alone(malformed), "load=6,26 try=refused,16");
}

fn look_out(kit: &mut Kit) {
    kit.says("\"Look out for: ... reading an unactivated value; UNDEF AND FALSE as UNDEF.\"");
    after(kit, "zone-not-activated", "try=010405000100000001000410000000\n", "try=undefined,absent");
    let alone = format!("{DECLARED}rule=pass,user.staff AND FALSE\nend=\n{NO_ENTRY}");
    kit.case("undef-and-false", alone, "load=0,26 try=deny");
    kit.says("\"Load and edits keep it equal to effective(k).\" A day of edits.");
    let day = format!(
        "{HOUR_16}-value=upper,zone,2\n{HOUR_16}+value=g2,zone,2\n{HOUR_16}-member=p17,season\n\
         {HOUR_16}+member=p17,day\n{HOUR_16}+value=day,zone,2\n{HOUR_16}"
    );
    let answers = "try=permit,0 edit=0,2,3 try=undefined,absent edit=0,1,2 try=permit,0 edit=0,1,1 \
                   try=refused,17 edit=0,1,2 try=undefined,absent edit=0,2,5 try=permit,0";
    after(kit, "day-of-edits", &day, answers);
}
