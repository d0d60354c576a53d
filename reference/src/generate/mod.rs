//! Random sessions, the same for the same seed: lists of library calls and
//! inputs of the office program.

mod blocks;
mod causes;
mod damage;
mod edits;
mod files;
mod joins;
mod lengths;
mod lines;
mod plan;
mod policies;
mod rng;
mod writes;

use damage::damage;
pub use rng::Rng;

use crate::declarations::Sort;
use crate::file::FILE_LIMIT;
use crate::office::{split_at_end, INPUT_LIMIT};
use crate::session::{Call, Engine, Session, TableEngine};
use crate::TABLE_WORDS;
use edits::Editor;
use plan::{Plan, Size};

/// A file and the calls that follow its load.
struct Episode {
    file: Vec<u8>,
    calls: Vec<Call>,
}

/// How often each kind of file is drawn.
const TINY: usize = 20;
const SMALL: usize = 15;
const MIDDLE: usize = 8;
const FLAWED: usize = 25;
const FULL_TABLE: usize = 6;
const DIAMONDS: usize = 9;
const LATE_PERMIT: usize = 7;
const ONE_TERM: usize = 10;
const LIMIT_RULES: usize = 3;

/// One in so many seeds gives a file that edits make longer than a file may be.
const OUTGROWING_EVERY: u64 = 250;

/// One in so many of the others gives a file whose rules mix the sorts of UNDEF. By
/// the seed, so that all other seeds keep their sessions.
const CAUSES_EVERY: u64 = 10;

/// One in so many of the others gives edits with much below them.
const JOINS_EVERY: u64 = 5;

impl Episode {
    fn of_seed(seed: u64, rng: &mut Rng) -> Episode {
        if seed.is_multiple_of(OUTGROWING_EVERY) {
            Episode::outgrowing(rng)
        } else if seed.is_multiple_of(CAUSES_EVERY) {
            Episode::causes(rng)
        } else if seed.is_multiple_of(JOINS_EVERY) {
            Episode::joins(rng)
        } else {
            Episode::new(rng)
        }
    }

    fn new(rng: &mut Rng) -> Episode {
        if rng.below(150) == 0 {
            return Episode::large(rng);
        }
        let weights = [TINY, SMALL, MIDDLE, FLAWED, FULL_TABLE, DIAMONDS, LATE_PERMIT, ONE_TERM, LIMIT_RULES];
        let (plan, file) = match rng.weighted(&weights) {
            0 => plain(rng, Size::tiny),
            1 => plain(rng, Size::small),
            2 => plain(rng, Size::middle),
            3 => files::flawed(rng),
            4 => files::full_table(rng),
            5 => with_file(files::diamonds(rng)),
            6 => with_file(files::late_permit(rng)),
            7 => with_file(files::one_term(rng)),
            _ => with_file(files::limit_rules(rng)),
        };
        let most = if rng.chance(5) { 120 } else { 14 };
        let count = rng.below(most + 1);
        Episode::fill(rng, &plan, file, count)
    }

    /// A file with every table full, or about the limit of its length.
    fn large(rng: &mut Rng) -> Episode {
        let (plan, file) = if rng.chance(50) { plain(rng, Size::full) } else { files::about_limit(rng) };
        let count = rng.between(2, 8);
        Episode::fill(rng, &plan, file, count)
    }

    /// A file of almost the longest text, and edits that mostly add to it.
    fn outgrowing(rng: &mut Rng) -> Episode {
        let length = FILE_LIMIT - rng.below(20);
        let (plan, file) = files::sized(rng, length);
        let (users, pairs) = (plan.numbers(&[Sort::User]), plan.pairs.len());
        let mut edit = || {
            let tie = (*rng.pick(&users), rng.below(pairs));
            let sign = *rng.pick(b"+++++-");
            Call::Edit([&[sign], plan.value_line(tie).as_slice(), b"\n"].concat())
        };
        let calls = (0..100).map(|_| edit()).collect();
        Episode { file, calls }
    }

    fn causes(rng: &mut Rng) -> Episode {
        let (plan, file) = with_file(causes::plan(rng));
        let count = rng.between(8, 24);
        Episode::fill(rng, &plan, file, count)
    }

    fn joins(rng: &mut Rng) -> Episode {
        let (plan, file) = with_file(joins::plan(rng));
        let mut editor = Editor::new(&plan);
        let edits = rng.between(6, 18);
        let calls = (0..edits).map(|_| Call::Edit(joins::edit(rng, &plan, &mut editor))).collect();
        Episode { file, calls }
    }

    fn fill(rng: &mut Rng, plan: &Plan, file: Vec<u8>, count: usize) -> Episode {
        let flaws = *rng.pick(&[0, 15, 40]);
        Episode::fill_with(rng, plan, file, count, flaws)
    }

    /// Draws the calls; `flaws` of a hundred have flaws. The engine runs along,
    /// since the sets it stores tell which blocks are decided and not refused.
    fn fill_with(rng: &mut Rng, plan: &Plan, file: Vec<u8>, count: usize, flaws: usize) -> Episode {
        let mut engine = TableEngine::new(vec![0; TABLE_WORDS]);
        let _ = engine.load(&file);
        let mut editor = Editor::new(plan);
        let mut calls = Vec::new();
        for _ in 0..count {
            let call = match (rng.chance(50), rng.chance(flaws)) {
                (true, false) => Call::Edit(editor.plain(rng)),
                (true, true) => Call::Edit(editor.flawed(rng)),
                (false, false) => Call::Request(blocks::good(rng, plan, &engine)),
                (false, true) => {
                    let mut block = blocks::good(rng, plan, &engine);
                    blocks::spoil(rng, &mut block);
                    Call::Request(block)
                }
            };
            engine.call(&call);
            calls.push(call);
        }
        Episode { file, calls }
    }
}

fn plain(rng: &mut Rng, size: fn(&mut Rng) -> Size) -> (Plan, Vec<u8>) {
    let size = size(rng);
    with_file(Plan::new(rng, &size))
}

fn with_file(mut plan: Plan) -> (Plan, Vec<u8>) {
    let file = plan.file();
    (plan, file)
}

/// Lengths of tables that a host may lend by mistake.
const WRONG_LENGTHS: [usize; 7] = [0, 1, 4, 1020, 1023, 1025, 4096];

/// A list of library calls that begins with a load.
pub fn session(seed: u64) -> Session {
    let rng = &mut Rng::new(seed);
    let length = if rng.chance(4) { *rng.pick(&WRONG_LENGTHS) } else { TABLE_WORDS };
    let dirty = rng.chance(50);
    let word = |rng: &mut Rng| if dirty { rng.draw() } else { 0 };
    let table: Vec<u64> = (0..length).map(|_| word(rng)).collect();
    let mut calls = Vec::new();
    for _ in 0..rng.weighted(&[0, 80, 15, 5]) {
        let episode = Episode::of_seed(seed, rng);
        calls.push(Call::Load(episode.file));
        calls.extend(episode.calls);
    }
    for call in &mut calls {
        spoil_call(rng, call);
    }
    let calls = writes::insert(rng, &table, calls);
    // Drawn last, so that each seed keeps all its other calls.
    let calls = lengths::insert(rng, calls);
    Session { table, calls }
}

/// Spoils a few edits in ways that only a library call can have.
fn spoil_call(rng: &mut Rng, call: &mut Call) {
    if let Call::Edit(line) = call {
        if rng.chance(3) {
            edits::spoil_call(rng, line);
        }
    }
}

/// Lines behind `end=` that are neither an edit nor a good try.
const OTHER_LINES: [&str; 17] = [
    "",
    "end=",
    "try",
    "try=0",
    "try=0g",
    "try=0A",
    "TRY=00",
    "try= 01",
    "try=01 ",
    "try=01\r",
    "x",
    "parent=a,b",
    "rights=1",
    "op=a",
    " +parent=a,b",
    "try=\0\0",
    "end=x",
];

/// An input of the office program.
pub fn gate_input(seed: u64) -> Vec<u8> {
    let rng = &mut Rng::new(seed);
    let Episode { file, calls } = Episode::of_seed(seed, rng);
    let mut input = file;
    if rng.chance(3) {
        return input;
    }
    if rng.chance(2) {
        input.extend(rng.pick(&["END=\n", "end=\r\n", "end= \n", " end=\n", "try=01\n"]).bytes());
    }
    input.extend(b"end=\n");
    for call in &calls {
        if rng.chance(6) {
            input.extend(rng.pick(&OTHER_LINES).bytes());
            input.push(b'\n');
        }
        input.extend(gate_line(call));
    }
    if rng.below(200) == 0 {
        fill_up(rng, &mut input);
    }
    if rng.chance(8) {
        input.pop();
    }
    input
}

/// A call as a line of the office program.
fn gate_line(call: &Call) -> Vec<u8> {
    match call {
        Call::Load(_) | Call::Write(_) | Call::Length => Vec::new(),
        Call::Edit(line) => line.clone(),
        Call::Request(block) => try_line(block),
    }
}

/// `try=` with the block in lower-case hex pairs and byte 10.
pub fn try_line(block: &[u8]) -> Vec<u8> {
    let pairs: String = block.iter().map(|byte| format!("{byte:02x}")).collect();
    format!("try={pairs}\n").into_bytes()
}

/// Brings an input to about its limit with further lines.
fn fill_up(rng: &mut Rng, input: &mut Vec<u8>) {
    let wanted = rng.between(INPUT_LIMIT - 2, INPUT_LIMIT + 2);
    while input.len() + 5000 < wanted {
        let block = vec![1; rng.between(40, 1000)];
        input.extend(try_line(&block));
    }
    if input.len() < wanted {
        input.resize(wanted - 1, b'x');
        input.push(b'\n');
    }
}

/// A drawn input of the office program with damage.
pub fn damaged_input(seed: u64) -> Vec<u8> {
    let mut input = gate_input(seed);
    damage_input(&mut Rng::new(seed.rotate_left(32)), &mut input);
    input
}

/// Damages an input anywhere, or in half of the cases behind `end=` only, so
/// that damaged edits and blocks meet a book that has something in it.
pub fn damage_input(rng: &mut Rng, input: &mut Vec<u8>) {
    if rng.chance(50) {
        return damage(rng, input);
    }
    let after = split_at_end(input).1.len();
    let mut tail = input.split_off(input.len() - after);
    damage(rng, &mut tail);
    input.extend(tail);
}

/// A file with every table full, and many plain edits and good blocks. For
/// measuring times.
pub fn full_session(seed: u64, count: usize) -> Session {
    let rng = &mut Rng::new(seed);
    let (plan, file) = plain(rng, Size::full);
    let episode = Episode::fill_with(rng, &plan, file, count, 0);
    let mut calls = vec![Call::Load(episode.file)];
    calls.extend(episode.calls);
    let table = vec![0; TABLE_WORDS];
    Session { table, calls }
}
