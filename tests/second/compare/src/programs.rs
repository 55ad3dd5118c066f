//! The programs `derive` and `replay`, run on generated files and held against the second parser.

use crate::cases::{self, Pair};
use crate::report::{Log, Totals};
use crate::workers::{self, Worker, WORKERS};
use second::chart::{Answer, Chart};
use second::gen::{self, Rng};
use second::model::{derivation_text, Derivation};
use second::program::{self, derivation_part, fixed_part, CHART_ITEMS, FILE_LIMIT, OUTPUT_LIMIT};
use second::read::{read_grammar, read_graph};
use second::replay::parse_derivation;
use std::io::Read;
use std::path::{Path, PathBuf};
use std::process::{Child, Command, Stdio};
use std::sync::atomic::{AtomicBool, Ordering};
use std::sync::Mutex;
use std::time::{Duration, Instant};

/// Longer than any right answer by far.
const OUTPUT_CAP: u64 = 1 << 20;
const PROGRAM_LIMIT: Duration = Duration::from_secs(30);
/// A case runs fewer than ten programs.
const CASE_LIMIT: Duration = Duration::from_secs(300);

pub struct Programs {
    pub derive: PathBuf,
    pub replay: PathBuf,
}

/// Compares on so many cases; what was met and the number of mismatches.
pub fn compare(programs: &Programs, seed: u64, cases: usize) -> (Totals, usize) {
    let scratch = Scratch::new();
    let log = Log::new("programs", seed);
    let children: Vec<Slot> = (0..WORKERS).map(|_| Mutex::new(None)).collect();
    let runners: Vec<Runner> = (0..WORKERS)
        .map(|at| Runner {
            programs,
            folder: scratch.0.join(at.to_string()),
            child: &children[at],
            log: &log,
            totals: Totals::default(),
        })
        .collect();
    let ended = AtomicBool::new(false);
    let totals = std::thread::scope(|scope| {
        scope.spawn(|| watch(&children, &ended));
        let totals = workers::run(runners, seed, cases, CASE_LIMIT);
        ended.store(true, Ordering::Relaxed);
        totals
    });
    (totals, log.mismatches())
}

// -------------------------------------------------------------------------------------- cases

#[derive(Clone, Copy, PartialEq, Eq)]
enum Kind {
    Whole,
    GrammarText,
    GraphText,
    FileLimits,
}

/// The files of one case; `None` is a missing file.
struct Case {
    kind: Kind,
    grammar: Option<Vec<u8>>,
    graph: Option<Vec<u8>>,
    /// What the texts were before any damage.
    whole: Pair,
    spoil_derivation_file: bool,
}

impl Case {
    fn grammar(&self) -> &[u8] {
        self.grammar.as_deref().unwrap_or(b"")
    }

    fn graph(&self) -> &[u8] {
        self.graph.as_deref().unwrap_or(b"")
    }
}

/// A pair whose closure has 2 items fewer to 2 items more than the chart of `derive` holds.
fn draw_at_limit(rng: &mut Rng) -> Option<(&'static str, Pair)> {
    for _ in 0..40 {
        let most = rng.range(8, 64);
        let mut pair = cases::draw_pair(rng, most);
        let mut chart = Chart::start_any_size(&pair.grammar, &pair.graph, CHART_ITEMS + 2);
        if let Answer::Done(steps) = chart.run_to_end() {
            let due = CHART_ITEMS - 2 + *rng.pick(&[0, 1, 2, 2, 2, 3, 3, 3, 4]);
            let filled = due
                .checked_sub(steps)
                .and_then(|items| cases::with_idle_rules(&pair.grammar, items));
            if let Some(grammar) = filled {
                pair.grammar = grammar;
                let name = if due <= CHART_ITEMS {
                    "closures of 2,046 to 2,048 items"
                } else {
                    "closures of 2,049 or 2,050 items"
                };
                return Some((name, pair));
            }
        }
    }
    None
}

/// The text made as long as a file may be, or a little longer.
fn stretched(rng: &mut Rng, mut text: Vec<u8>) -> Vec<u8> {
    let length = FILE_LIMIT + *rng.pick(&[0, 0, 1, 1, 2, 7_000]);
    let lines: [&[u8]; 4] = [b"E   0\n", b"A   1   0   0   0\n", b"\n", b"~"];
    let line = *rng.pick(&lines);
    while text.len() < length {
        text.extend_from_slice(line);
    }
    text.truncate(length);
    text
}

fn draw_pair(rng: &mut Rng) -> (Kind, &'static str, Pair) {
    let (kind, name, draw): (Kind, &'static str, fn(&mut Rng) -> Pair) = match rng.below(100) {
        0..=29 => (Kind::Whole, "small graphs (to 6 edges)", cases::draw_small),
        30..=48 => (
            Kind::Whole,
            "middle graphs (to 20 edges)",
            cases::draw_middle,
        ),
        49..=57 => (Kind::Whole, "large graphs (to 64 edges)", draw_large),
        58..=59 => match draw_at_limit(rng) {
            Some((name, pair)) => return (Kind::Whole, name, pair),
            None => (Kind::Whole, "small graphs (to 6 edges)", cases::draw_small),
        },
        60..=78 => (
            Kind::GrammarText,
            "damaged grammar texts",
            cases::draw_small,
        ),
        79..=96 => (Kind::GraphText, "damaged graph texts", cases::draw_small),
        _ => (
            Kind::FileLimits,
            "files missing or at the limit",
            cases::draw_small,
        ),
    };
    (kind, name, draw(rng))
}

fn draw_large(rng: &mut Rng) -> Pair {
    cases::draw_large(rng, CHART_ITEMS)
}

fn draw_case(rng: &mut Rng, totals: &mut Totals) -> Case {
    let (kind, name, whole) = draw_pair(rng);
    totals.count("kinds of cases", name);
    let [grammar, graph] = cases::texts(
        rng,
        &whole,
        kind == Kind::GrammarText,
        kind == Kind::GraphText,
    );
    let mut case = Case {
        kind,
        grammar: Some(grammar),
        graph: Some(graph),
        whole,
        spoil_derivation_file: false,
    };
    if kind == Kind::FileLimits {
        match rng.below(7) {
            0 => case.grammar = None,
            1 => case.graph = None,
            2 => case.grammar = case.grammar.map(|text| stretched(rng, text)),
            3 | 4 => case.graph = case.graph.map(|text| stretched(rng, text)),
            _ => case.spoil_derivation_file = true,
        }
    }
    case
}

// ---------------------------------------------------------------------------------- judgement

const TOO_LONG: &[u8] = b"N  12\n";

/// Whether `derive` may write `theirs` where this parser writes `ours`. Which of several fewest
/// derivations is free, and so is 12 where some derivation of that count may be too long.
fn derive_agrees(case: &Case, theirs: &[u8], ours: &[u8]) -> bool {
    if theirs == TOO_LONG || ours == TOO_LONG {
        return theirs == ours || near_output_limit(case, theirs).is_some_and(|near| near);
    }
    if ours.first() != Some(&b'D') {
        return theirs == ours;
    }
    let (fixed, derivation) = (fixed_part(theirs), derivation_part(theirs));
    // The `D` line, the `A` lines, then the `C` line; the `A` lines are judged by replaying.
    fixed == fixed_part(ours) && derivation.len() <= OUTPUT_LIMIT && theirs.starts_with(&derivation)
}

fn near_output_limit(case: &Case, theirs: &[u8]) -> Option<bool> {
    let grammar = read_grammar(case.grammar()).ok()?;
    let graph = read_graph(&grammar, case.graph()).ok()?;
    let mut chart = Chart::start_any_size(&grammar, &graph, CHART_ITEMS);
    let Answer::Done(steps) = chart.run_to_end() else {
        return None;
    };
    let count = chart.goal_count()?;
    // A `D` line of 6 bytes, and `A` lines of at most a letter, 18 fields and a line feed.
    let may_be_too_long = 6 + 74 * count > OUTPUT_LIMIT;
    let written = format!("D{count:4}\nC{steps:4}\n").into_bytes();
    Some(may_be_too_long && (theirs == TOO_LONG || fixed_part(theirs) == written))
}

/// The number in the first field of the first line with this letter.
fn number_after(letter: u8, output: &[u8]) -> Option<usize> {
    let line = output
        .split(|&b| b == b'\n')
        .find(|l| l.first() == Some(&letter))?;
    std::str::from_utf8(line.get(1..5)?)
        .ok()?
        .trim()
        .parse()
        .ok()
}

fn refusal(output: &[u8]) -> u8 {
    number_after(b'N', output).unwrap_or(0) as u8
}

// ------------------------------------------------------------------------------------ running

/// The child a runner waits for, so that one that does not end can be stopped.
type Slot = Mutex<Option<(Instant, Child)>>;

struct Runner<'a> {
    programs: &'a Programs,
    folder: PathBuf,
    child: &'a Slot,
    log: &'a Log,
    totals: Totals,
}

impl Worker for Runner<'_> {
    fn check(&mut self, rng: &mut Rng, number: usize) {
        let case = draw_case(rng, &mut self.totals);
        self.put("grammar.txt", case.grammar.as_deref());
        self.put("graph.txt", case.graph.as_deref());
        let ours = program::derive(case.grammar(), case.graph());
        let theirs = self.check_derive(number, &case, &ours);
        let mut sources = case.whole.sources.clone();
        let outputs = [("derive", &theirs, true), ("second", &ours, rng.one_in(4))];
        for (parser, output, replayed) in outputs {
            if output.first() != Some(&b'D') {
                continue;
            }
            let text = derivation_part(output);
            if replayed {
                self.check_passes(number, &case, parser, &text);
            }
            let (grammar, graph) = (&case.whole.grammar, &case.whole.graph);
            sources.extend(parse_derivation(grammar, graph, &text));
        }
        for file in derivation_files(rng, &case, sources) {
            self.check_replay(number, &case, file.as_deref());
        }
    }

    fn totals(self) -> Totals {
        self.totals
    }
}

/// Files for `replay`: one or two that came from a derivation, or now and then two that came from
/// none.
fn derivation_files(
    rng: &mut Rng,
    case: &Case,
    mut sources: Vec<Derivation>,
) -> Vec<Option<Vec<u8>>> {
    rng.shuffle(&mut sources);
    sources.truncate(2);
    if case.spoil_derivation_file {
        let text = sources.first().map(|d| derivation_text(d));
        return vec![None, Some(stretched(rng, text.unwrap_or_default()))];
    }
    let (grammar, graph) = (&case.whole.grammar, &case.whole.graph);
    let mut texts = gen::derivation_texts(rng, grammar, graph, &sources, &mut 0);
    // The first two came from no derivation.
    let mut from_some = texts.split_off(2);
    if from_some.is_empty() || rng.one_in(10) {
        from_some = texts;
    }
    rng.shuffle(&mut from_some);
    let spoilt = matches!(case.kind, Kind::GrammarText | Kind::GraphText);
    from_some.truncate(if spoilt { 1 } else { 2 });
    from_some.into_iter().map(|(text, _)| Some(text)).collect()
}

impl Runner<'_> {
    /// What `derive` writes, held against what this parser writes.
    fn check_derive(&mut self, number: usize, case: &Case, ours: &[u8]) -> Vec<u8> {
        let theirs = self.output(&self.programs.derive);
        self.totals.answered("derive", refusal(ours));
        if let (Some(n), Some(steps)) = (number_after(b'D', ours), number_after(b'C', ours)) {
            self.totals.greatest("most applications", n);
            self.totals.greatest("most steps", steps);
        }
        if !derive_agrees(case, &theirs, ours) {
            self.mismatch(number, "derive", case, None, ours, &theirs);
        }
        theirs
    }

    /// What either parser derives passes both replays.
    fn check_passes(&mut self, number: usize, case: &Case, parser: &str, text: &[u8]) {
        let own = program::replay(case.grammar(), case.graph(), text);
        let theirs = self.replay(Some(text));
        self.totals.answered("replay", 0);
        for (name, answer) in [("own replay", own), ("replay", theirs)] {
            if answer != b"N   0\n" {
                let what = format!("{name} of what {parser} derived");
                self.mismatch(number, &what, case, Some(text), b"N   0\n", &answer);
            }
        }
    }

    fn check_replay(&mut self, number: usize, case: &Case, file: Option<&[u8]>) {
        let answer = self.replay(file);
        let due = program::replay(case.grammar(), case.graph(), file.unwrap_or(b""));
        self.totals.answered("replay", refusal(&due));
        if answer != due {
            self.mismatch(number, "replay", case, file, &due, &answer);
        }
    }

    fn mismatch(
        &self,
        number: usize,
        what: &str,
        case: &Case,
        derivation: Option<&[u8]>,
        due: &[u8],
        answer: &[u8],
    ) {
        let short = |text: &[u8]| {
            let text = String::from_utf8_lossy(&fixed_part(text)).replace('\n', ";");
            text.chars().take(40).collect::<String>()
        };
        let what = format!("{what}: due {}, got {}", short(due), short(answer));
        let files = [
            ("grammar.txt", case.grammar.as_deref()),
            ("graph.txt", case.graph.as_deref()),
            ("derivation.txt", derivation),
            ("due.txt", Some(due)),
            ("got.txt", Some(answer)),
        ];
        let present: Vec<(&str, &[u8])> = files
            .iter()
            .filter_map(|&(name, text)| text.map(|text| (name, text)))
            .collect();
        self.log.mismatch(number, &what, &present);
    }

    fn put(&self, name: &str, text: Option<&[u8]>) {
        let path = self.folder.join(name);
        match text {
            Some(text) => std::fs::write(path, text).expect("the scratch folder can be written"),
            None => {
                let _ = std::fs::remove_file(path);
            }
        }
    }

    fn replay(&mut self, derivation: Option<&[u8]>) -> Vec<u8> {
        self.put("derivation.txt", derivation);
        self.output(&self.programs.replay)
    }

    fn output(&mut self, program: &Path) -> Vec<u8> {
        let mut child = Command::new(program)
            .current_dir(&self.folder)
            .stdin(Stdio::null())
            .stdout(Stdio::piped())
            .stderr(Stdio::null())
            .spawn()
            .unwrap_or_else(|e| panic!("{} does not start: {e}", program.display()));
        let stdout = child.stdout.take().unwrap();
        *self.child.lock().unwrap() = Some((Instant::now(), child));
        let mut output = Vec::new();
        let _ = stdout.take(OUTPUT_CAP).read_to_end(&mut output);
        let (_, mut child) = self.child.lock().unwrap().take().unwrap();
        if output.len() as u64 == OUTPUT_CAP {
            let _ = child.kill();
        }
        let status = child.wait();
        if status.map_or(true, |s| s.code().is_none()) {
            // A crash or the time limit, whatever was written before.
            output.extend_from_slice(b"ended by a signal\n");
        }
        output
    }
}

/// Stops each child that runs too long, until all the cases have ended.
fn watch(children: &[Slot], ended: &AtomicBool) {
    while !ended.load(Ordering::Relaxed) {
        std::thread::sleep(Duration::from_millis(50));
        for slot in children {
            if let Some((begin, child)) = slot.lock().unwrap().as_mut() {
                if begin.elapsed() > PROGRAM_LIMIT {
                    let _ = child.kill();
                }
            }
        }
    }
}

/// A folder that is removed when it goes out of scope.
struct Scratch(PathBuf);

impl Scratch {
    fn new() -> Self {
        let memory = PathBuf::from("/dev/shm");
        let above = if memory.is_dir() {
            memory
        } else {
            std::env::temp_dir()
        };
        let folder = above.join(format!("second-compare-{}", std::process::id()));
        for worker in 0..WORKERS {
            std::fs::create_dir_all(folder.join(worker.to_string()))
                .expect("a scratch folder can be made");
        }
        Scratch(folder)
    }
}

impl Drop for Scratch {
    fn drop(&mut self) {
        let _ = std::fs::remove_dir_all(&self.0);
    }
}
