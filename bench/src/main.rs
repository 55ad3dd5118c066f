//! The benchmark: the proved library against the second parser, on the same inputs. See docs/BENCH.md.

mod closures;
mod inputs;
mod limits;
mod measure;
mod report;
mod sides;
mod stack;
mod texts;
mod ways;

use inputs::{input, Kind, KINDS, SIZES};
use measure::Effort;
use sides::Lent;
use std::process::ExitCode;

/// The work is done on a thread of this stack: the deepest replay of the proved side needs about a third of it.
const STACK_BYTES: usize = 8 << 20;

const USAGE: &str = "usage: bench/run [--quick | --markdown] [--phases] [--kind KIND]
       bench/run --one KIND SIZE
KIND is one of chain, ladder, tree, bundle, sentence, circle, refused; SIZE one of 200, 1000, 2000, 4000.";

enum Task {
    Tables(Options),
    One(Kind, usize),
    StackTry(String, usize),
}

struct Options {
    effort: Effort,
    quick: bool,
    markdown: bool,
    phases: bool,
    kind: Option<Kind>,
}

fn task(arguments: &[String]) -> Result<Task, String> {
    let mut options = Options {
        effort: measure::FULL,
        quick: false,
        markdown: false,
        phases: false,
        kind: None,
    };
    let mut rest = arguments.iter();
    let mut next = |name: &str| rest.next().ok_or(format!("{name} is missing"));
    while let Ok(argument) = next("") {
        match argument.as_str() {
            "--quick" => {
                options.quick = true;
                options.effort = measure::QUICK;
            }
            "--markdown" => {
                options.markdown = true;
                options.phases = true;
            }
            "--phases" => options.phases = true,
            "--kind" => options.kind = Some(kind(next("KIND")?)?),
            "--one" => return Ok(Task::One(kind(next("KIND")?)?, size(next("SIZE")?)?)),
            "--stack-try" => {
                let call = next("CALL")?.clone();
                let kib = next("KIB")?.parse().map_err(|_| "KIB is a number")?;
                return Ok(Task::StackTry(call, kib));
            }
            other => return Err(format!("'{other}' is no option")),
        }
    }
    Ok(Task::Tables(options))
}

fn kind(name: &str) -> Result<Kind, String> {
    Kind::named(name).ok_or(format!("'{name}' is no kind"))
}

fn size(digits: &str) -> Result<usize, String> {
    let known = |size: &usize| SIZES.contains(size);
    let size = digits.parse().ok().filter(known);
    size.ok_or(format!("'{digits}' is no size"))
}

fn tables(options: &Options) -> Result<(), String> {
    let say = |line: &str| {
        if !options.markdown && !options.quick {
            eprintln!("{line}");
        }
    };
    let kinds = options.kind.map_or(KINDS.to_vec(), |kind| vec![kind]);
    let machine = report::machine();
    let mut lent = Lent::new();
    let mut rows = Vec::new();
    for &kind in &kinds {
        for size in SIZES {
            say(&format!("{} {size}", kind.name()));
            let input = input(kind, size);
            rows.push(closures::measure(&input, &mut lent, options.effort)?);
        }
    }
    let mut texts = Vec::new();
    if options.kind.is_none() {
        say("the longest texts");
        texts = texts::measure(&mut lent, options.effort)?;
    }
    if options.quick {
        // One repetition says nothing of the time.
        let (closures, texts) = (rows.len(), texts.len());
        println!("bench: both sides agree on {closures} closures and {texts} longest texts");
        return Ok(());
    }
    println!("{machine}");
    report::closures(&rows);
    report::growth(&rows);
    if options.phases {
        report::phases(&rows);
    }
    if options.kind.is_none() {
        report::texts(&texts);
        say("stack");
        report::memory(&lent)?;
    }
    Ok(())
}

/// One input once, on the proved side alone.
fn one(kind: Kind, size: usize) -> Result<(), String> {
    let input = input(kind, size);
    let mut lent = Lent::new();
    lent.read(&input.grammar.text(), &input.graph.text());
    let found = lent.found()?;
    let bytes = found.derivation.map_or(0, |text| text.len());
    println!("{} items, {bytes} bytes", found.items);
    Ok(())
}

fn done(task: Task) -> Result<(), String> {
    match task {
        Task::Tables(options) => tables(&options),
        Task::One(kind, size) => one(kind, size),
        Task::StackTry(call, kib) => stack::try_call(&call, kib),
    }
}

fn main() -> ExitCode {
    let arguments: Vec<String> = std::env::args().skip(1).collect();
    let task = match task(&arguments) {
        Ok(task) => task,
        Err(fault) => {
            eprintln!("bench: {fault}\n{USAGE}");
            return ExitCode::from(2);
        }
    };
    let thread = std::thread::Builder::new().stack_size(STACK_BYTES);
    let result = thread.spawn(|| done(task)).map(|handle| handle.join());
    match result {
        Ok(Ok(Ok(()))) => ExitCode::SUCCESS,
        Ok(Ok(Err(fault))) => {
            eprintln!("bench: {fault}");
            ExitCode::from(1)
        }
        // A panic has said its own.
        Ok(Err(_)) => ExitCode::from(1),
        Err(fault) => {
            eprintln!("bench: no thread: {fault}");
            ExitCode::from(2)
        }
    }
}
