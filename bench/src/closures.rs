//! Start, run and write on both sides: first compared, then timed.

use crate::inputs::{Input, Kind};
use crate::measure::{interleaved, Effort, Timing};
use crate::sides::{applications, Found, Lent, Second};
use crate::ways;
use bobbinmarl::calls::{self, Verdict};

pub struct Row {
    pub kind: Kind,
    pub items: usize,
    /// How often the rules of the closure make an item.
    pub made: usize,
    /// None: 11 on both sides.
    pub applications: Option<usize>,
    pub proved: Timing,
    pub second: Timing,
    /// The second side with a replay of what it wrote.
    pub replaying: Timing,
}

pub fn measure(input: &Input, lent: &mut Lent, effort: Effort) -> Result<Row, String> {
    let name = format!("{} {}", input.kind.name(), input.nominal);
    let fault = |what: String| format!("{name}: {what}");
    lent.read(&input.grammar.text(), &input.graph.text());
    let second = Second {
        grammar: &input.grammar,
        graph: &input.graph,
        replays: false,
    };
    let replaying = Second {
        replays: true,
        ..second
    };
    let (first, other) = (lent.found().map_err(fault)?, replaying.found().map_err(fault)?);
    let ways = ways::count(&input.grammar, &input.graph);
    let applications = compared(input, lent, &first, &other, ways.items).map_err(fault)?;
    let [proved, second, replaying] = interleaved(
        effort,
        [&mut || lent.timed(), &mut || second.timed(), &mut || replaying.timed()],
    );
    Ok(Row {
        kind: input.kind,
        items: first.items,
        made: ways.made,
        applications,
        proved,
        second,
        replaying,
    })
}

/// The number of applications, if both sides agree and are right.
fn compared(
    input: &Input,
    lent: &Lent,
    proved: &Found,
    second: &Found,
    counted: usize,
) -> Result<Option<usize>, String> {
    let (a, b) = (proved.items, second.items);
    if a != b || a != counted {
        return Err(format!(
            "{a} items on the proved side, {b} on the second, {counted} counted"
        ));
    }
    if a.abs_diff(input.nominal) * 10 > input.nominal {
        return Err(format!("{a} items: more than a tenth off"));
    }
    let number = |found: &Found| found.derivation.as_deref().ok().and_then(applications);
    let (a, b) = (number(proved), number(second));
    if a != b {
        return Err(format!("applications: {a:?} on the proved side, {b:?} on the second"));
    }
    if a.is_some() != input.derivable {
        return Err(format!("derivable: {}, found: {a:?}", input.derivable));
    }
    if let (Ok(a), Ok(b)) = (&proved.derivation, &second.derivation) {
        cross_replayed(input, lent, a, b)?;
    }
    Ok(a)
}

/// Each side's derivation passes the other side's replay.
fn cross_replayed(input: &Input, lent: &Lent, proved: &[u8], second: &[u8]) -> Result<(), String> {
    if second::replay::replay(&input.grammar, &input.graph, proved) != 0 {
        return Err("the second replay refuses the proved side's derivation".into());
    }
    if calls::replay(&lent.grammar, &lent.graph, second) != Verdict::Passed {
        return Err("the proved replay refuses the second side's derivation".into());
    }
    Ok(())
}
