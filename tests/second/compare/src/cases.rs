//! Pairs of a grammar and a graph for both comparisons, and their texts spoilt.

use second::chart::{Answer, Chart};
use second::gen::{self, Rng};
use second::model::{lines_to_text, Application, Derivation, Edge, Grammar, Graph, PlanNode, Rule};
use second::model::{Line, Symbol};

/// A grammar and a graph, with derivations of the graph, or of one much like it.
pub struct Pair {
    pub grammar: Grammar,
    pub graph: Graph,
    pub sources: Vec<Derivation>,
}

fn draw_graph(rng: &mut Rng, grammar: &Grammar, most: usize) -> Option<(Graph, Vec<Derivation>)> {
    if rng.one_in(6) {
        // Derivations of another graph that differs in one place.
        let (graph, derivation) = gen::grow(rng, grammar, most)?;
        if rng.coin() {
            if let Some((graph, derivation)) = gen::merged(rng, grammar, &graph, &derivation) {
                return Some((graph, vec![derivation]));
            }
        }
        return Some((gen::changed_graph(rng, grammar, &graph), vec![derivation]));
    }
    let (graph, grown) = gen::case_graph(rng, grammar, most)?;
    Some((graph, grown.into_iter().collect()))
}

fn draw_grammar(rng: &mut Rng) -> Grammar {
    let grammar = gen::random_grammar(rng);
    if rng.one_in(12) {
        return deepened(rng, grammar);
    }
    grammar
}

fn renaming(rng: &mut Rng, from: usize, to: usize, rank: usize) -> Rule {
    let nodes = rng.permutation(rank);
    let edge = Edge {
        symbol: to,
        nodes: nodes.clone(),
    };
    Rule {
        nonterminal: from,
        nodes: rank,
        external: nodes,
        edges: vec![edge],
        plan: gen::random_plan(rng, 1),
    }
}

/// Puts a row of renamings before the rules of one nonterminal, at times closed to a circle, so
/// that derivations get long.
fn deepened(rng: &mut Rng, mut grammar: Grammar) -> Grammar {
    let candidates: Vec<usize> = (0..grammar.symbols.len())
        .filter(|&s| grammar.is_nonterminal(s) && grammar.rank(s) > 0)
        .collect();
    let room = (64 - grammar.symbols.len()).min(64 - grammar.rules.len());
    if candidates.is_empty() || room < 3 {
        return grammar;
    }
    let first = *rng.pick(&candidates);
    let rank = grammar.rank(first);
    let length = rng.range(1, (room - 1).min(40));
    let last = grammar.symbols.len() + length - 1;
    for rule in grammar.rules.iter_mut() {
        if rule.nonterminal == first {
            rule.nonterminal = last;
        }
    }
    let mut row = vec![first];
    for _ in 0..length {
        row.push(grammar.symbols.len());
        grammar.symbols.push(Symbol::nonterminal(rank));
    }
    if rng.one_in(3) {
        row.push(first);
    }
    for pair in row.windows(2) {
        grammar.rules.push(renaming(rng, pair[0], pair[1], rank));
    }
    rng.shuffle(&mut grammar.rules);
    grammar
}

pub fn draw_pair(rng: &mut Rng, most: usize) -> Pair {
    loop {
        let grammar = draw_grammar(rng);
        if let Some((graph, sources)) = draw_graph(rng, &grammar, most) {
            return Pair {
                grammar,
                graph,
                sources,
            };
        }
    }
}

pub fn draw_small(rng: &mut Rng) -> Pair {
    let most = rng.range(1, 6);
    draw_pair(rng, most)
}

pub fn draw_middle(rng: &mut Rng) -> Pair {
    let most = rng.range(6, 20);
    draw_pair(rng, most)
}

/// A graph of up to 64 edges, half of the time a grown one whose closure `items` hold.
pub fn draw_large(rng: &mut Rng, items: usize) -> Pair {
    if rng.coin() {
        if let Some(pair) = draw_large_valid(rng, items) {
            return pair;
        }
    }
    let most = if rng.one_in(4) { 64 } else { rng.range(20, 64) };
    draw_pair(rng, most)
}

fn draw_large_valid(rng: &mut Rng, items: usize) -> Option<Pair> {
    for _ in 0..200 {
        let grammar = draw_grammar(rng);
        let most = if rng.coin() { 64 } else { rng.range(21, 64) };
        let Some((graph, derivation)) = gen::grow(rng, &grammar, most) else {
            continue;
        };
        if graph.edges.len() <= 20 {
            continue;
        }
        let (graph, derivation) = gen::renumber(rng, &grammar, &graph, &derivation);
        if Chart::start_any_size(&grammar, &graph, items).run_to_end() != Answer::TooSmall {
            return Some(Pair {
                grammar,
                graph,
                sources: vec![derivation],
            });
        }
    }
    None
}

/// Rules that match nothing in any graph of the old grammar, with `items` leaf and join items in
/// all: the closure grows by just these. `None` if there is no room for them.
pub fn with_idle_rules(grammar: &Grammar, mut items: usize) -> Option<Grammar> {
    let mut grammar = grammar.clone();
    let terminal = grammar.symbols.len();
    grammar.symbols.push(Symbol::terminal(1));
    grammar.symbols.push(Symbol::nonterminal(1));
    while items > 0 {
        // `leaves` leaves and the joins between them make 2 * leaves - 1 items.
        let leaves = items.div_ceil(2).min(8);
        let mut plan = vec![PlanNode::Leaf];
        for _ in 1..leaves {
            let left = plan.len() - 1;
            plan.push(PlanNode::Leaf);
            plan.push(PlanNode::Join {
                left,
                right: left + 1,
            });
        }
        if plan.len() > items {
            plan.truncate(plan.len() - 2);
        }
        items -= plan.len();
        plan.push(PlanNode::Introduce {
            child: plan.len() - 1,
            edge: 0,
        });
        grammar.rules.push(Rule {
            nonterminal: terminal + 1,
            nodes: 1,
            external: vec![0],
            edges: vec![Edge {
                symbol: terminal,
                nodes: vec![0],
            }],
            plan,
        });
    }
    (grammar.symbols.len() <= 64 && grammar.rules.len() <= 64).then_some(grammar)
}

/// A pair with a rule more that renames the start to itself, and a derivation that follows it
/// until it has `applications` applications, each under the one before.
pub fn draw_long(rng: &mut Rng, applications: usize) -> Pair {
    loop {
        let Pair {
            mut grammar,
            graph,
            sources,
        } = draw_small(rng);
        let (start, rank) = (grammar.start, grammar.rank(grammar.start));
        let Some(short) = sources.into_iter().next() else {
            continue;
        };
        if rank == 0 || grammar.rules.len() == 64 {
            continue;
        }
        let rule = grammar.rules.len();
        grammar.rules.push(renaming(rng, start, start, rank));
        let mut nodes = vec![0; rank];
        for (&node, &image) in grammar.rules[rule].external.iter().zip(&graph.external) {
            nodes[node] = image;
        }
        let added = applications.saturating_sub(short.len());
        let mut long: Derivation = (1..=added)
            .map(|next| Application {
                rule,
                nodes: nodes.clone(),
                parts: vec![next],
            })
            .collect();
        for mut application in short {
            let edges = &grammar.rules[application.rule].edges;
            for (edge, part) in edges.iter().zip(&mut application.parts) {
                if grammar.is_nonterminal(edge.symbol) {
                    *part += added;
                }
            }
            long.push(application);
        }
        return Pair {
            grammar,
            graph,
            sources: vec![long],
        };
    }
}

/// A grammar of paths over symbol 0, each edge of which takes a whole row of renamings; mostly with
/// plans of one leaf only, which leave room in a chart for more applications.
fn row_grammar(rng: &mut Rng) -> Grammar {
    let (terminal, start, first) = (0, 1, 2);
    let last = first + rng.range(40, 60) - 1;
    let mut symbols = vec![Symbol::terminal(2)];
    symbols.resize(last + 1, Symbol::nonterminal(2));
    let one_leaf = !rng.one_in(4);
    let mut rules = vec![renaming(rng, start, first, 2)];
    for symbol in first..=last {
        let next = if symbol < last { symbol + 1 } else { terminal };
        rules.push(renaming(rng, symbol, next, 2));
    }
    for rule in rules.iter_mut().filter(|_| one_leaf) {
        rule.plan = vec![PlanNode::Leaf, PlanNode::Introduce { child: 0, edge: 0 }];
    }
    let edge = |symbol, nodes: [usize; 2]| Edge {
        symbol,
        nodes: nodes.to_vec(),
    };
    rules.push(Rule {
        nonterminal: start,
        nodes: 3,
        external: vec![0, 1],
        edges: vec![edge(first, [0, 2]), edge(start, [2, 1])],
        plan: gen::random_plan(rng, 2),
    });
    rng.shuffle(&mut rules);
    Grammar {
        symbols,
        start,
        rules,
    }
}

fn path(terminal: usize, edges: usize) -> Graph {
    let edge = |at| Edge {
        symbol: terminal,
        nodes: vec![at, at + 1],
    };
    Graph {
        nodes: edges + 1,
        external: vec![0, edges],
        edges: (0..edges).map(edge).collect(),
    }
}

/// A path whose fewest derivations have hundreds of applications or more, and whose closure
/// `items` hold.
pub fn draw_row(rng: &mut Rng, items: usize) -> Pair {
    loop {
        let grammar = row_grammar(rng);
        let graph = path(0, rng.range(15, 25));
        if Chart::start_any_size(&grammar, &graph, items).run_to_end() != Answer::TooSmall {
            let (graph, sources) = (gen::renumber(rng, &grammar, &graph, &[]).0, Vec::new());
            return Pair {
                grammar,
                graph,
                sources,
            };
        }
    }
}

/// The text of these lines with one fault or more, or noise in its place; now and then unharmed.
fn spoil(rng: &mut Rng, grammar: &Grammar, lines: &[Line]) -> Vec<u8> {
    match rng.below(10) {
        0..=4 => gen::faulty_text(rng, grammar, lines).0,
        5..=8 => gen::damaged_text(rng, lines),
        _ => gen::noise(rng),
    }
}

/// The texts of a pair, one of them or both spoilt as told; now and then both, as the grammar is
/// judged first.
pub fn texts(rng: &mut Rng, pair: &Pair, spoil_grammar: bool, spoil_graph: bool) -> [Vec<u8>; 2] {
    let both = (spoil_grammar || spoil_graph) && rng.one_in(10);
    let mut text = |lines: &[Line], spoilt: bool| {
        if spoilt {
            spoil(rng, &pair.grammar, lines)
        } else {
            lines_to_text(lines)
        }
    };
    [
        text(&pair.grammar.lines(), spoil_grammar || both),
        text(&pair.graph.lines(), spoil_graph || both),
    ]
}
