//! Readers for grammar and graph texts: the reading, or the one refusal number 1 to 7.
//! Judged line by line, questions 1 to 7 in order for each line; the first no is the result.

use crate::model::{Edge, Grammar, Graph, Line, PlanNode, Rule, Symbol};

pub type Refusal = u8;

/// Question 1: a capital letter and 1 to 18 fields of four columns. `bytes` is the line without
/// its line feed.
pub fn parse_line(bytes: &[u8]) -> Option<Line> {
    let (&letter, columns) = bytes.split_first()?;
    if !letter.is_ascii_uppercase() || columns.len() % 4 != 0 {
        return None;
    }
    let count = columns.len() / 4;
    if !(1..=18).contains(&count) {
        return None;
    }
    let mut fields = Vec::with_capacity(count);
    for column in columns.chunks(4) {
        fields.push(parse_field(column)?);
    }
    Some(Line { letter, fields })
}

fn parse_field(column: &[u8]) -> Option<usize> {
    let blanks = column.iter().take_while(|&&b| b == b' ').count();
    let digits = &column[blanks..];
    if digits.is_empty() || !digits.iter().all(u8::is_ascii_digit) {
        return None;
    }
    if digits.len() > 1 && digits[0] == b'0' {
        return None;
    }
    Some(
        digits
            .iter()
            .fold(0, |value, d| value * 10 + (d - b'0') as usize),
    )
}

/// The lines not read yet.
pub struct Lines<'a> {
    rest: &'a [u8],
}

impl<'a> Lines<'a> {
    pub fn new(text: &'a [u8]) -> Self {
        Lines { rest: text }
    }

    /// Questions 1 and 2 for the next line; its fields if both are answered yes.
    pub fn due(&mut self, letter: u8) -> Result<Vec<usize>, Refusal> {
        if self.rest.is_empty() {
            return Err(2);
        }
        // Bytes without a line feed are a line of wrong shape.
        let end = self.rest.iter().position(|&b| b == b'\n').ok_or(1u8)?;
        let line = parse_line(&self.rest[..end]).ok_or(1u8)?;
        self.rest = &self.rest[end + 1..];
        if line.letter != letter {
            return Err(2);
        }
        Ok(line.fields)
    }

    /// No line is due any more: an extra one is asked question 1, then refused 2.
    pub fn end(&mut self) -> Result<(), Refusal> {
        if self.rest.is_empty() {
            return Ok(());
        }
        let end = self.rest.iter().position(|&b| b == b'\n').ok_or(1u8)?;
        parse_line(&self.rest[..end]).ok_or(1u8)?;
        Err(2)
    }
}

fn ask(question: Refusal, yes: bool) -> Result<(), Refusal> {
    if yes {
        Ok(())
    } else {
        Err(question)
    }
}

/// Questions 4 and 5 for the listed nodes of a line.
fn listed_nodes(listed: &[usize], due: usize, nodes: usize) -> Result<Vec<usize>, Refusal> {
    ask(4, listed.len() == due)?;
    ask(5, listed.iter().all(|&n| n < nodes))?;
    ask(5, (1..due).all(|i| !listed[..i].contains(&listed[i])))?;
    Ok(listed.to_vec())
}

fn every_node_on_an_edge(nodes: usize, edges: &[Edge]) -> bool {
    (0..nodes).all(|n| edges.iter().any(|e| e.nodes.contains(&n)))
}

pub fn read_grammar(text: &[u8]) -> Result<Grammar, Refusal> {
    let mut lines = Lines::new(text);
    let f = lines.due(b'G')?;
    ask(3, f.len() >= 3)?;
    let (symbol_count, rule_count, start) = (f[0], f[1], f[2]);
    ask(
        3,
        (1..=64).contains(&symbol_count) && (1..=64).contains(&rule_count),
    )?;
    ask(3, start < symbol_count)?;
    ask(4, f.len() == 3)?;

    let mut symbols = Vec::new();
    for number in 0..symbol_count {
        let f = lines.due(b'S')?;
        ask(3, f.len() >= 3)?;
        let (kind, rank) = (f[1], f[2]);
        ask(3, f[0] == number && kind <= 1)?;
        let least_rank = if number == start { 0 } else { 1 };
        ask(3, (least_rank..=4).contains(&rank))?;
        ask(3, number != start || kind == 1)?;
        ask(4, f.len() == 3)?;
        symbols.push(Symbol {
            nonterminal: kind == 1,
            rank,
        });
    }

    let mut rules = Vec::new();
    for number in 0..rule_count {
        rules.push(read_rule(&mut lines, &symbols, number)?);
    }
    lines.end()?;
    Ok(Grammar {
        symbols,
        start,
        rules,
    })
}

fn read_rule(lines: &mut Lines, symbols: &[Symbol], number: usize) -> Result<Rule, Refusal> {
    let f = lines.due(b'R')?;
    ask(3, f.len() >= 5)?;
    let (nonterminal, nodes, edge_count, plan_count) = (f[1], f[2], f[3], f[4]);
    ask(3, f[0] == number)?;
    ask(
        3,
        nonterminal < symbols.len() && symbols[nonterminal].nonterminal,
    )?;
    ask(3, (1..=8).contains(&nodes) && (1..=8).contains(&edge_count))?;
    ask(3, (2..=16).contains(&plan_count))?;
    let external = listed_nodes(&f[5..], symbols[nonterminal].rank, nodes)?;

    let mut edges = Vec::new();
    for left in (0..edge_count).rev() {
        let f = lines.due(b'E')?;
        // A line has at least one field, so the symbol is present.
        let symbol = f[0];
        ask(3, symbol < symbols.len() && symbols[symbol].rank >= 1)?;
        let attached = listed_nodes(&f[1..], symbols[symbol].rank, nodes)?;
        edges.push(Edge {
            symbol,
            nodes: attached,
        });
        ask(6, left > 0 || every_node_on_an_edge(nodes, &edges))?;
    }
    let plan = read_plan(lines, edge_count, plan_count)?;
    Ok(Rule {
        nonterminal,
        nodes,
        external,
        edges,
        plan,
    })
}

/// The plan lines of one rule: question 7 at each line, and for the whole plan at the last.
fn read_plan(lines: &mut Lines, edges: usize, count: usize) -> Result<Vec<PlanNode>, Refusal> {
    let mut plan = Vec::new();
    let mut is_child = vec![false; count];
    let mut introduced = vec![false; edges];
    for own in 0..count {
        let f = lines.due(b'P')?;
        ask(3, f.len() >= 3)?;
        let (kind, first, second) = (f[0], f[1], f[2]);
        ask(3, kind <= 2)?;
        ask(4, f.len() == 3)?;
        plan.push(match kind {
            0 => {
                ask(7, first == 0 && second == 0)?;
                PlanNode::Leaf
            }
            1 => {
                ask(7, first < own && !is_child[first])?;
                ask(7, second < edges && !introduced[second])?;
                is_child[first] = true;
                introduced[second] = true;
                PlanNode::Introduce {
                    child: first,
                    edge: second,
                }
            }
            _ => {
                ask(7, first < own && second < own && first != second)?;
                ask(7, !is_child[first] && !is_child[second])?;
                is_child[first] = true;
                is_child[second] = true;
                PlanNode::Join {
                    left: first,
                    right: second,
                }
            }
        });
    }
    // A child's number is below its parent's, so the last is no child and is the root.
    ask(7, is_child[..count - 1].iter().all(|&c| c))?;
    ask(7, introduced.iter().all(|&i| i))?;
    Ok(plan)
}

pub fn read_graph(grammar: &Grammar, text: &[u8]) -> Result<Graph, Refusal> {
    let symbols = &grammar.symbols;
    let mut lines = Lines::new(text);
    let f = lines.due(b'H')?;
    ask(3, f.len() >= 2)?;
    let (nodes, edge_count) = (f[0], f[1]);
    ask(
        3,
        (1..=64).contains(&nodes) && (1..=64).contains(&edge_count),
    )?;
    let external = listed_nodes(&f[2..], symbols[grammar.start].rank, nodes)?;

    let mut edges = Vec::new();
    for left in (0..edge_count).rev() {
        let f = lines.due(b'E')?;
        let symbol = f[0];
        ask(3, symbol < symbols.len() && !symbols[symbol].nonterminal)?;
        let attached = listed_nodes(&f[1..], symbols[symbol].rank, nodes)?;
        edges.push(Edge {
            symbol,
            nodes: attached,
        });
        ask(6, left > 0 || every_node_on_an_edge(nodes, &edges))?;
    }
    lines.end()?;
    Ok(Graph {
        nodes,
        external,
        edges,
    })
}
