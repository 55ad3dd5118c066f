//! Grammars, graphs and derivations as plain data, and their texts in four-column fields.

#[derive(Clone, Debug, PartialEq, Eq)]
pub struct Symbol {
    pub nonterminal: bool,
    pub rank: usize,
}

impl Symbol {
    pub fn terminal(rank: usize) -> Self {
        let nonterminal = false;
        Symbol { nonterminal, rank }
    }

    pub fn nonterminal(rank: usize) -> Self {
        let nonterminal = true;
        Symbol { nonterminal, rank }
    }
}

/// A labelled hyperedge, in a rule's right-hand side or in a graph.
#[derive(Clone, Debug, PartialEq, Eq)]
pub struct Edge {
    pub symbol: usize,
    pub nodes: Vec<usize>,
}

#[derive(Clone, Copy, Debug, PartialEq, Eq)]
pub enum PlanNode {
    Leaf,
    Introduce { child: usize, edge: usize },
    Join { left: usize, right: usize },
}

#[derive(Clone, Debug, PartialEq, Eq)]
pub struct Rule {
    pub nonterminal: usize,
    pub nodes: usize,
    pub external: Vec<usize>,
    pub edges: Vec<Edge>,
    pub plan: Vec<PlanNode>,
}

#[derive(Clone, Debug, PartialEq, Eq)]
pub struct Grammar {
    pub symbols: Vec<Symbol>,
    pub start: usize,
    pub rules: Vec<Rule>,
}

#[derive(Clone, Debug, PartialEq, Eq)]
pub struct Graph {
    pub nodes: usize,
    pub external: Vec<usize>,
    pub edges: Vec<Edge>,
}

/// One rule application: the graph node of each rule node, and for each rule edge the graph
/// edge (terminal) or the number of the application that replaces it (nonterminal).
#[derive(Clone, Debug, PartialEq, Eq)]
pub struct Application {
    pub rule: usize,
    pub nodes: Vec<usize>,
    pub parts: Vec<usize>,
}

/// Applications in preorder, the parts of each in edge order.
pub type Derivation = Vec<Application>;

/// Appends one line: a letter, its fields, a line feed. Values above 9,999 do not fit a field.
pub fn push_line(text: &mut Vec<u8>, letter: u8, fields: &[usize]) {
    text.push(letter);
    for &value in fields {
        debug_assert!(value <= 9_999);
        let mut column = [b' '; 4];
        let (mut rest, mut at) = (value, 3);
        loop {
            column[at] = b'0' + (rest % 10) as u8;
            rest /= 10;
            if rest == 0 || at == 0 {
                break;
            }
            at -= 1;
        }
        text.extend_from_slice(&column);
    }
    text.push(b'\n');
}

/// A line before it is written out, so that tests can change single fields.
#[derive(Clone, Debug, PartialEq, Eq)]
pub struct Line {
    pub letter: u8,
    pub fields: Vec<usize>,
}

fn line(letter: u8, fields: Vec<usize>) -> Line {
    Line { letter, fields }
}

pub fn lines_to_text(lines: &[Line]) -> Vec<u8> {
    let mut text = Vec::new();
    for l in lines {
        push_line(&mut text, l.letter, &l.fields);
    }
    text
}

fn edge_line(edge: &Edge) -> Line {
    let mut fields = vec![edge.symbol];
    fields.extend(&edge.nodes);
    line(b'E', fields)
}

impl Grammar {
    pub fn rank(&self, symbol: usize) -> usize {
        self.symbols[symbol].rank
    }

    pub fn is_nonterminal(&self, symbol: usize) -> bool {
        self.symbols[symbol].nonterminal
    }

    /// Whether some rules that only rename lead round a circle.
    pub fn has_circle(&self) -> bool {
        let mut below = vec![0u64; self.symbols.len()];
        for rule in &self.rules {
            let symbol = rule.edges[0].symbol;
            let only_renames = rule.edges.len() == 1 && rule.nodes == rule.external.len();
            if only_renames && self.is_nonterminal(symbol) {
                below[rule.nonterminal] |= 1 << symbol;
            }
        }
        // After so many rounds, all that a row of renamings leads to.
        for _ in 0..self.symbols.len() {
            for at in 0..below.len() {
                let next = (0..below.len()).filter(|&s| below[at] >> s & 1 == 1);
                below[at] |= next.fold(0, |set, s| set | below[s]);
            }
        }
        (0..below.len()).any(|at| below[at] >> at & 1 == 1)
    }

    pub fn lines(&self) -> Vec<Line> {
        let mut lines = vec![line(
            b'G',
            vec![self.symbols.len(), self.rules.len(), self.start],
        )];
        for (number, s) in self.symbols.iter().enumerate() {
            lines.push(line(b'S', vec![number, s.nonterminal as usize, s.rank]));
        }
        for (number, r) in self.rules.iter().enumerate() {
            let mut fields = vec![number, r.nonterminal, r.nodes, r.edges.len(), r.plan.len()];
            fields.extend(&r.external);
            lines.push(line(b'R', fields));
            lines.extend(r.edges.iter().map(edge_line));
            for p in &r.plan {
                lines.push(line(
                    b'P',
                    match *p {
                        PlanNode::Leaf => vec![0, 0, 0],
                        PlanNode::Introduce { child, edge } => vec![1, child, edge],
                        PlanNode::Join { left, right } => vec![2, left, right],
                    },
                ));
            }
        }
        lines
    }

    pub fn text(&self) -> Vec<u8> {
        lines_to_text(&self.lines())
    }
}

impl Graph {
    pub fn lines(&self) -> Vec<Line> {
        let mut fields = vec![self.nodes, self.edges.len()];
        fields.extend(&self.external);
        let mut lines = vec![line(b'H', fields)];
        lines.extend(self.edges.iter().map(edge_line));
        lines
    }

    pub fn text(&self) -> Vec<u8> {
        lines_to_text(&self.lines())
    }

    /// For each node the set of edges it lies on, as a mask.
    pub fn incidence(&self) -> Vec<u64> {
        let mut incident = vec![0u64; self.nodes];
        for (number, edge) in self.edges.iter().enumerate() {
            for &node in &edge.nodes {
                incident[node] |= 1 << number;
            }
        }
        incident
    }

    pub fn is_connected(&self) -> bool {
        let incident = self.incidence();
        let (mut edges, mut reached) = (1u64, vec![0]);
        while let Some(edge) = reached.pop() {
            for &node in &self.edges[edge].nodes {
                let new = incident[node] & !edges;
                reached.extend((0..self.edges.len()).filter(|e| new >> e & 1 == 1));
                edges |= new;
            }
        }
        edges == self.all_edges()
    }

    pub fn has_parallel_edges(&self) -> bool {
        (1..self.edges.len()).any(|at| self.edges[..at].contains(&self.edges[at]))
    }

    pub fn all_edges(&self) -> u64 {
        u64::MAX >> (64 - self.edges.len())
    }
}

pub fn derivation_lines(derivation: &[Application]) -> Vec<Line> {
    let mut lines = vec![line(b'D', vec![derivation.len()])];
    for (number, a) in derivation.iter().enumerate() {
        let mut fields = vec![number, a.rule];
        fields.extend(&a.nodes);
        fields.extend(&a.parts);
        lines.push(line(b'A', fields));
    }
    lines
}

pub fn derivation_text(derivation: &[Application]) -> Vec<u8> {
    lines_to_text(&derivation_lines(derivation))
}
