//! Question 8 over this parser's own values: `tables(&Grammar, &Graph)` tells whether accepted
//! texts could have filled them; `Chart::check_items` (chart/existence.rs) whether each item names what exists.

use crate::model::{Edge, Grammar, Graph, PlanNode, Rule, Symbol};

/// Whether some accepted grammar text reads as this grammar, and some graph text with it as this
/// graph.
pub fn tables(grammar: &Grammar, graph: &Graph) -> bool {
    is_grammar(grammar) && is_graph(grammar, graph)
}

pub fn is_grammar(grammar: &Grammar) -> bool {
    let symbols = &grammar.symbols;
    (1..=64).contains(&symbols.len())
        && (1..=64).contains(&grammar.rules.len())
        && symbols
            .get(grammar.start)
            .is_some_and(|start| start.nonterminal)
        && symbols.iter().enumerate().all(|(number, symbol)| {
            symbol.rank <= 4 && (symbol.rank > 0 || number == grammar.start)
        })
        && grammar.rules.iter().all(|rule| is_rule(symbols, rule))
}

/// `grammar` must have passed `is_grammar`.
pub fn is_graph(grammar: &Grammar, graph: &Graph) -> bool {
    let external = grammar.rank(grammar.start);
    (1..=64).contains(&graph.nodes)
        && (1..=64).contains(&graph.edges.len())
        && is_node_list(&graph.external, external, graph.nodes)
        && graph.edges.iter().all(|edge| {
            is_edge(&grammar.symbols, edge, graph.nodes) && !grammar.is_nonterminal(edge.symbol)
        })
        && covers(&graph.edges, graph.nodes)
}

fn is_rule(symbols: &[Symbol], rule: &Rule) -> bool {
    let Some(symbol) = symbols.get(rule.nonterminal) else {
        return false;
    };
    symbol.nonterminal
        && (1..=8).contains(&rule.nodes)
        && (1..=8).contains(&rule.edges.len())
        && is_node_list(&rule.external, symbol.rank, rule.nodes)
        && rule
            .edges
            .iter()
            .all(|edge| is_edge(symbols, edge, rule.nodes))
        && covers(&rule.edges, rule.nodes)
        && is_plan(&rule.plan, rule.edges.len())
}

fn is_edge(symbols: &[Symbol], edge: &Edge, nodes: usize) -> bool {
    symbols
        .get(edge.symbol)
        .is_some_and(|s| s.rank > 0 && is_node_list(&edge.nodes, s.rank, nodes))
}

/// As many nodes as are due, in range and distinct. There are at most 64 nodes.
fn is_node_list(listed: &[usize], due: usize, nodes: usize) -> bool {
    listed.len() == due
        && listed.iter().all(|&node| node < nodes)
        && node_mask(listed).count_ones() as usize == due
}

fn node_mask(nodes: &[usize]) -> u64 {
    nodes.iter().fold(0, |mask, &node| mask | 1 << node)
}

/// Every node is on an edge; the edges' nodes are in range.
fn covers(edges: &[Edge], nodes: usize) -> bool {
    let covered = edges.iter().fold(0, |mask, e| mask | node_mask(&e.nodes));
    covered.count_ones() as usize == nodes
}

/// The plan rules: each child below its parent and a child once, each edge introduced once, and
/// nothing left over but the root.
fn is_plan(plan: &[PlanNode], edges: usize) -> bool {
    if !(2..=16).contains(&plan.len()) {
        return false;
    }
    let (mut children, mut introduced) = (0u32, 0u32);
    // Takes a number of a set that must be there and not be taken yet.
    let take = |set: &mut u32, number: usize, count: usize| {
        let free = number < count && *set >> number & 1 == 0;
        if free {
            *set |= 1 << number;
        }
        free
    };
    let kept = plan.iter().enumerate().all(|(own, node)| match *node {
        PlanNode::Leaf => true,
        PlanNode::Introduce { child, edge } => {
            take(&mut children, child, own) && take(&mut introduced, edge, edges)
        }
        PlanNode::Join { left, right } => {
            take(&mut children, left, own) && take(&mut children, right, own)
        }
    });
    kept && children.count_ones() as usize == plan.len() - 1
        && introduced.count_ones() as usize == edges
}

#[cfg(test)]
mod tests {
    use super::*;
    use crate::read::{read_grammar, read_graph};

    /// Leaves joined to one, then every edge in order.
    fn plan(leaves: usize, edges: usize) -> Vec<PlanNode> {
        let mut plan = vec![PlanNode::Leaf];
        for _ in 1..leaves {
            let left = plan.len() - 1;
            let right = left + 1;
            plan.push(PlanNode::Leaf);
            plan.push(PlanNode::Join { left, right });
        }
        for edge in 0..edges {
            let child = plan.len() - 1;
            plan.push(PlanNode::Introduce { child, edge });
        }
        plan
    }

    /// A row of so many edges over so many nodes, from its end to its begin again.
    fn row(nodes: usize, edges: usize) -> Vec<Edge> {
        let edge = |at: usize| Edge {
            symbol: 0,
            nodes: vec![at % nodes, (at + 1) % nodes],
        };
        (0..edges).map(edge).collect()
    }

    fn grammar(symbols: usize, rules: usize, nodes: usize, edges: usize, leaves: usize) -> Grammar {
        let rule = Rule {
            nonterminal: 1,
            nodes,
            external: vec![0],
            edges: row(nodes, edges),
            plan: plan(leaves, edges),
        };
        let mut all = vec![Symbol::terminal(2)];
        all.resize(symbols, Symbol::nonterminal(1));
        Grammar {
            symbols: all,
            start: 1,
            rules: vec![rule; rules],
        }
    }

    fn graph(nodes: usize, edges: usize) -> Graph {
        Graph {
            nodes,
            external: vec![0],
            edges: row(nodes, edges),
        }
    }

    /// Each number at its limit and one beyond, where the readers draw the line.
    #[test]
    fn limits() {
        let largest = grammar(64, 64, 8, 8, 4);
        assert_eq!(read_grammar(&largest.text()).as_ref(), Ok(&largest));
        assert!(is_grammar(&largest));
        for beyond in [
            grammar(65, 64, 8, 8, 4),
            grammar(64, 65, 8, 8, 4),
            grammar(64, 64, 9, 8, 4),
            grammar(64, 64, 8, 9, 4),
            grammar(64, 64, 8, 8, 5),
        ] {
            assert!(read_grammar(&beyond.text()).is_err());
            assert!(!is_grammar(&beyond));
        }
        let small = grammar(2, 1, 2, 1, 1);
        let full = graph(64, 64);
        assert_eq!(read_graph(&small, &full.text()).as_ref(), Ok(&full));
        assert!(tables(&small, &full));
        for beyond in [graph(64, 65), graph(65, 64)] {
            assert!(read_graph(&small, &beyond.text()).is_err());
            assert!(!tables(&small, &beyond));
        }
    }
}
