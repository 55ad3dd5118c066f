//! The writer: a derivation read off the back-pointers, and its text.

use super::{Answer, Chart};
use crate::model::{derivation_text, Application, Derivation, PlanNode};

impl Chart<'_> {
    /// One derivation with the fewest applications, or 9, 10 or 11. Which of several is the
    /// program's free choice and not to be compared.
    pub fn derivation(&self) -> Result<Derivation, u8> {
        match self.state() {
            Answer::TooSmall => return Err(9),
            Answer::StepsUp(_) => return Err(10),
            Answer::Done(_) => {}
        }
        let goal = self.index.get(&self.items, &self.goal_key()).ok_or(11u8)?;
        let mut derivation: Derivation = Vec::new();
        // Passive items not written yet, and the application and rule edge that name them.
        let mut stack = vec![(goal, usize::MAX, 0)];
        let mut parts: Vec<(usize, u32)> = Vec::new();
        while let Some((passive, named_by, at)) = stack.pop() {
            let number = derivation.len();
            if named_by != usize::MAX {
                derivation[named_by].parts[at] = number;
            }
            let root = self.items[passive as usize].back.0;
            parts.clear();
            derivation.push(self.application(root, &mut parts));
            parts.sort_unstable_by_key(|&(edge, _)| std::cmp::Reverse(edge));
            stack.extend(parts.iter().map(|&(edge, item)| (item, number, edge)));
        }
        Ok(derivation)
    }

    /// The application of a root item, closed nodes found again on the way down the plan. Its
    /// nonterminal edges and their passive items go to `parts`.
    fn application(&self, root: u32, parts: &mut Vec<(usize, u32)>) -> Application {
        let number = self.slots[self.items[root as usize].key.slot as usize].rule as usize;
        let rule = &self.grammar.rules[number];
        let mut application = Application {
            rule: number,
            nodes: vec![0; rule.nodes],
            parts: vec![0; rule.edges.len()],
        };
        let mut stack = vec![root];
        while let Some(at) = stack.pop() {
            let item = &self.items[at as usize];
            match rule.plan[(item.key.slot - self.first_slot[number]) as usize] {
                PlanNode::Leaf => {}
                PlanNode::Join { .. } => stack.extend([item.back.0, item.back.1]),
                PlanNode::Introduce { edge, .. } => {
                    stack.push(item.back.0);
                    let rule_edge = &rule.edges[edge];
                    if self.grammar.is_nonterminal(rule_edge.symbol) {
                        let passive = &self.items[item.back.1 as usize];
                        for (position, &node) in rule_edge.nodes.iter().enumerate() {
                            application.nodes[node] = passive.key.places.get(position);
                        }
                        parts.push((edge, item.back.1));
                    } else {
                        let graph_edge = item.back.1 as usize;
                        for (position, &node) in rule_edge.nodes.iter().enumerate() {
                            application.nodes[node] = self.graph.edges[graph_edge].nodes[position];
                        }
                        application.parts[edge] = graph_edge;
                    }
                }
            }
        }
        application
    }

    /// The writer: the derivation's text, or 9, 10, 11, or 12 if it is longer than `output`.
    pub fn write(&self, output: usize) -> Result<Vec<u8>, u8> {
        let text = derivation_text(&self.derivation()?);
        if text.len() > output {
            return Err(12);
        }
        Ok(text)
    }
}
