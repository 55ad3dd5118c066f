//! Texts damaged somehow, and texts with a known refusal.

use super::Rng;
use crate::model::{lines_to_text, Grammar, Line};

/// A text damaged somehow; it may come out unharmed.
pub fn damaged_text(rng: &mut Rng, lines: &[Line]) -> Vec<u8> {
    let mut lines = lines.to_vec();
    let at = rng.below(lines.len());
    let kind = rng.below(16);
    match kind {
        0 => {
            lines.remove(at);
        }
        1 => {
            let copy = lines[at].clone();
            lines.insert(at, copy);
        }
        2 => {
            let other = rng.below(lines.len());
            lines.swap(at, other);
        }
        3..=7 => {
            let field = rng.below(lines[at].fields.len());
            let old = lines[at].fields[field];
            lines[at].fields[field] = match rng.below(9) {
                0 => old.saturating_sub(1),
                1 | 2 => (old + 1).min(9_999),
                3 => 9_999,
                4 => 0,
                5 => *rng.pick(&[7, 8, 9, 15, 16, 17, 63, 64, 65, 4_096, 4_097]),
                6 => rng.below(70),
                _ => rng.below(8),
            };
        }
        8 => {
            let field = rng.below(9);
            lines[at].fields.push(field);
        }
        9 if lines[at].fields.len() > 1 => {
            lines[at].fields.pop();
        }
        10 => {
            let extra = Line {
                letter: *rng.pick(b"GSREPHDACNZ"),
                fields: vec![rng.below(4); rng.range(1, 5)],
            };
            if rng.coin() {
                lines.push(extra);
            } else {
                lines.insert(at, extra);
            }
        }
        11 => lines[at].letter = *rng.pick(b"GSREPHDACNZ"),
        _ => {}
    }
    let mut text = lines_to_text(&lines);
    match kind {
        12 => {
            text.pop();
        }
        13 => {
            let length = rng.below(text.len());
            text.truncate(length);
        }
        14 => {
            for _ in 0..rng.range(1, 3) {
                let at = rng.below(text.len());
                text[at] ^= 1 << rng.below(8);
            }
        }
        15 => {
            let at = rng.below(text.len() + 1);
            text.insert(at, *rng.pick(b" 0\n\r\t-G1~\0\xFF"));
        }
        _ => {}
    }
    text
}

/// Bytes with no text behind them.
pub fn noise(rng: &mut Rng) -> Vec<u8> {
    let length = rng.below(200);
    let alphabet: &[u8] = if rng.coin() {
        b"GSREPHDA 0123\n"
    } else {
        b"\0\n\r\t G019a\x7F\x80\xFF"
    };
    (0..length).map(|_| *rng.pick(alphabet)).collect()
}

/// A line's bytes spoilt so that question 1 refuses it.
fn spoilt_line(rng: &mut Rng, line: &Line) -> Vec<u8> {
    let mut bytes = lines_to_text(std::slice::from_ref(line));
    let columns = 1 + 4 * rng.below(line.fields.len());
    match rng.below(9) {
        0 => bytes[0] = bytes[0].to_ascii_lowercase(),
        1 => bytes[0] = b' ',
        2 => bytes[columns..columns + 4]
            .copy_from_slice(*rng.pick(&[b"  01", b"0000", b"1   ", b"    ", b"  1 ", b" 1 2"])),
        3 => bytes[columns..columns + 4]
            .copy_from_slice(*rng.pick(&[b"  -1", b"  +1", b"   a", b"\t  1", b"   :", b"   /"])),
        4 => bytes.insert(columns, b' '),
        5 => {
            bytes.remove(columns);
        }
        6 => bytes = vec![bytes[0], b'\n'],
        7 => {
            bytes.pop();
            while bytes.len() < 1 + 4 * 19 {
                bytes.extend_from_slice(b"   0");
            }
            bytes.push(b'\n');
        }
        _ => bytes.insert(bytes.len() - 1, b'\r'),
    }
    bytes
}

/// What comes after the first fault must not matter: the rest as it was, noise, or nothing.
fn tail(rng: &mut Rng, rest: &[Line]) -> Vec<u8> {
    match rng.below(3) {
        0 => lines_to_text(rest),
        1 => noise(rng),
        _ => Vec::new(),
    }
}

/// A grammar or graph text with faults in one line and the refusal it must get: the lowest of the
/// faults' questions. `grammar` is the one a graph text belongs to, or the text's own.
pub fn faulty_text(rng: &mut Rng, grammar: &Grammar, lines: &[Line]) -> (Vec<u8>, u8) {
    let symbols = &grammar.symbols;
    if rng.one_in(12) {
        let mut text = lines_to_text(lines);
        return match rng.below(5) {
            0 => {
                text.truncate(lines_to_text(&lines[..rng.below(lines.len())]).len());
                (text, 2)
            }
            1 => {
                text.pop();
                (text, 1)
            }
            2 => {
                text.extend_from_slice(rng.pick::<&[u8]>(&[
                    b"E   0\n",
                    b"Z   0   1\n",
                    b"S   0   0   1\nE",
                ]));
                (text, 2)
            }
            3 => {
                text.extend_from_slice(rng.pick::<&[u8]>(&[b"\n", b"E   0", b" ", b"e   0\n"]));
                (text, 1)
            }
            _ => (Vec::new(), 2),
        };
    }
    let at = rng.below(lines.len());
    let mut line = lines[at].clone();
    // In which rule the line stands, if in one.
    let rule_line = lines[..=at].iter().rposition(|l| l.letter == b'R');
    let nodes_here = match (line.letter, rule_line) {
        (b'R', _) => line.fields[2],
        (b'E', Some(r)) => lines[r].fields[2],
        (b'H', _) => line.fields[0],
        _ => lines[0].fields[0],
    };
    let mut refused: u8 = 99;
    if rng.one_in(6) {
        if let Some(text_and_number) = fault_seen_later(rng, lines, at) {
            return text_and_number;
        }
    }

    // From the last question to the first, so that an earlier fault never undoes the setup of a
    // later one; the lowest number stands.
    let listed_from = match line.letter {
        b'R' => 5,
        b'E' => 1,
        b'H' => 2,
        _ => line.fields.len(),
    };
    let listed = line.fields.len() - listed_from;
    if line.letter == b'P' && rng.coin() {
        let own = lines[..at]
            .iter()
            .rev()
            .take_while(|l| l.letter == b'P')
            .count();
        let before = &lines[at - own..at];
        let edges = lines[rule_line.unwrap()].fields[3];
        let children: Vec<usize> = before
            .iter()
            .flat_map(|l| match l.fields[0] {
                0 => vec![],
                1 => vec![l.fields[1]],
                _ => vec![l.fields[1], l.fields[2]],
            })
            .collect();
        let introduced: Vec<usize> = before
            .iter()
            .filter(|l| l.fields[0] == 1)
            .map(|l| l.fields[2])
            .collect();
        let kind = line.fields[0];
        let fault = match (kind, rng.below(5)) {
            (0, 0) => Some((1, 1)),
            (0, 1) => Some((2, 1)),
            (0, 2) => Some((1, 9_999)),
            (1 | 2, 0) => Some((1, own + rng.below(3))),
            (1, 1) => Some((2, edges + rng.below(3))),
            (1, 2) if !introduced.is_empty() => Some((2, *rng.pick(&introduced))),
            (1 | 2, 3) if !children.is_empty() => Some((1, *rng.pick(&children))),
            (2, 1) => Some((2, own + rng.below(2))),
            (2, 2) => Some((2, line.fields[1])),
            (2, 4) if !children.is_empty() => Some((2, *rng.pick(&children))),
            _ => None,
        };
        if let Some((field, value)) = fault {
            line.fields[field] = value;
            refused = 7;
        }
    }
    if listed > 0 && rng.one_in(3) {
        let place = listed_from + rng.below(listed);
        if rng.coin() || listed == 1 {
            line.fields[place] = *rng.pick(&[nodes_here, nodes_here + 1, 9_999]);
            refused = 5;
        } else {
            let other = listed_from + (place - listed_from + 1) % listed;
            line.fields[place] = line.fields[other];
            refused = 5;
        }
    }
    if rng.one_in(3) {
        if listed > 0 && rng.coin() {
            line.fields.pop();
        } else {
            line.fields.push(rng.below(9));
        }
        refused = 4;
    }
    if rng.one_in(3) {
        let terminal =
            |nonterminal: bool| (0..symbols.len()).find(|&s| symbols[s].nonterminal == nonterminal);
        let (field, bad): (usize, Vec<usize>) = match line.letter {
            b'G' => match rng.below(3) {
                0 => (0, vec![0, 65, 9_999]),
                1 => (1, vec![0, 65]),
                _ => (2, vec![line.fields[0], line.fields[0] + 1]),
            },
            b'S' => match rng.below(3) {
                0 => (
                    0,
                    vec![line.fields[0] + 1, line.fields[0].wrapping_sub(1).min(64)],
                ),
                1 if line.fields[0] == grammar.start => (1, vec![0, 2]),
                1 => (1, vec![2, 3]),
                _ if line.fields[0] == grammar.start => (2, vec![5, 6]),
                _ => (2, vec![0, 5]),
            },
            b'R' => match rng.below(5) {
                0 => (
                    0,
                    vec![line.fields[0] + 1, line.fields[0].wrapping_sub(1).min(64)],
                ),
                1 => (
                    1,
                    [Some(symbols.len()), terminal(false)]
                        .into_iter()
                        .flatten()
                        .collect(),
                ),
                2 => (2, vec![0, 9]),
                3 => (3, vec![0, 9]),
                _ => (4, vec![0, 1, 17]),
            },
            b'E' if rule_line.is_some() => {
                let zero = (0..symbols.len()).find(|&s| symbols[s].rank == 0);
                (
                    0,
                    [Some(symbols.len()), zero].into_iter().flatten().collect(),
                )
            }
            b'E' => (
                0,
                [Some(symbols.len()), terminal(true)]
                    .into_iter()
                    .flatten()
                    .collect(),
            ),
            b'P' => (0, vec![3, 9_999]),
            _ => (rng.below(2), vec![0, 65]),
        };
        line.fields[field] = *rng.pick(&bad);
        refused = 3;
    } else if line.letter != b'E' && rng.one_in(10) {
        // An `E` line with any field has its symbol, so it lacks no fixed field.
        let fixed = match line.letter {
            b'R' => 5,
            b'H' => 2,
            _ => 3,
        };
        line.fields.truncate(rng.range(1, fixed - 1));
        refused = 3;
    }
    if rng.one_in(6) {
        let due = line.letter;
        line.letter = *rng.pick(b"GSREPHDACNZ");
        if line.letter != due {
            refused = 2;
        }
    }
    let mut text = lines_to_text(&lines[..at]);
    if refused == 99 || rng.one_in(8) {
        text.extend(spoilt_line(rng, &line));
        text.extend(tail(rng, &lines[at + 1..]));
        return (text, 1);
    }
    text.extend(lines_to_text(&[line]));
    text.extend(tail(rng, &lines[at + 1..]));
    (text, refused)
}

/// Faults that a head line sets up and a later line shows: a node on no edge (6), a plan cut
/// short (7), a block longer or shorter than said (2).
fn fault_seen_later(rng: &mut Rng, lines: &[Line], at: usize) -> Option<(Vec<u8>, u8)> {
    let mut lines = lines.to_vec();
    // Makes room for a node of any number that no edge has.
    let add_node = |rng: &mut Rng, lines: &mut [Line], nodes_at: usize, listed_from: usize| {
        let free = rng.range(0, lines[at].fields[nodes_at]);
        lines[at].fields[nodes_at] += 1;
        let edges = lines[at + 1..]
            .iter()
            .take_while(|l| l.letter == b'E')
            .count();
        for (number, line) in lines[at..=at + edges].iter_mut().enumerate() {
            let from = if number == 0 { listed_from } else { 1 };
            for node in line.fields[from..].iter_mut().filter(|n| **n >= free) {
                *node += 1;
            }
        }
    };
    let refused = match (lines[at].letter, rng.below(4)) {
        (b'R', 0) if lines[at].fields[2] < 8 => {
            add_node(rng, &mut lines, 2, 5);
            6
        }
        (b'R', 1) if lines[at].fields[4] > 2 => {
            lines[at].fields[4] -= 1;
            7
        }
        (b'R', 2) if lines[at].fields[3] < 8 => {
            lines[at].fields[3] += 1;
            2
        }
        (b'H', 0 | 1) if lines[at].fields[0] < 64 => {
            add_node(rng, &mut lines, 0, 2);
            6
        }
        (b'H', 2) if lines[at].fields[1] < 64 => {
            lines[at].fields[1] += 1;
            2
        }
        (b'G', 0) if lines[at].fields[0] < 64 => {
            lines[at].fields[0] += 1;
            2
        }
        (b'G', 1) if lines[at].fields[1] < 64 => {
            lines[at].fields[1] += 1;
            2
        }
        (b'G', 2) if lines[at].fields[1] > 1 => {
            lines[at].fields[1] -= 1;
            2
        }
        _ => return None,
    };
    Some((lines_to_text(&lines), refused))
}
