//! "May stand still": the least set of lines that the document's rules are closed under.

use crate::table::Node;

/// One answer a line, of a sheet that agrees with the table.
pub fn may_stand_still(nodes: &[Node]) -> Vec<bool> {
    let mut set = vec![false; nodes.len()];
    loop {
        let before = set.clone();
        for (line, node) in nodes.iter().enumerate() {
            set[line] = set[line] || joins(node, &set);
        }
        if set == before {
            return set;
        }
    }
}

/// Is the line in the set, once those of `set` are?
fn joins(node: &Node, set: &[bool]) -> bool {
    let has = |named: i32| set[named as usize - 1];
    match node.kind {
        1 | 2 => node.b == 0,
        4 => node.a == 0,
        5 | 10 | 11 | 12 | 15 | 16 | 17 | 19 => true,
        6 => has(node.a) && has(node.b),
        7 => has(node.a) || has(node.b),
        8 => has(node.b),
        9 | 13 | 14 | 18 | 20 => has(node.a),
        _ => false,
    }
}

/// The first repeat whose body may stand still, from 1.
pub fn first_still_repeat(nodes: &[Node]) -> Option<usize> {
    let set = may_stand_still(nodes);
    (1..=nodes.len()).find(|line| {
        let node = nodes[line - 1];
        node.kind == 10 && set[node.a as usize - 1]
    })
}
