//! A graph as Graphviz takes it.

use super::graph::{Graph, Node};

/// A state, with the events that it does not allow below its name.
fn state(node: &Node) -> String {
    let name = &node.name;
    match node.without.is_empty() {
        true => format!("  \"{name}\";\n"),
        false => format!(
            "  \"{name}\" [label=\"{name}\\nnot {}\"];\n",
            node.without.join(", ")
        ),
    }
}

/// The text of a graph.
pub fn text(graph: &Graph) -> String {
    let mut text = "digraph policy {\n  rankdir=LR;\n  node [shape=box];\n".to_string();
    text += &graph.nodes.iter().map(state).collect::<String>();
    let starts = graph.nodes.iter().filter(|node| node.is_start);
    for (number, start) in starts.enumerate() {
        text += &format!(
            "  start{number} [shape=point];\n  start{number} -> \"{}\";\n",
            start.name
        );
    }
    for arrow in &graph.arrows {
        let (from, to) = (&graph.nodes[arrow.from].name, &graph.nodes[arrow.to].name);
        text += &format!("  \"{from}\" -> \"{to}\" [label=\"{}\"];\n", arrow.label);
    }
    if !graph.ceilings.is_empty() {
        text += &format!("  label=\"{}\";\n", graph.ceilings.join(", "));
    }
    text + "}\n"
}
