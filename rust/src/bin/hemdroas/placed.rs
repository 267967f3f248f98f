//! Where the states of a graph stand in a picture: in columns, by how many
//! events they are away from a start.

use super::graph::{Graph, Node};

/// The most characters of a line of a label.
const WRAP: usize = 18;

/// The width of a character, and the height of a line.
pub const LETTER: f64 = 7.8;
pub const LINE: f64 = 16.0;

/// The room around a state, for arrows and their labels.
const GAP: (f64, f64) = (90.0, 74.0);
const MARGIN: (f64, f64) = (46.0, 64.0);

/// A rectangle, by its middle and its size.
#[derive(Clone, Copy)]
pub struct Area {
    pub x: f64,
    pub y: f64,
    pub width: f64,
    pub height: f64,
}

impl Area {
    /// The rectangle of lines around a point.
    pub fn of_lines(lines: &[String], (x, y): (f64, f64)) -> Area {
        let longest = lines.iter().map(|line| line.chars().count()).max();
        Area {
            x,
            y,
            width: longest.unwrap_or(0) as f64 * LETTER,
            height: lines.len() as f64 * LINE,
        }
    }

    /// Whether a point lies in it, with some room around.
    pub fn holds(&self, (x, y): (f64, f64), room: f64) -> bool {
        let (across, down) = ((x - self.x).abs(), (y - self.y).abs());
        across <= self.width / 2.0 + room && down <= self.height / 2.0 + room
    }

    /// Whether another one covers some of it.
    pub fn meets(&self, other: &Area) -> bool {
        let (across, down) = ((self.x - other.x).abs(), (self.y - other.y).abs());
        across < (self.width + other.width) / 2.0 && down < (self.height + other.height) / 2.0
    }

    /// The y of its upper edge.
    pub fn top(&self) -> f64 {
        self.y - self.height / 2.0
    }
}

/// A text in lines that are not too long.
pub fn wrapped(text: &str) -> Vec<String> {
    let mut lines: Vec<String> = Vec::new();
    for word in text.split(' ') {
        match lines.last_mut() {
            Some(line) if line.len() + word.len() < WRAP => *line += &format!(" {word}"),
            _ => lines.push(word.to_string()),
        }
    }
    lines
}

/// What stands in a state's box.
pub fn node_lines(node: &Node) -> Vec<String> {
    let mut lines = vec![node.name.clone()];
    if !node.without.is_empty() {
        lines.extend(wrapped(&format!("not {}", node.without.join(", "))));
    }
    lines
}

/// For each state how many events it is away from the nearest start.
fn columns(graph: &Graph) -> Vec<usize> {
    let mut columns: Vec<Option<usize>> = vec![None; graph.nodes.len()];
    for (column, node) in columns.iter_mut().zip(&graph.nodes) {
        *column = node.is_start.then_some(0);
    }
    for distance in 0..graph.nodes.len() {
        for arrow in &graph.arrows {
            if columns[arrow.from] == Some(distance) && columns[arrow.to].is_none() {
                columns[arrow.to] = Some(distance + 1);
            }
        }
    }
    columns
        .into_iter()
        .map(|column| column.unwrap_or(0))
        .collect()
}

/// The states of each column, each near those that lead to it.
fn ordered(graph: &Graph, columns: &[usize]) -> Vec<Vec<usize>> {
    let last = columns.iter().copied().max().unwrap_or(0);
    let mut heights = vec![0.0; columns.len()];
    let mut all = Vec::new();
    for column in 0..=last {
        let mut nodes: Vec<usize> = (0..columns.len())
            .filter(|&node| columns[node] == column)
            .collect();
        let wish = |node: usize| {
            let before = graph
                .arrows
                .iter()
                .filter(|arrow| arrow.to == node && columns[arrow.from] < column);
            let before: Vec<f64> = before.map(|arrow| heights[arrow.from]).collect();
            before.iter().sum::<f64>() / before.len().max(1) as f64
        };
        let wishes: Vec<f64> = (0..columns.len()).map(wish).collect();
        nodes.sort_by(|&one, &other| wishes[one].total_cmp(&wishes[other]));
        for (row, &node) in nodes.iter().enumerate() {
            heights[node] = row as f64 - (nodes.len() - 1) as f64 / 2.0;
        }
        all.push(nodes);
    }
    all
}

/// The boxes of the states, and the size of all.
pub fn placed(graph: &Graph) -> (Vec<Area>, (f64, f64)) {
    let columns = columns(graph);
    let sizes: Vec<Area> = graph
        .nodes
        .iter()
        .map(|node| Area::of_lines(&node_lines(node), (0.0, 0.0)))
        .collect();
    let label = graph.arrows.iter().flat_map(|arrow| wrapped(&arrow.label));
    let widest = label.map(|line| line.len()).max().unwrap_or(0) as f64 * LETTER;
    let tallest = sizes.iter().map(|size| size.height).fold(LINE, f64::max) + 14.0;
    let step = tallest + GAP.1;
    let ordered = ordered(graph, &columns);
    let rows = ordered.iter().map(Vec::len).max().unwrap_or(1);
    let middle = MARGIN.1 + rows as f64 * step / 2.0;
    let mut areas = sizes.clone();
    let mut left = MARGIN.0;
    for nodes in ordered {
        let width = nodes
            .iter()
            .map(|&node| sizes[node].width)
            .fold(0.0, f64::max)
            + 24.0;
        for (row, &node) in nodes.iter().enumerate() {
            areas[node] = Area {
                x: left + width / 2.0,
                y: middle + (row as f64 - (nodes.len() - 1) as f64 / 2.0) * step,
                width: sizes[node].width + 24.0,
                height: sizes[node].height + 14.0,
            };
        }
        left += width + GAP.0.max(widest + 30.0);
    }
    (areas, (left, 2.0 * middle))
}
