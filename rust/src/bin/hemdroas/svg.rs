//! A graph as SVG.

use super::graph::Graph;
use super::placed::{node_lines, placed, Area, LINE};
use super::routes::{routes, Route};

const STYLE: &str = "text{font:13px sans-serif;text-anchor:middle;fill:#222}\
    .state{fill:#f6f2ea;stroke:#5b4636;stroke-width:1.5}\
    .name{font-weight:bold}\
    .arrow{fill:none;stroke:#5b4636;stroke-width:1.3;marker-end:url(#head)}\
    .label{paint-order:stroke;stroke:#fff;stroke-width:4px}";

const HEAD: &str =
    "<marker id=\"head\" viewBox=\"0 0 8 8\" refX=\"7\" refY=\"4\" markerWidth=\"8\" \
    markerHeight=\"8\" orient=\"auto\"><path d=\"M0 0L8 4L0 8z\" fill=\"#5b4636\"/></marker>";

/// Lines of text in a rectangle, the first of a class of its own.
fn text_lines(lines: &[String], area: &Area, classes: [&str; 2]) -> String {
    let top = area.y - lines.len() as f64 * LINE / 2.0 + 12.0;
    let line = |(row, line): (usize, &String)| {
        let class = classes[row.min(1)];
        let y = top + row as f64 * LINE;
        format!(
            "<text class=\"{class}\" x=\"{:.1}\" y=\"{y:.1}\">{line}</text>\n",
            area.x
        )
    };
    lines.iter().enumerate().map(line).collect()
}

fn state(lines: &[String], area: &Area) -> String {
    let (x, y) = (area.x - area.width / 2.0, area.top());
    let (width, height) = (area.width, area.height);
    format!(
        "<rect class=\"state\" x=\"{x:.1}\" y=\"{y:.1}\" width=\"{width:.1}\" height=\"{height:.1}\" rx=\"6\"/>\n{}",
        text_lines(lines, area, ["name", "none"])
    )
}

/// The dot that leads to a start.
fn start(area: &Area) -> String {
    let edge = area.x - area.width / 2.0;
    format!(
        "<circle cx=\"{:.1}\" cy=\"{:.1}\" r=\"4\" fill=\"#5b4636\"/>\n<path class=\"arrow\" d=\"M{:.1} {:.1} H{:.1}\"/>\n",
        edge - 32.0,
        area.y,
        edge - 28.0,
        area.y,
        edge - 4.0
    )
}

fn label(route: &Route) -> String {
    text_lines(&route.label, &route.at, ["label", "label"])
}

/// The text of a graph.
pub fn text(graph: &Graph) -> String {
    let (areas, size) = placed(graph);
    let routes = routes(graph, &areas, size);
    let ceilings = match graph.ceilings.is_empty() {
        true => Vec::new(),
        false => vec![format!("ceilings: {}", graph.ceilings.join(", "))],
    };
    let foot = Area::of_lines(&ceilings, (size.0 / 2.0, size.1 + LINE));
    let (width, height) = (size.0.max(foot.width + LINE), size.1 + 2.0 * LINE);
    let mut text = format!(
        "<svg xmlns=\"http://www.w3.org/2000/svg\" width=\"{width:.0}\" height=\"{height:.0}\" \
         viewBox=\"0 0 {width:.0} {height:.0}\">\n<title>policy</title>\n<style>{STYLE}</style>\n\
         <defs>{HEAD}</defs>\n<rect width=\"100%\" height=\"100%\" fill=\"#fff\"/>\n"
    );
    for route in &routes {
        text += &format!("<path class=\"arrow\" d=\"{}\"/>\n", route.path);
    }
    for (node, area) in graph.nodes.iter().zip(&areas) {
        text += &state(&node_lines(node), area);
        text += &if node.is_start {
            start(area)
        } else {
            String::new()
        };
    }
    text += &routes.iter().map(label).collect::<String>();
    text += &text_lines(
        &ceilings,
        &Area {
            x: width / 2.0,
            ..foot
        },
        ["none", "none"],
    );
    text + "</svg>\n"
}
