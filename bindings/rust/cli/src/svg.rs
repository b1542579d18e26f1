//! The text of a picture.

use barrowtide::Hash;

use crate::commands::counted;
use crate::draw::{Climb, Node, Picture, Role};
use crate::leaves::Kind;

const STYLE: &str = "\
text{font:11px sans-serif;fill:#222}\
.head{font-size:15px;font-weight:bold}\
.level{fill:#777}\
.mono{font-family:monospace}\
.mid{text-anchor:middle}\
.bad{fill:#b02020;font-weight:bold}\
.edge{stroke:#bbb;fill:none}\
.edge.sibling{stroke:#2b6cb0}\
.edge.climb{stroke:#c77d0a;stroke-width:3}\
.edge.cut{stroke:#c77d0a;stroke-dasharray:2 4}\
rect{fill:#eee;stroke:#999}\
rect.paper{fill:#fff;stroke:none}\
rect.climb{fill:#ffe3a3;stroke:#c77d0a;stroke-width:2}\
rect.above{fill:#fff;stroke:#c77d0a;stroke-dasharray:2 4}\
rect.sibling{fill:#d6e9ff;stroke:#2b6cb0}\
rect.worked{fill:#fff;stroke-dasharray:5 3}\
rect.missing{fill:#fff;stroke:#b02020;stroke-width:2;stroke-dasharray:5 3}\
rect.twin{fill:#ffd6d6;stroke:#b02020;stroke-width:2}\
rect.client{fill:#d9f2dd;stroke:#2f855a}\
circle,path.fold{fill:#ccc}";

/// Heights and widths of the picture, in pixels.
const ROW: f64 = 74.0;
const BOX: f64 = 38.0;
const SMALL: f64 = 20.0;
const LEFT: f64 = 110.0;
const GAP: f64 = 12.0;
const LETTER: f64 = 6.9;
const LEAST_WIDTH: f64 = 760.0;
/// Letters of a line of words.
const LINE: usize = 110;

/// The first eight digits of a hash in printed order.
fn brief(hash: &Hash) -> String {
    hash.to_string().chars().take(8).collect()
}

/// The first line of a node: its position and what it is.
fn label(node: &Node) -> String {
    let position = node.place.1;
    let word = match (node.role, node.written) {
        (Role::Missing, _) => "missing",
        (Role::Twin, _) => "twin",
        (Role::Climb(_), Some(Kind::Client(_))) => "id, client",
        (Role::Climb(_), _) if node.place.0 == 0 => "the id",
        (Role::Climb(_), _) => "",
        (_, Some(kind)) => kind.word(),
        (_, None) if node.value.is_some() => "worked out",
        _ => "",
    };
    format!("{position} {word}").trim_end().to_string()
}

/// The only line of a small node.
fn small_label(node: &Node) -> String {
    match node.written {
        Some(Kind::Copy) => format!("{} copy", node.place.1),
        _ => node.place.1.to_string(),
    }
}

/// Whether a node is drawn large: on the climb or beside it, or if there is no climb.
fn is_large(node: &Node, climb: Option<&Climb>) -> bool {
    node.role != Role::Other
        || (climb.is_none() && (node.written.is_some() || node.value.is_some()))
}

fn class(node: &Node) -> &'static str {
    match (node.role, node.written) {
        (Role::Climb(Some(_)), _) => "climb",
        (Role::Climb(None), _) => "above",
        (Role::Missing, _) => "missing",
        (Role::Twin, _) => "twin",
        (Role::Sibling, None) => "sibling worked",
        (Role::Sibling, _) => "sibling",
        (Role::Other, Some(Kind::Client(_))) => "client",
        (Role::Other, Some(_)) => "written",
        (Role::Other, None) => "worked",
    }
}

/// All nodes, the root first.
fn all<'a>(node: &'a Node, into: &mut Vec<&'a Node>) {
    into.push(node);
    node.children.iter().for_each(|child| all(child, into));
}

/// Where things stand.
struct Sheet<'a> {
    picture: &'a Picture<'a>,
    out: String,
    /// The height that the head takes.
    top: f64,
    /// The width of a column.
    pitch: f64,
    /// The lowest level of which a node is shown.
    lowest: usize,
}

/// The picture as SVG.
pub fn text(picture: &Picture) -> String {
    let mut nodes = Vec::new();
    all(&picture.root, &mut nodes);
    let large = nodes.iter().filter(|node| is_large(node, picture.climb.as_ref()));
    let letters = large.map(|node| label(node).len()).max().unwrap_or(0).max(10);
    let small = nodes.iter().map(|node| small_label(node).len()).max().unwrap_or(0);
    let pitch = LETTER * (letters.max(small) as f64) + 2.0 * GAP;

    let head = head(picture);
    let top = 22.0 * head.len() as f64 + 50.0;
    let lowest = nodes.iter().map(|node| node.place.0).min().unwrap_or(0);
    let mut sheet = Sheet { picture, out: String::new(), top, pitch, lowest };
    let tree = LEFT + pitch * picture.columns as f64;
    let steps: Vec<String> = (0..sheet.layers()).map(|layer| sheet.step(layer)).collect();
    let longest = steps.iter().map(|step| visible(step)).max().unwrap_or(0);
    let words = head.iter().map(|(_, line)| line.len()).max().unwrap_or(0);
    let bottom = sheet.y(lowest) + ROW;
    let height = bottom + 40.0;
    let (legend, legend_width) = sheet.legend(bottom + 10.0);
    let width =
        (tree + 20.0 + LETTER * longest as f64).max(LETTER * words as f64 + 40.0).max(legend_width);

    for (index, (class, line)) in head.iter().enumerate() {
        let y = 30.0 + 22.0 * index as f64;
        sheet.put(&format!("<text class=\"{class}\" x=\"20\" y=\"{y}\">{line}</text>"));
    }
    sheet.levels();
    for node in &nodes {
        sheet.edges(node);
    }
    for node in &nodes {
        sheet.node(node);
    }
    for (level, step) in steps.iter().enumerate() {
        let y = sheet.y(level) + 4.0;
        sheet.put(&format!(
            "<text class=\"mono\" x=\"{:.1}\" y=\"{y:.1}\">{step}</text>",
            tree + 10.0
        ));
    }
    sheet.put(&legend);
    format!(
        "<svg xmlns=\"http://www.w3.org/2000/svg\" width=\"{width:.0}\" height=\"{height:.0}\" \
         viewBox=\"0 0 {width:.0} {height:.0}\">\n<style>{STYLE}</style>\n\
         <rect class=\"paper\" width=\"100%\" height=\"100%\"/>\n{}</svg>\n",
        sheet.out
    )
}

/// The lines above the tree, with their classes.
fn head(picture: &Picture) -> Vec<(&'static str, String)> {
    let Picture { head, levels, .. } = picture;
    let mut lines = vec![
        ("head", format!("BUMP of block {}", head.block_height)),
        (
            "",
            format!(
                "tree height {}, {} written, clients among them: {}",
                head.tree_height,
                counted(head.leaves, "leaf", "leaves"),
                levels.clients()
            ),
        ),
    ];
    lines.extend(picture.notes.iter().map(|note| ("", note.clone())));
    let Some((id, said)) = picture.said else { return lines };
    lines.push(("mono", format!("id   {id}")));
    match said {
        Ok(proof) => lines.push(("mono", format!("root {}", proof.root))),
        Err(refused) => {
            lines.extend(wrapped(&refused.to_string()).into_iter().map(|line| ("bad", line)));
        }
    }
    lines
}

/// Words in lines of no more than [`LINE`] letters.
fn wrapped(text: &str) -> Vec<String> {
    let mut lines: Vec<String> = Vec::new();
    for word in text.split(' ') {
        match lines.last_mut() {
            Some(line) if line.len() + 1 + word.len() <= LINE => {
                line.push(' ');
                line.push_str(word);
            }
            _ => lines.push(word.to_string()),
        }
    }
    lines
}

/// The letters of a text that are seen.
fn visible(text: &str) -> usize {
    let mut inside = false;
    let seen = |c: char| match c {
        '<' => {
            inside = true;
            false
        }
        '>' => {
            inside = false;
            false
        }
        _ => !inside,
    };
    text.chars().map(seen).filter(|seen| *seen).count()
}

impl Sheet<'_> {
    fn put(&mut self, element: &str) {
        self.out.push_str(element);
        self.out.push('\n');
    }

    fn climb(&self) -> Option<&Climb> {
        self.picture.climb.as_ref()
    }

    /// The number of layers that are told beside the tree.
    fn layers(&self) -> usize {
        self.climb().map_or(0, |climb| climb.steps.len() + usize::from(climb.stop.is_some()))
    }

    fn x(&self, node: &Node) -> f64 {
        LEFT + self.pitch * (node.column + 0.5)
    }

    fn y(&self, level: usize) -> f64 {
        self.top + ROW * (self.picture.levels.0.len() - level) as f64
    }

    /// The names of the levels, and how much is written in each.
    fn levels(&mut self) {
        let height = self.picture.levels.0.len();
        let y = self.y(height) + 4.0;
        self.put(&format!("<text class=\"level\" x=\"20\" y=\"{y:.1}\">root</text>"));
        for level in self.lowest..height {
            let y = self.y(level);
            let count = self.picture.levels.0[level].len();
            let leaves = if count == 1 { "leaf" } else { "leaves" };
            self.put(&format!(
                "<text class=\"level\" x=\"20\" y=\"{y:.1}\">level {level}\
                 <tspan x=\"20\" dy=\"14\">{count} {leaves}</tspan></text>"
            ));
        }
        if let Some(folded) = self.lowest.checked_sub(1) {
            let y = self.y(self.lowest) + ROW * 0.7;
            let levels =
                if folded == 0 { "level 0".into() } else { format!("levels 0 to {folded}") };
            self.put(&format!(
                "<text class=\"level\" x=\"20\" y=\"{y:.1}\">{levels} folded</text>"
            ));
        }
    }

    fn half(&self, node: &Node) -> f64 {
        if is_large(node, self.climb()) {
            BOX / 2.0
        } else if node.written.is_some() || node.value.is_some() {
            SMALL / 2.0
        } else {
            3.0
        }
    }

    fn edges(&mut self, node: &Node) {
        let (x, y) = (self.x(node), self.y(node.place.0) + self.half(node));
        for child in &node.children {
            let class = match (child.role, node.role) {
                (Role::Climb(Some(_)), Role::Climb(Some(_))) => "edge climb",
                (Role::Climb(_), _) => "edge cut",
                (Role::Sibling, _) => "edge sibling",
                _ => "edge",
            };
            let (to, under) = (self.x(child), self.y(child.place.0) - self.half(child));
            self.put(&format!("<path class=\"{class}\" d=\"M{to:.1} {under:.1}L{x:.1} {y:.1}\"/>"));
        }
    }

    fn node(&mut self, node: &Node) {
        let (x, y) = (self.x(node), self.y(node.place.0));
        let (level, offset) = node.place;
        let half = self.half(node);
        let hash = match node.role {
            Role::Climb(hash) => hash,
            _ => node.value,
        };
        let mut title = format!("level {level}, position {offset}");
        if let Some(kind) = node.written {
            title += &format!(", written: {}", kind.text());
        }
        if let Some(hash) = hash {
            title += &format!(", value {hash}");
        }
        self.put(&format!("<g><title>{title}</title>"));
        if half == 3.0 {
            self.put(&format!("<circle cx=\"{x:.1}\" cy=\"{y:.1}\" r=\"3\"/>"));
        } else {
            let large = is_large(node, self.climb());
            let wide = if large {
                self.pitch - GAP
            } else {
                (LETTER * small_label(node).len() as f64 + GAP).max(26.0)
            };
            let class = class(node);
            self.put(&format!(
                "<rect class=\"{class}\" x=\"{:.1}\" y=\"{:.1}\" width=\"{wide:.1}\" \
                 height=\"{:.1}\" rx=\"4\"/>",
                x - wide / 2.0,
                y - half,
                2.0 * half
            ));
            if large {
                self.lines(node, hash, x, y);
            } else {
                self.put(&format!(
                    "<text class=\"mid\" x=\"{x:.1}\" y=\"{:.1}\">{}</text>",
                    y + 4.0,
                    small_label(node)
                ));
            }
        }
        if node.folded > 0 {
            self.fold(node.folded, x, y + half);
        }
        self.put("</g>");
    }

    /// The two lines of a large node.
    fn lines(&mut self, node: &Node, hash: Option<Hash>, x: f64, y: f64) {
        let class = if matches!(node.role, Role::Missing | Role::Twin) { "mid bad" } else { "mid" };
        let root = node.place.0 == self.picture.levels.0.len();
        let first = if root { "root".to_string() } else { label(node) };
        self.put(&format!(
            "<text class=\"{class}\" x=\"{x:.1}\" y=\"{:.1}\">{first}</text>",
            y - 4.0
        ));
        let second = match (node.role, hash) {
            (Role::Missing, _) => "to be added".to_string(),
            (_, Some(hash)) => brief(&hash),
            _ => "not reached".to_string(),
        };
        self.put(&format!(
            "<text class=\"mid mono\" x=\"{x:.1}\" y=\"{:.1}\">{second}</text>",
            y + 11.0
        ));
    }

    /// What is not shown under a node.
    fn fold(&mut self, leaves: usize, x: f64, y: f64) {
        self.put(&format!(
            "<path class=\"fold\" d=\"M{x:.1} {y:.1}l-14 16h28z\"/>\
             <text class=\"mid level\" x=\"{x:.1}\" y=\"{:.1}\">{leaves} {}</text>",
            y + 28.0,
            if leaves == 1 { "leaf" } else { "leaves" }
        ));
    }

    /// What was hashed at a level, which a refusal calls a layer, or why nothing was.
    fn step(&self, layer: usize) -> String {
        let Some(climb) = self.climb() else { return String::new() };
        let Some(step) = climb.steps.get(layer) else {
            let twin = climb.stop.is_some_and(|(_, twin)| twin);
            let sibling = climb.stop.map_or(0, |((_, sibling), _)| sibling);
            let why = if twin { "equals the working hash" } else { "is missing" };
            return format!("<tspan class=\"bad\">level {layer}: node {sibling} {why}</tspan>");
        };
        let (left, right, made) = (brief(&step.left), brief(&step.right), brief(&step.made));
        let parity = if step.position % 2 == 1 { "odd" } else { "even" };
        let position = step.position;
        format!("level {layer}: {position} is {parity}, hash({left}, {right}) = {made}")
    }

    /// What the boxes and marks mean, and how wide that is.
    fn legend(&self, y: f64) -> (String, f64) {
        let all = [
            ("climb", "climb"),
            ("sibling", "sibling taken as written"),
            ("sibling worked", "worked out"),
            ("missing", "missing"),
            ("twin", "twin"),
            ("client", "client"),
            ("written", "other leaf"),
        ];
        let without = [
            ("client", "client"),
            ("written", "other leaf"),
            ("worked", "not written, worked out"),
        ];
        let shown: &[(&str, &str)] = if self.climb().is_some() { &all } else { &without };
        let (mut x, mut out) = (20.0, String::new());
        let mut entry = |mark: &dyn Fn(f64) -> String, words: &str| {
            let (mark, at) = (mark(x), x + 22.0);
            out += &format!("{mark}<text x=\"{at:.1}\" y=\"{y:.1}\">{words}</text>\n");
            x += 40.0 + 6.0 * words.len() as f64;
        };
        for (class, words) in shown {
            let (class, top) = (*class, y - 10.0);
            let mark = move |x: f64| {
                format!(
                    "<rect class=\"{class}\" x=\"{x:.1}\" y=\"{top:.1}\" width=\"16\" height=\"12\" \
                     rx=\"2\"/>"
                )
            };
            entry(&mark, words);
        }
        let dot = |x: f64| format!("<circle cx=\"{:.1}\" cy=\"{:.1}\" r=\"3\"/>", x + 8.0, y - 4.0);
        entry(&dot, "value not known");
        let fold = |x: f64| {
            format!("<path class=\"fold\" d=\"M{:.1} {:.1}l-8 10h16z\"/>", x + 8.0, y - 9.0)
        };
        entry(&fold, "leaves folded");
        out.truncate(out.trim_end().len());
        (out, x.max(LEAST_WIDTH))
    }
}
