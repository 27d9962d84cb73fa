//! A reader of pages that takes only what shader-tree may write: known elements and attributes, all of them closed.

/// What a page is made of.
#[derive(Debug, Clone, PartialEq, Eq)]
pub enum Part {
    Open { name: String, attributes: Vec<(String, String)> },
    Close(String),
    Text(String),
}

impl Part {
    pub fn attribute(&self, wanted: &str) -> Option<&str> {
        match self {
            Part::Open { attributes, .. } => {
                attributes.iter().find(|(name, _)| name == wanted).map(|(_, value)| &**value)
            }
            _ => None,
        }
    }

    pub fn has_class(&self, wanted: &str) -> bool {
        self.attribute("class").is_some_and(|classes| classes.split(' ').any(|class| class == wanted))
    }
}

const ELEMENTS: [&str; 27] = [
    "html", "head", "meta", "title", "style", "body", "header", "nav", "section", "h1", "h2", "p", "ul", "ol", "li",
    "a", "b", "i", "code", "pre", "span", "div", "details", "summary", "main", "footer", "br",
];
const ATTRIBUTES: [&str; 14] = [
    "lang",
    "charset",
    "http-equiv",
    "content",
    "name",
    "id",
    "class",
    "title",
    "href",
    "open",
    "tabindex",
    "role",
    "aria-label",
    "style",
];

/// The parts of a page, whose elements are closed in order.
pub fn parts(page: &str) -> Vec<Part> {
    let mut rest = page.strip_prefix("<!DOCTYPE html>\n").expect("the page begins with its type");
    let (mut found, mut open) = (Vec::new(), Vec::new());
    while !rest.is_empty() {
        let end = if rest.starts_with('<') {
            rest.find('>').expect("a tag ends") + 1
        } else {
            rest.find('<').unwrap_or(rest.len())
        };
        let (piece, behind) = rest.split_at(end);
        rest = behind;
        let part = part(piece);
        match &part {
            Part::Open { name, .. } if name == "meta" => {}
            Part::Open { name, .. } => open.push(name.clone()),
            Part::Close(name) => assert_eq!(open.pop().as_ref(), Some(name), "elements are closed in order"),
            Part::Text(_) => {}
        }
        found.push(part);
    }
    assert!(open.is_empty(), "all elements are closed: {open:?}");
    found
}

fn part(piece: &str) -> Part {
    let Some(tag) = piece.strip_prefix('<').and_then(|piece| piece.strip_suffix('>')) else {
        return Part::Text(unescaped(piece));
    };
    if let Some(name) = tag.strip_prefix('/') {
        return Part::Close(name.into());
    }
    let (name, mut rest) = tag.split_once(' ').unwrap_or((tag, ""));
    assert!(ELEMENTS.contains(&name), "<{name}> is known");
    let mut attributes = Vec::new();
    while !rest.is_empty() {
        let (name, value, behind) = attribute(rest);
        assert!(ATTRIBUTES.contains(&name), "the attribute {name} is known");
        attributes.push((name.into(), unescaped(value)));
        rest = behind.trim_start();
    }
    Part::Open { name: name.into(), attributes }
}

/// Name, value and what follows.
fn attribute(text: &str) -> (&str, &str, &str) {
    match text.split_once("=\"") {
        Some((name, behind)) if !name.contains(' ') => {
            let (value, behind) = behind.split_once('"').expect("a value ends");
            (name, value, behind)
        }
        _ => {
            let (name, behind) = text.split_once(' ').unwrap_or((text, ""));
            (name, "", behind)
        }
    }
}

fn unescaped(text: &str) -> String {
    let known = ["&amp;", "&lt;", "&gt;", "&quot;", "&#39;"];
    assert_eq!(text.matches('&').count(), known.iter().map(|name| text.matches(name).count()).sum::<usize>(), "{text}");
    let text = text.replace("&lt;", "<").replace("&gt;", ">").replace("&quot;", "\"").replace("&#39;", "'");
    text.replace("&amp;", "&")
}

/// The lines of the source that a page shows, without marks and names of directives.
pub fn source_lines(parts: &[Part]) -> Vec<String> {
    let mut lines = Vec::new();
    let mut at = parts.iter().position(|part| part.has_class("source")).expect("the page has a source") + 1;
    while parts[at] != Part::Close("pre".into()) {
        let is_line = parts[at].has_class("line");
        let wanted = is_line && !parts[at].has_class("error") && !parts[at].has_class("note");
        let end = element_end(parts, at);
        if wanted {
            lines.push(line_text(&parts[at..end]));
        }
        at = if is_line { end } else { at + 1 };
    }
    lines
}

/// Behind the element that opens at a place.
fn element_end(parts: &[Part], at: usize) -> usize {
    let mut depth = 0;
    for (behind, part) in parts[at..].iter().enumerate() {
        match part {
            Part::Open { .. } => depth += 1,
            Part::Close(_) => depth -= 1,
            Part::Text(_) => {}
        }
        if depth == 0 {
            return at + behind + 1;
        }
    }
    parts.len()
}

fn line_text(parts: &[Part]) -> String {
    let mut text = String::new();
    let mut at = 1;
    while at < parts.len() {
        let skipped = parts[at].has_class("no")
            || parts[at].has_class("tag")
            || parts[at].attribute("title").is_some_and(|title| title.starts_with("NEWLINE "));
        if skipped {
            at = element_end(parts, at);
            continue;
        }
        if let Part::Text(more) = &parts[at] {
            text.push_str(more);
        }
        at += 1;
    }
    text.trim_end_matches('\n').into()
}
