//! The cursor, the iterators and the lines, on many sources.
use shader_reader::{lookup, read, Entry, Node, SyntaxKind, View};

const PIECES: [&str; 29] = [
    "#",
    "define ",
    "undef ",
    "include ",
    "version ",
    "extension ",
    "if ",
    "ifdef ",
    "else",
    "endif",
    "error ",
    "line ",
    "f(",
    "a",
    ",",
    ")",
    "##",
    " ",
    "\u{b}",
    "/* \n */",
    "\\\n",
    "\n",
    "\r\n",
    "1",
    "<a>",
    "\"s\"",
    ":",
    "ä",
    "(",
];

/// Sources of random pieces; the same at every run.
fn sources(count: usize) -> impl Iterator<Item = String> {
    let mut state = 1_u64;
    let mut random = move |below: usize| {
        state = state.wrapping_mul(6364136223846793005).wrapping_add(1442695040888963407);
        (state >> 33) as usize % below
    };
    (0..count).map(move |_| {
        let pieces = random(40);
        (0..pieces).map(|_| PIECES[random(PIECES.len())]).collect()
    })
}

/// What lies below each entry, by levels alone: the places of its children, and the place behind all.
fn by_levels(entries: &[Entry], place: usize) -> (Vec<usize>, usize) {
    let below = |next: &Entry| next.level > entries[place].level;
    let behind = place + 1 + entries[place + 1..].iter().take_while(|next| below(next)).count();
    let child = |next: &usize| entries[*next].level == entries[place].level + 1;
    ((place + 1..behind).filter(child).collect(), behind)
}

/// Walks a whole tree by children, and counts its entries.
fn walk(node: Node<'_>, entries: &[Entry], place: usize) -> usize {
    let (places, behind) = by_levels(entries, place);
    let children: Vec<_> = node.children().collect();
    assert_eq!(
        children.iter().map(Node::entry).collect::<Vec<_>>(),
        places.iter().map(|&at| entries[at]).collect::<Vec<_>>()
    );
    assert!(node.descendants().eq(entries[place + 1..behind].iter().copied()));
    let below: usize = children.into_iter().zip(places).map(|(child, at)| walk(child, entries, at)).sum();
    below + 1
}

fn check_lines(view: View<'_>, src: &str) {
    let joined: String = view.lines().map(|line| &src[line]).collect();
    assert_eq!(joined, src);
    assert!(view.lines().eq((0..).map_while(|line| view.line(line))));
    assert!(view.lines().rev().eq((0..view.lines().len() as u32).rev().filter_map(|line| view.line(line))));
    for offset in (0..src.len() as u32 + 3).chain([u32::MAX]) {
        assert_eq!(Ok(view.place(offset)), lookup(view.line_starts(), offset));
    }
}

#[test]
fn many_sources() {
    for src in sources(4000) {
        let reading = read(src.as_bytes()).unwrap();
        let entries: Vec<Entry> = reading.entries().collect();
        assert_eq!(walk(reading.root(), &entries, 0), entries.len());
        assert_eq!(reading.nodes().count() + reading.leaves().count(), entries.len());
        assert!(reading.nodes().all(|node| node.kind.is_node()));
        assert!(reading.leaves().all(|leaf| leaf.kind.is_token() && leaf.kind != SyntaxKind::LINECONT));
        assert!(reading.entries().rev().eq(entries.iter().rev().copied()));
        let joined: String = reading.leaves().map(|leaf| &src[leaf.range()]).collect();
        assert_eq!(joined, src);
        check_lines(reading.view(), &src);
    }
}

#[test]
fn nodes_that_are_empty_at_the_end() {
    let reading = read(b"#undef").unwrap();
    let undef = reading.root().children().next().unwrap();
    let ident = undef.children().last().unwrap();
    assert_eq!((ident.kind, ident.range()), (SyntaxKind::PP_IDENT, 6..6));
    assert_eq!(ident.children().map(|child| child.kind).collect::<Vec<_>>(), [SyntaxKind::ERROR]);
    assert_eq!(reading.root().children().count(), 1);
}

#[test]
fn a_deep_tree_is_walked_whole() {
    // 256 nodes, one in the other, each over half a million leaves.
    let src = format!("#if {}{}\n", "##".repeat(256), "a+".repeat(250_000));
    let reading = read(src.as_bytes()).unwrap();
    let mut waiting = vec![reading.root()];
    let mut count = 0;
    while let Some(node) = waiting.pop() {
        count += 1;
        waiting.extend(node.children());
    }
    assert_eq!(count, reading.entries().len());
    assert_eq!(reading.entries().map(|entry| entry.level).max(), Some(259));
}

#[test]
fn a_cursor_is_an_entry() {
    let src = b"#version 450 core\n";
    let reading = read(src).unwrap();
    let version = reading.root().children().next().unwrap();
    assert!(version.kind.is_directive() && version.is_node());
    let texts: Vec<_> = version.children().filter(|child| child.is_node()).map(|node| node.text(src)).collect();
    assert_eq!(texts, [b"450".as_slice(), b"core"]);
    assert_eq!(format!("{version:?}"), format!("Node({:?})", version.entry()));
}
