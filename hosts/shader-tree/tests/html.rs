//! Pages: every element closed, nothing from elsewhere, the source whole, whatever it holds.

mod common;

#[path = "common/page.rs"]
mod page;

use common::{fed, Folder};
use page::{parts, source_lines, Part};

fn page_of(source: &[u8]) -> String {
    fed(&["--html"], source).text().into()
}

/// The lines of a source as a page shows them: by the reader's newlines, what can't be seen as escapes.
fn shown_lines(source: &str) -> Vec<String> {
    let starts = shader_reader::line_table(source.as_bytes()).unwrap();
    let ends = starts.iter().skip(1).map(|&end| end as usize).chain([source.len()]);
    let lines = starts.iter().zip(ends).map(|(&start, end)| source[start as usize..end].trim_end_matches(['\n', '\r']));
    lines.map(|line| line.chars().map(shown).collect()).collect()
}

fn shown(char: char) -> String {
    match char {
        '\t' => "\t".into(),
        '\0'..='\x1f' | '\x7f' => format!("\\x{:02x}", char as u32),
        '\u{80}'..='\u{9f}' | '\u{200b}' | '\u{202e}' | '\u{feff}' | '\u{fffe}' => format!("\\u{{{:x}}}", char as u32),
        _ => char.to_string(),
    }
}

fn whole(source: &str) {
    let found = source_lines(&parts(&page_of(source.as_bytes())));
    // A directive's name stands behind a blank.
    let found: Vec<_> = found.iter().map(|line| line.trim_end().to_string()).collect();
    let wanted: Vec<_> = shown_lines(source).iter().map(|line| line.trim_end().to_string()).collect();
    assert_eq!(found, wanted, "{source:?}");
}

#[test]
fn the_source_is_whole() {
    whole("");
    whole("\n");
    whole("#version 450\nvoid main() {}\n");
    whole("a\r\nb\n\rc\rd\n\n\r\n");
    whole("/* a\nb\r\nc */ #\n\t#if 1 \\\n  2\n#endif");
    whole("\"a\nb\" <!-- --> &amp; &lt; ' \" > ]]> <script>alert(1)</script>\n</pre></style>\n");
    whole("#include <a\nb>\n#()# x\n#define a ## b ## c\n");
    whole("#else /* a\n\n\nb */ \"\n\n\" c\n");
    whole("#undef\nfoo\n#extension\n\n#define f(\n#else /* a\nb */ c\n#(");
    whole("\u{b}#\u{b}if\u{b}1\n\u{b}\ta\u{b}=\u{b}\"\u{b}\"; /*\u{b}\n\u{b}*/\u{b}#foo\u{b}\n");
    whole("\u{feff}#a\u{202e}\u{0}\u{1b}[31m\u{9b}\u{fffe}\u{200b}中é\n");
}

#[test]
fn markup_in_a_source_stays_text() {
    let page = page_of(b"</pre><script>alert('1')</script>\n#error <b onclick=\"x\">&\n#<i>\n");
    assert!(!page.contains("<script") && !page.contains("<b onclick"));
    parts(&page);
}

#[test]
fn nothing_comes_from_elsewhere() {
    let page = page_of(b"#version 450\n#a\n");
    for part in parts(&page) {
        if let Some(link) = part.attribute("href") {
            assert!(link.starts_with('#'), "{link}");
        }
    }
    for word in ["http:", "https:", "url(", "@import", "<script", "<link", "<img", "src="] {
        assert!(!page.contains(word), "{word}");
    }
    assert!(page.contains("content=\"default-src 'none'; style-src 'unsafe-inline'\""));
    assert!(page.contains("prefers-color-scheme: dark"));
}

#[test]
fn links_lead_somewhere_and_names_are_unique() {
    let folder = Folder::new("links");
    folder.file("a.frag", "#version 450\n#a\n#b\n#if 1\n");
    let page = folder.run(&["--html", "a.frag", "a.frag", "none", "a.frag"]);
    let parts = parts(page.text());
    let mut ids: Vec<_> = parts.iter().filter_map(|part| part.attribute("id")).collect();
    let count = ids.len();
    ids.sort();
    ids.dedup();
    assert_eq!(ids.len(), count, "names are unique");
    let links = parts.iter().filter_map(|part| part.attribute("href"));
    for link in links {
        assert!(ids.contains(&&link[1..]), "{link} is there");
    }
}

#[test]
fn errors_stand_under_their_bytes() {
    let page = page_of("\t中 #\n\t#ifdef 中 a\n".as_bytes());
    assert!(
        page.contains(&format!("{}^^ <b>error:</b> unexpected ERROR, expected [IDENT_KW]\n", " ".repeat(15))),
        "{page}"
    );
    assert!(page.contains(&format!("{}^ <b>error:</b> &#39;#ifdef&#39; : extra tokens", " ".repeat(18))), "{page}");
    assert!(
        page.contains("<span class=\"bad wrong\" title=\"ERROR 15..18\"><span class=\"wide\">中</span></span>"),
        "{page}"
    );
}

#[test]
fn vertical_tabs_are_blanks_that_are_seen() {
    let page = page_of(b"\x0b \x0b#\x0bfoo\n#else\x0b\x0b1\n");
    assert!(!page.contains('\x0b'));
    let hidden = "<span class=\"hidden\">\\x0b</span>";
    assert!(page.contains(&format!("<span class=\"blank\" title=\"WS 0..3\">{hidden} {hidden}</span>")), "{page}");
    assert!(page.contains("<i>0..3</i> <code class=\"blank\">&quot;\\x0b \\x0b&quot;</code>"), "{page}");
    for (column, error) in [(14, "^^^ <b>error:</b> unknown"), (13, "^ <b>error:</b> &#39;#else&#39; : extra tokens")] {
        assert!(page.contains(&format!("<span class=\"text\">{}{error}", " ".repeat(column))), "{page}");
    }
}

#[test]
fn errors_of_several_lines_and_at_the_end() {
    let page = page_of(b"#else \"a\nb\"\n#undef");
    assert!(page.contains("(up to line 2, column 2)"), "{page}");
    assert!(page.contains("      ^ <b>error:</b> unexpected end of input: [IDENT_KW]\n"), "{page}");
}

#[test]
fn directives_are_framed_and_named() {
    let page = page_of(b"a\n #if 1 \\\n  2\n#a\n");
    assert!(page.contains("<span class=\"frame\" title=\"PP_IF 2..15\">"), "{page}");
    assert_eq!(page.matches("<span class=\"frame\" title=\"PP_IF").count(), 2, "one frame a line");
    assert!(page.contains("\">PP_IF</a>") && page.contains("<span class=\"frame unknown\" title=\"ERROR 15..18\">"));
}

#[test]
fn deep_trees_stay_below_what_browsers_take() {
    let source = format!("#define a {}\n", "b##".repeat(256));
    let (mut depth, mut deepest) = (0, 0);
    for part in parts(&page_of(source.as_bytes())) {
        match part {
            Part::Open { name, .. } if name != "meta" => depth += 1,
            Part::Close(_) => depth -= 1,
            _ => {}
        }
        deepest = deepest.max(depth);
    }
    assert!((256..400).contains(&deepest), "{deepest}");
}

#[test]
fn names_are_escaped() {
    let folder = Folder::new("page-names");
    folder.file("a<b>&\n\".frag", "#a\n");
    let ran = folder.run(&["--html", "a<b>&\n\".frag"]);
    parts(ran.text());
    assert!(ran.text().contains("<h2>a&lt;b&gt;&amp;\\n&quot;.frag</h2>"));
}

#[test]
fn wide_characters_take_two_columns_with_what_combines() {
    let folder = Folder::new("page-wide");
    folder.file("中.frag", "// か\u{3099}ab\n");
    let ran = folder.run(&["--html", "中.frag"]);
    parts(ran.text());
    assert!(ran.text().contains("// <span class=\"wide\">か\u{3099}</span>ab</span>"), "{}", ran.text());
    assert!(ran.text().contains("<title>中.frag - shader-tree</title>"));
}

#[test]
fn refused_and_unread_files_have_sections() {
    let folder = Folder::new("page-refused");
    folder.file("latin.frag", b"// caf\xe9 <b>\n");
    folder.file("cut.frag", b"// <b> \xe4\xb8");
    let ran = folder.run(&["--html", "latin.frag", "cut.frag", "none.frag"]);
    assert_eq!(ran.code, Some(2));
    parts(ran.text());
    assert!(ran
        .text()
        .contains("not UTF-8: byte 0xE9 at offset 6\n    1 | // caf\\xe9 &lt;b&gt;\n      |       ^^^^\n"));
    assert!(ran.text().contains(
        "the upload was cut, the character begins at offset 7 with 0xE4 0xB8\n    1 | // &lt;b&gt; \\xe4\\xb8\n"
    ));
    assert!(ran.text().contains("none.frag: can&#39;t be read: No such file or directory\n"));
}
