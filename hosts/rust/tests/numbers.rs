//! The numbers of this package are those of the definition, and those of the C header.
use std::collections::BTreeMap;
use std::fs;
use std::path::Path;

use shader_reader::{
    read, ErrorKind, Form, Refusal, SyntaxKind, CONCAT_LIMIT, ENTRY_NUMBERS, ERROR_NUMBERS, SOURCE_LIMIT, TOKEN_NUMBERS,
};

type Numbers = BTreeMap<String, u32>;

/// A file of the repository.
fn file(name: &str) -> String {
    let path = Path::new(env!("CARGO_MANIFEST_DIR")).join("../..").join(name);
    fs::read_to_string(&path).unwrap_or_else(|error| panic!("{}: {error}", path.display()))
}

fn definition(name: &str) -> String {
    file(&format!("crates/definition/specs/{name}.antt"))
}

/// A number, which may hold underscores.
fn number(text: &str) -> u32 {
    text.trim().replace('_', "").parse().unwrap_or_else(|_| panic!("{text:?} is no number"))
}

/// The fields of a record of the definition: `NAME = record { FIELD = 1; … }`.
fn record(text: &str, name: &str) -> Numbers {
    let start = text.find(&format!("\n{name} = record {{")).unwrap_or_else(|| panic!("there is no record {name}"));
    let fields = text[start..].split(['{', '}']).nth(1).unwrap();
    let parts = fields.split(';').map(str::trim).filter(|field| !field.is_empty());
    parts.filter_map(|field| field.split_once(" = ")).map(|(name, text)| (name.to_string(), number(text))).collect()
}

/// A number of the definition: `NAME = 1`.
fn constant(text: &str, name: &str) -> usize {
    let line = text.lines().find_map(|line| line.strip_prefix(&format!("{name} = ")));
    number(line.unwrap_or_else(|| panic!("there is no {name}"))) as usize
}

/// The kinds by name, as this package has them.
fn kinds() -> Numbers {
    SyntaxKind::ALL.iter().map(|kind| (kind.name().to_string(), *kind as u32)).collect()
}

/// The refusals by name, as the definition and the header write them.
fn refusals() -> Numbers {
    Refusal::ALL.iter().map(|refusal| (format!("{refusal:?}").to_uppercase(), refusal.number())).collect()
}

/// The sorts of errors, by the definition's names. Each is met in a reading.
fn sorts() -> Numbers {
    let sort = |src: &str| {
        let error = read(src.as_bytes()).unwrap().errors().next().unwrap();
        let name = match error.kind {
            ErrorKind::UnknownPreprocessorDirective { .. } => "unknown_directive",
            ErrorKind::ExtraTokensInPreprocessorDirective { .. } => "extra_tokens",
            ErrorKind::Unexpected { .. } => "unexpected",
            ErrorKind::EndOfInput { .. } => "end_of_input",
        };
        (name.to_string(), error.kind.sort())
    };
    ["#a", "#else a", "#undef 1", "#undef"].map(sort).into()
}

/// How many numbers an entry, an error and a token have.
fn widths() -> Numbers {
    let widths = [("entry", ENTRY_NUMBERS), ("error", ERROR_NUMBERS), ("token", TOKEN_NUMBERS)];
    widths.map(|(name, width)| (name.to_string(), width as u32)).into()
}

#[test]
fn the_definition_has_the_same_numbers() {
    assert_eq!(record(&definition("SyntaxKind"), "Kind"), kinds());
    assert_eq!(record(&definition("Calls"), "Refusal"), refusals());
    assert_eq!(record(&definition("Error"), "ErrorKind"), sorts());
    assert_eq!(record(&definition("Tree"), "Width"), widths());
    let forms = [("leaf", Form::Leaf), ("node", Form::Node)].map(|(name, form)| (name.to_string(), form as u32));
    assert_eq!(record(&definition("Tree"), "Form"), forms.into());
    assert_eq!(constant(&definition("Calls"), "longest_source"), SOURCE_LIMIT);
    assert_eq!(constant(&definition("Calls"), "most_concats"), CONCAT_LIMIT);
    assert_eq!(kinds().len(), 86);
    assert_eq!(refusals().len(), 10);
    assert_eq!(sorts().len(), 4);
}

/// The header's names with this prefix: those of an enum, or of `#define`s.
fn header_names(header: &str, prefix: &str) -> Numbers {
    let enumerators = header.lines().filter_map(|line| line.trim().split_once(" = "));
    let macros = header.lines().filter_map(|line| line.strip_prefix("#define ")?.split_once(' '));
    let named = enumerators.chain(macros).filter_map(|(name, text)| Some((name.strip_prefix(prefix)?, text)));
    let digits = |text: &str| text.trim_start().chars().take_while(char::is_ascii_digit).collect::<String>();
    named.map(|(name, text)| (name.to_string(), number(&digits(text)))).collect()
}

#[test]
fn the_header_has_the_same_numbers() {
    let header = file("include/shader_reader.h");
    assert_eq!(header_names(&header, "SHADER_KIND_"), kinds());
    let mut with_none = refusals();
    with_none.insert("NONE".to_string(), 0);
    assert_eq!(header_names(&header, "SHADER_REFUSAL_"), with_none);
    let upper = |(name, sort): (String, u32)| (name.to_uppercase(), sort);
    assert_eq!(header_names(&header, "SHADER_SORT_"), sorts().into_iter().map(upper).collect());
    for (name, width) in widths() {
        let found = header_names(&header, &format!("SHADER_{}_", name.to_uppercase()));
        assert_eq!(found.get("NUMBERS"), Some(&width), "{name}");
    }
    assert_eq!(header_names(&header, "SHADER_SOURCE_").get("LIMIT"), Some(&(SOURCE_LIMIT as u32)));
    assert_eq!(header_names(&header, "SHADER_CONCAT_").get("LIMIT"), Some(&(CONCAT_LIMIT as u32)));
    let version = format!("#define SHADER_READER_VERSION \"{}\"", env!("CARGO_PKG_VERSION"));
    assert!(header.contains(&version), "{version}");
}
