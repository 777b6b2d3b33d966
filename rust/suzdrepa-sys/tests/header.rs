//! The declarations and limits are those of the header, one by one.

use std::collections::BTreeMap;

const HEADER: &str = include_str!("../../../include/suzdrepa.h");
const DECLARED: &str = include_str!("../src/lib.rs");

/// A function: its name, and the type and name of each argument.
type Function = (String, Vec<(String, String)>);

/// The text between `from` and the next `to`.
fn between<'a>(text: &'a str, from: &str, to: &str) -> &'a str {
    let start = text.find(from).expect("it starts") + from.len();
    let end = start + text[start..].find(to).expect("it ends");
    &text[start..end]
}

/// Every function whose declaration starts with `start`; `argument` takes one
/// argument apart.
fn functions(text: &str, start: &str, argument: fn(&str) -> (String, String)) -> Vec<Function> {
    let mut found: Vec<Function> = text
        .match_indices(start)
        .map(|(at, _)| {
            let declaration = &text[at + start.len()..];
            let (name, rest) = declaration.split_once('(').expect("arguments follow");
            let (arguments, _) = rest.split_once(')').expect("arguments end");
            let arguments = arguments
                .split(',')
                .map(str::trim)
                .filter(|text| !text.is_empty())
                .map(argument)
                .collect();
            (name.to_owned(), arguments)
        })
        .collect();
    found.sort();
    found
}

/// `const uint8_t *table` and `const uint8_t constants[COUNT]` as Rust has them.
fn c_argument(text: &str) -> (String, String) {
    let (kind, name) = text.rsplit_once([' ', '*']).expect("type and name");
    let (name, count) = match name.strip_suffix(']').and_then(|name| name.split_once('[')) {
        Some((name, count)) => (name, Some(count)),
        None => (name, None),
    };
    let (number, constant) = match kind.trim_end_matches(['*', ' ']) {
        kind if kind.starts_with("const ") => (&kind["const ".len()..], true),
        kind => (kind, false),
    };
    let number = match number {
        "uint8_t" => "u8",
        "uint16_t" => "u16",
        "uint32_t" => "u32",
        "uint64_t" => "u64",
        "int32_t" => "i32",
        "int64_t" => "i64",
        "size_t" => "usize",
        other => panic!("no type `{other}` is known"),
    };
    let pointer = text.contains('*') || count.is_some();
    let number = match count {
        Some(count) => format!("[{number}; {count}]"),
        None => number.to_owned(),
    };
    let kind = match (pointer, constant) {
        (true, true) => format!("*const {number}"),
        (true, false) => format!("*mut {number}"),
        (false, _) => number,
    };
    (kind, name.to_owned())
}

/// `table: *const u8`.
fn rust_argument(text: &str) -> (String, String) {
    let (name, kind) = text.split_once(": ").expect("name and type");
    (kind.to_owned(), name.to_owned())
}

#[test]
fn the_same_functions() {
    let header = between(HEADER, "extern \"C\" {", "#endif\n\n#endif");
    let declared = functions(DECLARED, "pub fn ", rust_argument);
    assert!(declared.len() >= 10);
    assert_eq!(declared, functions(header, "\nuint32_t ", c_argument));
    // Every answer is 32 bits.
    assert_eq!(DECLARED.matches("-> u32;").count(), declared.len());
}

/// The named numbers of a text, each from the line that starts with `start`:
/// a number, or a product of numbers and of names that stand before it. Macros
/// with arguments and without a value are none.
fn numbers(text: &str, start: &str) -> BTreeMap<String, u64> {
    let mut found = BTreeMap::new();
    for line in text.lines().filter_map(|line| line.strip_prefix(start)) {
        // `NAME 12`, `NAME (A * B)`, `NAME: usize = A * B as usize;`.
        let Some((name, value)) = line.split_once([' ', ':']) else {
            continue;
        };
        if name.contains('(') {
            continue;
        }
        let value = value.rsplit("= ").next().expect("a last part");
        let value = value.trim_matches(['(', ')', ';']);
        let factor = |word: &str| {
            let word = word.trim().trim_end_matches(" as usize");
            let number = found.get(word).copied();
            let number = number.or_else(|| word.parse::<u64>().ok());
            number.unwrap_or_else(|| panic!("no number `{word}` is known: {line}"))
        };
        let value = value.split('*').map(factor).product();
        let before = found.insert(name.to_owned(), value);
        assert_eq!(before, None, "{name}");
    }
    found
}

#[test]
fn the_same_limits() {
    let declared = numbers(DECLARED, "pub const ");
    assert_eq!(declared, numbers(HEADER, "#define "));
    // And they are what the compiler makes of them.
    let compiled = [
        ("SUZ_MAX_DEPTH", usize::from(suzdrepa_sys::SUZ_MAX_DEPTH)),
        ("SUZ_MAX_LEVELS", usize::from(suzdrepa_sys::SUZ_MAX_LEVELS)),
        ("SUZ_MAX_SIDE", suzdrepa_sys::SUZ_MAX_SIDE),
        (
            "SUZ_MAX_INTEGER_BITS",
            usize::from(suzdrepa_sys::SUZ_MAX_INTEGER_BITS),
        ),
        (
            "SUZ_MAX_FRACTION_BITS",
            usize::from(suzdrepa_sys::SUZ_MAX_FRACTION_BITS),
        ),
        (
            "SUZ_MAX_CONSTANT_BITS",
            usize::from(suzdrepa_sys::SUZ_MAX_CONSTANT_BITS),
        ),
        (
            "SUZ_MAX_PRODUCT_BITS",
            usize::from(suzdrepa_sys::SUZ_MAX_PRODUCT_BITS),
        ),
        ("SUZ_TABLE_HEAD", suzdrepa_sys::SUZ_TABLE_HEAD),
        ("SUZ_TABLE_LEVEL", suzdrepa_sys::SUZ_TABLE_LEVEL),
        (
            "SUZ_TABLE_PRODUCT_HEAD",
            suzdrepa_sys::SUZ_TABLE_PRODUCT_HEAD,
        ),
        (
            "SUZ_TABLE_PRODUCT_LEVEL",
            suzdrepa_sys::SUZ_TABLE_PRODUCT_LEVEL,
        ),
        ("SUZ_TABLE_CONSTANTS", suzdrepa_sys::SUZ_TABLE_CONSTANTS),
        ("SUZ_TABLE_WIDTHS", suzdrepa_sys::SUZ_TABLE_WIDTHS),
        ("SUZ_TABLE_PRODUCTS", suzdrepa_sys::SUZ_TABLE_PRODUCTS),
        ("SUZ_SCAN_LENGTH", suzdrepa_sys::SUZ_SCAN_LENGTH),
        ("SUZ_SCAN_HELD_LINES", suzdrepa_sys::SUZ_SCAN_HELD_LINES),
        ("SUZ_SCAN_OUT_LINES", suzdrepa_sys::SUZ_SCAN_OUT_LINES),
    ];
    let compiled = compiled.map(|(name, value)| (name.to_owned(), value as u64));
    assert_eq!(declared, BTreeMap::from(compiled));
    assert_eq!(declared["SUZ_TABLE_WIDTHS"], 180);
    assert_eq!(declared["SUZ_TABLE_PRODUCTS"], 60);
}
