//! The tool from its arguments to its exit status.

mod shared;

use shared::{fails, parts, pgm, roll, succeeds, Folder};
use std::io::Write;
use std::os::unix::fs::PermissionsExt;
use std::process::{Command, Stdio};
use suzdrepa::{Width, WidthTable};

#[test]
fn help() {
    let help = succeeds(&["--help"]);
    for command in [
        "check",
        "show",
        "suggest",
        "text",
        "table",
        "change",
        "constant",
        "product",
        "forward97",
        "scan",
        "view",
        "difference",
        "copy",
        "restore",
        "picture",
        "sample",
    ] {
        assert!(help.contains(&format!("  roll {command} ")), "{command}");
    }
    // Node and constant have letters of their own, as in document 01.
    assert!(help.contains("roll change TABLE LEVEL PASS NODE IB f OUT"));
    assert!(help.contains("roll constant TABLE NODE F OUT"));
    assert!(help.contains("roll check [--view] TABLE"));
    assert!(help.contains("roll suggest [--view] [--products] DEPTH LEVELS [OUT]"));
    assert!(help.contains("roll suggest [--view] --products --table TABLE [OUT]"));
    assert!(help.contains("roll product TABLE LEVEL PASS STEP fp OUT"));
    assert!(help.contains("roll COMMAND --no-clobber .."));
    assert!(help.lines().all(|line| line.len() <= 80), "{help}");
    assert_eq!(succeeds(&["-h"]), help);
    assert_eq!(succeeds(&["help"]), help);
    assert_eq!(succeeds(&["copy", "--help"]), help);
}

#[test]
fn wrong_command_lines() {
    fails(&[], 2, "no command");
    fails(&["dance"], 2, "no command `dance`");
    fails(&["check"], 2, "`check` takes other arguments");
    fails(&["check", "a", "b"], 2, "`check` takes other arguments");
    fails(&["copy", "a"], 2, "`copy` takes other arguments");
    fails(
        &["copy", "a", "b", "--levels"],
        2,
        "--levels needs a number",
    );
    fails(&["copy", "--levels", "x", "a", "b"], 2, "not `x`");
    fails(&["copy", "--levels=", "a", "b"], 2, "not ``");
    fails(&["copy", "--levels=256", "a", "b"], 2, "not `256`");
    fails(&["check", "--levels", "2", "a"], 2, "`copy` alone");
    fails(&["check", "--fast", "a"], 2, "no option `--fast`");
    fails(&["show", "--view", "a"], 2, "`check` and `suggest` alone");
    fails(
        &["view", "--view", "a", "b"],
        2,
        "`check` and `suggest` alone",
    );
    fails(&["check", "--view"], 2, "`check` takes other arguments");
    for command in ["check", "show", "view", "table"] {
        fails(&[command, "--products", "a"], 2, "`suggest` alone");
        fails(&[command, "--table", "a"], 2, "`suggest --products` alone");
    }
    fails(&["suggest", "--products"], 2, "`suggest` takes other");
    fails(&["suggest", "--products", "a"], 2, "`suggest` takes other");
    fails(&["suggest", "--products", "a", "1"], 2, "not `a`");
    fails(&["suggest", "--products", "8", "6"], 2, "1 to 5, not `6`");
    fails(
        &["suggest", "--table", "a", "8", "3"],
        2,
        "`suggest --products` alone",
    );
    fails(
        &["suggest", "--products", "--table", "a", "8", "3"],
        2,
        "depth and levels are the table's",
    );
    fails(&["suggest", "--products", "--table"], 2, "--table needs");
    fails(&["scan", "a", "b"], 2, "`scan` takes other arguments");
    fails(&["scan", "a", "b", "-"], 2, "OUT of `scan` is a file");
    fails(&["view", "a"], 2, "`view` takes other arguments");
    fails(&["view", "a", "b", "c", "d"], 2, "`view` takes other");
    fails(&["difference", "a", "b"], 2, "`difference` takes other");
    fails(&["suggest", "8"], 2, "other arguments");
    fails(&["suggest", "13", "1"], 2, "the depth is 1 to 12, not `13`");
    fails(&["suggest", "8", "6"], 2, "the levels are 1 to 5, not `6`");
    fails(&["suggest", "-8", "1"], 2, "the depth is 1 to 12, not `-8`");
    fails(&["suggest", "+8", "1"], 2, "the depth is 1 to 12, not `+8`");
    fails(&["suggest", "-x", "1"], 2, "no option `-x`");
    fails(&["suggest", "eight", "1"], 2, "not `eight`");
    fails(&["copy", "--levels", "-1", "a", "b"], 2, "1 to 5, not `-1`");
    fails(&["copy", "--levels=-1", "a", "b"], 2, "1 to 5, not `-1`");
    fails(&["copy", "--levels=+1", "a", "b"], 2, "1 to 5, not `+1`");
    fails(&["copy", "--levels=0", "a", "b"], 2, "1 to 5, not `0`");
    fails(&["copy", "--levels=6", "a", "b"], 2, "1 to 5, not `6`");
    fails(&["check", "--", "--help"], 2, "--help: ");
    fails(&["text"], 2, "`text` takes other arguments");
    fails(&["table", "a"], 2, "`table` takes other arguments");
    fails(&["constant", "a", "P1", "24"], 2, "other arguments");
    fails(
        &["constant", "a", "P3", "24", "b"],
        2,
        "NODE: there is no node `P3`",
    );
    for bits in ["many", "0", "25", "256", "-1", "+3", ""] {
        let text = format!("F: the bits of the constant of P1 are 1 to 24, not `{bits}`");
        fails(&["constant", "a", "P1", bits, "b"], 2, &text);
    }
    let product = |words: [&str; 4], text: &str| {
        let mut arguments = vec!["product", "a"];
        arguments.extend(words);
        arguments.push("b");
        fails(&arguments, 2, text);
        arguments.pop();
        fails(&arguments, 2, "`product` takes other arguments");
    };
    product(["6", "rows", "P1", "15"], "LEVEL: a level is 1 to 5");
    product(["1", "columns", "P1", "15"], "PASS: there is no pass");
    for step in ["G1", "G2", "5", "0", "P3", ""] {
        let text = format!("STEP: there is no step `{step}`: it is P1, U1, P2 or U2");
        product(["1", "rows", step, "15"], &text);
    }
    for bits in ["x", "45", "256", "-1", "+3", ""] {
        let text = format!("fp: the bits of a product are 0 to 44, not `{bits}`");
        product(["1", "rows", "P1", bits], &text);
    }
    let change = |words: [&str; 5], text: &str| {
        let mut arguments = vec!["change", "a"];
        arguments.extend(words);
        arguments.push("b");
        fails(&arguments, 2, text);
        arguments.pop();
        fails(&arguments, 2, "`change` takes other arguments");
    };
    for level in ["one", "0", "6", "255", "256", "-1", "+1"] {
        let text = format!("LEVEL: a level is 1 to 5, not `{level}`");
        change([level, "rows", "P1", "12", "20"], &text);
    }
    change(["1", "columns", "P1", "12", "20"], "PASS: there is no pass");
    change(["1", "-1", "P1", "12", "20"], "PASS: there is no pass `-1`");
    change(["1", "+1", "P1", "12", "20"], "PASS: there is no pass `+1`");
    change(["1", "4", "P1", "12", "20"], "PASS: there is no pass `4`");
    change(["1", "rows", "0", "12", "20"], "NODE: there is no node `0`");
    for bits in ["x", "0", "13", "256", "-1", "+3"] {
        let text = format!("IB: integer bits are 1 to 12, not `{bits}`");
        change(["1", "rows", "P1", bits, "20"], &text);
    }
    for bits in ["x", "21", "256", "-1", "-0", "+3"] {
        let text = format!("f: fractional bits are 0 to 20, not `{bits}`");
        change(["1", "rows", "P1", "12", bits], &text);
    }
}

#[test]
fn files_that_are_not_there() {
    let folder = Folder::new("not_there");
    let missing = folder.path("missing");
    fails(&["check", &missing], 2, "missing: ");
    fails(&["show", &missing], 2, "missing: ");
    fails(&["text", &missing], 2, "missing: ");
    fails(&["table", &missing, "x"], 2, "missing: ");
    fails(&["constant", &missing, "P1", "24", "x"], 2, "missing: ");
    fails(
        &["change", &missing, "1", "rows", "P1", "12", "20", "x"],
        2,
        "missing: ",
    );
    fails(
        &["product", &missing, "1", "rows", "P1", "15", "x"],
        2,
        "missing: ",
    );
    fails(
        &["suggest", "--products", "--table", &missing],
        2,
        "missing: ",
    );
    fails(&["copy", &missing, "x"], 2, "missing: ");
    fails(&["restore", &missing, "x"], 2, "missing: ");
    fails(&["check", "--view", &missing], 2, "missing: ");
    fails(&["view", &missing, "x"], 2, "missing: ");
    fails(&["picture", &missing, "x"], 2, "missing: ");
    fails(&["forward97", &missing, "x", "y"], 2, "missing: ");
    fails(&["scan", &missing, "x", "y"], 2, "missing: ");
    let single = folder.path("single.table");
    succeeds(&["suggest", "8", "1", &single]);
    fails(&["scan", &single, &missing, "y"], 2, "missing: ");
    let picture = folder.file("p.pgm", b"P5\n2 2\n255\n\x01\x02\x03\x04");
    for pair in [[&missing, &picture], [&picture, &missing]] {
        fails(&["difference", pair[0], pair[1], "x"], 2, "missing: ");
    }
    let nowhere = folder.path("no/such/folder/out");
    fails(&["copy", &picture, &nowhere], 2, "out: ");
    fails(&["scan", &single, &picture, &nowhere], 2, "out: ");
}

#[test]
fn tables() {
    let folder = Folder::new("tables");
    let path = folder.path("t.table");
    let told = succeeds(&["suggest", "8", "2", &path]);
    assert!(told.contains("8 bits, 2 levels"));
    let table = folder.bytes("t.table");
    assert_eq!(table.len(), 20 + 72);
    assert_eq!(succeeds(&["check", &path]), format!("{path}: accepted\n"));
    let shown = succeeds(&["show", &path]);
    assert!(shown.ends_with("\naccepted\n"));
    assert!(succeeds(&["suggest", "8", "2"]).lines().count() == shown.lines().count() - 1);

    let mut narrow = table.clone();
    narrow[20] = 2;
    let narrow = folder.file("narrow.table", &narrow);
    fails(
        &["check", &narrow],
        1,
        "refused 6: a node does not fit (level 1, rows, P1)",
    );
    assert!(succeeds(&["show", &narrow])
        .ends_with("\nnot accepted: refused 6: a node does not fit (level 1, rows, P1)\n"));
    let long = folder.file("long.table", &[&table[..], &[0]].concat());
    fails(
        &["check", &long],
        1,
        "refused 5: bytes follow the last field: any byte but 5 after the fourth, or any after \
         the fifth",
    );
    fails(&["show", &long], 1, "refused 5");
    for length in 0..table.len() {
        let cut = folder.file("cut.table", &table[..length]);
        fails(&["check", &cut], 1, "refused 1: the bytes end");
        fails(&["show", &cut], 1, "refused 1: the bytes end");
    }
    // What is no table, such as a picture, is told by its first byte.
    let picture = folder.file("scan.pgm", b"P5\n2 2\n255\n\0\x01\x02\x03");
    fails(
        &["check", &picture],
        1,
        "refused 2: the tag is not the next one due",
    );
}

#[test]
fn a_table_is_edited_as_text() {
    let folder = Folder::new("edited");
    let (table, again) = (folder.path("t.table"), folder.path("again.table"));
    for levels in ["1", "2", "5"] {
        succeeds(&["suggest", "8", levels, &table]);
        let text = succeeds(&["text", &table]);
        let written = folder.file("t.txt", text.as_bytes());
        let told = succeeds(&["table", &written, &again]);
        let shape = format!("8 bits, {}", counted(levels, "level"));
        assert_eq!(told, format!("{again}: written, {shape}, accepted\n"));
        assert_eq!(folder.bytes("again.table"), folder.bytes("t.table"));
        assert_eq!(succeeds(&["text", &again]), text);

        // The first node with two integer bits, by hand and by the command.
        let first = text.lines().find(|line| line.contains("rows")).unwrap();
        let words: Vec<&str> = first.split_whitespace().collect();
        let narrow = format!("1 rows P1 2 {}", words[4]);
        let edited = folder.file("t.txt", text.replacen(first, &narrow, 1).as_bytes());
        let told = succeeds(&["table", &edited, &again]);
        let refused = "not accepted: refused 6: a node does not fit (level 1, rows, P1)";
        assert_eq!(told, format!("{again}: written, {shape}, {refused}\n"));
        let changed = folder.path("changed.table");
        for (pass, node) in [("rows", "P1"), ("1", "1")] {
            let told = succeeds(&["change", &table, "1", pass, node, "2", words[4], &changed]);
            assert!(told.contains("refused 6"), "{told}");
            assert_eq!(folder.bytes("changed.table"), folder.bytes("again.table"));
        }

        // A constant with other bits, in both ways.
        let constants = text.lines().find(|l| l.starts_with("constants")).unwrap();
        let (before, _) = constants.split_once("G2").unwrap();
        let finer = text.replacen(constants, &format!("{before}G2 24"), 1);
        let edited = folder.file("t.txt", finer.as_bytes());
        succeeds(&["table", &edited, &again]);
        for node in ["G2", "6"] {
            let told = succeeds(&["constant", &table, node, "24", &changed]);
            assert_eq!(told, format!("{changed}: written, {shape}, accepted\n"));
            assert_eq!(folder.bytes("changed.table"), folder.bytes("again.table"));
        }
    }
}

/// The numbers of the `product` lines of a text.
fn products(text: &str) -> Vec<u8> {
    let lines = text.lines().filter(|line| line.starts_with("product "));
    lines
        .map(|line| line.split_whitespace().last().unwrap().parse().unwrap())
        .collect()
}

/// A suggested table and one of another's numbers: judged, shown, written as
/// text and read back, changed.
#[test]
fn product_widths() {
    let folder = Folder::new("product-widths");
    let (plain, table, again) = (
        folder.path("plain.table"),
        folder.path("t.table"),
        folder.path("again.table"),
    );
    for (depth, levels, view) in [("8", "1", true), ("8", "3", false), ("10", "5", false)] {
        let view = if view { &["--view"][..] } else { &[] };
        let suggest = |words: &[&str]| succeeds(&[&["suggest"], view, words].concat());
        let plainly = suggest(&[depth, levels, &plain]);
        let told = suggest(&["--products", depth, levels, &table]);
        let count: usize = levels.parse().unwrap();
        assert_eq!(folder.bytes("t.table").len(), 23 + 48 * count);
        // The same but for the product widths, by whatever way.
        assert!(folder
            .bytes("t.table")
            .starts_with(&folder.bytes("plain.table")));
        for words in [&["--table", &plain][..], &[&format!("--table={table}")]] {
            let by_table = suggest(&[&["--products"], words, &[&again]].concat());
            assert_eq!(by_table, told.replace(&table, &again));
            assert_eq!(folder.bytes("again.table"), folder.bytes("t.table"));
            let shown = suggest(&[&["--products"], words].concat());
            assert_eq!(shown, suggest(&["--products", depth, levels]));
        }
        // Product widths are told beside the rest.
        let (before, after) = plainly.split_once(" on average").unwrap();
        let before = before.replace(&plain, &table);
        let (start, rest) = told.split_once(" on average; ").unwrap();
        assert_eq!(start, before);
        let (cut, rest) = rest.split_once(" fractional bits a product, ").unwrap();
        let (full, rest) = rest.split_once(" uncut").unwrap();
        assert_eq!(rest, after);
        let (cut, full): (f64, f64) = (cut.parse().unwrap(), full.parse().unwrap());
        assert!(cut + 5.0 < full && full < 44.0, "{told}");

        assert_eq!(succeeds(&["check", &table]), format!("{table}: accepted\n"));
        let shown = succeeds(&["show", &table]);
        assert!(shown.ends_with("\naccepted\n"));
        assert!(shown.contains("   IB   f   fp  of "), "{shown}");
        assert!(!succeeds(&["show", &plain]).contains("fp"));

        // As text and back.
        let text = succeeds(&["text", &table]);
        let numbers = products(&text);
        assert_eq!(numbers.len(), 12 * count);
        assert_eq!(products(&succeeds(&["text", &plain])), [0; 0]);
        assert!(text.starts_with(&succeeds(&["text", &plain])));
        let average = numbers.iter().map(|&bits| f64::from(bits)).sum::<f64>() / 12.0;
        assert!((average / count as f64 - cut).abs() < 0.051);
        let written = folder.file("t.txt", text.as_bytes());
        let told = succeeds(&["table", &written, &again]);
        assert!(told.ends_with(", accepted\n"), "{told}");
        assert_eq!(folder.bytes("again.table"), folder.bytes("t.table"));
        // Without its last lines it is the plain table.
        let lines: Vec<&str> = text.lines().filter(|l| !l.starts_with("product")).collect();
        let written = folder.file("t.txt", lines.join("\n").as_bytes());
        succeeds(&["table", &written, &again]);
        assert_eq!(folder.bytes("again.table"), folder.bytes("plain.table"));

        // One product, by hand and by the command; lowered by one it is refused.
        let first = text.lines().find(|l| l.starts_with("product")).unwrap();
        let bits = (numbers[0] - 1).to_string();
        let lower = format!("product 1 rows P1 {bits}");
        let edited = folder.file("t.txt", text.replacen(first, &lower, 1).as_bytes());
        let told = succeeds(&["table", &edited, &again]);
        assert!(told.contains("not accepted: refused "), "{told}");
        let changed = folder.path("changed.table");
        for (pass, step) in [("rows", "P1"), ("1", "1")] {
            let by_word = succeeds(&["product", &table, "1", pass, step, &bits, &changed]);
            assert_eq!(by_word, told.replace(&again, &changed));
            assert_eq!(folder.bytes("changed.table"), folder.bytes("again.table"));
        }
        let back = numbers[0].to_string();
        succeeds(&["product", &changed, "1", "rows", "P1", &back, &again]);
        assert_eq!(folder.bytes("again.table"), folder.bytes("t.table"));
    }
}

/// What is refused says why; nothing is written.
#[test]
fn refused_product_widths() {
    let folder = Folder::new("refused_products");
    let (plain, table, out) = (
        folder.path("plain.table"),
        folder.path("t.table"),
        folder.path("out"),
    );
    succeeds(&["suggest", "8", "2", &plain]);
    succeeds(&["suggest", "--products", "8", "2", &table]);
    fails(
        &["product", &plain, "1", "rows", "P1", "15", &out],
        1,
        "plain.table: refused 4: the table has no product widths; \
         `roll suggest --products --table` gives it some",
    );
    fails(
        &["product", &table, "3", "rows", "P1", "15", &out],
        1,
        "t.table: refused 4: the table has 2 levels, there is no level 3",
    );
    // Wrong forms of the fifth field, by their numbers.
    let bytes = folder.bytes("t.table");
    let start = 20 + 72;
    assert_eq!(bytes[start..][..3], [5, 0, 24]);
    let with = |at: usize, byte: u8| {
        let mut bytes = bytes.clone();
        bytes[at] = byte;
        bytes
    };
    for (wrong, number) in [
        (bytes[..start + 1].to_vec(), 1),
        (bytes[..bytes.len() - 1].to_vec(), 1),
        (with(start + 2, 25), 3),
        (with(start + 3, 45), 4),
        ([&bytes[..], &[0]].concat(), 5),
        (with(start, 6), 5),
        (with(start, 4), 5),
    ] {
        let path = folder.file("wrong.table", &wrong);
        let text = format!("wrong.table: refused {number}: ");
        fails(&["check", &path], 1, &text);
        fails(&["show", &path], 1, &text);
        fails(&["text", &path], 1, &text);
        fails(&["product", &path, "1", "1", "1", "15", &out], 1, &text);
        fails(&["suggest", "--products", "--table", &path, &out], 1, &text);
    }
    // A table that is refused without product widths is so with any.
    let mut narrow = folder.bytes("plain.table");
    narrow[20] = 2;
    let narrow = folder.file("narrow.table", &narrow);
    let refused = "narrow.table: refused 6: a node does not fit (level 1, rows, P1)";
    fails(
        &["suggest", "--products", "--table", &narrow, &out],
        1,
        refused,
    );
    let (kept, others) = (Width::new(12, 8), Width::new(12, 20));
    let wide = WidthTable::kept_and_others(8, 3, 24, kept, others).unwrap();
    let wide = folder.file("wide.table", wide.as_bytes());
    fails(
        &["suggest", "--view", "--products", "--table", &wide, &out],
        1,
        "wide.table: refused 13",
    );
    assert!(!std::path::Path::new(&out).exists());
    fails(
        &["suggest", "--products", "--table", &table, &table],
        2,
        "is the file that is read",
    );
    assert_eq!(folder.bytes("t.table"), bytes);
}

/// Coefficients under a table with product widths: the engine's, kept with the
/// table, viewed, and scanned line by line.
#[test]
fn coefficients_under_product_widths() {
    let folder = Folder::new("under_products");
    let (plain, table, plane) = (
        folder.path("plain.table"),
        folder.path("t.table"),
        folder.path("plane"),
    );
    for (width, height, levels) in [(21, 14, "3"), (1, 30, "3"), (33, 20, "1"), (2, 2, "1")] {
        let count: usize = levels.parse().unwrap();
        let whole = pgm(width, height, 255);
        let picture = folder.file("p.pgm", &whole);
        // Room for cuts: all but the kept nodes is as wide as it gets.
        let (kept, others) = (Width::new(7, 4), Width::new(12, 20));
        let roomy = WidthTable::kept_and_others(8, count as u8, 24, kept, others).unwrap();
        folder.file("plain.table", roomy.as_bytes());
        succeeds(&["suggest", "--products", "--table", &plain, &table]);
        let told = succeeds(&["forward97", &table, &picture, &plane]);
        let shape = format!("{width} x {height}, {}\n", counted(levels, "level"));
        assert!(told.ends_with(&shape), "{told}");
        let bytes = folder.bytes("plane");
        let head = format!("suzdrepa-97 product-widths\n8 {levels} {width} {height}\n");
        assert!(bytes.starts_with(head.as_bytes()));
        let length = head.len() + 23 + 48 * count + 4 * width * height;
        assert_eq!(bytes.len(), length);
        let stored = roll::container::Plane::read(&bytes).unwrap();
        let pixels = roll::pgm::Picture::read(&whole).unwrap().pixels;
        let under = |bytes: &[u8]| suzdrepa::forward97_to_vec(bytes, &pixels, width, height);
        assert_eq!(under(&folder.bytes("t.table")), Ok(stored.values.clone()));
        let uncut = under(&folder.bytes("plain.table")).unwrap();
        assert!(uncut != stored.values || width < 3);

        succeeds(&["picture", &plane, &folder.path("plane.png")]);
        let viewed = folder.path("viewed.pgm");
        succeeds(&["view", &table, &plane, &viewed]);
        succeeds(&["difference", &picture, &viewed, &folder.path("changed.pgm")]);
        fails(
            &["view", &plain, &plane, &viewed],
            2,
            "plane: stored under another table than ",
        );
        if count == 1 {
            let out = folder.path("out");
            succeeds(&["scan", &table, &picture, &out]);
            assert!(folder.bytes("out") == bytes);
        }
    }
}

/// The file and its line are named; nothing is written.
#[test]
fn wrong_texts() {
    let folder = Folder::new("wrong_texts");
    let table = folder.path("t.table");
    succeeds(&["suggest", "8", "2", &table]);
    let out = folder.path("out");
    let text = succeeds(&["text", &table]);
    let lines: Vec<&str> = text.lines().collect();
    let wrong = |at: usize, line: &str, what: &str| {
        let mut lines = lines.clone();
        lines[at - 1] = line;
        let path = folder.file("wrong.txt", lines.join("\n").as_bytes());
        fails(&["table", &path, &out], 2, &format!("wrong.txt: {what}"));
        assert!(!std::path::Path::new(&out).exists());
    };
    let line_of = |start: &str| {
        let at = lines.iter().position(|l| l.trim_start().starts_with(start));
        at.unwrap() + 1
    };
    let (depth, nodes) = (line_of("depth"), line_of("1 "));
    wrong(depth, "depth 13", "line 4: the depth is 1 to 12");
    wrong(depth, "deep 8", "line 4: there is no word `deep`");
    wrong(
        nodes + 1,
        lines[nodes - 1],
        &format!(
            "line {}: level 1, rows, P1 stands already on line {nodes}",
            nodes + 1
        ),
    );
    wrong(
        nodes,
        "",
        &format!(
            "line {}: the text ends here and level 1, rows, P1 is missing",
            lines.len()
        ),
    );
    // A table's bytes are no text.
    fails(&["table", &table, &out], 2, "t.table: line 1: ");
    // And a text is no table.
    let text = folder.file("t.txt", text.as_bytes());
    fails(&["text", &text], 1, "refused ");
}

#[test]
fn refused_changes() {
    let folder = Folder::new("refused_changes");
    let (table, out) = (folder.path("t.table"), folder.path("out"));
    succeeds(&["suggest", "8", "2", &table]);
    for level in ["3", "4", "5"] {
        fails(
            &["change", &table, level, "rows", "P1", "12", "20", &out],
            1,
            &format!("t.table: refused 4: the table has 2 levels, there is no level {level}"),
        );
    }
    let single = folder.path("single.table");
    succeeds(&["suggest", "8", "1", &single]);
    fails(
        &["change", &single, "2", "rows", "P1", "12", "20", &out],
        1,
        "refused 4: the table has 1 level, there is no level 2",
    );
    let bytes = folder.bytes("t.table");
    let cut = folder.file("cut.table", &bytes[..bytes.len() - 1]);
    fails(&["text", &cut], 1, "cut.table: refused 1");
    fails(&["constant", &cut, "P1", "24", &out], 1, "refused 1");
    fails(
        &["change", &cut, "1", "rows", "P1", "12", "20", &out],
        1,
        "cut.table: refused 1",
    );
    assert!(!std::path::Path::new(&out).exists());
}

/// The words by which a refusal names a node are those that `change` takes.
#[test]
fn a_refused_node_is_named_as_commands_want_it() {
    let folder = Folder::new("refused_node");
    let (table, narrow, wide) = (
        folder.path("t.table"),
        folder.path("narrow.table"),
        folder.path("wide.table"),
    );
    succeeds(&["suggest", "8", "2", &table]);
    for pass in ["rows", "low-columns", "high-columns"] {
        let told = succeeds(&["change", &table, "2", pass, "P1", "1", "20", &narrow]);
        let (_, named) = told.split_once("not accepted: refused 6: ").unwrap();
        let (_, named) = named.split_once('(').unwrap();
        let named = named.trim_end().strip_suffix(')').unwrap();
        assert_eq!(named, format!("level 2, {pass}, P1"));
        let words: Vec<&str> = named.split(", ").collect();
        let level = words[0].strip_prefix("level ").unwrap();
        let told = succeeds(&[
            "change", &narrow, level, words[1], words[2], "12", "20", &wide,
        ]);
        assert!(told.ends_with(" levels, accepted\n"), "{told}");
    }
}

/// No command writes over what it reads, by whatever name; the file stays.
#[test]
fn a_file_that_is_read_is_not_written() {
    let folder = Folder::new("read_and_written");
    let table = folder.path("t.table");
    succeeds(&["suggest", "8", "1", &table]);
    let text = folder.file("t.txt", succeeds(&["text", &table]).as_bytes());
    let picture = folder.file("p.pgm", &pgm(5, 4, 255));
    let (copy, plane) = (folder.path("copy"), folder.path("plane"));
    succeeds(&["copy", &picture, &copy]);
    succeeds(&["forward97", &table, &picture, &plane]);
    let other = folder.file("other.pgm", &pgm(5, 4, 255));
    let (sub, link, hard) = (folder.path("sub"), folder.path("link"), folder.path("hard"));
    std::fs::create_dir_all(&sub).unwrap();
    for name in ["t.table", "t.txt", "p.pgm", "copy", "plane"] {
        let before = folder.bytes(name);
        let path = folder.path(name);
        for old in [&link, &hard] {
            let _ = std::fs::remove_file(old);
        }
        std::os::unix::fs::symlink(&path, &link).unwrap();
        std::fs::hard_link(&path, &hard).unwrap();
        for to in [&path, &link, &hard, &format!("{sub}/../{name}")] {
            let commands: &[&[&str]] = match name {
                "t.table" => &[
                    &["change", &table, "1", "rows", "P1", "12", "20", to],
                    &["constant", &table, "P1", "24", to],
                    &["product", &table, "1", "rows", "P1", "24", to],
                    &["suggest", "--products", "--table", &table, to],
                    &["forward97", &table, &picture, to],
                    &["scan", &table, &picture, to],
                    &["scan", &table, "-", to],
                ],
                "t.txt" => &[&["table", &text, to]],
                "p.pgm" => &[
                    &["forward97", &table, &picture, to],
                    &["scan", &table, &picture, to],
                    &["copy", &picture, to],
                    &["difference", &picture, &other, to],
                    &["difference", &other, &picture, to],
                ],
                "plane" => &[&["view", &plane, to], &["picture", &plane, to]],
                _ => &[&["restore", &copy, to], &["picture", &copy, to]],
            };
            for command in commands {
                fails(
                    command,
                    2,
                    &format!("({to}) is the file that is read ({path})"),
                );
            }
        }
        assert_eq!(folder.bytes(name), before);
    }
    // What merely looks alike is another file.
    let twin = folder.file("twin.table", &folder.bytes("t.table"));
    succeeds(&["constant", &table, "P1", "24", &twin]);
}

/// A text is read whatever its line ends are.
#[test]
fn line_ends_of_other_systems() {
    let folder = Folder::new("line_ends");
    let (table, out) = (folder.path("t.table"), folder.path("out.table"));
    succeeds(&["suggest", "8", "2", &table]);
    let text = succeeds(&["text", &table]);
    for end in ["\n", "\r\n", "\r"] {
        let given = folder.file("t.txt", text.replace('\n', end).as_bytes());
        succeeds(&["table", &given, &out]);
        assert_eq!(folder.bytes("out.table"), folder.bytes("t.table"));
        let wrong = text.replace("depth 8", "depth 13").replace('\n', end);
        let wrong = folder.file("wrong.txt", wrong.as_bytes());
        fails(&["table", &wrong, &out], 2, "line 4: the depth is 1 to 12");
    }
}

#[test]
fn copies_come_back() {
    let folder = Folder::new("copies");
    for (width, height, largest, levels) in [
        (2, 2, 1, "1"),
        (3, 2, 255, "1"),
        (19, 17, 255, "5"),
        (40, 31, 4095, "5"),
        (9, 30, 1023, "4"),
        (1, 1, 255, "1"),
        (1, 2, 1, "1"),
        (5, 1, 255, "3"),
        (1, 601, 1023, "5"),
        (4096, 1, 15, "5"),
    ] {
        let whole = pgm(width, height, largest);
        let picture = folder.file("p.pgm", &whole);
        let (copy, back) = (folder.path("copy"), folder.path("back.pgm"));
        let told = succeeds(&["copy", &picture, &copy]);
        let bits = counted(&(largest.ilog2() + 1).to_string(), "bit");
        let shape = format!("{width} x {height}, {bits}");
        let levels = counted(levels, "level");
        let due = format!("{copy}: exact copy (columns first), {shape}, {levels}\n");
        assert_eq!(told, due);
        assert!(folder
            .bytes("copy")
            .starts_with(b"suzdrepa-53 columns-first\n"));
        let told = succeeds(&["restore", &copy, &back]);
        let due = format!("{back}: {shape}, from a copy (columns first)\n");
        assert_eq!(told, due);
        assert_eq!(folder.bytes("back.pgm"), whole);
        // Any number of levels goes with any sides.
        for levels in ["1", "5"] {
            succeeds(&["copy", &picture, &copy, "--levels", levels]);
            succeeds(&["restore", &copy, &back]);
            assert_eq!(folder.bytes("back.pgm"), whole);
            let drawn = folder.path("copy.png");
            succeeds(&["picture", &copy, &drawn]);
            assert!(folder.bytes("copy.png").starts_with(b"\x89PNG"));
        }
    }
}

/// A file with this first line: three bits, one level, two by two.
fn two_by_two(first: &str, coefficients: [i32; 4]) -> Vec<u8> {
    let head = format!("{first}\n3 1 2 2\n").into_bytes();
    let numbers = coefficients.map(i32::to_le_bytes).concat();
    [head, numbers].concat()
}

/// The copies of documents 01 and 02: as it was made earlier, and as it is now.
#[test]
fn copies_of_both_orders_are_restored() {
    let folder = Folder::new("both_orders");
    let back = folder.path("back.pgm");
    let new = two_by_two("suzdrepa-53 columns-first", [2, 1, -2, -2]);
    let earlier = two_by_two("suzdrepa-53", [1, 1, -2, -2]);
    for (bytes, from) in [
        (&new, "a copy (columns first)"),
        (&earlier, "an earlier copy (rows first)"),
    ] {
        let copy = folder.file("copy", bytes);
        let told = succeeds(&["restore", &copy, &back]);
        assert_eq!(told, format!("{back}: 2 x 2, 3 bits, from {from}\n"));
        let picture = roll::pgm::Picture::read(&folder.bytes("back.pgm")).unwrap();
        assert_eq!((picture.width, picture.height, picture.depth), (2, 2, 3));
        assert_eq!(picture.pixels, [5, 7, 4, 4]);
        let drawn = folder.path("copy.png");
        succeeds(&["picture", &copy, &drawn]);
        assert!(folder.bytes("copy.png").starts_with(b"\x89PNG"));
        fails(&["view", &copy, &back], 2, "copy: an exact copy; 9/7");
        // Restored and copied again it is a new one.
        let again = folder.path("again");
        succeeds(&["copy", &back, &again]);
        assert_eq!(folder.bytes("again"), new);
    }
}

#[test]
fn marks_that_are_not_known() {
    let folder = Folder::new("marks");
    let out = folder.path("out");
    for first in [
        "suzdrepa-53 rows-first",
        "suzdrepa-53 ",
        "suzdrepa-53 columns-first ",
    ] {
        let copy = folder.file("copy", &two_by_two(first, [2, 1, -2, -2]));
        for command in ["restore", "picture", "view"] {
            fails(&[command, &copy, &out], 2, "not a file of coefficients");
        }
    }
    assert!(!std::path::Path::new(&out).exists());
}

/// Columns for rows and rows for columns.
fn turned<T: Copy>(plane: &[T], width: usize) -> Vec<T> {
    let column = |x: usize| plane.iter().skip(x).step_by(width).copied();
    (0..width).flat_map(column).collect()
}

/// Where a mark was taken away or put in, the file is restored as a copy of the
/// other order, or refused 11.
#[test]
fn wrong_marks() {
    let folder = Folder::new("wrong_marks");
    let (marked, unmarked) = ("suzdrepa-53 columns-first\n", "suzdrepa-53\n");
    let (mut removed, mut added) = ([0; 2], [0; 2]);
    for (width, height) in (1..9).flat_map(|width| (1..9).map(move |height| (width, height))) {
        for largest in [1, 7, 255] {
            let picture = roll::pgm::Picture::read(&pgm(width, height, largest)).unwrap();
            let (depth, pixels) = (picture.depth, picture.pixels);
            let new = suzdrepa::forward53_to_vec(depth, 1, &pixels, width, height).unwrap();
            // Rows first is columns first on the picture turned over.
            let on_its_side = turned(&pixels, width);
            let earlier = suzdrepa::forward53_to_vec(depth, 1, &on_its_side, height, width);
            let earlier = turned(&earlier.unwrap(), height);
            let restored = |first: &str, plane: &[i32]| {
                let mut bytes = format!("{first}{depth} 1 {width} {height}\n").into_bytes();
                bytes.extend(plane.iter().flat_map(|value| value.to_le_bytes()));
                let copy = folder.file("copy", &bytes);
                let (status, _, err) = roll(&["restore", &copy, &folder.path("back.pgm")]);
                match status {
                    0 => Ok(roll::pgm::Picture::read(&folder.bytes("back.pgm"))
                        .unwrap()
                        .pixels),
                    _ => Err((status, err)),
                }
            };
            assert_eq!(restored(marked, &new).as_ref(), Ok(&pixels));
            assert_eq!(restored(unmarked, &earlier).as_ref(), Ok(&pixels));

            let back = suzdrepa::inverse53_rows_first_to_vec(depth, 1, &new, width, height);
            let taken = "taken for an earlier copy (rows first)";
            count(&mut removed, restored(unmarked, &new), back, &pixels, taken);
            let back = suzdrepa::inverse53_to_vec(depth, 1, &earlier, width, height);
            let taken = "taken for a copy (columns first)";
            count(&mut added, restored(marked, &earlier), back, &pixels, taken);
        }
    }
    for seen in [removed, added] {
        assert!(seen.iter().all(|&n| n > 10), "{removed:?} {added:?}");
    }
}

/// Holds what was restored under a wrong mark against the engine's answer in
/// that order, and counts refusals and other pictures.
fn count(
    seen: &mut [usize; 2],
    restored: Result<Vec<u16>, (u8, String)>,
    due: Result<Vec<u16>, suzdrepa::Refusal>,
    right: &[u16],
    taken: &str,
) {
    match restored {
        Err((status, err)) => {
            assert_eq!((status, due), (1, Err(suzdrepa::Refusal::NoPicture)));
            assert!(err.contains(": refused 11: the 5/3 plane"), "{err}");
            assert!(err.ends_with(&format!("; {taken}\n")), "{err}");
            seen[0] += 1;
        }
        Ok(pixels) => {
            seen[1] += usize::from(pixels != right);
            assert_eq!(Ok(pixels), due);
        }
    }
}

#[test]
fn refused_pictures() {
    let folder = Folder::new("refused_pictures");
    let table = folder.path("t.table");
    succeeds(&["suggest", "8", "2", &table]);
    let refused = "refused 8: a side is 0 or above 4,096";
    for (width, height) in [(0, 0), (0, 5), (1, 0), (1, 4097), (4097, 1)] {
        let picture = folder.file("p.pgm", &pgm(width, height, 255));
        fails(&["copy", &picture, "x"], 1, refused);
        fails(&["copy", "--levels", "5", &picture, "x"], 1, refused);
        fails(&["forward97", &table, &picture, "x"], 1, refused);
    }
}

/// A picture of another depth than the table's is not worked, however dark its
/// pixels are; both depths are told, and nothing is written.
#[test]
fn depths_that_differ() {
    let folder = Folder::new("depths");
    let (table, out) = (folder.path("t.table"), folder.path("out"));
    // The largest value, the bits that it takes, and a table's depth.
    for (largest, bits, depth) in [
        (15, "4", "8"),
        (127, "7", "8"),
        (256, "9", "8"),
        (4095, "12", "8"),
        (255, "8", "12"),
        (2047, "11", "12"),
        (1, "1", "2"),
        (3, "2", "1"),
    ] {
        succeeds(&["suggest", depth, "1", &table]);
        let light = pgm(5, 7, largest);
        let head = light.len() - 35 * if largest > 255 { 2 } else { 1 };
        let mut dark = light.clone();
        dark[head..].fill(0);
        for whole in [light, dark] {
            let picture = folder.file("p.pgm", &whole);
            let (taken, due) = (counted(bits, "bit"), counted(depth, "bit"));
            let what =
                format!("a picture of {taken}, by its largest value; {table} is a table for {due}");
            let told = format!("{picture}: {what}\n");
            fails(&["forward97", &table, &picture, &out], 2, &told);
            fails(&["scan", &table, &picture, &out], 2, &told);
            let (status, given, err) = piped(&["scan", &table, "-", &out], &whole);
            assert_eq!((status, given), (Some(2), String::new()));
            assert_eq!(err, format!("roll: standard input: {what}\n"));
            // A copy has the picture's depth.
            let copied = succeeds(&["copy", &picture, &folder.path("copy")]);
            assert!(copied.contains(&format!(", {taken}, ")), "{copied}");
        }
    }
    assert_eq!(parts(&folder), [""; 0]);
    assert!(!std::path::Path::new(&out).exists());
    // A largest value that is no 2^B - 1 has the least B that it is below 2^B of.
    for (largest, depth) in [(128, "8"), (200, "8"), (255, "8"), (2, "2"), (2048, "12")] {
        succeeds(&["suggest", "--view", depth, "1", &table]);
        let picture = folder.file("p.pgm", &pgm(5, 7, largest));
        succeeds(&["forward97", &table, &picture, &out]);
        let scanned = folder.path("scanned");
        succeeds(&["scan", &table, &picture, &scanned]);
        assert_eq!(folder.bytes("scanned"), folder.bytes("out"));
        let viewed = folder.path("viewed.pgm");
        succeeds(&["view", &out, &viewed]);
        succeeds(&["difference", &picture, &viewed, &folder.path("changed.pgm")]);
    }
}

/// A strip one sample wide is worked by every command that takes a picture.
#[test]
fn a_strip_one_sample_wide() {
    let folder = Folder::new("one_sample");
    for (width, height, depth, levels) in [
        (1, 30, "8", "3"),
        (17, 1, "8", "3"),
        (1, 1, "5", "5"),
        (2, 2, "5", "5"),
    ] {
        let largest = if depth == "8" { 255 } else { 31 };
        let whole = pgm(width, height, largest);
        let picture = folder.file("p.pgm", &whole);
        let (table, plane) = (folder.path("t.table"), folder.path("plane"));
        succeeds(&["suggest", "--view", depth, levels, &table]);
        let told = succeeds(&["forward97", &table, &picture, &plane]);
        let shape = format!("{width} x {height}, {}\n", counted(levels, "level"));
        assert!(told.ends_with(&shape), "{told}");
        succeeds(&["picture", &plane, &folder.path("plane.png")]);
        let stored = roll::container::Plane::read(&folder.bytes("plane")).unwrap();
        let pixels = roll::pgm::Picture::read(&whole).unwrap().pixels;
        let bytes = folder.bytes("t.table");
        let due = suzdrepa::forward97_to_vec(&bytes, &pixels, width, height);
        assert_eq!(Ok(stored.values), due);
        let viewed = folder.path("viewed.pgm");
        succeeds(&["view", &plane, &viewed]);
        let told = succeeds(&["difference", &picture, &viewed, &folder.path("changed")]);
        assert!(
            told.contains(&format!(" of {} pixels", width * height)),
            "{told}"
        );
        let copy = folder.path("copy");
        succeeds(&["copy", &picture, &copy]);
        succeeds(&["restore", &copy, &viewed]);
        assert_eq!(folder.bytes("viewed.pgm"), whole);
    }
}

#[test]
fn coefficients_under_a_table() {
    let folder = Folder::new("coefficients");
    let (table, plane) = (folder.path("t.table"), folder.path("plane"));
    succeeds(&["suggest", "8", "3", &table]);
    let picture = folder.file("p.pgm", &pgm(21, 14, 255));
    succeeds(&["forward97", &table, &picture, &plane]);
    let bytes = folder.bytes("plane");
    assert!(bytes.starts_with(b"suzdrepa-97\n8 3 21 14\n\x01\x00\x01\x08"));
    assert_eq!(bytes.len(), 22 + 20 + 108 + 4 * 21 * 14);
    succeeds(&["picture", &plane, &folder.path("plane.png")]);
    fails(&["restore", &plane, "x"], 2, "9/7 coefficients");
}

/// Runs the program itself with these bytes at its standard input.
fn piped(arguments: &[&str], input: &[u8]) -> (Option<i32>, String, String) {
    let mut child = Command::new(env!("CARGO_BIN_EXE_roll"))
        .args(arguments)
        .stdin(Stdio::piped())
        .stdout(Stdio::piped())
        .stderr(Stdio::piped())
        .spawn()
        .unwrap();
    // It may stop reading once the answer is settled.
    let written = child.stdin.take().unwrap().write_all(input);
    let output = child.wait_with_output().unwrap();
    assert!(written.is_ok() || !output.status.success());
    (
        output.status.code(),
        String::from_utf8(output.stdout).unwrap(),
        String::from_utf8(output.stderr).unwrap(),
    )
}

/// From a file and from a pipe, to a new file and over an old one.
#[test]
fn a_scan_writes_what_forward97_writes() {
    let folder = Folder::new("scanned");
    for (width, height, largest, depth) in [
        (2, 2, 1, "1"),
        (3, 2, 255, "8"),
        (2, 3, 255, "8"),
        (5, 4, 255, "8"),
        (21, 14, 255, "8"),
        (40, 31, 4095, "12"),
        (7, 601, 1023, "10"),
        (2, 4096, 15, "4"),
        (4096, 5, 15, "4"),
        (1, 1, 255, "8"),
        (1, 2, 255, "8"),
        (9, 1, 4095, "12"),
        (1, 601, 255, "8"),
        (4096, 1, 15, "4"),
    ] {
        let (table, plane, out) = (
            folder.path("t.table"),
            folder.path("plane"),
            folder.path("out"),
        );
        succeeds(&["suggest", "--view", depth, "1", &table]);
        let whole = pgm(width, height, largest);
        let picture = folder.file("p.pgm", &whole);
        succeeds(&["forward97", &table, &picture, &plane]);
        let told = succeeds(&["scan", &table, &picture, &out]);
        let due = format!("{out}: 9/7 coefficients, {width} x {height}, 1 level\n");
        assert_eq!(told, due);
        assert!(folder.bytes("out") == folder.bytes("plane"));
        for before in [&b"something else"[..], &[7; 70_000]] {
            folder.file("out", before);
            let given = piped(&["scan", &table, "-", &out], &whole);
            assert_eq!(given, (Some(0), due.clone(), String::new()));
            assert!(folder.bytes("out") == folder.bytes("plane"));
        }
        let (viewed, again) = (folder.path("viewed.pgm"), folder.path("again.pgm"));
        succeeds(&["view", &plane, &viewed]);
        succeeds(&["view", &out, &again]);
        assert_eq!(folder.bytes("again.pgm"), folder.bytes("viewed.pgm"));
        std::fs::remove_file(&out).unwrap();
    }
    assert_eq!(parts(&folder), [""; 0]);
}

/// A strip higher than any picture is scanned, and only that.
#[test]
fn a_scan_of_a_high_strip() {
    let folder = Folder::new("high_strip");
    let (table, plane, out) = (
        folder.path("t.table"),
        folder.path("plane"),
        folder.path("out"),
    );
    succeeds(&["suggest", "--view", "8", "1", &table]);
    for (width, height) in [(3, 4097), (3, 5002), (1, 4098)] {
        let whole = pgm(width, height, 255);
        let picture = folder.file("p.pgm", &whole);
        let told = succeeds(&["scan", &table, &picture, &plane]);
        assert!(
            told.ends_with(&format!("{width} x {height}, 1 level\n")),
            "{told}"
        );
        let stored = roll::container::Plane::read(&folder.bytes("plane")).unwrap();
        assert_eq!((stored.width, stored.height), (width, height));
        let pixels = roll::pgm::Picture::read(&whole).unwrap().pixels;
        let mut due = vec![0; width * height];
        let bytes = folder.bytes("t.table");
        let scanned = suzdrepa::Scan::over(&bytes, pixels.chunks(width), |line| {
            let row = line.row(height as u64) as usize;
            due[width * row..][..width].copy_from_slice(line.values);
        });
        assert_eq!((scanned, stored.values), (Ok(height as u64), due));
        fails(&["forward97", &table, &picture, &out], 1, "refused 8");
        fails(&["view", &plane, &out], 1, "refused 8");
        let drawn = format!("1 level and {width} x {height} coefficients is not drawn");
        fails(&["picture", &plane, &out], 2, &drawn);
    }
    assert!(!std::path::Path::new(&out).exists());
}

/// Nothing is left where a scan fails, and what was there stays.
#[test]
fn scans_that_fail() {
    let folder = Folder::new("failed_scan");
    let (table, out) = (folder.path("t.table"), folder.path("out"));
    succeeds(&["suggest", "8", "1", &table]);
    let three = folder.path("three.table");
    succeeds(&["suggest", "8", "3", &three]);
    let mut narrow = folder.bytes("t.table");
    narrow[20] = 2;
    let narrow = folder.file("narrow.table", &narrow);
    let out_of_turn = "refused 14: a table not of one level, a line or an end out of turn, \
                       or a line of another width; ";
    let whole = pgm(5, 7, 255);
    let head = whole.len() - 35;
    let picture = folder.file("p.pgm", &whole);
    // The first pixel of row 4 is above the largest value.
    let mut light = pgm(5, 7, 254);
    light[head + 5 * 4] = 255;
    let with = |bytes: &[u8], status: u8, text: &str| {
        let damaged = folder.file("damaged.pgm", bytes);
        fails(
            &["scan", &table, &damaged, &out],
            status,
            &format!("damaged.pgm: {text}"),
        );
        let (given, told, err) = piped(&["scan", &table, "-", &out], bytes);
        assert_eq!((given, told), (Some(status.into()), String::new()));
        assert!(
            err.starts_with(&format!("roll: standard input: {text}")),
            "{err}"
        );
    };
    for before in [None, Some(b"what was there")] {
        let _ = std::fs::remove_file(&out);
        if let Some(before) = before {
            folder.file("out", before);
        }
        let levels = format!("{out_of_turn}it has 3 levels, a scan takes 1");
        fails(&["scan", &three, &picture, &out], 1, &levels);
        fails(
            &["scan", &narrow, &picture, &out],
            1,
            "narrow.table: refused 6",
        );
        fails(&["scan", &picture, &table, &out], 1, "p.pgm: refused 2");
        fails(&["scan", &table, &table, &out], 2, "t.table: not a PGM");
        fails(
            &["scan", &table, folder.0.to_str().unwrap(), &out],
            2,
            "directory",
        );
        let above = "pixel 0 in row 4 of the PGM is above its largest value 254";
        with(&light, 2, above);
        let sides = "refused 8: a side is 0 or above 4,096";
        for (width, height) in [(0, 0), (0, 7), (4097, 1), (4097, 2)] {
            with(&pgm(width, height, 255), 1, sides);
        }
        with(b"P5 4294967295 2 255\n", 1, "refused 8");
        let none = format!("{out_of_turn}the strip has 0 lines, a scan takes 1 or more");
        for width in [1, 5, 4096] {
            with(&pgm(width, 0, 255), 1, &none);
        }
        for length in head..whole.len() {
            let row = (length - head) / 5;
            let text = format!("the PGM ends before its last pixel: row {row} of its 7");
            with(&whole[..length], 2, &text);
        }
        with(
            &[&whole[..], &[0]].concat(),
            2,
            "bytes follow the PGM's pixels",
        );
        with(&whole[..head - 1], 2, "the PGM ends within its head");
        assert_eq!(std::fs::read(&out).ok().as_deref(), before.map(|b| &b[..]));
        assert_eq!(parts(&folder), [""; 0]);
    }
}

/// What is no file is not written; a link is written through, and a file that
/// is replaced keeps its permissions.
#[test]
fn where_a_scan_is_written() {
    let folder = Folder::new("scan_to");
    let table = folder.path("t.table");
    succeeds(&["suggest", "8", "1", &table]);
    let picture = folder.file("p.pgm", &pgm(5, 7, 255));
    let no_file = "no file: rows are written where they stand, not in order";
    for to in [folder.0.to_str().unwrap(), "/dev/null"] {
        fails(
            &["scan", &table, &picture, to],
            2,
            &format!("{to}: {no_file}"),
        );
    }
    let (out, link) = (folder.file("out", b"before"), folder.path("link"));
    let permissions = std::fs::Permissions::from_mode(0o640);
    std::fs::set_permissions(&out, permissions.clone()).unwrap();
    let _ = std::fs::remove_file(&link);
    std::os::unix::fs::symlink("out", &link).unwrap();
    succeeds(&["scan", &table, &picture, &link]);
    assert!(std::fs::symlink_metadata(&link).unwrap().is_symlink());
    let plane = folder.path("plane");
    succeeds(&["forward97", &table, &picture, &plane]);
    assert_eq!(folder.bytes("out"), folder.bytes("plane"));
    let mode = std::fs::metadata(&out).unwrap().permissions().mode();
    assert_eq!(mode & 0o777, permissions.mode());
    assert_eq!(parts(&folder), [""; 0]);
}

/// A damaged picture is scanned where it can be worked in whole, with the same
/// coefficients.
#[test]
fn scans_of_damaged_pictures() {
    let folder = Folder::new("damaged_scan");
    let mut state = 0x9E37_79B9_7F4A_7C15u64;
    let mut below = |n: usize| {
        state ^= state << 13;
        state ^= state >> 7;
        state ^= state << 17;
        (state % n as u64) as usize
    };
    let (table, plane, out) = (
        folder.path("t.table"),
        folder.path("plane"),
        folder.path("out"),
    );
    succeeds(&["suggest", "8", "1", &table]);
    let whole = pgm(6, 5, 200);
    let mut seen = [0usize; 3];
    for _ in 0..1000 {
        let mut bytes = whole.clone();
        for _ in 0..=below(2) {
            let at = below(bytes.len());
            match below(6) {
                0 => {
                    bytes.remove(at);
                }
                1 => bytes.insert(at, below(256) as u8),
                // Mostly a side of 0.
                2 => bytes[[3, 5][below(2)].min(at)] = b'0',
                3 => bytes[at.min(11)] = b"0123456789 \n#P"[below(14)],
                4 => bytes.truncate(at),
                _ => bytes[at] = below(256) as u8,
            }
            if bytes.is_empty() {
                break;
            }
        }
        let damaged = folder.file("damaged.pgm", &bytes);
        let (due, _, _) = roll(&["forward97", &table, &damaged, &plane]);
        let (status, _, err) = roll(&["scan", &table, &damaged, &out]);
        assert_eq!(status != 0, !err.is_empty());
        assert_eq!(status == 0, due == 0, "{err}");
        if status == 0 {
            assert_eq!(folder.bytes("out"), folder.bytes("plane"));
            std::fs::remove_file(&out).unwrap();
        }
        assert!(!std::path::Path::new(&out).exists());
        seen[usize::from(status)] += 1;
    }
    assert!(seen.iter().all(|&n| n > 20), "{seen:?}");
    assert_eq!(parts(&folder), [""; 0]);
}

/// A number and what it counts, in words.
fn counted(number: &str, what: &str) -> String {
    format!("{number} {what}{}", if number == "1" { "" } else { "s" })
}

/// Scanned, stored, viewed: as the engine shows it, and as near as it says.
#[test]
fn viewing() {
    let folder = Folder::new("viewing");
    for (width, height, largest, depth, levels) in [
        (2, 2, 1, "1", "1"),
        (21, 14, 255, "8", "3"),
        (9, 30, 4095, "12", "1"),
        (40, 31, 31, "5", "5"),
        (1, 40, 255, "8", "3"),
        (33, 1, 31, "5", "5"),
        (3, 5, 127, "7", "4"),
        (1, 1, 4095, "12", "1"),
    ] {
        let (table, plane) = (folder.path("t.table"), folder.path("plane"));
        let suggested = succeeds(&["suggest", "--view", depth, levels, &table]);
        let shown = succeeds(&["suggest", depth, levels, "--view"]);
        let bits = counted(depth, "bit");
        assert!(shown.starts_with(&format!("depth {bits}, {}\n", counted(levels, "level"))));
        succeeds(&["check", &table]);
        let told = succeeds(&["check", "--view", &table]);
        let (_, far) = told.split_once("t.table: accepted, viewable: ").unwrap();
        assert!(shown.ends_with(&format!("\nviewable: {far}")), "{shown}");
        assert!(suggested.ends_with(&format!("; viewable: {far}")));
        let (_, most) = far.split_once(" greys from the scan, ").unwrap();
        let most: u16 = most
            .strip_suffix(" after rounding\n")
            .unwrap()
            .parse()
            .unwrap();

        let scanned = folder.file("p.pgm", &pgm(width, height, largest));
        succeeds(&["forward97", &table, &scanned, &plane]);
        let viewed = folder.path("viewed.pgm");
        let told = succeeds(&["view", &plane, &viewed]);
        assert_eq!(succeeds(&["view", &table, &plane, &viewed]), told);
        let other = folder.path("other.table");
        succeeds(&["constant", &table, "P1", "1", &other]);
        fails(
            &["view", &other, &plane, &viewed],
            2,
            "plane: stored under another table than ",
        );
        let shape = format!("{width} x {height}, {bits}; if `forward97` stored it, {far}");
        assert!(told.ends_with(&shape), "{told}");

        let changed = folder.path("changed.pgm");
        let told = succeeds(&["difference", &scanned, &viewed, &changed]);
        let (_, told) = told.split_once("changed.pgm: at most ").unwrap();
        let (greys, told) = told.split_once(", ").unwrap();
        let (greys, _) = greys.split_once(" grey").unwrap();
        let greys: u16 = greys.parse().unwrap();
        assert!(greys <= most, "{greys} {most}");
        assert!(told.ends_with(&format!(" of {} pixels differ\n", width * height)));
        let read = |name| roll::pgm::Picture::read(&folder.bytes(name)).unwrap();
        assert_eq!(read("p.pgm").difference(&read("viewed.pgm")).1, greys);

        // The engine's own answer.
        let stored = roll::container::Plane::read(&folder.bytes("plane")).unwrap();
        let bytes = folder.bytes("t.table");
        let due = suzdrepa::view97_to_vec(&bytes, &stored.values, width, height);
        assert_eq!(Ok(read("viewed.pgm").pixels), due);
    }
}

/// 13 says what to do, 12 and the others what is wrong; nothing is written.
#[test]
fn refused_viewing() {
    let folder = Folder::new("refused_viewing");
    let (table, plane, out) = (
        folder.path("t.table"),
        folder.path("plane"),
        folder.path("out"),
    );
    let picture = folder.file("p.pgm", &pgm(21, 20, 255));
    let none = "refused 13: viewing is not accurate to half a grey, or a value may pass 2^15; \
                no table of 8 bits and 5 levels can be viewed: \
                take at most 3 levels, or at most 5 bits";
    succeeds(&["suggest", "8", "5", &table]);
    fails(&["check", "--view", &table], 1, none);
    fails(&["suggest", "--view", "8", "5"], 1, none);
    fails(&["suggest", "--view", "8", "5", &out], 1, none);
    succeeds(&["forward97", &table, &picture, &plane]);
    fails(&["view", &plane, &out], 1, none);

    // More integer bits than are needed.
    let (kept, others) = (Width::new(12, 8), Width::new(12, 20));
    let wide = WidthTable::kept_and_others(8, 3, 24, kept, others).unwrap();
    let wide = folder.file("wide.table", wide.as_bytes());
    succeeds(&["check", &wide]);
    let fewer = "refused 13: viewing is not accurate to half a grey, or a value may pass 2^15; \
                 fewer integer bits at the kept nodes help: `roll suggest --view 8 3 OUT` makes a \
                 table that can be viewed";
    fails(&["check", "--view", &wide], 1, fewer);
    succeeds(&["forward97", &wide, &picture, &plane]);
    fails(&["view", &plane, &out], 1, fewer);

    // Refusals that the table has before 13.
    let mut narrow = folder.bytes("t.table");
    let cut = folder.file("cut.table", &narrow[..narrow.len() - 1]);
    fails(&["check", "--view", &cut], 1, "cut.table: refused 1");
    narrow[20] = 1;
    let narrow = folder.file("narrow.table", &narrow);
    fails(
        &["check", "--view", &narrow],
        1,
        "refused 6: a node does not fit (level 1, rows, P1)",
    );

    // A coefficient that its node does not hold.
    succeeds(&["suggest", "--view", "8", "3", &table]);
    succeeds(&["forward97", &table, &picture, &plane]);
    let mut stored = folder.bytes("plane");
    let last = stored.len() - 1;
    stored[last] = 0x7f;
    let damaged = folder.file("damaged", &stored);
    fails(
        &["view", &damaged, &out],
        1,
        "damaged: refused 12: a coefficient is outside its node's width",
    );
    for length in 0..stored.len() {
        let cut = folder.file("cut", &stored[..length]);
        fails(&["view", &cut, &out], 2, "cut: ");
    }
    // An exact copy is restored and not viewed.
    succeeds(&["copy", &picture, &plane]);
    fails(&["view", &plane, &out], 2, "plane: an exact copy; 9/7");
    // Sides are the engine's to refuse.
    for sides in ["0 0", "0 2", "1 0"] {
        let mut head = format!("suzdrepa-97\n8 3 {sides}\n").into_bytes();
        head.extend(folder.bytes("t.table"));
        let none = folder.file("none", &head);
        fails(&["view", &none, &out], 1, "none: refused 8");
    }
    assert!(!std::path::Path::new(&out).exists());
}

#[test]
fn pictures_that_are_not_compared() {
    let folder = Folder::new("not_compared");
    let one = folder.file("one.pgm", &pgm(5, 4, 255));
    let out = folder.path("out");
    for (width, height, largest, bits) in [(4, 5, 255, 8), (5, 5, 255, 8), (5, 4, 127, 7)] {
        let other = folder.file("other.pgm", &pgm(width, height, largest));
        let text = format!(
            "one.pgm: 5 x 4, 8 bits; {other}: {width} x {height}, {bits} bits; \
             pictures of one size and depth are compared"
        );
        fails(&["difference", &one, &other, &out], 2, &text);
    }
    let table = folder.path("t.table");
    succeeds(&["suggest", "8", "1", &table]);
    fails(&["difference", &one, &table, &out], 2, "t.table: not a PGM");
    assert!(!std::path::Path::new(&out).exists());
    // Two pictures that are the same.
    let same = folder.file("other.pgm", &pgm(5, 4, 255));
    let told = succeeds(&["difference", &one, &same, &folder.path("none.pgm")]);
    assert!(told.ends_with("none.pgm: at most 0 greys, 0 of 20 pixels differ\n"));
    let drawn = roll::pgm::Picture::read(&folder.bytes("none.pgm")).unwrap();
    assert_eq!(drawn.pixels, [0; 20]);
}

#[test]
fn damaged_copies() {
    let folder = Folder::new("damaged_copies");
    let picture = folder.file("p.pgm", &pgm(5, 4, 255));
    let copy = folder.path("copy");
    succeeds(&["copy", &picture, &copy]);
    let whole = folder.bytes("copy");
    let out = folder.path("out");
    for length in 0..whole.len() {
        let cut = folder.file("cut", &whole[..length]);
        fails(&["restore", &cut, &out], 2, "cut: ");
        fails(&["picture", &cut, &out], 2, "cut: ");
    }
    // A coefficient that no picture has.
    let mut changed = whole.clone();
    let last = changed.len() - 1;
    changed[last] = 0x7f;
    let changed = folder.file("changed", &changed);
    fails(
        &["restore", &changed, &out],
        1,
        "refused 11: the 5/3 plane is the transform of no picture of that depth and size; \
         taken for a copy (columns first)",
    );
    // A depth and levels outside their limits are the engine's to refuse.
    for first in ["suzdrepa-53 columns-first", "suzdrepa-53"] {
        let head = |shape: &str| format!("{first}\n{shape} 2 1\n\0\0\0\0\0\0\0\0").into_bytes();
        let odd = folder.file("odd", &head("13 1"));
        fails(&["restore", &odd, &out], 1, "refused 4");
        let odd = folder.file("odd", &head("8 0"));
        fails(&["restore", &odd, &out], 1, "refused 4");
        fails(&["picture", &odd, &out], 2, "0 levels");
        // So are sides.
        for (width, height) in [(0, 0), (0, 1), (1, 0), (1, 4097), (4097, 1)] {
            let mut none = format!("{first}\n8 1 {width} {height}\n").into_bytes();
            none.extend(vec![0; 4 * width * height]);
            let none = folder.file("none", &none);
            fails(&["restore", &none, &out], 1, "refused 8");
            let drawn = format!("1 level and {width} x {height} coefficients is not drawn");
            fails(&["picture", &none, &out], 2, &drawn);
        }
    }
    assert!(!std::path::Path::new(&out).exists());
}

/// Files with bytes changed at random end in a status, never in a panic.
#[test]
fn random_damage_never_panics() {
    let folder = Folder::new("random_damage");
    let mut state = 0x9E37_79B9_7F4A_7C15u64;
    let mut below = |n: usize| {
        state ^= state << 13;
        state ^= state >> 7;
        state ^= state << 17;
        (state % n as u64) as usize
    };
    let table_path = folder.path("t.table");
    succeeds(&["suggest", "8", "2", &table_path]);
    let table = folder.bytes("t.table");
    let text = succeeds(&["text", &table_path]).into_bytes();
    let picture = pgm(6, 5, 255);
    let p = folder.file("p.pgm", &picture);
    let (copy, fixed) = (folder.path("copy"), folder.path("fixed"));
    succeeds(&["copy", &p, &copy]);
    succeeds(&["forward97", &table_path, &p, &fixed]);
    let (copy, fixed) = (folder.bytes("copy"), folder.bytes("fixed"));
    let earlier = two_by_two("suzdrepa-53", [1, 1, -2, -2]);
    // The same with product widths.
    let (cut_path, cut_plane) = (folder.path("cut.table"), folder.path("cut"));
    succeeds(&["suggest", "--products", "8", "2", &cut_path]);
    succeeds(&["forward97", &cut_path, &p, &cut_plane]);
    let (cut_table, cut_plane) = (folder.bytes("cut.table"), folder.bytes("cut"));
    let cut_text = succeeds(&["text", &cut_path]).into_bytes();
    let out = folder.path("out");
    let mut seen = [0usize; 3];
    for _ in 0..200 {
        for (whole, commands) in [
            (&table, &["check", "show", "text"][..]),
            (&text, &["table"][..]),
            (&picture, &["copy"][..]),
            (&copy, &["restore", "picture"][..]),
            (&earlier, &["restore", "picture"][..]),
            (&fixed, &["restore", "picture", "view"][..]),
            (&cut_table, &["check", "show", "text"][..]),
            (&cut_text, &["table"][..]),
            (&cut_plane, &["restore", "picture", "view"][..]),
        ] {
            let mut bytes = whole.clone();
            // Mostly in the head, where the structure is.
            for _ in 0..=below(3) {
                let reach = if below(2) == 0 { 36 } else { bytes.len() };
                let at = below(reach.min(bytes.len()));
                match below(4) {
                    0 => {
                        bytes.remove(at);
                    }
                    1 => bytes.insert(at, below(256) as u8),
                    2 => bytes[at] = b"0123456789 \n#P"[below(14)],
                    _ => bytes[at] = below(256) as u8,
                }
            }
            let damaged = folder.file("damaged", &bytes);
            for command in commands {
                let (status, _, err) = match *command {
                    "check" | "show" | "text" => roll(&[command, &damaged]),
                    _ => roll(&[command, &damaged, &out]),
                };
                assert_eq!(status != 0, !err.is_empty());
                seen[usize::from(status)] += 1;
            }
        }
    }
    assert!(seen.iter().all(|&n| n > 20), "{seen:?}");
}

#[test]
fn the_sample() {
    let folder = Folder::new("sample");
    let told = succeeds(&["sample", folder.0.to_str().unwrap()]);
    assert_eq!(told.lines().count(), 7);
    succeeds(&["check", &folder.path("church.table")]);
    succeeds(&["check", &folder.path("museum.table")]);
    succeeds(&["check", &folder.path("board.table")]);
    let again = folder.path("again.table");
    let church = folder.path("church.table");
    succeeds(&["suggest", "--products", "--table", &church, &again]);
    assert_eq!(folder.bytes("again.table"), folder.bytes("board.table"));
    succeeds(&["check", "--view", &folder.path("archive.table")]);
    for table in ["church.table", "museum.table"] {
        fails(&["check", "--view", &folder.path(table)], 1, "refused 13");
    }
    fails(
        &["check", &folder.path("refused6.table")],
        1,
        "(level 3, rows, P1)",
    );
    fails(&["check", &folder.path("refused7.table")], 1, "refused 7");
    let (copy, back) = (folder.path("copy"), folder.path("back.pgm"));
    succeeds(&["copy", &folder.path("roll.pgm"), &copy]);
    let told = succeeds(&["restore", &copy, &back]);
    assert!(told.ends_with(", from a copy (columns first)\n"), "{told}");
    assert_eq!(folder.bytes("back.pgm"), folder.bytes("roll.pgm"));
}
