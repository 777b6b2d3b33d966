//! The C examples compile without a warning against the header, link the
//! static library and run.

use compare::{archive, root};
use std::path::{Path, PathBuf};
use std::process::Command;

fn compile(name: &str, source: &Path) -> PathBuf {
    let program = Path::new(env!("CARGO_TARGET_TMPDIR")).join(name);
    let output = Command::new("cc")
        .args(["-std=c99", "-Wall", "-Wextra", "-pedantic", "-Werror", "-I"])
        .arg(root().join("include"))
        .arg(source)
        .arg(archive())
        .arg("-o")
        .arg(&program)
        .output()
        .expect("cc starts");
    assert!(
        output.status.success(),
        "{}",
        String::from_utf8_lossy(&output.stderr)
    );
    program
}

/// Runs an example; it ends well and prints these lines.
fn prints(name: &str, lines: &[&str]) {
    let source = root().join("examples").join(name).with_extension("c");
    let output = Command::new(compile(name, &source))
        .output()
        .expect("it starts");
    let text = String::from_utf8(output.stdout).unwrap();
    assert!(output.status.success(), "{text}");
    for line in lines {
        assert!(text.lines().any(|l| l == *line), "{line}\n---\n{text}");
    }
}

#[test]
fn the_copy_runs() {
    prints("copy", &[
        "the picture came back the same",
        "inverse53 of a damaged copy: refused 11: the 5/3 plane is the transform of no picture of that depth and size",
        "the picture of the earlier copy: 5 7 over 4 4",
        "check of a wide table: done",
        "check of the narrow table: refused 6: a node does not fit (level 1, pass 1, node 1)",
    ]);
}

#[test]
fn the_view_runs() {
    prints("view", &[
        "the picture shown is at most 0 greys from the one scanned",
        "view97 of a damaged plane: refused 12: a coefficient is outside its node's width",
        "is it accepted: done",
        "can its planes be viewed: refused 13: viewing is not accurate to half a grey, or a value may pass 2^15",
    ]);
}

#[test]
fn the_scan_runs() {
    prints("scan", &[
        "a line of another width: refused 14: a table not of one level, a line or an end out of turn, or a line of another width",
        "a line too light: refused 10: a pixel is 2^B or more",
        "line 4 gives low 0, high 0",
        "line 6 gives low 1, high 1",
        "the end gives low 2, high 2, low 3",
        "a second end: refused 14: a table not of one level, a line or an end out of turn, or a line of another width",
        "7 lines of coefficients came, those of the whole strip",
    ]);
}

#[test]
fn the_products_run() {
    prints("products", &[
        "a table with products of 13 bits: done",
        "bytes 59 to 70 of 71",
        "is it accepted: refused 7: a kept node's error is not below two steps (level 1, pass 2, node 5)",
        "product widths of a table without tag 5: refused 2: the tag is not the next one due, or a caller names one outside 1 to 5 or one that the table lacks",
        "one changed there: refused 4: a number is outside its limits, or an unused level is not zero",
        "the coefficients differ by at most 1 of their steps",
    ]);
}

#[test]
fn the_macros_take_an_answer_apart() {
    let source = Path::new(env!("CARGO_TARGET_TMPDIR")).join("macros.c");
    std::fs::write(
        &source,
        "#include <stdio.h>\n\
         #include \"suzdrepa.h\"\n\
         int main(void)\n\
         {\n\
         uint32_t a = 0x06030507u;\n\
         uint8_t widths[SUZ_TABLE_WIDTHS];\n\
         printf(\"%u %u %u %u %lu %lu %lu\\n\", SUZ_NUMBER(a), SUZ_LEVEL(a), SUZ_PASS(a), SUZ_NODE(a),\n\
         (unsigned long)SUZ_TABLE_LENGTH(2 + 3), (unsigned long)SUZ_TABLE_LENGTH_PRODUCTS(2 + 3),\n\
         (unsigned long)sizeof widths);\n\
         for (uint32_t n = 0; n <= 255; n++) printf(\"%s\\n\", suz_refusal_text(n));\n\
         return 0;\n\
         }\n",
    )
    .unwrap();
    let output = Command::new(compile("macros", &source)).output().unwrap();
    let text = String::from_utf8(output.stdout).unwrap();
    let lines: Vec<&str> = text.lines().collect();
    assert_eq!(lines[0], "7 5 3 6 200 263 180");
    assert_eq!(lines[1], "done");
    assert_eq!(lines[8], "a kept node's error is not below two steps");
    assert_eq!(lines[13], "a coefficient is outside its node's width");
    assert_eq!(
        lines[15],
        "a table not of one level, a line or an end out of turn, or a line of another width"
    );
    assert_eq!(lines[16], "unknown");
    assert_eq!(lines[256], "unknown");
}
