//! A width table as lines of text that a person reads and edits.
//!
//! A line names one thing: the depth, the levels, the bits of the six
//! constants, the width of one node, or the bits of one product. A table without
//! product widths has no line of the last kind. Lines stand in any order; `#`
//! starts a comment; words are parted by spaces or tabs. A line ends in LF, CR LF
//! or CR.

use std::collections::BTreeMap;
use std::fmt;
use suzdrepa::{Node, Pass, Place, Width, WidthTable};

/// What is wrong with a text, and on which line, counted from 1.
#[derive(Clone, Debug, PartialEq, Eq)]
pub struct Fault {
    pub line: usize,
    pub what: String,
}

impl fmt::Display for Fault {
    fn fmt(&self, f: &mut fmt::Formatter<'_>) -> fmt::Result {
        write!(f, "line {}: {}", self.line, self.what)
    }
}

/// The pass of a name, or of a number from 1 to 3.
pub fn pass(word: &str) -> Result<Pass, String> {
    Pass::ALL
        .into_iter()
        .find(|pass| pass.name() == word)
        .or_else(|| number(word).and_then(Pass::from_number))
        .ok_or_else(|| {
            format!(
                "there is no pass {}: it is {} (or 1 to 3)",
                quoted(word),
                listed(&Pass::ALL.map(Pass::name))
            )
        })
}

/// The node of a name, or of a number from 1 to 6.
pub fn node(word: &str) -> Result<Node, String> {
    Node::ALL
        .into_iter()
        .find(|node| node.name() == word)
        .or_else(|| number(word).and_then(Node::from_number))
        .ok_or_else(|| {
            format!(
                "there is no node {}: it is {} (or 1 to 6)",
                quoted(word),
                listed(&Node::ALL.map(Node::name))
            )
        })
}

/// The step of a name, or of a number from 1 to 4: a node that has a product.
pub fn step(word: &str) -> Result<Node, String> {
    let is_step = |node: &Node| Node::STEPS.contains(node);
    node(word).ok().filter(is_step).ok_or_else(|| {
        format!(
            "there is no step {}: it is {} (or 1 to 4)",
            quoted(word),
            listed(&Node::STEPS.map(Node::name))
        )
    })
}

/// `P1, U1 or P2`.
fn listed(words: &[&str]) -> String {
    match words {
        [first @ .., last] if !first.is_empty() => format!("{} or {last}", first.join(", ")),
        _ => words.join(", "),
    }
}

/// A word as a message shows it: on one line, and not too long.
fn quoted(word: &str) -> String {
    const LONGEST: usize = 30;
    let shown: String = word.chars().take(LONGEST).collect();
    let rest = if shown.len() < word.len() { ".." } else { "" };
    format!("`{}{rest}`", shown.escape_debug())
}

/// Digits alone, and no more than a byte holds.
fn number(word: &str) -> Option<u8> {
    let digits = word.bytes().all(|byte| byte.is_ascii_digit());
    word.parse().ok().filter(|_| digits)
}

/// The number of a word, within its limits.
fn within(name: &str, word: &str, min: u8, max: u8) -> Result<u8, String> {
    number(word)
        .filter(|number| (min..=max).contains(number))
        .ok_or_else(|| format!("{name} {min} to {max}, not {}", quoted(word)))
}

/// The number of a depth.
pub fn depth(word: &str) -> Result<u8, String> {
    within("the depth is", word, 1, WidthTable::MAX_DEPTH)
}

/// How many levels.
pub fn levels(word: &str) -> Result<u8, String> {
    within("the levels are", word, 1, WidthTable::MAX_LEVELS)
}

/// The number of a level.
pub fn level(word: &str) -> Result<u8, String> {
    within("a level is", word, 1, WidthTable::MAX_LEVELS)
}

/// The integer bits of a node.
pub fn integer_bits(word: &str) -> Result<u8, String> {
    within("integer bits are", word, 1, WidthTable::MAX_INTEGER_BITS)
}

/// The fractional bits of a node.
pub fn fraction_bits(word: &str) -> Result<u8, String> {
    within(
        "fractional bits are",
        word,
        0,
        WidthTable::MAX_FRACTION_BITS,
    )
}

/// The fractional bits of a node's constant.
pub fn constant_bits(node: Node, word: &str) -> Result<u8, String> {
    let name = format!("the bits of the constant of {node} are");
    within(&name, word, 1, WidthTable::MAX_CONSTANT_BITS)
}

/// The fractional bits of a product.
pub fn product_bits(word: &str) -> Result<u8, String> {
    within(
        "the bits of a product are",
        word,
        0,
        WidthTable::MAX_PRODUCT_BITS,
    )
}

/// The table as text; [`read`] gives it back.
pub fn write(table: &WidthTable) -> String {
    let mut text = format!(
        "# A width table. `roll table` makes it into bytes and tells whether they are\n\
         # accepted. What follows a # is not read.\n\
         \n\
         depth {}\n\
         levels {}\n\
         \n\
         # Fractional bits of the constants, 1 to {}.\n\
         constants",
        table.depth(),
        table.levels(),
        WidthTable::MAX_CONSTANT_BITS,
    );
    for node in Node::ALL {
        text += &format!("  {node} {}", table.constant_bits(node));
    }
    text += &format!(
        "\n\n\
         # Nodes. Integer bits are 1 to {}, fractional bits 0 to {}. The low-columns are\n\
         # those of row-low, the high-columns those of row-high.\n\
         # level  pass          node  integer bits  fractional bits\n",
        WidthTable::MAX_INTEGER_BITS,
        WidthTable::MAX_FRACTION_BITS,
    );
    for place in table.places() {
        let Some(width) = table.width(place) else {
            continue;
        };
        if place.node == Node::P1 && place.numbers() != [1, 1, 1] {
            text += "\n";
        }
        let kept = match table.is_kept(place) {
            true => format!("  # kept: {}", band(place)),
            false => String::new(),
        };
        text += &format!(
            "{:>7}  {:<12}  {:<4}  {:>12}  {:>15}{kept}\n",
            place.level, place.pass, place.node, width.integer_bits, width.fraction_bits,
        );
    }
    if table.has_products() {
        text += &format!(
            "\n\
             # Products: the fractional bits, 0 to {}, that each is cut to, where it has\n\
             # more, before it is added. A table has such a line for each step, or none\n\
             # at all: then no product is cut.\n\
             #        level  pass          step  fractional bits\n",
            WidthTable::MAX_PRODUCT_BITS,
        );
    }
    for place in table.places() {
        let Some(bits) = table.product_bits(place) else {
            continue;
        };
        if place.node == Node::P1 && place.numbers() != [1, 1, 1] {
            text += "\n";
        }
        text += &format!(
            "product  {:>5}  {:<12}  {:<4}  {bits:>15}\n",
            place.level, place.pass, place.node,
        );
    }
    text
}

/// The band that a kept node gives.
fn band(place: Place) -> &'static str {
    match (place.pass, place.node) {
        (Pass::HighColumns, Node::G1) => "HL",
        (Pass::HighColumns, _) => "HH",
        (_, Node::G1) => "LL",
        _ => "LH",
    }
}

/// A value and the line that it stands on.
type At<T> = (T, usize);

/// What the lines have said so far.
#[derive(Default)]
struct Said {
    depth: Option<At<u8>>,
    levels: Option<At<u8>>,
    constants: Option<At<[u8; 6]>>,
    widths: BTreeMap<Place, At<Width>>,
    products: BTreeMap<Place, At<u8>>,
}

/// The table of a text.
pub fn read(bytes: &[u8]) -> Result<WidthTable, Fault> {
    let text = std::str::from_utf8(bytes).map_err(|error| Fault {
        line: 1 + line_ends(&bytes[..error.valid_up_to()]),
        what: "this is not text in UTF-8".into(),
    })?;
    // Some editors put a mark before the first line.
    let text = text.strip_prefix('\u{feff}').unwrap_or(text);
    let text = text.replace("\r\n", "\n").replace('\r', "\n");
    let mut said = Said::default();
    let mut last = 1;
    for (line, words) in (1..).zip(text.lines()) {
        last = line;
        let words = words.split('#').next().unwrap_or("");
        let words: Vec<&str> = words.split_whitespace().collect();
        said.line(line, &words)
            .map_err(|what| Fault { line, what })?;
    }
    said.table(last)
}

/// How many lines end in these bytes; CR LF is one end.
fn line_ends(bytes: &[u8]) -> usize {
    let ends = bytes.iter().filter(|byte| b"\r\n".contains(byte)).count();
    ends - bytes.windows(2).filter(|pair| pair == b"\r\n").count()
}

/// Puts a value where none stands yet.
fn put<T>(to: &mut Option<At<T>>, name: &str, value: T, line: usize) -> Result<(), String> {
    match to {
        Some((_, before)) => Err(format!("{name} already on line {before}")),
        None => {
            *to = Some((value, line));
            Ok(())
        }
    }
}

impl Said {
    fn line(&mut self, line: usize, words: &[&str]) -> Result<(), String> {
        match words {
            [] => Ok(()),
            ["depth", bits] => {
                put(&mut self.depth, "the depth stands", depth(bits)?, line)
            }
            ["levels", count] => {
                put(&mut self.levels, "the levels stand", levels(count)?, line)
            }
            [name @ ("depth" | "levels"), rest @ ..] => Err(format!(
                "`{name}` takes one number; here are {} words after it",
                rest.len()
            )),
            ["constants", rest @ ..] => {
                let bits = constants(rest)?;
                put(&mut self.constants, "the constants stand", bits, line)
            }
            ["product", ..] => {
                let (place, bits) = product_line(words)?;
                if let Some((_, before)) = self.products.insert(place, (bits, line)) {
                    return Err(format!("the product of {place} stands already on line {before}"));
                }
                Ok(())
            }
            [first, ..] if first.starts_with(|c: char| c.is_ascii_digit()) => {
                let (place, width) = node_line(words)?;
                if let Some((_, before)) = self.widths.insert(place, (width, line)) {
                    return Err(format!("{place} stands already on line {before}"));
                }
                Ok(())
            }
            [first, ..] => Err(format!(
                "there is no word {} here: a line starts with `depth`, `levels`, `constants`, `product` or a level",
                quoted(first)
            )),
        }
    }

    /// The table, where nothing is missing; `last` is the last line.
    fn table(self, last: usize) -> Result<WidthTable, Fault> {
        let missing = |name: &str| Fault {
            line: last,
            what: format!("the text ends here and {name} missing"),
        };
        let (depth, _) = self.depth.ok_or_else(|| missing("the depth is"))?;
        let (levels, levels_line) = self.levels.ok_or_else(|| missing("the levels are"))?;
        let (constants, _) = self.constants.ok_or_else(|| missing("the constants are"))?;
        let widths = self.widths.iter().map(|(at, (_, line))| (*line, at.level));
        let products = self
            .products
            .iter()
            .map(|(at, (_, line))| (*line, at.level));
        let past = widths.chain(products).filter(|&(_, level)| level > levels);
        if let Some((line, level)) = past.min() {
            return Err(Fault {
                line,
                what: format!("level {level}, but `levels` on line {levels_line} is {levels}"),
            });
        }
        let mut absent = Place::all(levels).filter(|place| !self.widths.contains_key(place));
        if let Some(first) = absent.next() {
            return Err(match absent.count() {
                0 => missing(&format!("{first} is")),
                more => missing(&format!("{first} and {more} more nodes are")),
            });
        }
        let width = |place| match self.widths.get(&place) {
            Some(&(width, _)) => width,
            None => Width::new(0, 0),
        };
        // All products, or none.
        let mut absent = Place::steps(levels).filter(|step| !self.products.contains_key(step));
        let absent = absent.next().map(|first| (first, absent.count()));
        let made = match absent {
            _ if self.products.is_empty() => {
                WidthTable::from_parts(depth, levels, constants, width)
            }
            Some((first, 0)) => return Err(missing(&format!("the product of {first} is"))),
            Some((first, more)) => {
                let what = format!("the product of {first} and {more} more products are");
                return Err(missing(&what));
            }
            None => {
                let product = |place| self.products.get(&place).map_or(0, |&(bits, _)| bits);
                WidthTable::from_parts_with_products(depth, levels, constants, width, product)
            }
        };
        // Every number is within its limits, so nothing is refused.
        made.map_err(|refusal| Fault {
            line: last,
            what: refusal.to_string(),
        })
    }
}

/// The bits of the constants: a name and a number for each, in any order.
fn constants(words: &[&str]) -> Result<[u8; 6], String> {
    let mut bits = [None; 6];
    for pair in words.chunks(2) {
        let node = node(pair[0])?;
        let Some(word) = pair.get(1) else {
            return Err(format!("the constant of {node} has no number"));
        };
        let place = &mut bits[usize::from(node.number() - 1)];
        if place.replace(constant_bits(node, word)?).is_some() {
            return Err(format!("the constant of {node} stands here twice"));
        }
    }
    let mut given = [0; 6];
    for ((given, bits), node) in given.iter_mut().zip(bits).zip(Node::ALL) {
        *given = bits.ok_or_else(|| format!("the constant of {node} is missing"))?;
    }
    Ok(given)
}

/// Level, pass, node, integer bits and fractional bits.
fn node_line(words: &[&str]) -> Result<(Place, Width), String> {
    let &[at_level, at_pass, at_node, integer, fraction] = words else {
        return Err(format!(
            "a node's line has five words (level, pass, node, integer bits, fractional bits); here are {}",
            words.len()
        ));
    };
    let place = Place {
        level: level(at_level)?,
        pass: pass(at_pass)?,
        node: node(at_node)?,
    };
    let width = Width {
        integer_bits: integer_bits(integer)?,
        fraction_bits: fraction_bits(fraction)?,
    };
    Ok((place, width))
}

/// `product`, then level, pass, step and fractional bits.
fn product_line(words: &[&str]) -> Result<(Place, u8), String> {
    let &[_, at_level, at_pass, at_step, bits] = words else {
        return Err(format!(
            "a product's line has five words (`product`, level, pass, step, fractional bits); here are {}",
            words.len()
        ));
    };
    let place = Place {
        level: level(at_level)?,
        pass: pass(at_pass)?,
        node: step(at_step)?,
    };
    Ok((place, product_bits(bits)?))
}

#[cfg(test)]
mod tests {
    use super::*;

    /// Chance from a fixed seed.
    struct Chance(u64);

    impl Chance {
        fn below(&mut self, count: usize) -> usize {
            self.0 ^= self.0 << 13;
            self.0 ^= self.0 >> 7;
            self.0 ^= self.0 << 17;
            ((self.0 >> 32) as usize) % count
        }

        fn within(&mut self, min: u8, max: u8) -> u8 {
            min + self.below(usize::from(max - min) + 1) as u8
        }

        fn of<T: Copy>(&mut self, choice: &[T]) -> T {
            choice[self.below(choice.len())]
        }
    }

    fn any_table(chance: &mut Chance) -> WidthTable {
        let (depth, levels) = (chance.within(1, 12), chance.within(1, 5));
        let constants = [(); 6].map(|()| chance.within(1, 24));
        let width = |_| Width::new(chance.within(1, 12), chance.within(0, 20));
        let table = WidthTable::from_parts(depth, levels, constants, width).unwrap();
        match chance.below(2) {
            0 => table,
            _ => table.with_products(|_| chance.within(0, 44)).unwrap(),
        }
    }

    /// The smallest table: one level.
    fn small() -> WidthTable {
        WidthTable::kept_and_others(8, 1, 24, Width::new(12, 2), Width::new(11, 20)).unwrap()
    }

    /// From bytes to text and back, and the text the same once more.
    #[test]
    fn bytes_text_bytes() {
        let mut chance = Chance(0x1234_5678_9ABC_DEF1);
        for _ in 0..3000 {
            let table = any_table(&mut chance);
            let written = write(&table);
            let again = read(written.as_bytes()).unwrap();
            assert_eq!(again.as_bytes(), table.as_bytes());
            assert_eq!(write(&again), written);
        }
    }

    /// A text as a person might leave it: lines in any order, passes and nodes
    /// as words or numbers, spaces, tabs, comments, empty lines, other line
    /// ends.
    fn scrawled(chance: &mut Chance, table: &WidthTable) -> String {
        let mut lines = vec![
            vec!["depth".to_owned(), table.depth().to_string()],
            vec!["levels".to_owned(), table.levels().to_string()],
        ];
        let mut nodes = Node::ALL;
        for i in (1..6).rev() {
            nodes.swap(i, chance.below(i + 1));
        }
        let mut constants = vec!["constants".to_owned()];
        for node in nodes {
            constants.push(match chance.below(3) {
                0 => node.number().to_string(),
                _ => node.to_string(),
            });
            constants.push(table.constant_bits(node).to_string());
        }
        lines.push(constants);
        for place in table.places() {
            let width = table.width(place).unwrap();
            let pass = match chance.below(3) {
                0 => place.pass.number().to_string(),
                _ => place.pass.to_string(),
            };
            let node = match chance.below(3) {
                0 => place.node.number().to_string(),
                _ => place.node.to_string(),
            };
            let fraction_bits = match chance.below(4) {
                0 => format!("{:02}", width.fraction_bits),
                _ => width.fraction_bits.to_string(),
            };
            lines.push(vec![
                place.level.to_string(),
                pass,
                node,
                width.integer_bits.to_string(),
                fraction_bits,
            ]);
            if let Some(bits) = table.product_bits(place) {
                let mut words = lines[lines.len() - 1][..3].to_vec();
                words.insert(0, "product".to_owned());
                words.push(bits.to_string());
                lines.push(words);
            }
        }
        for i in (1..lines.len()).rev() {
            lines.swap(i, chance.below(i + 1));
        }
        let end = chance.of(&["\n", "\r\n", "\r"]);
        let mut text = chance.of(&["", "\u{feff}"]).to_string();
        for line in &lines {
            text += chance.of(&["", "", " ", "\t ", "\n", "# depth 1\n", "   #\n"]);
            text += &line.join(chance.of(&[" ", "  ", "\t"]));
            text += chance.of(&["", "", " ", "# 1 rows P1 1 1", "  # größer", "##"]);
            text += end;
        }
        if chance.below(2) == 0 {
            text.truncate(text.len() - end.len());
        }
        text
    }

    #[test]
    fn text_bytes_text() {
        let mut chance = Chance(0x0FED_CBA9_8765_4321);
        for _ in 0..3000 {
            let table = any_table(&mut chance);
            let text = scrawled(&mut chance, &table);
            assert_eq!(read(text.as_bytes()).as_ref(), Ok(&table), "{text}");
        }
    }

    #[test]
    fn the_lines_of_a_table() {
        let text = write(&small());
        let bare: Vec<String> = text
            .lines()
            .map(|line| line.split('#').next().unwrap())
            .map(|line| line.split_whitespace().collect::<Vec<_>>().join(" "))
            .filter(|line| !line.is_empty())
            .collect();
        assert_eq!(bare.len(), 3 + 18);
        assert_eq!(
            &bare[..5],
            &[
                "depth 8",
                "levels 1",
                "constants P1 24 U1 24 P2 24 U2 24 G1 24 G2 24",
                "1 rows P1 11 20",
                "1 rows U1 11 20",
            ]
        );
        assert_eq!(bare[20], "1 high-columns G2 12 2");
        let kept: Vec<&str> = text.split("# kept: ").skip(1).map(|s| &s[..2]).collect();
        assert_eq!(kept, ["LL", "LH", "HL", "HH"]);
        // The numbers stand below their heading.
        let lines: Vec<&str> = text.lines().collect();
        let heading = lines
            .iter()
            .position(|l| l.starts_with("# level  pass"))
            .unwrap();
        for word in ["level", "integer bits", "fractional bits"] {
            let end = lines[heading].find(word).unwrap() + word.len();
            assert!(lines[heading + 1].as_bytes()[end - 1].is_ascii_digit());
            assert_eq!(
                lines[heading + 1].as_bytes().get(end).unwrap_or(&b' '),
                &b' '
            );
        }
    }

    /// Lines without comments: depth 1, levels 2, constants 3, nodes from 4.
    fn plain() -> Vec<String> {
        let text = write(&small());
        let lines = text.lines().map(|line| line.split('#').next().unwrap());
        let lines = lines.map(|line| line.trim().to_owned());
        let lines: Vec<String> = lines.filter(|line| !line.is_empty()).collect();
        assert_eq!(read(lines.join("\n").as_bytes()), Ok(small()));
        lines
    }

    /// The fault of the plain lines with one of them changed.
    fn changed(line: usize, to: &str) -> String {
        let mut lines = plain();
        lines[line - 1] = to.to_owned();
        read(lines.join("\n").as_bytes()).unwrap_err().to_string()
    }

    #[test]
    fn what_is_wrong_with_one_line() {
        let wrong_node = "it is P1, U1, P2, U2, G1 or G2 (or 1 to 6)";
        let start = "a line starts with `depth`, `levels`, `constants`, `product` or a level";
        for (line, to, what) in [
            (1, "depth 0", "the depth is 1 to 12, not `0`".to_owned()),
            (1, "depth 13", "the depth is 1 to 12, not `13`".into()),
            (1, "depth 256", "the depth is 1 to 12, not `256`".into()),
            (1, "depth eight", "the depth is 1 to 12, not `eight`".into()),
            (1, "depth +8", "the depth is 1 to 12, not `+8`".into()),
            (1, "depth -8", "the depth is 1 to 12, not `-8`".into()),
            (
                1,
                "depth",
                "`depth` takes one number; here are 0 words after it".into(),
            ),
            (
                1,
                "depth 8 bits",
                "`depth` takes one number; here are 2 words after it".into(),
            ),
            (
                1,
                "deepness 8",
                format!("there is no word `deepness` here: {start}"),
            ),
            (
                1,
                "Depth 8",
                format!("there is no word `Depth` here: {start}"),
            ),
            (2, "levels 0", "the levels are 1 to 5, not `0`".into()),
            (2, "levels 6", "the levels are 1 to 5, not `6`".into()),
            (
                2,
                "levels",
                "`levels` takes one number; here are 0 words after it".into(),
            ),
            (2, "depth 8", "the depth stands already on line 1".into()),
            (3, "levels 1", "the levels stand already on line 2".into()),
            (
                4,
                &plain()[2].clone(),
                "the constants stand already on line 3".into(),
            ),
            (3, "constants", "the constant of P1 is missing".into()),
            (
                3,
                "constants P1 24 U1 24 P2 24 U2 24 G1 24",
                "the constant of G2 is missing".into(),
            ),
            (
                3,
                "constants P1 24 U1 24 P2 24 U2 24 G1 24 G2",
                "the constant of G2 has no number".into(),
            ),
            (
                3,
                "constants P1 24 U1 24 P2 24 U2 24 G1 24 G1 24",
                "the constant of G1 stands here twice".into(),
            ),
            (
                3,
                "constants P1 24 U1 24 P2 24 U2 24 G1 0 G2 24",
                "the bits of the constant of G1 are 1 to 24, not `0`".into(),
            ),
            (
                3,
                "constants P1 25 U1 24 P2 24 U2 24 G1 24 G2 24",
                "the bits of the constant of P1 are 1 to 24, not `25`".into(),
            ),
            (
                3,
                "constants P3 24 U1 24 P2 24 U2 24 G1 24 G2 24",
                format!("there is no node `P3`: {wrong_node}"),
            ),
            (
                3,
                "constants 24 24 24 24 24 24",
                format!("there is no node `24`: {wrong_node}"),
            ),
            (4, "0 rows P1 12 20", "a level is 1 to 5, not `0`".into()),
            (4, "6 rows P1 12 20", "a level is 1 to 5, not `6`".into()),
            (
                4,
                "1st rows P1 12 20",
                "a level is 1 to 5, not `1st`".into(),
            ),
            (
                4,
                "2 rows P1 12 20",
                "level 2, but `levels` on line 2 is 1".into(),
            ),
            (
                4,
                "1 columns P1 12 20",
                "there is no pass `columns`: it is rows, low-columns or high-columns (or 1 to 3)"
                    .into(),
            ),
            (
                4,
                "1 4 P1 12 20",
                "there is no pass `4`: it is rows, low-columns or high-columns (or 1 to 3)".into(),
            ),
            (
                4,
                "1 rows p1 12 20",
                format!("there is no node `p1`: {wrong_node}"),
            ),
            (
                4,
                "1 rows 7 12 20",
                format!("there is no node `7`: {wrong_node}"),
            ),
            (
                4,
                "1 rows P1 0 20",
                "integer bits are 1 to 12, not `0`".into(),
            ),
            (
                4,
                "1 rows P1 13 20",
                "integer bits are 1 to 12, not `13`".into(),
            ),
            (
                4,
                "1 rows P1 12 21",
                "fractional bits are 0 to 20, not `21`".into(),
            ),
            (
                4,
                "1 rows P1 12 -1",
                "fractional bits are 0 to 20, not `-1`".into(),
            ),
            (
                4,
                "1 rows P1 12 2.5",
                "fractional bits are 0 to 20, not `2.5`".into(),
            ),
            (
                4,
                "1 rows P1 12",
                "a node's line has five words (level, pass, node, integer bits, fractional bits); \
                 here are 4"
                    .into(),
            ),
            (
                4,
                "1 rows P1 12 20 kept",
                "a node's line has five words (level, pass, node, integer bits, fractional bits); \
                 here are 6"
                    .into(),
            ),
            (
                5,
                "1 rows P1 12 20",
                "level 1, rows, P1 stands already on line 4".into(),
            ),
            (
                21,
                "1 rows 1 12 20",
                "level 1, rows, P1 stands already on line 4".into(),
            ),
            (
                21,
                "\u{1}\u{0}bytes",
                format!("there is no word `\\u{{1}}\\0bytes` here: {start}"),
            ),
            (
                21,
                "a-very-long-word-that-goes-on-and-on-without-end",
                format!("there is no word `a-very-long-word-that-goes-on-..` here: {start}"),
            ),
        ] {
            assert_eq!(changed(line, to), format!("line {line}: {what}"), "{to}");
        }
    }

    /// Product widths are a last part of the text, and only where there are any.
    #[test]
    fn the_lines_of_products() {
        let table = small().with_products(|place| 20 + place.node.number());
        let text = write(&table.unwrap());
        let (nodes, products) = text.split_once("\n# Products").unwrap();
        assert_eq!(format!("{nodes}"), write(&small()));
        let lines: Vec<&str> = products.lines().skip(3).collect();
        let bare = |line: &str| line.split_whitespace().collect::<Vec<_>>().join(" ");
        let words: Vec<String> = lines.iter().map(|line| bare(line)).collect();
        let words: Vec<&String> = words.iter().filter(|line| !line.is_empty()).collect();
        assert_eq!(words[1], "product 1 rows P1 21");
        assert_eq!(words[12], "product 1 high-columns U2 24");
        assert_eq!(words.len(), 1 + 12);
        // The numbers stand below their heading.
        assert!(lines[0].starts_with('#'));
        for word in ["level", "fractional bits"] {
            let end = lines[0].find(word).unwrap() + word.len();
            assert!(lines[1].as_bytes()[end - 1].is_ascii_digit());
            assert_eq!(lines[1].as_bytes().get(end).unwrap_or(&b' '), &b' ');
        }
    }

    /// The plain lines and a line for each product, from line 22 on; one of them
    /// changed, or taken out where nothing is in its place.
    fn changed_product(line: usize, to: &str) -> String {
        let mut lines = plain();
        let steps = Place::steps(1).map(|at| format!("product 1 {} {} 15", at.pass, at.node));
        lines.extend(steps);
        let whole = read(lines.join("\n").as_bytes());
        assert_eq!(
            whole,
            small().with_products(|_| 15).map_err(|_| unreachable!())
        );
        lines[line - 1] = to.to_owned();
        read(lines.join("\n").as_bytes()).unwrap_err().to_string()
    }

    #[test]
    fn what_is_wrong_with_the_line_of_a_product() {
        let wrong_step = "it is P1, U1, P2 or U2 (or 1 to 4)";
        let words = "a product's line has five words (`product`, level, pass, step, fractional \
                     bits); here are";
        for (to, what) in [
            ("product", format!("{words} 1")),
            ("product 1 rows P1", format!("{words} 4")),
            ("product 1 rows P1 15 20", format!("{words} 6")),
            ("product 0 rows P1 15", "a level is 1 to 5, not `0`".into()),
            ("product 6 rows P1 15", "a level is 1 to 5, not `6`".into()),
            (
                "product 2 rows P1 15",
                "level 2, but `levels` on line 2 is 1".into(),
            ),
            (
                "product 1 columns P1 15",
                "there is no pass `columns`: it is rows, low-columns or high-columns (or 1 to 3)"
                    .into(),
            ),
            (
                "product 1 rows G1 15",
                format!("there is no step `G1`: {wrong_step}"),
            ),
            (
                "product 1 rows 5 15",
                format!("there is no step `5`: {wrong_step}"),
            ),
            (
                "product 1 rows P1 45",
                "the bits of a product are 0 to 44, not `45`".into(),
            ),
            (
                "product 1 rows P1 -1",
                "the bits of a product are 0 to 44, not `-1`".into(),
            ),
            (
                "product 1 rows U1 15",
                "the product of level 1, rows, U1 stands already on line 23".into(),
            ),
        ] {
            // A line that stands twice is told where it stands again.
            let at = if what.contains("already") { 24 } else { 22 };
            let due = format!("line {at}: {what}");
            assert_eq!(changed_product(at, to), due, "{to}");
        }
        // The first of several lines that are past the levels.
        let mut lines = plain();
        lines.push("product 3 1 1 0".into());
        lines.push("2 1 1 1 0".into());
        let fault = read(lines.join("\n").as_bytes()).unwrap_err();
        assert_eq!(
            fault.to_string(),
            "line 22: level 3, but `levels` on line 2 is 1"
        );
    }

    /// All products or none.
    #[test]
    fn products_that_are_missing() {
        let ends = "line 33: the text ends here and the product of level 1, ";
        for (line, step) in [(22, "rows, P1"), (33, "high-columns, U2")] {
            let due = format!("{ends}{step} is missing");
            assert_eq!(changed_product(line, "# taken out"), due);
        }
        let one = [plain(), vec!["product 1 1 1 0".into()]].concat();
        let fault = read(one.join("\n").as_bytes()).unwrap_err();
        assert_eq!(
            fault.to_string(),
            "line 22: the text ends here and the product of level 1, rows, U1 and 10 more \
             products are missing"
        );
        // Nodes are told first.
        assert_eq!(
            changed_product(4, "product 1 1 1 0").replace("already on line 4", ""),
            "line 22: the product of level 1, rows, P1 stands "
        );
        let mut lines = one;
        lines.remove(3);
        let fault = read(lines.join("\n").as_bytes()).unwrap_err();
        assert_eq!(
            fault.to_string(),
            "line 21: the text ends here and level 1, rows, P1 is missing"
        );
    }

    /// What is missing is told with the last line.
    #[test]
    fn what_is_missing() {
        for (line, what) in [
            (1, "the depth is missing"),
            (2, "the levels are missing"),
            (3, "the constants are missing"),
            (4, "level 1, rows, P1 is missing"),
            (21, "level 1, high-columns, G2 is missing"),
        ] {
            let due = format!("line 21: the text ends here and {what}");
            assert_eq!(changed(line, "# taken out"), due);
        }
        let fault = |text: &str| read(text.as_bytes()).unwrap_err().to_string();
        assert_eq!(
            fault(""),
            "line 1: the text ends here and the depth is missing"
        );
        assert_eq!(
            fault("\n\n#\n"),
            "line 3: the text ends here and the depth is missing"
        );
        let head = "depth 8\nlevels 2\nconstants P1 1 U1 1 P2 1 U2 1 G1 1 G2 1\n";
        assert_eq!(
            fault(&format!("{head}1 1 1 1 1\n1 1 3 1 1\n")),
            "line 5: the text ends here and level 1, rows, U1 and 33 more nodes are missing"
        );
        // With more levels than its nodes have, the first of the next level.
        assert_eq!(
            changed(2, "levels 2"),
            "line 21: the text ends here and level 2, rows, P1 and 17 more nodes are missing"
        );
    }

    #[test]
    fn lines_are_counted_from_one_whatever_they_hold() {
        let mut lines = plain();
        lines.insert(4, "# \u{e9}\u{2028}\u{85} one line".into());
        lines.insert(0, "\t".into());
        lines.push("what".into());
        for end in ["\n", "\r\n", "\r"] {
            let fault = read(lines.join(end).as_bytes()).unwrap_err();
            assert_eq!((fault.line, lines.len()), (24, 24));
            // Not text, on the third line.
            let mut bytes = ["depth 8", "levels 1 # \u{e9}", ""].join(end).into_bytes();
            bytes.extend(b"\xFF\xFE\n");
            let fault = read(&bytes).unwrap_err();
            assert_eq!(fault.to_string(), "line 3: this is not text in UTF-8");
        }
        // An empty line is one whatever its ends are.
        assert_eq!(read(b"\r\r\n\n\r\nwhat").unwrap_err().line, 5);
    }

    /// Damaged texts never panic; a line that is named is there.
    #[test]
    fn random_damage() {
        let mut chance = Chance(0x9E37_79B9_7F4A_7C15);
        let (mut read_still, mut faults) = (0, 0);
        for _ in 0..5000 {
            let mut bytes = write(&any_table(&mut chance)).into_bytes();
            for _ in 0..=chance.below(3) {
                let at = chance.below(bytes.len());
                match chance.below(4) {
                    0 => {
                        bytes.remove(at);
                    }
                    1 => bytes.insert(at, chance.of(b"0123456789 \n#P\t\xFF")),
                    2 => bytes[at] = chance.of(b"0123456789 \n#P\t\xFF"),
                    _ => bytes.truncate(at),
                }
                if bytes.is_empty() {
                    break;
                }
            }
            match read(&bytes) {
                Ok(table) => {
                    assert_eq!(read(write(&table).as_bytes()), Ok(table));
                    read_still += 1;
                }
                Err(fault) => {
                    assert!((1..=1 + line_ends(&bytes)).contains(&fault.line), "{fault}");
                    faults += 1;
                }
            }
        }
        assert!(read_still > 500 && faults > 500, "{read_still} {faults}");
    }
}
