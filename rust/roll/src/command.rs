//! The commands.

use crate::container::{self, Kind, Order, Plane};
use crate::pgm::{Picture, Rows};
use crate::progress::Progress;
use crate::whole::{self, Existing, Unfinished};
use crate::{counted, png, sample, show, suggest, text, Failure};
use std::ffi::{OsStr, OsString};
use std::fs::File;
use std::io::{BufRead, BufReader, Write};
use std::path::Path;
use suzdrepa::{Bound, GivenLine, Node, Pass, Place, Refusal, Scan, Width, WidthTable, MAX_SIDE};

const HELP: &str = "\
roll - works scanned pictures of punched rolls

  roll check [--view] TABLE             is this width table accepted? The exit
                                        status tells: 0 yes, 1 no. With --view:
                                        can its planes be viewed, too?
  roll show TABLE                       its widths, bounds and head-room
  roll suggest [--view] [--products] DEPTH LEVELS [OUT]
                                        a tight table that is accepted; written
                                        to OUT, or shown. With --view: one whose
                                        planes can be viewed, with the finest
                                        steps, and how far that leads at most.
                                        With --products: with the least product
                                        widths that are accepted beside it
  roll suggest [--view] --products --table TABLE [OUT]
                                        TABLE with the least product widths that
                                        are accepted beside its other numbers
  roll text TABLE                       the table as lines of text, to edit
  roll table TEXT OUT                   such a text made into a table
  roll change TABLE LEVEL PASS NODE IB f OUT
                                        one node with other integer bits IB and
                                        fractional bits f
  roll constant TABLE NODE F OUT        the constant of a node with other
                                        fractional bits F
  roll product TABLE LEVEL PASS STEP fp OUT
                                        the product of a step with other
                                        fractional bits fp
  roll forward97 TABLE IN.pgm OUT       9/7 coefficients under a width table
  roll scan TABLE IN.pgm OUT            the same line by line, of a strip of any
                                        height; TABLE has one level, and - for
                                        IN.pgm is standard input
  roll view [TABLE] PLANE OUT.pgm       9/7 coefficients as a picture; a TABLE
                                        that is named must be the one in PLANE
  roll difference ONE.pgm OTHER.pgm OUT.pgm
                                        how many greys two pictures differ at
                                        most, and a picture of where
  roll copy [--levels N] IN.pgm OUT     exact copy as 5/3 coefficients, columns
                                        first; without --levels as many as have
                                        two samples or more to work along each
                                        side that is not one sample
  roll restore IN OUT.pgm               the picture of an exact copy, also of an
                                        earlier one (rows first)
  roll picture PLANE OUT.png            coefficients drawn where they stand
  roll sample DIR                       a drawn roll and some tables to try
  roll COMMAND --no-clobber ..          as COMMAND, but a file that it would
                                        replace stays, and that is a failure
  roll --help

TABLE is a width table as bytes: 20 + 36 * levels, or 23 + 48 * levels with
product widths. Depth is 1 to 12 bits, levels 1 to 5; a side is 1 to 4096,
whatever the levels.

TEXT has the same numbers, in lines of any order; # starts a comment:

  depth 8
  levels 1
  constants P1 24 U1 24 P2 24 U2 24 G1 24 G2 24
                                        F of each node's constant (1 to 24)
  1 rows P1 12 20                       level, pass, node, IB (1 to 12) and f (0
                                        to 20); each node of each level has such
                                        a line
  product 1 rows P1 15                  level, pass, step and fp (0 to 44); each
                                        step of each level has such a line, or
                                        none has

PASS is rows, low-columns (of row-low) or high-columns (of row-high), or 1 to
3; NODE is P1, U1, P2, U2, G1 or G2, or 1 to 6; STEP is P1, U1, P2 or U2, or 1
to 4. Numbers are digits alone.

Each step adds a product, its constant times the sum of two neighbours. Product
widths say to how many fractional bits fp each is cut, downwards, before it is
added; the cuts count when the table is judged. A table without product widths
cuts no product. `suggest --products` gives the least: no single one of them can
be lowered, by one or by more, without a refusal. Other numbers stay.

`table`, `change`, `constant` and `product` write their table whether it is
accepted or not, and tell which; `show` tells it too. All five exit 0 where the
table is not accepted: what they were asked for is done. Ask `check` before it
is used.

Viewing is right to half a grey of what is stored, or it is refused 13. Tables
that can be viewed exist with 1 level at any depth, 2 levels up to 11 bits, 3
up to 9, 4 up to 7, 5 up to 5 bits; there `suggest --view` gives one.

`scan` holds a few lines and no more, however high the strip is, so that it may
come from a pipe while the paper moves. OUT is the file that `forward97` writes,
where that takes the strip. Rows are written where they stand, not in order: OUT
is a file and no pipe. Planes higher than 4096 are kept, but not viewed or
drawn.

A file is written beside OUT (as OUT.part-..) and has its name once it is whole
and on the disk. Where that fails, as on a full disk, or SIGINT, SIGTERM or
SIGHUP ends `roll`, what had the name stays and nothing else is left. What is no
file, such as a pipe or /dev/null, is written straight through. With
--no-clobber no name that is taken, by whatever it is, is written to.

No command writes over a file that it reads: OUT is another file.

Pictures are PGM files (P5) with a largest value up to 4095; the depth is the
bits of the largest value: the least B for which it is below 2^B, so 8 for 255
and for 200. A picture of another depth than the table's is not worked.
`restore` and `view` write 2^depth - 1 as largest value. `difference` draws no
difference black and the largest white.

Exact copies have the order of JPEG 2000 Part 1: each level works the columns,
then the rows. Copies made earlier were worked rows first; `restore` knows them
by the file's first line. Restored and copied again, such a copy is a new one.

Files of coefficients have two lines of text. The first is one of

  suzdrepa-53 columns-first             an exact copy as it is made now
  suzdrepa-53                           an exact copy made earlier, rows first
  suzdrepa-97                           9/7 coefficients
  suzdrepa-97 product-widths            the same, under a table that has some

and the second depth, levels, width and height; with 97 the width table
follows; then the coefficients, 32-bit signed, low byte first, row by row. A
9/7 coefficient v means v / 2^f with the fractional bits f of its node.

Exit status: 0 done, 1 refused (number and reason are told), 2 a wrong command
line (a number outside its limits is one), files that do not go together, or one
that cannot be read, written or understood.
";

/// Runs the tool and gives its exit status.
pub fn run(arguments: &[OsString], out: &mut dyn Write, err: &mut dyn Write) -> u8 {
    match command(arguments, out) {
        Ok(()) => 0,
        Err(failure) => {
            // Where even this cannot be written, the status tells it.
            let _ = writeln!(err, "roll: {failure}");
            failure.status()
        }
    }
}

fn command(arguments: &[OsString], out: &mut dyn Write) -> Result<(), Failure> {
    let (options, words) = sort(arguments)?;
    let Some((name, files)) = words.split_first() else {
        if options.help {
            return tell(out, HELP);
        }
        return Err(Failure::Usage("no command is given".into()));
    };
    if options.help || *name == "help" {
        return tell(out, HELP);
    }
    let name = name.to_str().unwrap_or("");
    if options.levels.is_some() && name != "copy" {
        return Err(Failure::Usage("--levels goes with `copy` alone".into()));
    }
    let view = options.view;
    if view && !["check", "suggest"].contains(&name) {
        return Err(Failure::Usage(
            "--view goes with `check` and `suggest` alone".into(),
        ));
    }
    let products = options.products;
    if products && name != "suggest" {
        return Err(Failure::Usage(
            "--products goes with `suggest` alone".into(),
        ));
    }
    if options.table.is_some() && !products {
        return Err(Failure::Usage(
            "--table goes with `suggest --products` alone".into(),
        ));
    }
    if options.no_clobber && ["check", "show", "text"].contains(&name) {
        return Err(Failure::Usage(format!(
            "--no-clobber goes with a command that writes a file, not with `{name}`"
        )));
    }
    let existing = match options.no_clobber {
        true => Existing::Kept,
        false => Existing::Replaced,
    };
    let target = |name| Target { name, existing };
    match (name, files) {
        ("suggest", to) if options.table.is_some() && to.len() < 2 => {
            let from = options.table.unwrap_or_default();
            suggest_products(view, from, to.first().map(|to| target(to)), out)
        }
        ("suggest", _) if options.table.is_some() => Err(Failure::Usage(
            "`suggest --table TABLE` takes OUT and no more: depth and levels are the table's"
                .into(),
        )),
        ("check", [table]) if view => check_view(table, out),
        ("check", [table]) => check(table, out),
        ("show", [table]) => show_table(table, out),
        ("suggest", [depth, levels, to @ ..]) if to.len() < 2 => {
            let to = to.first().map(|to| target(to));
            suggest_table(view, products, depth, levels, to, out)
        }
        ("text", [table]) => show_text(table, out),
        ("table", [from, to]) => make_table(from, target(to), out),
        ("change", [table, level, pass, node, integer_bits, fraction_bits, to]) => {
            let place = Place {
                level: word("LEVEL", level, text::level)?,
                pass: word("PASS", pass, text::pass)?,
                node: word("NODE", node, text::node)?,
            };
            let width = Width {
                integer_bits: word("IB", integer_bits, text::integer_bits)?,
                fraction_bits: word("f", fraction_bits, text::fraction_bits)?,
            };
            change_width(table, place, width, target(to), out)
        }
        ("constant", [table, node, bits, to]) => {
            let node = word("NODE", node, text::node)?;
            let bits = word("F", bits, |word| text::constant_bits(node, word))?;
            change_constant(table, node, bits, target(to), out)
        }
        ("product", [table, level, pass, step, bits, to]) => {
            let place = Place {
                level: word("LEVEL", level, text::level)?,
                pass: word("PASS", pass, text::pass)?,
                node: word("STEP", step, text::step)?,
            };
            let bits = word("fp", bits, text::product_bits)?;
            change_product(table, place, bits, target(to), out)
        }
        ("forward97", [table, from, to]) => forward97(table, from, target(to), out),
        ("scan", [table, from, to]) => scan(table, from, target(to), out),
        ("view", [from, to]) => view97(None, from, target(to), out),
        ("view", [table, from, to]) => view97(Some(table), from, target(to), out),
        ("difference", [one, other, to]) => difference(one, other, target(to), out),
        ("copy", [from, to]) => copy(options.levels, from, target(to), out),
        ("restore", [from, to]) => restore(from, target(to), out),
        ("picture", [from, to]) => picture(from, target(to), out),
        ("sample", [folder]) => write_sample(folder, existing, out),
        (
            "check" | "show" | "suggest" | "text" | "table" | "change" | "constant" | "product"
            | "forward97" | "scan" | "view" | "difference" | "copy" | "restore" | "picture"
            | "sample",
            _,
        ) => Err(Failure::Usage(format!(
            "`{name}` takes other arguments than these"
        ))),
        _ => Err(Failure::Usage(format!("there is no command `{name}`"))),
    }
}

#[derive(Default)]
struct Options<'a> {
    help: bool,
    levels: Option<u8>,
    view: bool,
    products: bool,
    table: Option<&'a OsStr>,
    no_clobber: bool,
}

/// Takes the options out of the arguments; after `--` there are none. What
/// starts as a number below 0 is no option: it is told where it stands.
fn sort(arguments: &[OsString]) -> Result<(Options<'_>, Vec<&OsStr>), Failure> {
    let mut options = Options::default();
    let mut words = Vec::new();
    let mut rest = arguments.iter();
    while let Some(argument) = rest.next() {
        let text = argument.to_str().unwrap_or("");
        if text == "--" {
            words.extend(rest.by_ref().map(OsString::as_os_str));
        } else if text == "--help" || text == "-h" {
            options.help = true;
        } else if text == "--view" {
            options.view = true;
        } else if text == "--products" {
            options.products = true;
        } else if text == "--no-clobber" {
            options.no_clobber = true;
        } else if text == "--table" {
            let table = rest
                .next()
                .ok_or_else(|| Failure::Usage("--table needs a file".into()))?;
            options.table = Some(table);
        } else if let Some(table) = text.strip_prefix("--table=") {
            options.table = Some(OsStr::new(table));
        } else if text == "--levels" {
            let number = rest
                .next()
                .ok_or_else(|| Failure::Usage("--levels needs a number".into()))?;
            options.levels = Some(word("--levels", number, text::levels)?);
        } else if let Some(number) = text.strip_prefix("--levels=") {
            options.levels = Some(word("--levels", OsStr::new(number), text::levels)?);
        } else if text
            .strip_prefix('-')
            .is_some_and(|rest| rest.starts_with(|c: char| !c.is_ascii_digit()))
        {
            return Err(Failure::Usage(format!("there is no option `{text}`")));
        } else {
            words.push(argument.as_os_str());
        }
    }
    Ok((options, words))
}

/// What a word of the command line means: the same as in a text.
fn word<T>(
    name: &str,
    text: &OsStr,
    meaning: impl Fn(&str) -> Result<T, String>,
) -> Result<T, Failure> {
    meaning(&text.to_string_lossy()).map_err(|what| Failure::Usage(format!("{name}: {what}")))
}

fn tell(out: &mut dyn Write, text: &str) -> Result<(), Failure> {
    match out.write_all(text.as_bytes()).and_then(|()| out.flush()) {
        // The reader has seen enough.
        Err(error) if error.kind() == std::io::ErrorKind::BrokenPipe => Ok(()),
        Err(error) => Err(Failure::File(format!("standard output: {error}"))),
        Ok(()) => Ok(()),
    }
}

fn shown(path: &OsStr) -> String {
    path.to_string_lossy().into_owned()
}

/// A file that cannot be read or written.
fn failed(path: &OsStr) -> impl Fn(std::io::Error) -> Failure + '_ {
    move |error| Failure::File(format!("{}: {error}", shown(path)))
}

fn read(path: &OsStr) -> Result<Vec<u8>, Failure> {
    std::fs::read(path).map_err(failed(path))
}

/// Whether both names lead to one file, by whatever path or link.
fn same_file(one: &OsStr, other: &OsStr) -> bool {
    let (Ok(one), Ok(other)) = (std::fs::metadata(one), std::fs::metadata(other)) else {
        return false;
    };
    one.is_file() && other.is_file() && whole::same_file(&one, &other)
}

/// What a command writes.
#[derive(Clone, Copy)]
struct Target<'a> {
    name: &'a OsStr,
    existing: Existing,
}

impl Target<'_> {
    /// Refuses to write over a file that is read, or over one that is to be
    /// kept: before any work is done.
    fn ready(self, inputs: &[&OsStr]) -> Result<(), Failure> {
        if let Some(from) = inputs.iter().find(|from| same_file(from, self.name)) {
            return Err(Failure::Usage(format!(
                "OUT ({}) is the file that is read ({}): name another",
                shown(self.name),
                shown(from)
            )));
        }
        whole::not_taken(self.name, self.existing).map_err(failed(self.name))
    }

    fn write(self, bytes: &[u8]) -> Result<(), Failure> {
        whole::write(self.name, bytes, self.existing).map_err(failed(self.name))
    }
}

fn not_understood(path: &OsStr) -> impl Fn(String) -> Failure + '_ {
    move |text| Failure::File(format!("{}: {text}", shown(path)))
}

fn refused(path: &OsStr) -> impl Fn(Refusal) -> Failure + '_ {
    move |refusal| Failure::Refused(format!("{}: {refusal}", shown(path)))
}

fn check(path: &OsStr, out: &mut dyn Write) -> Result<(), Failure> {
    suzdrepa::check_table(&read(path)?).map_err(refused(path))?;
    tell(out, &format!("{}: accepted\n", shown(path)))
}

fn check_view(path: &OsStr, out: &mut dyn Write) -> Result<(), Failure> {
    let table = WidthTable::from_bytes(&read(path)?).map_err(refused(path))?;
    let distance = table
        .view_distance()
        .map_err(viewing_refused(path, &table))?;
    let far = far(distance, table.depth());
    tell(
        out,
        &format!("{}: accepted, viewable: {far}\n", shown(path)),
    )
}

/// How far a viewed picture may be from the scanned one. Rounding to a pixel
/// adds at most half a grey to the distance of a value.
fn far(distance: u64, depth: u8) -> String {
    let grey = Bound::ONE >> depth;
    let hundredths = distance.saturating_mul(100).div_ceil(grey);
    let pixel = (distance + grey / 2) / grey;
    // No pixel is farther from another than the lightest from the darkest.
    let pixel = pixel.min((1 << depth) - 1);
    format!(
        "at most {}.{:02} greys from the scan, {pixel} after rounding",
        hundredths / 100,
        hundredths % 100
    )
}

/// Why planes of that depth and so many levels are not viewed, and what to do.
fn viewing_advice(depth: u8, levels: u8) -> String {
    if suggest::can_be_viewed(depth, levels) {
        return format!(
            "fewer integer bits at the kept nodes help: `roll suggest --view {depth} {levels} OUT` \
             makes a table that can be viewed"
        );
    }
    let fewer = (1..levels)
        .rev()
        .find(|&l| suggest::can_be_viewed(depth, l));
    let smaller = (1..depth)
        .rev()
        .find(|&d| suggest::can_be_viewed(d, levels));
    let fewer = fewer.map(|l| format!("at most {}", counted(l, "level")));
    let smaller = smaller.map(|d| format!("at most {}", counted(d, "bit")));
    let ways: Vec<String> = [fewer, smaller].into_iter().flatten().collect();
    format!(
        "no table of {} and {} can be viewed: take {}",
        counted(depth, "bit"),
        counted(levels, "level"),
        ways.join(", or ")
    )
}

/// As [`refused`], with what to do where a table cannot be viewed.
fn viewing_refused<'a>(path: &'a OsStr, table: &'a WidthTable) -> impl Fn(Refusal) -> Failure + 'a {
    move |refusal| match refusal {
        Refusal::NotViewable => {
            let advice = viewing_advice(table.depth(), table.levels());
            Failure::Refused(format!("{}: {refusal}; {advice}", shown(path)))
        }
        _ => refused(path)(refusal),
    }
}

fn show_table(path: &OsStr, out: &mut dyn Write) -> Result<(), Failure> {
    let table = WidthTable::from_bytes(&read(path)?).map_err(refused(path))?;
    tell(out, &show::text(&table))?;
    tell(out, &format!("{}\n", verdict(&table)))
}

/// Whether a table is accepted, where the command is done either way.
fn verdict(table: &WidthTable) -> String {
    match table.check() {
        Ok(()) => "accepted".into(),
        Err(refusal) => format!("not accepted: {refusal}"),
    }
}

fn suggest_table(
    view: bool,
    products: bool,
    depth: &OsStr,
    levels: &OsStr,
    to: Option<Target>,
    out: &mut dyn Write,
) -> Result<(), Failure> {
    let depth = word("DEPTH", depth, text::depth)?;
    let levels = word("LEVELS", levels, text::levels)?;
    if let Some(to) = to {
        to.ready(&[])?;
    }
    let progress = Progress::new();
    let suggested = match view {
        true => suggest::suggest_viewable(depth, levels, &progress),
        false => suggest::suggest(depth, levels, &progress),
    };
    let suggested = match products {
        true => suggested.and_then(|table| suggest::least_products(&table, &progress)),
        false => suggested,
    };
    drop(progress);
    let table = suggested.map_err(|refusal| match refusal {
        Refusal::NotViewable => {
            let advice = viewing_advice(depth, levels);
            Failure::Refused(format!("{refusal}; {advice}"))
        }
        _ => Failure::Refused(refusal.to_string()),
    })?;
    tell_suggested(&table, view, to, out)
}

fn suggest_products(
    view: bool,
    from: &OsStr,
    to: Option<Target>,
    out: &mut dyn Write,
) -> Result<(), Failure> {
    if let Some(to) = to {
        to.ready(&[from])?;
    }
    let table = WidthTable::from_bytes(&read(from)?).map_err(refused(from))?;
    let suggested = suggest::least_products(&table, &Progress::new()).map_err(refused(from))?;
    if view {
        suggested
            .viewable()
            .map_err(viewing_refused(from, &table))?;
    }
    tell_suggested(&suggested, view, to, out)
}

/// Writes a suggested table, or shows it.
fn tell_suggested(
    table: &WidthTable,
    view: bool,
    to: Option<Target>,
    out: &mut dyn Write,
) -> Result<(), Failure> {
    let (depth, levels) = (table.depth(), table.levels());
    let viewed = match view {
        true => {
            let distance = table.view_distance();
            let distance = distance.map_err(|refusal| Failure::Refused(refusal.to_string()))?;
            Some(far(distance, depth))
        }
        false => None,
    };
    match to {
        None => {
            tell(out, &show::text(table))?;
            viewed.map_or(Ok(()), |far| tell(out, &format!("viewable: {far}\n")))
        }
        Some(to) => {
            to.write(table.as_bytes())?;
            let widths = table.places().filter_map(|place| table.width(place));
            let bits = average(widths.map(|width| width.integer_bits + width.fraction_bits));
            let steps = || Place::steps(levels);
            let products = match table.has_products() {
                true => format!(
                    "; {:.1} fractional bits a product, {:.1} uncut",
                    average(steps().filter_map(|place| table.product_bits(place))),
                    average(steps().filter_map(|place| table.full_product_bits(place)))
                ),
                false => String::new(),
            };
            tell(
                out,
                &format!(
                    "{}: {}, {bits:.1} bits a node on average{products}{}\n",
                    shown(to.name),
                    show::bits_and_levels(depth, levels),
                    viewed.map_or(String::new(), |far| format!("; viewable: {far}"))
                ),
            )
        }
    }
}

/// The average of some numbers; there is one at least.
fn average(numbers: impl Iterator<Item = u8>) -> f64 {
    let add = |(sum, count), number: u8| (sum + u32::from(number), count + 1);
    let (sum, count) = numbers.fold((0, 0u32), add);
    f64::from(sum) / f64::from(count)
}

fn show_text(path: &OsStr, out: &mut dyn Write) -> Result<(), Failure> {
    let table = WidthTable::from_bytes(&read(path)?).map_err(refused(path))?;
    tell(out, &text::write(&table))
}

fn make_table(from: &OsStr, to: Target, out: &mut dyn Write) -> Result<(), Failure> {
    to.ready(&[from])?;
    let table = text::read(&read(from)?)
        .map_err(|fault| Failure::File(format!("{}: {fault}", shown(from))))?;
    write_table(&table, to, out)
}

fn change_width(
    from: &OsStr,
    place: Place,
    width: Width,
    to: Target,
    out: &mut dyn Write,
) -> Result<(), Failure> {
    to.ready(&[from])?;
    let table = WidthTable::from_bytes(&read(from)?).map_err(refused(from))?;
    let new = table
        .with_width(place, width)
        .map_err(level_refused(from, &table, place))?;
    write_table(&new, to, out)
}

fn change_constant(
    from: &OsStr,
    node: Node,
    bits: u8,
    to: Target,
    out: &mut dyn Write,
) -> Result<(), Failure> {
    to.ready(&[from])?;
    let table = WidthTable::from_bytes(&read(from)?).map_err(refused(from))?;
    // The bits are within their limits, so nothing is refused.
    let new = table.with_constant(node, bits).map_err(refused(from))?;
    write_table(&new, to, out)
}

fn change_product(
    from: &OsStr,
    place: Place,
    bits: u8,
    to: Target,
    out: &mut dyn Write,
) -> Result<(), Failure> {
    to.ready(&[from])?;
    let table = WidthTable::from_bytes(&read(from)?).map_err(refused(from))?;
    let new = table
        .with_product(place, bits)
        .map_err(|refusal| match refusal {
            Refusal::OutsideLimits if !table.has_products() => Failure::Refused(format!(
                "{}: refused {}: the table has no product widths; \
                 `roll suggest --products --table` gives it some",
                shown(from),
                refusal.number(),
            )),
            _ => level_refused(from, &table, place)(refusal),
        })?;
    write_table(&new, to, out)
}

/// As [`refused`], where all numbers but the level are within their limits.
fn level_refused<'a>(
    path: &'a OsStr,
    table: &'a WidthTable,
    place: Place,
) -> impl Fn(Refusal) -> Failure + 'a {
    let levels = table.levels();
    move |refusal| match refusal {
        Refusal::OutsideLimits if place.level > levels => Failure::Refused(format!(
            "{}: refused {}: the table has {}, there is no level {}",
            shown(path),
            refusal.number(),
            counted(levels, "level"),
            place.level
        )),
        _ => refused(path)(refusal),
    }
}

/// Writes a table that need not be accepted, and tells whether it is.
fn write_table(table: &WidthTable, to: Target, out: &mut dyn Write) -> Result<(), Failure> {
    to.write(table.as_bytes())?;
    tell(
        out,
        &format!(
            "{}: written, {}, {}\n",
            shown(to.name),
            show::bits_and_levels(table.depth(), table.levels()),
            verdict(table)
        ),
    )
}

/// Refuses a picture of another depth than the table's, whatever its pixels are:
/// their greys would count for more or less than was scanned.
fn of_one_depth(
    picture: &OsStr,
    depth: u8,
    table_path: &OsStr,
    table: &WidthTable,
) -> Result<(), Failure> {
    if depth == table.depth() {
        return Ok(());
    }
    Err(Failure::File(format!(
        "{}: a picture of {}, by its largest value; {} is a table for {}",
        shown(picture),
        counted(depth, "bit"),
        shown(table_path),
        counted(table.depth(), "bit")
    )))
}

fn forward97(
    table_path: &OsStr,
    from: &OsStr,
    to: Target,
    out: &mut dyn Write,
) -> Result<(), Failure> {
    to.ready(&[table_path, from])?;
    let table = WidthTable::from_bytes(&read(table_path)?).map_err(refused(table_path))?;
    table.check().map_err(refused(table_path))?;
    let picture = Picture::read(&read(from)?).map_err(not_understood(from))?;
    of_one_depth(from, picture.depth, table_path, &table)?;
    let progress = Progress::new();
    progress.tell(&format!("working {} x {}", picture.width, picture.height));
    let (width, height) = (picture.width, picture.height);
    let values = suzdrepa::forward97_to_vec(table.as_bytes(), &picture.pixels, width, height)
        .map_err(refused(from))?;
    let plane = Plane {
        depth: table.depth(),
        levels: table.levels(),
        width,
        height,
        kind: Kind::Fixed(table),
        values,
    };
    progress.tell("writing");
    to.write(&plane.write())?;
    drop(progress);
    tell(
        out,
        &format!(
            "{}: 9/7 coefficients, {} x {}, {}\n",
            shown(to.name),
            plane.width,
            plane.height,
            counted(plane.levels, "level")
        ),
    )
}

/// What stands for standard input among the arguments.
const STANDARD_INPUT: &str = "-";

fn scan(table_path: &OsStr, from: &OsStr, to: Target, out: &mut dyn Write) -> Result<(), Failure> {
    if to.name == STANDARD_INPUT {
        return Err(Failure::Usage(
            "OUT of `scan` is a file: rows are written where they stand, not in order".into(),
        ));
    }
    let piped = from == STANDARD_INPUT;
    // Standard input may be a file, too.
    let read_from = if piped {
        OsStr::new("/dev/stdin")
    } else {
        from
    };
    to.ready(&[table_path, read_from])?;
    let table = WidthTable::from_bytes(&read(table_path)?).map_err(refused(table_path))?;
    let (depth, levels) = (table.depth(), counted(table.levels(), "level"));
    let mut scan = Scan::begin(table.as_bytes()).map_err(out_of_turn(
        table_path,
        &format!("it has {levels}, a scan takes 1"),
    ))?;

    let (name, strip): (_, Box<dyn BufRead>) = match piped {
        true => (
            OsStr::new("standard input"),
            Box::new(std::io::stdin().lock()),
        ),
        false => {
            let file = File::open(from).map_err(failed(from))?;
            (from, Box::new(BufReader::new(file)))
        }
    };
    let mut rows = Rows::new(strip).map_err(not_understood(name))?;
    of_one_depth(name, rows.depth(), table_path, &table)?;
    let (width, height) = (rows.width(), rows.height());
    // A row that no scan takes is not read, however long it is said to be.
    if !(1..=MAX_SIDE).contains(&width) {
        return Err(refused(name)(Refusal::SideNotAdmitted));
    }
    let head = container::head(&Kind::Fixed(table), depth, 1, width, height);
    let file = Unfinished::create(to.name, to.existing)
        .map_err(failed(to.name))?
        .ok_or_else(|| {
            let why = "no file: rows are written where they stand, not in order";
            Failure::File(format!("{}: {why}", shown(to.name)))
        })?;
    file.write_at(0, &head).map_err(failed(to.name))?;
    let put = |line: GivenLine| {
        let place = head.len() as u64 + 4 * width as u64 * line.row(height as u64);
        let bytes: Vec<u8> = container::coefficients(line.values).collect();
        file.write_at(place, &bytes).map_err(failed(to.name))
    };
    let progress = Progress::new();
    while let Some(pixels) = rows.next_row().map_err(not_understood(name))? {
        let row = scan.lines();
        if row % 256 == 0 {
            progress.tell(&format!("scanning row {row} of {height}"));
        }
        let given = scan.line(&pixels).map_err(|refusal| {
            Failure::Refused(format!("{}: {refusal} (row {row})", shown(name)))
        })?;
        for line in given {
            put(line)?;
        }
    }
    let lines = counted(scan.lines(), "line");
    let given = scan.end().map_err(out_of_turn(
        name,
        &format!("the strip has {lines}, a scan takes 1 or more"),
    ))?;
    for line in given {
        put(line)?;
    }
    file.finish().map_err(failed(to.name))?;
    drop(progress);
    tell(
        out,
        &format!(
            "{}: 9/7 coefficients, {width} x {height}, {levels}\n",
            shown(to.name)
        ),
    )
}

/// As [`refused`], with what it is that is out of turn.
fn out_of_turn<'a>(path: &'a OsStr, what: &'a str) -> impl Fn(Refusal) -> Failure + 'a {
    move |refusal| match refusal {
        Refusal::OutOfTurn => Failure::Refused(format!("{}: {refusal}; {what}", shown(path))),
        _ => refused(path)(refusal),
    }
}

fn view97(
    named: Option<&OsStr>,
    from: &OsStr,
    to: Target,
    out: &mut dyn Write,
) -> Result<(), Failure> {
    let inputs: Vec<&OsStr> = named.into_iter().chain([from]).collect();
    to.ready(&inputs)?;
    let plane = Plane::read(&read(from)?).map_err(not_understood(from))?;
    let Kind::Fixed(table) = &plane.kind else {
        return Err(Failure::File(format!(
            "{}: an exact copy; 9/7 coefficients (suzdrepa-97) are viewed, `restore` takes a copy",
            shown(from)
        )));
    };
    if let Some(named) = named {
        if read(named)? != table.as_bytes() {
            return Err(Failure::File(format!(
                "{}: stored under another table than {}",
                shown(from),
                shown(named)
            )));
        }
    }
    let (width, height) = (plane.width, plane.height);
    let progress = Progress::new();
    progress.tell(&format!("viewing {width} x {height}"));
    let pixels = suzdrepa::view97_to_vec(table.as_bytes(), &plane.values, width, height)
        .map_err(viewing_refused(from, table))?;
    let distance = table
        .view_distance()
        .map_err(viewing_refused(from, table))?;
    let picture = Picture {
        width,
        height,
        depth: plane.depth,
        pixels,
    };
    progress.tell("writing");
    to.write(&picture.write())?;
    drop(progress);
    tell(
        out,
        &format!(
            "{}: {}; if `forward97` stored it, {}\n",
            shown(to.name),
            picture.shape(),
            far(distance, plane.depth)
        ),
    )
}

fn difference(one: &OsStr, other: &OsStr, to: Target, out: &mut dyn Write) -> Result<(), Failure> {
    to.ready(&[one, other])?;
    let [first, second] = [one, other].map(|path| {
        let picture = Picture::read(&read(path)?);
        picture.map_err(not_understood(path))
    });
    let (first, second) = (first?, second?);
    let shape = |picture: &Picture| (picture.width, picture.height, picture.depth);
    if shape(&first) != shape(&second) {
        return Err(Failure::File(format!(
            "{}: {}; {}: {}; pictures of one size and depth are compared",
            shown(one),
            first.shape(),
            shown(other),
            second.shape()
        )));
    }
    let (changed, most) = first.difference(&second);
    to.write(&changed.write())?;
    let moved = changed.pixels.iter().filter(|&&pixel| pixel > 0).count();
    tell(
        out,
        &format!(
            "{}: at most {}, {moved} of {} pixels differ\n",
            shown(to.name),
            counted(most, "grey"),
            changed.pixels.len()
        ),
    )
}

/// The levels of a copy where none are named: as many as have two samples or
/// more to work along both sides, and 1 where none has. A side of one sample is
/// let through by every level and does not count.
fn usual_levels(width: usize, height: usize) -> u8 {
    let side = match (width, height) {
        (1, side) | (side, 1) => side,
        _ => width.min(height),
    };
    (2..=WidthTable::MAX_LEVELS)
        .rev()
        .find(|levels| side > 1 << (levels - 1))
        .unwrap_or(1)
}

fn copy(levels: Option<u8>, from: &OsStr, to: Target, out: &mut dyn Write) -> Result<(), Failure> {
    to.ready(&[from])?;
    let picture = Picture::read(&read(from)?).map_err(not_understood(from))?;
    let (width, height) = (picture.width, picture.height);
    let levels = levels.unwrap_or_else(|| usual_levels(width, height));
    let progress = Progress::new();
    progress.tell(&format!("copying {width} x {height}"));
    let values = suzdrepa::forward53_to_vec(picture.depth, levels, &picture.pixels, width, height)
        .map_err(refused(from))?;
    let plane = Plane {
        depth: picture.depth,
        levels,
        width,
        height,
        kind: Kind::ExactCopy(Order::ColumnsFirst),
        values,
    };
    progress.tell("writing");
    to.write(&plane.write())?;
    drop(progress);
    tell(
        out,
        &format!(
            "{}: exact copy (columns first), {width} x {height}, {}\n",
            shown(to.name),
            show::bits_and_levels(picture.depth, levels)
        ),
    )
}

fn restore(from: &OsStr, to: Target, out: &mut dyn Write) -> Result<(), Failure> {
    to.ready(&[from])?;
    let plane = Plane::read(&read(from)?).map_err(not_understood(from))?;
    let Kind::ExactCopy(order) = plane.kind else {
        return Err(Failure::File(format!(
            "{}: 9/7 coefficients; an exact copy (suzdrepa-53) is restored, `view` takes these",
            shown(from)
        )));
    };
    let progress = Progress::new();
    progress.tell(&format!("restoring {} x {}", plane.width, plane.height));
    let picture = Picture {
        width: plane.width,
        height: plane.height,
        depth: plane.depth,
        pixels: taken_back(&plane, order).map_err(copy_refused(from, order))?,
    };
    progress.tell("writing");
    to.write(&picture.write())?;
    drop(progress);
    tell(
        out,
        &format!(
            "{}: {}, from {}\n",
            shown(to.name),
            picture.shape(),
            copy_in_words(order)
        ),
    )
}

/// The pixels of an exact copy, by the call for its order.
fn taken_back(plane: &Plane, order: Order) -> Result<Vec<u16>, Refusal> {
    let back = match order {
        Order::ColumnsFirst => suzdrepa::inverse53_to_vec,
        Order::RowsFirst => suzdrepa::inverse53_rows_first_to_vec,
    };
    back(
        plane.depth,
        plane.levels,
        &plane.values,
        plane.width,
        plane.height,
    )
}

/// A copy of that order, in words.
fn copy_in_words(order: Order) -> &'static str {
    match order {
        Order::ColumnsFirst => "a copy (columns first)",
        Order::RowsFirst => "an earlier copy (rows first)",
    }
}

/// As [`refused`]; where no picture has the copy, also what it was taken for,
/// since its first line may say the wrong order.
fn copy_refused(path: &OsStr, order: Order) -> impl Fn(Refusal) -> Failure + '_ {
    move |refusal| match refusal {
        Refusal::NoPicture => {
            let taken = copy_in_words(order);
            Failure::Refused(format!("{}: {refusal}; taken for {taken}", shown(path)))
        }
        _ => refused(path)(refusal),
    }
}

/// The grey values of a plane. Each band has its own scale: the coarsest
/// picture from its darkest to its lightest, the others about middle grey.
fn greys(plane: &Plane) -> Vec<u8> {
    let size = (plane.width, plane.height);
    // The number of a coefficient's band, and whether it is the coarsest.
    let band = |i: usize| {
        let place = Place::of_coefficient(plane.levels, size, i % size.0, i / size.0);
        let Some(Place { level, pass, node }) = place else {
            return (0, true);
        };
        let (right, below) = (pass == Pass::HighColumns, node == Node::G2);
        let number = 4 * usize::from(level) + 2 * usize::from(right) + usize::from(below);
        (number, !right && !below)
    };
    let mut ends = vec![(i32::MAX, i32::MIN); 4 * (usize::from(plane.levels) + 1)];
    for (i, &value) in plane.values.iter().enumerate() {
        let (least, most) = &mut ends[band(i).0];
        (*least, *most) = ((*least).min(value), (*most).max(value));
    }
    plane
        .values
        .iter()
        .enumerate()
        .map(|(i, &value)| {
            let (number, coarsest) = band(i);
            let (least, most) = (i64::from(ends[number].0), i64::from(ends[number].1));
            let value = i64::from(value);
            if coarsest {
                (255 * (value - least) / (most - least).max(1)) as u8
            } else {
                let reach = least.abs().max(most.abs()).max(1);
                (128 + 127 * value / reach) as u8
            }
        })
        .collect()
}

fn picture(from: &OsStr, to: Target, out: &mut dyn Write) -> Result<(), Failure> {
    to.ready(&[from])?;
    let plane = Plane::read(&read(from)?).map_err(not_understood(from))?;
    let drawn = (1..=WidthTable::MAX_LEVELS).contains(&plane.levels)
        && [plane.width, plane.height]
            .iter()
            .all(|side| (1..=MAX_SIDE).contains(side));
    if !drawn {
        return Err(Failure::File(format!(
            "{}: a plane of {} and {} x {} coefficients is not drawn",
            shown(from),
            counted(plane.levels, "level"),
            plane.width,
            plane.height
        )));
    }
    let progress = Progress::new();
    progress.tell(&format!("drawing {} x {}", plane.width, plane.height));
    to.write(&png::grey(plane.width, plane.height, &greys(&plane)))?;
    drop(progress);
    tell(
        out,
        &format!("{}: {} x {}\n", shown(to.name), plane.width, plane.height),
    )
}

fn write_sample(folder: &OsStr, existing: Existing, out: &mut dyn Write) -> Result<(), Failure> {
    std::fs::create_dir_all(folder).map_err(failed(folder))?;
    let files =
        sample::files(&Progress::new()).map_err(|refusal| Failure::Refused(refusal.to_string()))?;
    let files = files.map(|(name, bytes)| (Path::new(folder).join(name), bytes));
    let targets = files.each_ref().map(|(path, bytes)| {
        let name = path.as_os_str();
        (Target { name, existing }, bytes)
    });
    for (to, _) in targets {
        to.ready(&[])?;
    }
    for (to, bytes) in targets {
        to.write(bytes)?;
        tell(out, &format!("{}: {} bytes\n", shown(to.name), bytes.len()))?;
    }
    Ok(())
}

#[cfg(test)]
mod tests {
    use super::*;

    #[test]
    fn usual_levels_of_a_picture() {
        assert_eq!(usual_levels(640, 512), 5);
        assert_eq!(usual_levels(17, 4096), 5);
        assert_eq!(usual_levels(16, 4096), 4);
        assert_eq!(usual_levels(9, 9), 4);
        assert_eq!(usual_levels(8, 9), 3);
        assert_eq!(usual_levels(3, 9), 2);
        assert_eq!(usual_levels(2, 9), 1);
        assert_eq!(usual_levels(0, 0), 1);
        // One sample wide: by the other side.
        assert_eq!(usual_levels(1, 4096), 5);
        assert_eq!(usual_levels(16, 1), 4);
        assert_eq!(usual_levels(1, 2), 1);
        assert_eq!(usual_levels(1, 1), 1);
        assert_eq!(usual_levels(1, 0), 1);
    }

    #[test]
    fn how_far_in_greys() {
        let numbers = |distance, depth| far(distance, depth).replace(" greys from the scan", "");
        // Eight bits: a grey is 2^24. What is shown is never less than it is.
        assert_eq!(numbers(0, 8), "at most 0.00, 0 after rounding");
        assert_eq!(numbers(1, 8), "at most 0.01, 0 after rounding");
        assert_eq!(numbers((1 << 23) - 1, 8), "at most 0.50, 0 after rounding");
        assert_eq!(numbers(1 << 23, 8), "at most 0.50, 1 after rounding");
        assert_eq!(numbers(3 << 23, 8), "at most 1.50, 2 after rounding");
        assert_eq!(
            numbers((41 << 24) + 1, 8),
            "at most 41.01, 41 after rounding"
        );
        assert_eq!(numbers(1 << 31, 1), "at most 1.00, 1 after rounding");
        // More than there are.
        assert_eq!(numbers(9 << 31, 1), "at most 9.00, 1 after rounding");
    }

    #[test]
    fn advice_where_viewing_is_refused() {
        for (depth, levels, due) in [
            (8, 4, "take at most 3 levels, or at most 7 bits"),
            (8, 5, "take at most 3 levels, or at most 5 bits"),
            (12, 2, "take at most 1 level, or at most 11 bits"),
        ] {
            let none = format!("no table of {depth} bits and {levels} levels can be viewed: ");
            assert_eq!(viewing_advice(depth, levels), none + due);
        }
        let some = viewing_advice(8, 3);
        assert!(some.contains("`roll suggest --view 8 3 OUT`"), "{some}");
    }

    #[test]
    fn greys_of_a_plane() {
        let plane = Plane {
            depth: 8,
            levels: 1,
            width: 4,
            height: 2,
            kind: Kind::ExactCopy(Order::ColumnsFirst),
            values: vec![-100, 100, 7, -14, 0, 0, i32::MIN, i32::MAX],
        };
        assert_eq!(greys(&plane), [0, 255, 191, 1, 128, 128, 1, 254]);
    }
}
