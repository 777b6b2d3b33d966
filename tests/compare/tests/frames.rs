//! The machine code of the static library, as `objdump` shows it: where large
//! frames are set up, and how much stack each exported call takes.
//!
//! The proofs stop at the compiler's back end (docs/DECISIONS.md), and one
//! fault of it was met. A frame of many pages is set up by a loop that touches
//! each page and keeps its end in r11. Where a function can exit before it uses
//! its frame, the compiler may move the set-up behind that exit; there r11 may
//! hold a value that is still in use, and the loop overwrites it. At a
//! function's entry r11 holds nothing. So a frame of a page or more must be set
//! up in the entry block: before the first branch, and where no branch leads.

use compare::archive;
use std::collections::BTreeMap;
use std::process::Command;

/// From this size on a frame is touched page by page.
const PAGE: i64 = 4096;

/// What a function may use below the stack pointer without moving it.
const RED_ZONE: i64 = 128;

/// The exported calls, and the stack in KiB that each stays within, its return
/// address included, but not what `memcpy` and `memset` of the C library take.
const CALLS: [(&str, i64); 19] = [
    ("suz_forward53", 4),
    ("suz_forward97", 4),
    ("suz_inverse53", 260),
    ("suz_inverse53_rows_first", 260),
    ("suz_scan_begin", 4),
    ("suz_scan_end", 4),
    ("suz_scan_line", 20),
    ("suz_table_bound", 4),
    ("suz_table_change", 4),
    ("suz_table_change_constant", 4),
    ("suz_table_change_product", 4),
    ("suz_table_check", 4),
    ("suz_table_form", 1),
    ("suz_table_value", 1),
    ("suz_table_view", 4),
    ("suz_table_write", 1),
    ("suz_table_write_products", 1),
    ("suz_view97", 80),
    ("suz_view_distance", 4),
];

struct Line<'a> {
    place: u64,
    operation: &'a str,
    operands: &'a str,
    /// What the instruction's relocation names.
    symbol: Option<&'a str>,
}

struct Function<'a> {
    name: &'a str,
    lines: Vec<Line<'a>>,
}

fn hex(digits: &str) -> Option<u64> {
    u64::from_str_radix(digits.strip_prefix("0x").unwrap_or(digits), 16).ok()
}

/// The distance of an address such as `[rsp-0x10]` below the stack pointer.
fn below_stack_pointer(address: &str) -> Option<i64> {
    let offset = address.strip_prefix("[rsp")?.strip_suffix(']')?;
    match offset.strip_prefix('-') {
        Some(down) => hex(down).map(|bytes| bytes as i64),
        None => hex(offset.strip_prefix('+')?).map(|bytes| -(bytes as i64)),
    }
}

/// The functions in what `objdump -dr --no-show-raw-insn -M intel` writes.
fn functions(disassembly: &str) -> Vec<Function<'_>> {
    let mut found: Vec<Function> = Vec::new();
    for text in disassembly.lines() {
        if let Some((_, name)) = text.strip_suffix(">:").and_then(|t| t.split_once(" <")) {
            let lines = Vec::new();
            found.push(Function { name, lines });
            continue;
        }
        let Some((place, rest)) = text.split_once(':') else {
            continue;
        };
        let (Some(place), Some(function)) = (hex(place.trim()), found.last_mut()) else {
            continue;
        };
        // the name of a relocation may be that of a generic function's instance, with `<` in it
        let rest = if rest.trim().starts_with("R_X86_64_") {
            rest.trim()
        } else {
            rest.split(['#', '<']).next().unwrap().trim()
        };
        let (operation, operands) = rest.split_once(char::is_whitespace).unwrap_or((rest, ""));
        let operands = operands.trim();
        if operation.starts_with("R_X86_64_") {
            // a relocation stands below its instruction
            let name = operands.split(['-', '+']).next().unwrap();
            let name = name.strip_prefix(".text.").unwrap_or(name);
            function.lines.last_mut().unwrap().symbol = Some(name);
        } else {
            function.lines.push(Line {
                place,
                operation,
                operands,
                symbol: None,
            });
        }
    }
    found
}

impl Line<'_> {
    /// Whether it is a jump, taken always or not, or a return.
    fn leaves_the_block(&self) -> bool {
        let leaves = |word: &str| word.starts_with('j') || word.starts_with("ret");
        leaves(self.operation) || self.operands.split(' ').next().is_some_and(leaves)
    }

    /// Where a jump within the function leads.
    fn target(&self) -> Option<u64> {
        match self.symbol {
            None if self.operation.starts_with('j') => hex(self.operands),
            _ => None,
        }
    }

    /// How many bytes it moves the stack pointer down, a negative number where
    /// up, and nothing where the instruction alone does not tell.
    fn moves_down(&self) -> Option<i64> {
        let (to, by) = self.operands.split_once(',').unwrap_or((self.operands, ""));
        match (self.operation, to) {
            ("push", _) => Some(8),
            ("pop", _) => Some(-8),
            ("sub", "rsp") => hex(by).map(|bytes| bytes as i64),
            ("add", "rsp") => hex(by).map(|bytes| -(bytes as i64)),
            ("lea", "rsp") => below_stack_pointer(by),
            ("cmp" | "test", _) => Some(0),
            (_, "rsp") | ("leave", _) => None,
            _ => Some(0),
        }
    }
}

impl Function<'_> {
    /// Whether a line is the jump back of the loop that touches the pages.
    fn touches_pages(&self, at: usize) -> bool {
        let line = &self.lines[at];
        let above = at.checked_sub(1).map(|above| &self.lines[above]);
        line.operation == "jne"
            && line.target().is_some_and(|target| target < line.place)
            && above.is_some_and(|l| l.operation == "cmp" && l.operands == "rsp,r11")
    }

    /// Where a frame of a page or more, or of a size that the instruction does
    /// not tell, is set up outside the entry block.
    fn misplaced(&self) -> Vec<u64> {
        let branches: Vec<&Line> = (0..self.lines.len())
            .filter(|at| self.lines[*at].leaves_the_block() && !self.touches_pages(*at))
            .map(|at| &self.lines[at])
            .collect();
        let in_entry_block = |place: u64| {
            branches.iter().all(|branch| {
                place < branch.place && branch.target().is_none_or(|target| place < target)
            })
        };
        self.lines
            .iter()
            .filter(|line| match line.moves_down() {
                Some(bytes) => bytes >= PAGE,
                None => line.operation == "sub",
            })
            .map(|line| line.place)
            .filter(|place| !in_entry_block(*place))
            .collect()
    }

    /// How deep the stack is behind the loop that touches the pages.
    fn depth_behind_pages(&self, at: usize, depths: &[Option<i64>]) -> i64 {
        let (set, bytes) = (0..at)
            .rev()
            .find_map(|k| {
                let (to, by) = self.lines[k].operands.split_once(',')?;
                match (self.lines[k].operation, to) {
                    // above it stands mov r11,rsp
                    ("sub", "r11") => Some((k, hex(by)? as i64)),
                    ("lea", "r11") => Some((k, below_stack_pointer(by)?)),
                    _ => None,
                }
            })
            .expect("r11 is set before the loop");
        depths[set].expect("the loop is reached from there") + bytes
    }

    /// How deep the stack is before each instruction that is reached, counted
    /// from the function's entry.
    fn depths(&self) -> Vec<Option<i64>> {
        let places = self.lines.iter().map(|line| line.place);
        let index: BTreeMap<u64, usize> = places.zip(0..).collect();
        let mut depths = vec![None; self.lines.len()];
        let mut at_tables = None;
        let mut open = vec![(0, 0)];
        loop {
            while let Some((at, depth)) = open.pop() {
                if at == depths.len() || depths[at].is_some() {
                    continue;
                }
                depths[at] = Some(depth);
                let line = &self.lines[at];
                let place = format!("{}+{:#x}", self.name, line.place);
                if self.touches_pages(at) {
                    open.push((at + 1, self.depth_behind_pages(at, &depths)));
                    continue;
                }
                let after = depth + line.moves_down().expect(&place);
                if let Some(target) = line.target() {
                    open.push((index[&target], after));
                }
                match line.operation {
                    "ud2" => {}
                    "ret" => assert_eq!(depth, 0, "{place}"),
                    "jmp" if line.symbol.is_some() => assert_eq!(depth, 0, "{place}"),
                    "jmp" if line.target().is_some() => {}
                    "jmp" => at_tables = at_tables.max(Some(after)),
                    _ => open.push((at + 1, after)),
                }
            }
            // what is left is reached by a table of jumps, where there is one
            let left = depths.iter().position(Option::is_none);
            match left.zip(at_tables) {
                Some(start) => open.push(start),
                None => return depths,
            }
        }
    }
}

/// The frames of a page or more that are not set up in their function's entry
/// block.
fn misplaced(disassembly: &str) -> Vec<String> {
    functions(disassembly)
        .iter()
        .flat_map(|f| {
            f.misplaced()
                .into_iter()
                .map(|place| format!("{}+{place:#x}", f.name))
        })
        .collect()
}

/// The most stack that a call takes: its return address, its frame, and the
/// calls that it makes.
fn stack_of<'a>(
    name: &'a str,
    all: &[Function<'a>],
    known: &mut BTreeMap<&'a str, Option<i64>>,
) -> i64 {
    if ["memcpy", "memset"].contains(&name) {
        return 0;
    }
    if let Some(bytes) = known.get(name) {
        return bytes.unwrap_or_else(|| panic!("{name} calls itself"));
    }
    known.insert(name, None);
    let function = all.iter().find(|f| f.name == name).expect(name);
    let mut most = 0;
    for (line, depth) in function.lines.iter().zip(function.depths()) {
        let Some(depth) = depth else { continue };
        let below = match (line.operation, line.symbol) {
            ("call", None) => panic!("{name}+{:#x}: a call of what", line.place),
            ("call", Some(called)) => stack_of(called, all, known),
            (jump, Some(called)) if jump.starts_with('j') => stack_of(called, all, known),
            _ => RED_ZONE,
        };
        most = most.max(8 + depth + below);
    }
    known.insert(name, Some(most));
    most
}

/// The library's disassembly, by the binutils that `cc` needs too.
fn disassembly() -> String {
    let output = Command::new("objdump")
        .args(["-dr", "--no-show-raw-insn", "-M", "intel"])
        .arg(archive())
        .env("LC_ALL", "C")
        .output()
        .expect("objdump starts");
    assert!(
        output.status.success(),
        "{}",
        String::from_utf8_lossy(&output.stderr)
    );
    String::from_utf8(output.stdout).unwrap()
}

#[test]
fn every_large_frame_is_set_up_at_the_entry() {
    let disassembly = disassembly();
    assert_eq!(misplaced(&disassembly), [""; 0]);
    // all that is exported was looked at
    let mut exported: Vec<&str> = functions(&disassembly)
        .iter()
        .map(|f| f.name)
        .filter(|name| name.starts_with("suz_"))
        .collect();
    exported.sort();
    assert_eq!(exported, CALLS.map(|(name, _)| name));
}

#[test]
fn every_call_stays_within_its_stack() {
    let disassembly = disassembly();
    let all = functions(&disassembly);
    let mut known = BTreeMap::new();
    let mut over = Vec::new();
    for (name, most) in CALLS {
        let bytes = stack_of(name, &all, &mut known);
        println!("{name}: {bytes} bytes of stack");
        if bytes > most * 1024 {
            over.push(name);
        }
    }
    assert_eq!(over, [""; 0]);
}

/// `suz_inverse53` without the fault, its middle left out, from the library in
/// which `reversible::back` makes the line buffer before anything is judged.
const AT_THE_ENTRY: &str = "
0000000000000000 <suz_inverse53>:
   0:	push   rbp
   1:	push   r15
   3:	push   r14
   5:	push   r13
   7:	push   r12
   9:	push   rbx
   a:	mov    r11,rsp
   d:	sub    r11,0x40000
  14:	sub    rsp,0x1000
  1b:	mov    QWORD PTR [rsp],0x0
  23:	cmp    rsp,r11
  26:	jne    14 <suz_inverse53+0x14>
  28:	sub    rsp,0x138
  2f:	mov    rbp,r9
	...
  55:	mov    r11,r13
  58:	lea    eax,[r14-0xd]
  5c:	cmp    al,0xf4
  5e:	setb   al
  61:	lea    ecx,[r13-0x6]
  65:	cmp    cl,0xfb
  68:	setb   cl
  6b:	or     cl,al
  6d:	mov    r13d,0x4
  73:	jne    75d <suz_inverse53+0x75d>
	...
 758:	call   75d <suz_inverse53+0x75d>
			759: R_X86_64_PLT32	memset-0x4
 75d:	mov    eax,r13d
 760:	add    rsp,0x40138
 767:	pop    rbx
 768:	pop    r12
 76a:	pop    r13
 76c:	pop    r14
 76e:	pop    r15
 770:	pop    rbp
 771:	ret
";

/// `suz_inverse53` with the fault, its middle left out, from a proved library
/// in which `reversible::found` made the line buffer: r11 holds the levels before
/// the loop, and is read as the levels behind it. Admitted sides were answered 8.
const BEHIND_AN_EXIT: &str = "
0000000000000000 <suz_inverse53>:
   0:	mov    r11d,esi
   3:	lea    eax,[rdi-0xd]
   6:	cmp    al,0xf4
   8:	setb   al
   b:	lea    esi,[r11-0x6]
   f:	cmp    sil,0xfb
  13:	setb   sil
  17:	or     sil,al
  1a:	mov    eax,0x4
  1f:	jne    6e8 <suz_inverse53+0x6e8>
  25:	mov    eax,0x8
  2a:	cmp    r8,0x1000
  31:	ja     6e8 <suz_inverse53+0x6e8>
  37:	push   rbp
  38:	push   r15
  3a:	push   r14
  3c:	push   r13
  3e:	push   r12
  40:	push   rbx
  41:	mov    r11,rsp
  44:	sub    r11,0x40000
  4b:	sub    rsp,0x1000
  52:	mov    QWORD PTR [rsp],0x0
  5a:	cmp    rsp,r11
  5d:	jne    4b <suz_inverse53+0x4b>
  5f:	sub    rsp,0xf8
  66:	mov    rsi,rcx
  69:	lea    ecx,[r11-0x1]
  6d:	mov    r10d,0x1
  73:	mov    DWORD PTR [rsp+0xc],ecx
  77:	shl    r10,cl
  7a:	cmp    r10,r8
  7d:	jae    6d7 <suz_inverse53+0x6d7>
	...
 6d7:	add    rsp,0x400f8
 6de:	pop    rbx
 6df:	pop    r12
 6e1:	pop    r13
 6e3:	pop    r14
 6e5:	pop    r15
 6e7:	pop    rbp
 6e8:	ret
";

#[test]
fn a_set_up_at_the_entry_is_let_pass() {
    assert_eq!(misplaced(AT_THE_ENTRY), [""; 0]);
}

#[test]
fn a_set_up_behind_an_exit_is_found() {
    assert_eq!(misplaced(BEHIND_AN_EXIT), ["suz_inverse53+0x4b"]);
}
