//! A drawn picture of a punched roll and some width tables to try.

use crate::pgm::Picture;
use crate::progress::Progress;
use crate::suggest::{least_products, moved, suggest, suggest_viewable};
use suzdrepa::{Node, Pass, Place, Refusal, Width, WidthTable};

/// The files of the sample, by name.
pub fn files(progress: &Progress) -> Result<[(&'static str, Vec<u8>); 7], Refusal> {
    // Generous: widths as they come, and steps finer than a pixel's.
    let church = WidthTable::kept_and_others(8, 3, 24, Width::new(12, 10), Width::new(12, 20))?;
    let museum = suggest(8, 5, progress)?;
    // Its planes can be viewed; five levels of eight bits never can.
    let archive = suggest_viewable(8, 3, progress)?;
    // For a board with small multipliers: the church's, with its products cut as
    // far as is accepted.
    let board = least_products(&church, progress)?;
    // As in a table that was cut too close at the third level.
    let third = Place::new(3, Pass::Rows, Node::P1);
    let narrow = moved(&museum, third, -1, 0).ok_or(Refusal::OutsideLimits)?;
    // The inner nodes of the rows of level 1 are too rough for such steps.
    let mut rough = church.clone();
    for node in [Node::P1, Node::U1, Node::P2, Node::U2] {
        rough = rough.with_width(Place::new(1, Pass::Rows, node), Width::new(12, 6))?;
    }
    Ok([
        ("roll.pgm", roll(640, 512).write()),
        ("church.table", church.to_bytes()),
        ("museum.table", museum.to_bytes()),
        ("archive.table", archive.to_bytes()),
        ("board.table", board.to_bytes()),
        ("refused6.table", narrow.to_bytes()),
        ("refused7.table", rough.to_bytes()),
    ])
}

/// Paper with rows of round holes, dense in the second half, and some grain.
pub fn roll(width: usize, height: usize) -> Picture {
    let mut state = 0x1234_5678_9ABC_DEF1u64;
    let mut pixels = Vec::with_capacity(width * height);
    for y in 0..height {
        for x in 0..width {
            state ^= state << 13;
            state ^= state >> 7;
            state ^= state << 17;
            let grain = (state >> 40) as i32 % 9 - 4;
            let paper = 214 + (x * 18 / width) as i32 - (y * 12 / height) as i32;
            let value = if in_hole(x as i32, y as i32, height as i32) {
                16 + grain / 2
            } else {
                paper + grain
            };
            pixels.push(value.clamp(0, 255) as u16);
        }
    }
    Picture {
        width,
        height,
        depth: 8,
        pixels,
    }
}

/// Tracks run down the roll; whether a place of a track is punched is settled
/// by a small sum, so that the sample is the same everywhere.
fn in_hole(x: i32, y: i32, height: i32) -> bool {
    let dense = y > height / 2;
    let (pitch, radius) = if dense { (8, 3) } else { (16, 5) };
    let (track, row) = (x / pitch, y / pitch);
    let punched = if dense {
        (track * 5 + row * 3) % 7 < 5
    } else {
        (track * 7 + row * row * 3) % 11 < 3
    };
    let (dx, dy) = (x - track * pitch - pitch / 2, y - row * pitch - pitch / 2);
    punched && dx * dx + dy * dy <= radius * radius
}

#[cfg(test)]
mod tests {
    use super::*;

    #[test]
    fn the_tables_do_what_their_names_say() {
        let files = files(&Progress::silent()).unwrap();
        let number = |name: &str| {
            let (_, bytes) = files.iter().find(|(n, _)| *n == name).unwrap();
            match suzdrepa::check_table(bytes) {
                Ok(()) => 0,
                Err(refusal) => refusal.number(),
            }
        };
        assert_eq!(number("church.table"), 0);
        assert_eq!(number("museum.table"), 0);
        assert_eq!(number("archive.table"), 0);
        let viewable = |name: &str| {
            let (_, bytes) = files.iter().find(|(n, _)| *n == name).unwrap();
            suzdrepa::table_view(bytes)
        };
        assert_eq!(viewable("archive.table"), Ok(()));
        assert_eq!(viewable("church.table"), Err(Refusal::NotViewable));
        assert_eq!(viewable("museum.table"), Err(Refusal::NotViewable));
        assert_eq!(number("board.table"), 0);
        let table = |name: &str| {
            let (_, bytes) = files.iter().find(|(n, _)| *n == name).unwrap();
            WidthTable::from_bytes(bytes).unwrap()
        };
        assert!(table("board.table").has_products());
        assert_eq!(
            table("board.table").without_products(),
            table("church.table")
        );
        assert_eq!(number("refused6.table"), 6);
        assert_eq!(number("refused7.table"), 7);
    }

    #[test]
    fn the_picture_has_paper_and_holes() {
        let picture = roll(640, 512);
        assert_eq!(picture.pixels.len(), 640 * 512);
        let dark = picture.pixels.iter().filter(|&&p| p < 30).count();
        let light = picture.pixels.iter().filter(|&&p| p > 190).count();
        assert_eq!(dark + light, picture.pixels.len());
        assert!(dark > picture.pixels.len() / 20 && light > picture.pixels.len() / 2);
    }
}
