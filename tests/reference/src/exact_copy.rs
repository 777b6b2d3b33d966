//! The exact-copy program: bytes in, text out.

use crate::places::side_admitted;
use crate::refusal::Refusal;
use crate::reversible53::{self, Order};

/// Pixels that the program has memory for.
pub const MEMORY: usize = 4096;

/// What the program prints for these bytes.
pub fn exact_copy(input: &[u8]) -> String {
    match listing(input) {
        Ok(text) => text,
        Err(refusal) => format!("refused {}\n", refusal.number),
    }
}

fn refuse<T>(number: u8) -> Result<T, Refusal> {
    Err(Refusal::plain(number))
}

fn listing(input: &[u8]) -> Result<String, Refusal> {
    if input.len() < 6 {
        return refuse(1);
    }
    let (head, body) = input.split_at(6);
    let (depth, levels) = (head[0], head[1]);
    if !(1..=12).contains(&depth) || !(1..=5).contains(&levels) {
        return refuse(4);
    }
    let pair = |bytes: &[u8]| u16::from(bytes[0]) * 256 + u16::from(bytes[1]);
    let width = usize::from(pair(&head[2..4]));
    let height = usize::from(pair(&head[4..6]));
    if !side_admitted(width) || !side_admitted(height) {
        return refuse(8);
    }
    let count = width * height;
    if count > MEMORY {
        return refuse(9);
    }
    if body.len() < 2 * count {
        return refuse(1);
    }
    if body.len() > 2 * count {
        return refuse(5);
    }
    let pixels: Vec<u16> = body.chunks(2).map(pair).collect();
    if pixels.iter().any(|&p| p >= 1 << depth) {
        return refuse(10);
    }
    let plane = reversible53::forward(Order::ColumnsFirst, depth, levels, &pixels, width, height);
    let mut text = format!("53 {depth} {levels} {width} {height}\n");
    for row in plane.chunks(width) {
        let numbers: Vec<String> = row.iter().map(|v| v.to_string()).collect();
        text += &numbers.join(" ");
        text += "\n";
    }
    Ok(text)
}

#[cfg(test)]
mod tests {
    use super::*;

    fn bytes(depth: u8, levels: u8, width: u16, height: u16, pixels: &[u16]) -> Vec<u8> {
        let mut bytes = vec![depth, levels];
        for number in [width, height].iter().chain(pixels) {
            bytes.extend(number.to_be_bytes());
        }
        bytes
    }

    #[test]
    fn the_listing_of_the_document() {
        let input = bytes(3, 1, 2, 2, &[5, 7, 4, 4]);
        assert_eq!(exact_copy(&input), "53 3 1 2 2\n2 1\n-2 -2\n");
    }

    #[test]
    fn strips_one_sample_wide() {
        let input = bytes(3, 5, 1, 1, &[6]);
        assert_eq!(exact_copy(&input), "53 3 5 1 1\n2\n");
        let input = bytes(3, 2, 1, 2, &[5, 7]);
        assert_eq!(exact_copy(&input), "53 3 2 1 2\n2\n2\n");
        let input = bytes(3, 2, 2, 1, &[5, 7]);
        assert_eq!(exact_copy(&input), "53 3 2 2 1\n2 2\n");
    }

    #[test]
    fn its_own_order() {
        assert_eq!(exact_copy(&[]), "refused 1\n");
        assert_eq!(exact_copy(&[0; 5]), "refused 1\n");
        assert_eq!(exact_copy(&[0; 6]), "refused 4\n");
        assert_eq!(exact_copy(&bytes(3, 6, 2, 2, &[])), "refused 4\n");
        for (width, height) in [(0, 3), (3, 0), (0, 0), (2, 4097), (4097, 1)] {
            for levels in 1..=5 {
                let text = exact_copy(&bytes(3, levels, width, height, &[]));
                assert_eq!(text, "refused 8\n");
            }
        }
        assert_eq!(exact_copy(&bytes(3, 2, 1, 4096, &[])), "refused 1\n");
        assert_eq!(exact_copy(&bytes(3, 1, 64, 65, &[])), "refused 9\n");
        assert_eq!(exact_copy(&bytes(3, 1, 64, 64, &[])), "refused 1\n");
        assert_eq!(exact_copy(&bytes(3, 1, 2, 2, &[8, 8, 8])), "refused 1\n");
        let mut long = bytes(3, 1, 2, 2, &[8, 8, 8, 8]);
        assert_eq!(exact_copy(&long), "refused 10\n");
        long.push(0);
        assert_eq!(exact_copy(&long), "refused 5\n");
        assert_eq!(
            exact_copy(&bytes(3, 1, 2, 2, &[7, 7, 7, 8])),
            "refused 10\n"
        );
    }
}
