//! Grey pictures as PGM files (P5): one byte a pixel up to a largest value of
//! 255, two bytes, high byte first, up to 4095.

use crate::counted;
use std::io::{BufRead, ErrorKind, Read};
use suzdrepa::WidthTable;

/// The maximum of a pixel.
const MAX_PIXEL: u32 = (1 << WidthTable::MAX_DEPTH) - 1;

/// A grey picture.
#[derive(Clone, Debug, PartialEq, Eq)]
pub struct Picture {
    pub width: usize,
    pub height: usize,
    /// Bits of a pixel, 1 to 12.
    pub depth: u8,
    /// Row by row.
    pub pixels: Vec<u16>,
}

/// The number of bits that a value takes.
fn bits(value: u32) -> u8 {
    (32 - value.leading_zeros()) as u8
}

/// The next byte, which is not taken.
fn peek(from: &mut impl BufRead) -> Result<Option<u8>, String> {
    loop {
        match from.fill_buf() {
            Ok(bytes) => return Ok(bytes.first().copied()),
            Err(error) if error.kind() == ErrorKind::Interrupted => {}
            Err(error) => return Err(error.to_string()),
        }
    }
}

/// Skips white space and comments.
fn skip_space(from: &mut impl BufRead) -> Result<(), String> {
    let mut comment = false;
    while let Some(byte) = peek(from)? {
        match byte {
            b'#' => comment = true,
            b'\n' => comment = false,
            _ if comment || byte.is_ascii_whitespace() => {}
            _ => return Ok(()),
        }
        from.consume(1);
    }
    Ok(())
}

/// The next number of a head.
fn number(from: &mut impl BufRead, name: &str) -> Result<u32, String> {
    let wrong = || format!("the PGM head has no right {name}");
    skip_space(from)?;
    let mut number: Option<u32> = None;
    while let Some(digit) = peek(from)?.filter(u8::is_ascii_digit) {
        let tens = number.unwrap_or(0).checked_mul(10);
        let next = tens.and_then(|tens| tens.checked_add(u32::from(digit - b'0')));
        number = Some(next.ok_or_else(wrong)?);
        from.consume(1);
    }
    number.ok_or_else(wrong)
}

/// What stands before the pixels.
#[derive(Clone, Copy)]
struct Head {
    width: usize,
    height: usize,
    largest: u32,
}

impl Head {
    /// Reads the head and the white space that parts it from the pixels.
    fn read(from: &mut impl BufRead) -> Result<Head, String> {
        let other = "not a PGM file (P5)";
        for due in *b"P5" {
            if peek(from)? != Some(due) {
                return Err(other.into());
            }
            from.consume(1);
        }
        if !peek(from)?.is_some_and(|b| b.is_ascii_whitespace()) {
            return Err(other.into());
        }
        let width = number(from, "width")? as usize;
        let height = number(from, "height")? as usize;
        let largest = number(from, "largest value")?;
        if !(1..=MAX_PIXEL).contains(&largest) {
            return Err(format!(
                "the PGM's largest value is {largest}; 1 to {MAX_PIXEL} ({} bits) are read",
                WidthTable::MAX_DEPTH
            ));
        }
        if !peek(from)?.is_some_and(|b| b.is_ascii_whitespace()) {
            return Err("the PGM ends within its head".into());
        }
        from.consume(1);
        Ok(Head {
            width,
            height,
            largest,
        })
    }

    /// The depth: the bits of the largest value.
    fn depth(&self) -> u8 {
        bits(self.largest)
    }

    /// The bytes of so many pixels.
    fn bytes_of(&self, pixels: usize) -> Option<usize> {
        pixels.checked_mul(if self.largest > 255 { 2 } else { 1 })
    }

    /// Pixels from their bytes, the first one at the start of a row; none is
    /// above the largest value.
    fn pixels(&self, bytes: &[u8], row: usize) -> Result<Vec<u16>, String> {
        let pixels: Vec<u16> = if self.largest > 255 {
            bytes
                .chunks_exact(2)
                .map(|pair| u16::from_be_bytes([pair[0], pair[1]]))
                .collect()
        } else {
            bytes.iter().map(|&byte| u16::from(byte)).collect()
        };
        if let Some(place) = pixels.iter().position(|&p| u32::from(p) > self.largest) {
            return Err(format!(
                "pixel {} in row {} of the PGM is above its largest value {}",
                place % self.width,
                row + place / self.width,
                self.largest
            ));
        }
        Ok(pixels)
    }
}

/// A PGM that is read row by row, with memory for one; its height may be any.
pub struct Rows<R> {
    from: R,
    head: Head,
    next: usize,
    bytes: Vec<u8>,
}

impl<R: BufRead> Rows<R> {
    /// Reads the head.
    pub fn new(mut from: R) -> Result<Rows<R>, String> {
        let head = Head::read(&mut from)?;
        Ok(Rows {
            from,
            head,
            next: 0,
            bytes: Vec::new(),
        })
    }

    pub fn width(&self) -> usize {
        self.head.width
    }

    pub fn height(&self) -> usize {
        self.head.height
    }

    /// Bits of a pixel, 1 to 12.
    pub fn depth(&self) -> u8 {
        self.head.depth()
    }

    /// The pixels of the next row, nothing after the last. A row that is not
    /// whole is named, and so is what follows the last one.
    pub fn next_row(&mut self) -> Result<Option<Vec<u16>>, String> {
        let row = self.next;
        if row == self.head.height {
            return match peek(&mut self.from)? {
                None => Ok(None),
                Some(_) => Err("bytes follow the PGM's pixels".into()),
            };
        }
        let due = self.head.bytes_of(self.head.width);
        let most = due.map_or(u64::MAX, |due| due as u64);
        self.bytes.clear();
        // No more memory is taken than there are bytes.
        let mut bytes = self.from.by_ref().take(most);
        bytes
            .read_to_end(&mut self.bytes)
            .map_err(|error| error.to_string())?;
        if due != Some(self.bytes.len()) {
            return Err(format!(
                "the PGM ends before its last pixel: row {row} of its {} is not whole",
                self.head.height
            ));
        }
        self.next += 1;
        self.head.pixels(&self.bytes, row).map(Some)
    }
}

impl Picture {
    pub fn read(bytes: &[u8]) -> Result<Picture, String> {
        let mut body = bytes;
        let head = Head::read(&mut body)?;
        let pixels = head.width.checked_mul(head.height);
        match pixels.and_then(|pixels| head.bytes_of(pixels)) {
            Some(due) if body.len() == due => {}
            Some(due) if body.len() > due => {
                return Err(format!(
                    "{} bytes follow the PGM's pixels",
                    body.len() - due
                ));
            }
            _ => return Err("the PGM ends before its last pixel".into()),
        }
        Ok(Picture {
            width: head.width,
            height: head.height,
            depth: head.depth(),
            pixels: head.pixels(body, 0)?,
        })
    }

    pub fn write(&self) -> Vec<u8> {
        let largest = (1u32 << self.depth) - 1;
        let mut bytes = format!("P5\n{} {}\n{largest}\n", self.width, self.height).into_bytes();
        for &pixel in &self.pixels {
            let pair = pixel.to_be_bytes();
            bytes.extend(if largest > 255 { &pair[..] } else { &pair[1..] });
        }
        bytes
    }

    /// Width, height and depth in words.
    pub fn shape(&self) -> String {
        let Picture {
            width,
            height,
            depth,
            ..
        } = self;
        format!("{width} x {height}, {}", counted(*depth, "bit"))
    }

    /// A picture of where this one and another of its size and depth differ,
    /// no difference black and the largest white, and the largest in greys.
    pub fn difference(&self, other: &Picture) -> (Picture, u16) {
        let off: Vec<u16> = (self.pixels.iter().zip(&other.pixels))
            .map(|(one, other)| one.abs_diff(*other))
            .collect();
        let most = off.iter().copied().max().unwrap_or(0);
        let white = (1 << self.depth) - 1;
        let drawn = |&off: &u16| (u32::from(off) * white).div_ceil(u32::from(most.max(1))) as u16;
        let picture = Picture {
            pixels: off.iter().map(drawn).collect(),
            ..*self
        };
        (picture, most)
    }

    /// A part from the middle, at most `side` wide and high.
    pub fn middle(&self, side: usize) -> Picture {
        let (width, height) = (self.width.min(side), self.height.min(side));
        let (left, top) = ((self.width - width) / 2, (self.height - height) / 2);
        let rows = (top..top + height).flat_map(|y| {
            let start = y * self.width + left;
            self.pixels[start..start + width].iter().copied()
        });
        Picture {
            width,
            height,
            depth: self.depth,
            pixels: rows.collect(),
        }
    }
}

#[cfg(test)]
mod tests {
    use super::*;

    #[test]
    fn eight_bits_and_comments() {
        let bytes = b"P5 # paper\n3 # wide\n2\n#high\n255\n\x00\x01\x02\xfd\xfe\xff";
        let picture = Picture::read(bytes).unwrap();
        assert_eq!((picture.width, picture.height, picture.depth), (3, 2, 8));
        assert_eq!(picture.pixels, [0, 1, 2, 253, 254, 255]);
        assert_eq!(
            picture.write(),
            b"P5\n3 2\n255\n\x00\x01\x02\xfd\xfe\xff".to_vec()
        );
    }

    #[test]
    fn twelve_bits_high_byte_first() {
        let bytes = b"P5\n2 1\n4095\n\x0f\xff\x01\x02";
        let picture = Picture::read(bytes).unwrap();
        assert_eq!(picture.depth, 12);
        assert_eq!(picture.pixels, [4095, 258]);
        assert_eq!(picture.write(), bytes);
    }

    #[test]
    fn depth_is_the_bits_of_the_largest_value() {
        for (largest, depth) in [
            (1, 1),
            (2, 2),
            (3, 2),
            (15, 4),
            (200, 8),
            (256, 9),
            (2048, 12),
        ] {
            let mut bytes = format!("P5 1 1 {largest}\n").into_bytes();
            bytes.extend(if largest > 255 { &[0, 1][..] } else { &[1][..] });
            assert_eq!(Picture::read(&bytes).unwrap().depth, depth);
        }
    }

    #[test]
    fn damaged_files_are_told() {
        for (bytes, text) in [
            (&b""[..], "not a PGM"),
            (b"P6\n1 1\n255\n\x00", "not a PGM"),
            (b"P55 1 255\n\x00", "not a PGM"),
            (b"P5\n", "width"),
            (b"P5\n-1 1\n255\n\x00", "width"),
            (b"P5\n99999999999 1\n255\n\x00", "width"),
            (b"P5\n1 x\n255\n\x00", "height"),
            (b"P5\n1 1\n\n", "largest value"),
            (b"P5\n1 1\n0\n\x00", "largest value is 0"),
            (b"P5\n1 1\n4096\n\x00\x00", "largest value is 4096"),
            (b"P5\n1 1\n255", "within its head"),
            (b"P5\n1 1\n255\n", "last pixel"),
            (b"P5\n2 2\n255\n\x00\x00\x00", "last pixel"),
            (b"P5\n1 1\n256\n\x00", "last pixel"),
            (b"P5\n4294967295 4294967295\n4095\n\x00", "last pixel"),
            (b"P5\n1 1\n255\n\x00\x00", "1 bytes follow"),
            (b"P5\n2 1\n200\n\x00\xff", "pixel 1 in row 0"),
        ] {
            let error = Picture::read(bytes).unwrap_err();
            assert!(error.contains(text), "{error} / {text}");
        }
    }

    #[test]
    fn every_cut_of_a_file_is_told() {
        let whole = b"P5 # c\n3 2\n1023\n\x00\x01\x00\x02\x00\x03\x00\x04\x00\x05\x03\xff";
        assert!(Picture::read(whole).is_ok());
        for length in 0..whole.len() {
            assert!(Picture::read(&whole[..length]).is_err());
        }
    }

    /// Every row, or why there is none.
    fn rows(from: impl BufRead) -> Result<Vec<Vec<u16>>, String> {
        let mut rows = Rows::new(from)?;
        let mut read = Vec::new();
        while let Some(row) = rows.next_row()? {
            assert_eq!(row.len(), rows.width());
            read.push(row);
        }
        assert_eq!(read.len(), rows.height());
        assert_eq!(rows.next_row(), Ok(None));
        Ok(read)
    }

    /// A reader that gives one byte at a time, and is interrupted before each.
    struct Halting<'a>(&'a [u8], bool);

    impl std::io::Read for Halting<'_> {
        fn read(&mut self, into: &mut [u8]) -> std::io::Result<usize> {
            self.1 = !self.1;
            if self.1 {
                return Err(ErrorKind::Interrupted.into());
            }
            let count = into.len().min(1);
            self.0.read(&mut into[..count])
        }
    }

    #[test]
    fn rows_are_those_of_the_picture() {
        for bytes in [
            &b"P5 # paper\n3 # wide\n2\n#high\n255\n\x00\x01\x02\xfd\xfe\xff"[..],
            b"P5\n2 3\n4095\n\x0f\xff\x01\x02\0\0\0\x01\0\x02\0\x03",
            b"P5 1 1 1\n\x01",
            b"P5 4 0 1\n",
            b"P5 0 2 1\n",
        ] {
            let picture = Picture::read(bytes).unwrap();
            let read = rows(bytes).unwrap();
            assert_eq!(read.concat(), picture.pixels);
            assert_eq!(read.len(), picture.height);
            let halting = std::io::BufReader::with_capacity(1, Halting(bytes, false));
            assert_eq!(rows(halting), Ok(read));
        }
    }

    /// What is told of a picture is told of its rows, but where it says more.
    #[test]
    fn damaged_rows_are_told() {
        let whole = b"P5\n2 3\n255\n\x00\x01\x02\x03\x04\x05";
        let head = whole.len() - 6;
        for length in 0..whole.len() {
            let error = rows(&whole[..length]).unwrap_err();
            if length < head {
                assert_eq!(Err(error), Picture::read(&whole[..length]).map(|_| ()));
                continue;
            }
            let row = (length - head) / 2;
            let due = "the PGM ends before its last pixel: row ";
            assert_eq!(error, format!("{due}{row} of its 3 is not whole"));
        }
        let long = [&whole[..], b"\n"].concat();
        assert_eq!(rows(&long[..]), Err("bytes follow the PGM's pixels".into()));
        let light = b"P5\n2 2\n200\n\x00\x00\x00\xff";
        let error = rows(&light[..]).unwrap_err();
        assert!(error.starts_with("pixel 1 in row 1 "), "{error}");
        assert_eq!(Err(error), Picture::read(light).map(|_| ()));
        // A width that is only announced takes no memory.
        let wide = b"P5\n4294967295 4294967295\n4095\n\x00";
        assert!(rows(&wide[..]).unwrap_err().contains("row 0 of its 42949"));
    }

    #[test]
    fn the_difference_of_two_pictures() {
        let picture = |pixels: [u16; 4]| Picture {
            width: 2,
            height: 2,
            depth: 8,
            pixels: pixels.to_vec(),
        };
        let one = picture([0, 10, 200, 255]);
        assert_eq!(one.difference(&one), (picture([0; 4]), 0));
        // 255 / 3 is 85, and a difference is never drawn as none.
        let other = picture([0, 11, 198, 252]);
        assert_eq!(one.difference(&other), (picture([0, 85, 170, 255]), 3));
        let far = picture([255, 11, 200, 255]);
        assert_eq!(one.difference(&far), (picture([255, 1, 0, 0]), 255));
        assert_eq!(one.shape(), "2 x 2, 8 bits");
    }

    #[test]
    fn the_middle_of_a_picture() {
        let picture = Picture {
            width: 5,
            height: 3,
            depth: 4,
            pixels: (0..15).collect(),
        };
        assert_eq!(picture.middle(9), picture);
        let middle = picture.middle(2);
        assert_eq!((middle.width, middle.height), (2, 2));
        assert_eq!(middle.pixels, [1, 2, 6, 7]);
    }
}
