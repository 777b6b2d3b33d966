//! Grey PNG files, 8 bits a pixel. The pixels are stored, not compressed.

/// The bytes of a PNG file of a picture, row by row.
pub fn grey(width: usize, height: usize, pixels: &[u8]) -> Vec<u8> {
    assert_eq!(pixels.len(), width * height);
    let mut head = Vec::new();
    head.extend((width as u32).to_be_bytes());
    head.extend((height as u32).to_be_bytes());
    // 8 bits, grey, the only compression, the only filter method, not interlaced
    head.extend([8, 0, 0, 0, 0]);

    // Each row starts with its filter: 0, none.
    let mut rows = Vec::with_capacity(pixels.len() + height);
    for row in pixels.chunks(width.max(1)) {
        rows.push(0);
        rows.extend(row);
    }

    let mut file = b"\x89PNG\r\n\x1a\n".to_vec();
    chunk(&mut file, b"IHDR", &head);
    chunk(&mut file, b"IDAT", &stored(&rows));
    chunk(&mut file, b"IEND", &[]);
    file
}

fn chunk(file: &mut Vec<u8>, kind: &[u8; 4], data: &[u8]) {
    file.extend((data.len() as u32).to_be_bytes());
    let start = file.len();
    file.extend(kind);
    file.extend(data);
    let sum = crc32(&file[start..]);
    file.extend(sum.to_be_bytes());
}

/// A zlib stream of stored blocks.
fn stored(data: &[u8]) -> Vec<u8> {
    let mut stream = vec![0x78, 0x01];
    let mut blocks = data.chunks(65535).peekable();
    while let Some(block) = blocks.next() {
        let last = blocks.peek().is_none();
        let length = block.len() as u16;
        stream.push(u8::from(last));
        stream.extend(length.to_le_bytes());
        stream.extend((!length).to_le_bytes());
        stream.extend(block);
    }
    stream.extend(adler32(data).to_be_bytes());
    stream
}

fn adler32(data: &[u8]) -> u32 {
    let (mut a, mut b) = (1u32, 0u32);
    for &byte in data {
        a = (a + u32::from(byte)) % 65521;
        b = (b + a) % 65521;
    }
    b << 16 | a
}

fn crc32(data: &[u8]) -> u32 {
    let mut table = [0u32; 256];
    for (byte, entry) in (0u32..).zip(table.iter_mut()) {
        *entry = (0..8).fold(byte, |c, _| {
            if c & 1 == 1 {
                0xEDB8_8320 ^ (c >> 1)
            } else {
                c >> 1
            }
        });
    }
    !data.iter().fold(!0u32, |c, &byte| {
        table[((c ^ u32::from(byte)) & 255) as usize] ^ (c >> 8)
    })
}

#[cfg(test)]
mod tests {
    use super::*;

    #[test]
    fn check_sums() {
        assert_eq!(crc32(b"123456789"), 0xCBF4_3926);
        assert_eq!(adler32(b"Wikipedia"), 0x11E6_0398);
    }

    #[test]
    fn chunks_of_a_small_picture() {
        let file = grey(3, 2, &[0, 1, 2, 253, 254, 255]);
        assert!(file.starts_with(b"\x89PNG\r\n\x1a\n\x00\x00\x00\x0dIHDR\x00\x00\x00\x03"));
        assert!(file.ends_with(b"\x00\x00\x00\x00IEND\xae\x42\x60\x82"));
        let rows = [0u8, 0, 1, 2, 0, 253, 254, 255];
        assert!(file.windows(rows.len()).any(|w| w == rows));
    }

    #[test]
    fn blocks_of_a_large_picture() {
        let data = vec![7u8; 65535 * 2 + 10];
        let stream = stored(&data);
        assert_eq!(stream.len(), 2 + data.len() + 3 * 5 + 4);
        assert_eq!(stream[2..7], [0, 255, 255, 0, 0]);
        assert_eq!(stream[2 + 2 * 65540..][..5], [1, 10, 0, 245, 255]);
    }
}
