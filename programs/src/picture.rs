//! A picture of zones: one colour of a fixed palette for each pixel, written as a plain PPM or as a PNG.

/// The colours: no data first, then zone numbers by what they leave when divided by 16, 0 to 15. The names
/// are those of the sample course for 1 to 8.
pub const PALETTE: [(&str, [u8; 3]); 17] = [
    ("no data, sea grey", [0xC9, 0xD8, 0xE0]),
    ("0, black", [0x20, 0x20, 0x20]),
    ("1, hole, heath", [0x8A, 0x8F, 0x5A]),
    ("2, rough, dark green", [0x4F, 0x7F, 0x3A]),
    ("3, fairway, green", [0x7F, 0xB8, 0x4E]),
    ("4, green, light green", [0xB9, 0xE2, 0x6D]),
    ("5, bunker, sand", [0xEE, 0xDD, 0x9B]),
    ("6, bunker, darker sand", [0xDD, 0xC4, 0x7A]),
    ("7, water, blue", [0x3E, 0x7C, 0xB8]),
    ("8, tee, olive", [0x9A, 0xB0, 0x2E]),
    ("9, red", [0xC6, 0x3D, 0x2F]),
    ("10, orange", [0xE0, 0x8A, 0x2C]),
    ("11, brown", [0x7A, 0x52, 0x30]),
    ("12, violet", [0x7E, 0x57, 0xA0]),
    ("13, pink", [0xD9, 0x7B, 0xA6]),
    ("14, teal", [0x2F, 0x9A, 0x90]),
    ("15, white", [0xFF, 0xFF, 0xFF]),
];

/// The place in the palette of a zone number or of no data.
pub fn colour(zone: Option<u32>) -> u8 {
    zone.map_or(0, |z| 1 + (z % 16) as u8)
}

/// Rows from the top, each from the left; a pixel is a place in the palette.
pub struct Picture {
    pub width: u32,
    pub height: u32,
    pub pixels: Vec<u8>,
}

impl Picture {
    /// The text form of PPM (P3), lines of at most five pixels.
    pub fn ppm(&self) -> Vec<u8> {
        let mut text = format!("P3\n{} {}\n255\n", self.width, self.height);
        for some in self.pixels.chunks(5) {
            let line: Vec<String> = some
                .iter()
                .map(|p| {
                    let [r, g, b] = PALETTE[usize::from(*p)].1;
                    format!("{r} {g} {b}")
                })
                .collect();
            text += &line.join(" ");
            text.push('\n');
        }
        text.into_bytes()
    }

    /// PNG with a palette, a byte for each pixel, not compressed.
    pub fn png(&self) -> Vec<u8> {
        let mut header = [self.width.to_be_bytes(), self.height.to_be_bytes()].concat();
        // eight bits, palette, and the one method there is of compression, filter and interlace
        header.extend([8, 3, 0, 0, 0]);
        let palette: Vec<u8> = PALETTE.iter().flat_map(|(_, rgb)| *rgb).collect();
        // a row starts with its filter: none
        let rows: Vec<u8> =
            self.pixels.chunks(self.width as usize).flat_map(|row| [&[0], row].concat()).collect();
        let mut bytes = b"\x89PNG\r\n\x1A\n".to_vec();
        for (name, content) in
            [(b"IHDR", header), (b"PLTE", palette), (b"IDAT", stored(&rows)), (b"IEND", vec![])]
        {
            bytes.extend((content.len() as u32).to_be_bytes());
            let chunk = [&name[..], &content].concat();
            bytes.extend(&chunk);
            bytes.extend(crc32(&chunk).to_be_bytes());
        }
        bytes
    }
}

/// Bytes as a zlib stream (RFC 1950) of stored blocks (RFC 1951).
fn stored(bytes: &[u8]) -> Vec<u8> {
    let mut stream = vec![0x78, 0x01];
    let blocks = bytes.chunks(65_535);
    let last = blocks.len().saturating_sub(1);
    for (i, block) in blocks.enumerate() {
        let size = block.len() as u16;
        stream.push(u8::from(i == last));
        stream.extend(size.to_le_bytes());
        stream.extend((!size).to_le_bytes());
        stream.extend(block);
    }
    stream.extend(adler32(bytes).to_be_bytes());
    stream
}

fn adler32(bytes: &[u8]) -> u32 {
    let (a, b) = bytes.iter().fold((1, 0), |(a, b), byte| {
        let a = (a + u32::from(*byte)) % 65_521;
        (a, (b + a) % 65_521)
    });
    b << 16 | a
}

fn crc32(bytes: &[u8]) -> u32 {
    let step = |crc: u32| {
        if crc & 1 == 1 {
            crc >> 1 ^ 0xEDB8_8320
        } else {
            crc >> 1
        }
    };
    !bytes.iter().fold(!0, |crc, byte| (0..8).fold(crc ^ u32::from(*byte), |c, _| step(c)))
}

#[cfg(test)]
mod tests {
    use super::*;

    #[test]
    fn sums() {
        // the check values of the two sums' own descriptions
        assert_eq!(crc32(b"123456789"), 0xCBF4_3926);
        assert_eq!(crc32(b"IEND"), 0xAE42_6082);
        assert_eq!(adler32(b"Wikipedia"), 0x11E6_0398);
    }

    #[test]
    fn colours() {
        assert_eq!(colour(None), 0);
        assert_eq!(colour(Some(0)), 1);
        assert_eq!(colour(Some(15)), 16);
        assert_eq!(colour(Some(16)), 1);
        assert_eq!(colour(Some(u32::MAX)), 16);
    }

    #[test]
    fn ppm_of_six_pixels() {
        let picture = Picture { width: 3, height: 2, pixels: vec![0, 1, 2, 3, 4, 16] };
        let text = String::from_utf8(picture.ppm()).unwrap();
        assert_eq!(text, "P3\n3 2\n255\n201 216 224 32 32 32 138 143 90 79 127 58 127 184 78\n255 255 255\n");
        assert!(text.lines().all(|line| line.len() <= 70));
    }

    #[test]
    fn png_of_one_pixel() {
        let bytes = Picture { width: 1, height: 1, pixels: vec![7] }.png();
        assert_eq!(bytes[..8], *b"\x89PNG\r\n\x1A\n");
        assert_eq!(
            bytes[8..33],
            *b"\x00\x00\x00\x0DIHDR\x00\x00\x00\x01\x00\x00\x00\x01\x08\x03\x00\x00\x00\x28\xCB\x34\xBB"
        );
        let content = [0x78, 0x01, 1, 2, 0, 0xFD, 0xFF, 0, 7, 0, 9, 0, 8];
        let at = bytes.windows(4).position(|w| w == b"IDAT").unwrap();
        assert_eq!(bytes[at + 4..at + 4 + content.len()], content);
    }

    #[test]
    fn stored_blocks_of_a_large_picture() {
        let bytes = vec![1; 65_535 * 2 + 3];
        let stream = stored(&bytes);
        assert_eq!(stream.len(), 2 + 3 * 5 + bytes.len() + 4);
        assert_eq!(stream[2..7], [0, 0xFF, 0xFF, 0, 0]);
        assert_eq!(stream[7 + 65_535..12 + 65_535], [0, 0xFF, 0xFF, 0, 0]);
        assert_eq!(stream[12 + 2 * 65_535..17 + 2 * 65_535], [1, 3, 0, 0xFC, 0xFF]);
    }
}
