//! What a file is by its first bytes, so that a file of another kind is told by its name.

/// Where bytes stand that only one kind of file has, and what that file is, behind its name.
const MARKS: [(usize, &[u8], &str); 40] = [
    (0, b"YUV4MPEG2", "is a Y4M; record reads it"),
    (4, b"ftypqt", "is a MOV file (QuickTime)"),
    (4, b"ftypavif", "is an AVIF picture"),
    (4, b"ftyphei", "is a HEIF picture"),
    (4, b"ftyp", "is an MP4 or MOV file"),
    (4, b"moov", "is a MOV file (QuickTime)"),
    (4, b"mdat", "is a MOV file (QuickTime)"),
    (4, b"wide", "is a MOV file (QuickTime)"),
    (0, b"\x1a\x45\xdf\xa3", "is a Matroska or WebM file"),
    (8, b"AVI ", "is an AVI file"),
    (8, b"WAVE", "is a WAV file"),
    (8, b"WEBP", "is a WebP picture"),
    (0, b"RIFF", "is a RIFF file"),
    (0, b"\x89PNG\r\n\x1a\n", "is a PNG picture"),
    (0, b"\xff\xd8\xff", "is a JPEG picture"),
    (0, b"II*\0", "is a TIFF picture"),
    (0, b"MM\0*", "is a TIFF picture"),
    (0, b"II+\0", "is a TIFF picture"),
    (0, b"MM\0+", "is a TIFF picture"),
    (0, b"GIF87a", "is a GIF picture"),
    (0, b"GIF89a", "is a GIF picture"),
    (0, b"SDPX", "is a DPX picture"),
    (0, b"XPDS", "is a DPX picture"),
    (0, b"\x76\x2f\x31\x01", "is an OpenEXR picture"),
    (0, b"PK\x03\x04", "is a ZIP file"),
    (0, b"PK\x05\x06", "is a ZIP file"),
    (0, b"\x1f\x8b", "is a gzip file"),
    (0, b"\xfd7zXZ\0", "is an xz file"),
    (0, b"\x28\xb5\x2f\xfd", "is a Zstandard file"),
    (0, b"BZh", "is a bzip2 file"),
    (0, b"7z\xbc\xaf\x27\x1c", "is a 7-Zip file"),
    (0, b"\x06\x0e\x2b\x34\x02\x05", "is an MXF file"),
    (0, b"OggS", "is an Ogg file"),
    (0, b"FLV\x01", "is an FLV file"),
    (0, b"DKIF", "is an IVF file"),
    (0, b"%PDF-", "is a PDF"),
    (0, b"\x7fELF", "is a program"),
    (0, b"\0\0\x01\xba", "is an MPEG program stream"),
    (0, b"\0\0\x01\xb3", "is an MPEG-1 or MPEG-2 video stream"),
    (0, b"\0\0\0\x01\x40\x01", "is an H.265 byte stream"),
];

/// How many of a file's first bytes are worth looking at.
pub const FIRST: usize = 1024;

/// What a file is that no H.264 is, in words that follow its name. None: that can't be told, or it
/// may be H.264.
pub fn told(first: &[u8]) -> Option<&'static str> {
    if first.is_empty() {
        return Some("is empty");
    }
    if is_transport(first, 188, 0) || is_transport(first, 192, 4) {
        return Some("is an MPEG transport stream");
    }
    let stands = |(at, mark, _): &&(usize, &[u8], _)| {
        first.get(*at..).is_some_and(|first| first.starts_with(mark))
    };
    MARKS.iter().find(stands).map(|(_, _, words)| *words)
}

/// Packets of a transport stream begin with 47, every 188 bytes, and with four bytes before them on
/// some disks.
fn is_transport(first: &[u8], packet: usize, before: usize) -> bool {
    first.len() >= packet && first.iter().skip(before).step_by(packet).all(|byte| *byte == 0x47)
}

/// Whether a file begins as an H.264 byte stream does: with a start code and a unit's first byte.
pub fn is_byte_stream(first: &[u8]) -> bool {
    let zeros = first.iter().take_while(|byte| **byte == 0).count();
    match first.get(zeros..) {
        Some([1, header, ..]) if zeros >= 2 => header >> 7 == 0 && matches!(header & 31, 1..=12),
        _ => false,
    }
}

#[cfg(test)]
mod tests {
    use super::*;

    #[test]
    fn first_bytes() {
        let mut transport = [0; 600];
        for at in [0, 188, 376, 564] {
            transport[at] = 0x47;
        }
        let disk: Vec<u8> =
            transport[..188].chunks(188).flat_map(|p| [&[0; 4], p].concat()).collect();
        for (first, wanted) in [
            (&b""[..], Some("is empty")),
            (b"YUV4MPEG2 W2 H2\n", Some("is a Y4M; record reads it")),
            (b"\0\0\0\x20ftypisom\0\0\x02\0", Some("is an MP4 or MOV file")),
            (b"\0\0\0\x14ftypqt  ", Some("is a MOV file (QuickTime)")),
            (b"RIFF\x10\0\0\0AVI LIST", Some("is an AVI file")),
            (b"RIFF....", Some("is a RIFF file")),
            (b"\0\0\x01\xba\x44", Some("is an MPEG program stream")),
            (&transport, Some("is an MPEG transport stream")),
            (&disk.repeat(3), Some("is an MPEG transport stream")),
            (&transport[..187], None),
            (b"Good morning", None),
            (b"\0\0\0\x01\x67\x42", None),
            (b"\0", None),
        ] {
            assert_eq!(told(first), wanted, "{first:?}");
        }
        transport[188] = 0;
        assert_eq!(told(&transport), None);
        // No mark hides another one behind it.
        for (at, mark, words) in MARKS {
            let bytes = [&vec![b'x'; at], mark, b"tail"].concat();
            assert_eq!(told(&bytes), Some(words), "{mark:?}");
        }
    }

    #[test]
    fn byte_streams() {
        for (first, wanted) in [
            (&b"\0\0\x01\x67\x42"[..], true),
            (b"\0\0\0\0\x01\x09\xf0", true),
            (b"\0\0\x01\x25", true),
            (b"\0\x01\x67", false),
            (b"\0\0\x01", false),
            (b"\0\0\x01\xba", false),
            (b"\0\0\0\x01\x40\x01", false),
            (b"\0\0\0\x20ftyp", false),
            (b"", false),
        ] {
            assert_eq!(is_byte_stream(first), wanted, "{first:?}");
        }
    }
}
