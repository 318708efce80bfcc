//! The library's exports, as `include/reelpony.h` declares them, and the only unsafe code.
//!
//! The functions here take numbers as the exports do, so that a test can pass a colour, a depth or
//! a reader's state that doesn't exist. Other callers use those of the crate itself.

extern "C" {
    fn reelpony_start(
        width: u32,
        height: u32,
        colour: u32,
        y: *const u8,
        y_len: usize,
        y_stride: usize,
        y_depth: u32,
        cb: *const u8,
        cb_len: usize,
        cb_stride: usize,
        cb_depth: u32,
        cr: *const u8,
        cr_len: usize,
        cr_stride: usize,
        cr_depth: u32,
        out: *mut u8,
        out_len: usize,
        session: &mut [u32; 8],
        length: &mut u64,
    ) -> u32;

    fn reelpony_next(
        width: u32,
        height: u32,
        colour: u32,
        y: *const u8,
        y_len: usize,
        y_stride: usize,
        y_depth: u32,
        cb: *const u8,
        cb_len: usize,
        cb_stride: usize,
        cb_depth: u32,
        cr: *const u8,
        cr_len: usize,
        cr_stride: usize,
        cr_depth: u32,
        out: *mut u8,
        out_len: usize,
        session: &mut [u32; 8],
        length: &mut u64,
    ) -> u32;

    fn reelpony_room(width: u32, height: u32, colour: u32, depth: u32) -> u64;

    fn reelpony_read(
        take: *const u8,
        take_len: usize,
        y: *mut u8,
        y_len: usize,
        cb: *mut u8,
        cb_len: usize,
        cr: *mut u8,
        cr_len: usize,
        reader: &mut [u64; 8],
        answer: &mut [u64; 8],
    ) -> u32;

    fn reelpony_plane_len(reader: &[u64; 8], plane: u32) -> u64;

    fn reelpony_escape(
        payload: *const u8,
        payload_len: usize,
        out: *mut u8,
        out_len: usize,
        length: &mut u64,
    ) -> u32;

    fn reelpony_unescape(
        payload: *const u8,
        payload_len: usize,
        out: *mut u8,
        out_len: usize,
        length: &mut u64,
    ) -> u32;

    fn reelpony_write_ue(
        buffer: *mut u8,
        buffer_len: usize,
        place: u64,
        x: u32,
        behind: &mut u64,
    ) -> u32;

    fn reelpony_write_se(
        buffer: *mut u8,
        buffer_len: usize,
        place: u64,
        x: i32,
        behind: &mut u64,
    ) -> u32;

    fn reelpony_read_ue(
        payload: *const u8,
        payload_len: usize,
        place: u64,
        x: &mut u32,
        behind: &mut u64,
    ) -> u32;

    fn reelpony_read_se(
        payload: *const u8,
        payload_len: usize,
        place: u64,
        x: &mut i32,
        behind: &mut u64,
    ) -> u32;
}

/// A plane with its depth as a number.
#[derive(Clone, Copy)]
pub struct Plane<'a> {
    /// Its rows, `stride` bytes each.
    pub bytes: &'a [u8],
    /// Bytes from one row's begin to the next one's.
    pub stride: usize,
    /// Bits a sample.
    pub depth: u32,
}

/// A picture with its kind as a number.
#[derive(Clone, Copy)]
pub struct Picture<'a> {
    /// Visible samples in a row of Y.
    pub width: u32,
    /// Visible rows of Y.
    pub height: u32,
    /// 0: monochrome; 1: 4:2:0.
    pub colour: u32,
    /// Y, Cb, Cr.
    pub planes: [Plane<'a>; 3],
}

/// What a call that writes bytes answers.
#[derive(Clone, Copy, Debug, PartialEq, Eq)]
pub struct Answer {
    /// 0 for accepted, otherwise the refusal.
    pub number: u32,
    /// The length written, or needed with refusal 9, or 0.
    pub length: u64,
}

/// What a call of the reader answers.
#[derive(Clone, Copy, Debug, PartialEq, Eq)]
pub struct ReadAnswer {
    /// 0 for none, otherwise the refusal.
    pub number: u32,
    /// What it is (0 end, 1 SPS, 2 PPS, 3 picture, 4 refusal), its offset, an SPS's width, height,
    /// colour and depth, the refusal's number, and a spare one. What an answer doesn't have is 0.
    pub words: [u64; 8],
}

/// What a call on one code answers.
#[derive(Clone, Copy, Debug, PartialEq, Eq)]
pub struct CodeAnswer<T> {
    /// 0 for accepted, otherwise the refusal.
    pub number: u32,
    /// The number of the code, where one was read.
    pub x: T,
    /// The place behind the code; refused: the place given.
    pub behind: u64,
}

/// `reelpony_start`: parameter sets and a first picture.
pub fn start(picture: &Picture, out: &mut [u8], session: &mut [u32; 8]) -> Answer {
    call(false, picture, out, session)
}

/// `reelpony_next`: one more picture of the session's take.
pub fn next(picture: &Picture, out: &mut [u8], session: &mut [u32; 8]) -> Answer {
    call(true, picture, out, session)
}

/// Either export. The length begins as one that no call answers, so that a call which doesn't set
/// it would be seen.
fn call(next: bool, picture: &Picture, out: &mut [u8], session: &mut [u32; 8]) -> Answer {
    let export = if next { reelpony_next } else { reelpony_start };
    let [y, cb, cr] = picture.planes;
    let mut length = u64::MAX;
    // Sound for any numbers: the exports are proved to touch the lent bytes alone, each pointer
    // comes from a slice with its length and so isn't null, and `out`, `session` and `length` are
    // borrowed for this call only.
    let number = unsafe {
        export(
            picture.width,
            picture.height,
            picture.colour,
            y.bytes.as_ptr(),
            y.bytes.len(),
            y.stride,
            y.depth,
            cb.bytes.as_ptr(),
            cb.bytes.len(),
            cb.stride,
            cb.depth,
            cr.bytes.as_ptr(),
            cr.bytes.len(),
            cr.stride,
            cr.depth,
            out.as_mut_ptr(),
            out.len(),
            session,
            &mut length,
        )
    };
    Answer { number, length }
}

/// `reelpony_room`: a length of `out` with which neither call is refused with 9.
pub fn room(width: u32, height: u32, colour: u32, depth: u32) -> u64 {
    // Sound for any numbers: nothing is lent.
    unsafe { reelpony_room(width, height, colour, depth) }
}

/// `reelpony_read`: the next thing in a take. The state is the place, whether an SPS is held, its
/// width, height, colour and depth, whether a PPS is held, and a spare number. The answer begins
/// as words that no call gives.
pub fn read(take: &[u8], planes: [&mut [u8]; 3], reader: &mut [u64; 8]) -> ReadAnswer {
    let [y, cb, cr] = planes;
    let mut words = [u64::MAX; 8];
    // Sound for any numbers and bytes: as above, and the take is only read.
    let number = unsafe {
        reelpony_read(
            take.as_ptr(),
            take.len(),
            y.as_mut_ptr(),
            y.len(),
            cb.as_mut_ptr(),
            cb.len(),
            cr.as_mut_ptr(),
            cr.len(),
            reader,
            &mut words,
        )
    };
    ReadAnswer { number, words }
}

/// `reelpony_plane_len`: the length that a plane must have for a picture in this state.
pub fn plane_len(reader: &[u64; 8], plane: u32) -> u64 {
    // Sound for any numbers: eight of them are read.
    unsafe { reelpony_plane_len(reader, plane) }
}

/// `reelpony_escape`: a payload with the bytes inserted that keep start codes out of it.
pub fn escape(payload: &[u8], out: &mut [u8]) -> Answer {
    let mut length = u64::MAX;
    let (from, to) = (payload.as_ptr(), out.as_mut_ptr());
    // Sound: as above.
    let number = unsafe { reelpony_escape(from, payload.len(), to, out.len(), &mut length) };
    Answer { number, length }
}

/// `reelpony_unescape`: a payload without them.
pub fn unescape(payload: &[u8], out: &mut [u8]) -> Answer {
    let mut length = u64::MAX;
    let (from, to) = (payload.as_ptr(), out.as_mut_ptr());
    // Sound: as above.
    let number = unsafe { reelpony_unescape(from, payload.len(), to, out.len(), &mut length) };
    Answer { number, length }
}

/// `reelpony_write_ue`: the unsigned code of a number, at a bit place.
pub fn write_ue(buffer: &mut [u8], place: u64, x: u32) -> CodeAnswer<()> {
    let mut behind = u64::MAX;
    let (begin, length) = (buffer.as_mut_ptr(), buffer.len());
    // Sound: as above, for any place.
    let number = unsafe { reelpony_write_ue(begin, length, place, x, &mut behind) };
    CodeAnswer { number, x: (), behind }
}

/// `reelpony_write_se`: the signed code.
pub fn write_se(buffer: &mut [u8], place: u64, x: i32) -> CodeAnswer<()> {
    let mut behind = u64::MAX;
    let (begin, length) = (buffer.as_mut_ptr(), buffer.len());
    // Sound: as above, for any place.
    let number = unsafe { reelpony_write_se(begin, length, place, x, &mut behind) };
    CodeAnswer { number, x: (), behind }
}

/// `reelpony_read_ue`: the number whose unsigned code stands at a bit place. `x` is what a refusal
/// leaves.
pub fn read_ue(payload: &[u8], place: u64, mut x: u32) -> CodeAnswer<u32> {
    let mut behind = u64::MAX;
    let (begin, length) = (payload.as_ptr(), payload.len());
    // Sound: as above, for any place.
    let number = unsafe { reelpony_read_ue(begin, length, place, &mut x, &mut behind) };
    CodeAnswer { number, x, behind }
}

/// `reelpony_read_se`: the same for the signed code.
pub fn read_se(payload: &[u8], place: u64, mut x: i32) -> CodeAnswer<i32> {
    let mut behind = u64::MAX;
    let (begin, length) = (payload.as_ptr(), payload.len());
    // Sound: as above, for any place.
    let number = unsafe { reelpony_read_se(begin, length, place, &mut x, &mut behind) };
    CodeAnswer { number, x, behind }
}

/// The linker compares names alone, so this holds the declarations above, those of the proved source
/// and the library's names to the header's.
#[cfg(test)]
mod tests {
    use std::path::Path;
    use std::{env, fs, str};

    /// A parameter's name, and its type in Rust's words.
    type Parameter = (String, String);

    /// C's text without its comments.
    fn without_comments(text: &str) -> String {
        let mut kept = String::new();
        let mut rest = text;
        while let Some((code, comment)) = rest.split_once("/*") {
            kept += code;
            rest = comment.split_once("*/").expect("a comment that ends").1;
        }
        kept + rest
    }

    /// C's text without the functions that it defines itself.
    fn without_inline(text: &str) -> String {
        let mut parts = text.split("static inline ");
        let mut kept = parts.next().unwrap().to_string();
        for part in parts {
            kept += part.split_once("\n}\n").expect("a body that ends").1;
        }
        kept
    }

    /// A function's name, its parameters and its result.
    type Function = (String, Vec<Parameter>, String);

    /// The functions that a text declares, each up to a semicolon that ends a line. Rust's have a
    /// comma behind the last parameter where they take more than a line.
    fn functions(
        text: &str,
        parameter: fn(&str) -> Parameter,
        result: fn(&str, &str) -> String,
    ) -> Vec<Function> {
        let function = |text: &str| {
            let (before, text) = text.split_once(" reelpony_")?;
            let (name, text) = text.split_once('(').expect("a parenthesis");
            let (parameters, after) = text.rsplit_once(')').expect("its end");
            let parameters = parameters.trim().trim_end_matches(',').split(',');
            Some((name.into(), parameters.map(parameter).collect(), result(before, after)))
        };
        text.split(";\n").filter_map(function).collect()
    }

    /// `const uint8_t *y`, `uint32_t session[8]` and the like.
    fn from_c(parameter: &str) -> Parameter {
        let type_end = parameter.rfind(['*', ' ']).expect("a type") + 1;
        let (c_type, name) = parameter.split_at(type_end);
        let (name, length) = name.split_once('[').unwrap_or((name, ""));
        let rust_type = match (c_type.trim(), length.trim_end_matches(']')) {
            ("uint32_t", "") => "u32".to_string(),
            ("int32_t", "") => "i32".to_string(),
            ("uint64_t", "") => "u64".to_string(),
            ("size_t", "") => "usize".to_string(),
            ("const uint8_t *", "") => "*const u8".to_string(),
            ("uint8_t *", "") => "*mut u8".to_string(),
            ("uint32_t *", "") => "&mut u32".to_string(),
            ("int32_t *", "") => "&mut i32".to_string(),
            ("uint64_t *", "") => "&mut u64".to_string(),
            ("uint32_t", length) => format!("&mut [u32; {length}]"),
            ("uint64_t", length) => format!("&mut [u64; {length}]"),
            ("const uint64_t", length) => format!("&[u64; {length}]"),
            other => panic!("a type of the header that this test doesn't know: {other:?}"),
        };
        (name.to_string(), rust_type)
    }

    /// `y: *const u8` and the like.
    fn from_rust(parameter: &str) -> Parameter {
        let (name, rust_type) = parameter.trim().split_once(": ").expect("a colon");
        (name.to_string(), rust_type.to_string())
    }

    /// The functions that the header declares.
    fn in_header() -> Vec<Function> {
        let header = without_comments(include_str!("../../../include/reelpony.h"));
        let header = without_inline(&header);
        let result = |before: &str, _: &str| {
            let (_, word) = before.rsplit_once('\n').expect("a line of its own");
            word.replace("uint", "u").replace("_t", "")
        };
        let mut found = functions(&header, from_c, result);
        let mentions = header.matches(" reelpony_").count();
        assert_eq!(found.len(), mentions, "functions that were found in the header");
        found.sort();
        found
    }

    /// Both have the same functions, with the same parameters and results.
    fn assert_same(found: &[Function], header: &[Function]) {
        let names = |functions: &[Function]| -> Vec<String> {
            functions.iter().map(|(name, ..)| name.clone()).collect()
        };
        assert_eq!(names(found), names(header));
        for ((name, c, c_result), (_, other, result)) in header.iter().zip(found) {
            assert_eq!(result, c_result, "the result of {name}");
            assert_eq!(other.len(), c.len(), "parameters of {name}");
            for (c, other) in c.iter().zip(other) {
                assert_eq!(other, c, "a parameter of {name}");
            }
        }
    }

    #[test]
    fn declarations_are_the_headers() {
        let source = include_str!("ffi.rs").split_inclusive("\n}").next().unwrap();
        let mut found = functions(source, from_rust, |_, after| after.replace(" -> ", ""));
        let mentions = source.matches(" reelpony_").count();
        assert_eq!(found.len(), mentions, "functions that were found here");
        found.sort();
        assert_same(&found, &in_header());
    }

    /// A parameter of the proved source as C passes it: a slice is a pointer and a length, a
    /// reference a pointer, a number itself.
    fn from_rattle(parameter: &str) -> Vec<Parameter> {
        let (name, its_type) = from_rust(parameter);
        let pointer = match its_type.as_str() {
            "u32" | "i32" | "u64" | "usize" | "&mut u32" | "&mut i32" | "&mut u64"
            | "&mut [u32; 8]" | "&mut [u64; 8]" | "&[u64; 8]" => return vec![(name, its_type)],
            "&[u8]" => "*const u8",
            "&mut [u8]" => "*mut u8",
            other => panic!("a type of the source that this test doesn't know: {other:?}"),
        };
        let length = (format!("{name}_len"), "usize".to_string());
        vec![(name, pointer.to_string()), length]
    }

    /// The functions that a proved source exports under their own names.
    fn exports(source: &str) -> Vec<Function> {
        let begin = "#[unsafe(no_mangle)]\npub extern \"C\" fn reelpony_";
        let export = |text: &str| {
            let (name, text) = text.split_once('(').expect("a parenthesis");
            let (parameters, after) = text.split_once(')').expect("its end");
            let parameters = parameters.trim().trim_end_matches(',').split(',');
            let result = after.strip_prefix(" -> ").expect("a result").lines().next().unwrap();
            (name.into(), parameters.flat_map(from_rattle).collect(), result.into())
        };
        let found: Vec<Function> = source.split(begin).skip(1).map(export).collect();
        assert_eq!(found.len(), source.matches("extern \"C\"").count(), "exports found");
        assert_eq!(found.len(), source.matches("no_mangle").count(), "exports found");
        found
    }

    /// What the proofs are about is what the header declares: the types of crates/reelpony_c are the
    /// contracts' own.
    #[test]
    fn the_proved_source_is_the_headers() {
        let folder = common::root().join("crates/reelpony_c/src");
        let files = fs::read_dir(folder).unwrap().map(|file| file.unwrap().path());
        let sources = files.map(|file| fs::read_to_string(file).unwrap());
        let mut found: Vec<Function> = sources.flat_map(|source| exports(&source)).collect();
        found.sort();
        assert_same(&found, &in_header());
    }

    /// The names that the library defines for a linker: those of its index, a member that the
    /// archive begins with (a count and as many places, of four bytes each, then the names).
    fn symbols(archive: &[u8]) -> Vec<String> {
        let index = archive.strip_prefix(b"!<arch>\n/ ").expect("an archive with an index");
        let (head, rest) = index.split_at(60 - 2);
        let length: usize = str::from_utf8(&head[46..56]).unwrap().trim().parse().unwrap();
        let (count, rest) = rest[..length].split_at(4);
        let count = u32::from_be_bytes(count.try_into().unwrap()) as usize;
        let names = rest[4 * count..].split(|&byte| byte == 0).take(count);
        names.map(|name| String::from_utf8(name.to_vec()).unwrap()).collect()
    }

    /// The library defines what the header declares and nothing else.
    #[test]
    fn the_library_exports_what_the_header_declares() {
        let named = env::var_os("REELPONY_LIB_DIR").filter(|name| !name.is_empty());
        let folder = named.map_or(common::root().join("target/staticlib"), |name| {
            Path::new(env!("CARGO_MANIFEST_DIR")).join(name)
        });
        let mut found = symbols(&fs::read(folder.join("libreelpony.a")).unwrap());
        found.sort();
        let declared = in_header().into_iter().map(|(name, ..)| format!("reelpony_{name}"));
        assert_eq!(found, declared.collect::<Vec<_>>());
    }

    /// The header's version, as a text and in three numbers, is the crate's.
    #[test]
    fn version_is_the_headers() {
        let header = include_str!("../../../include/reelpony.h");
        let value = |name: &str| {
            let (_, rest) = header.split_once(&format!("#define {name} ")).expect(name);
            rest.lines().next().unwrap()
        };
        assert_eq!(value("REELPONY_VERSION"), format!("{:?}", env!("CARGO_PKG_VERSION")));
        assert_eq!(value("REELPONY_VERSION_MAJOR"), env!("CARGO_PKG_VERSION_MAJOR"));
        assert_eq!(value("REELPONY_VERSION_MINOR"), env!("CARGO_PKG_VERSION_MINOR"));
        assert_eq!(value("REELPONY_VERSION_PATCH"), env!("CARGO_PKG_VERSION_PATCH"));
    }
}
