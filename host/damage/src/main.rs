//! Gives the library's reader and a plain one the same takes, whole, cut and damaged, and bytes and
//! states of no meaning, and compares every answer, every number of the state and every byte of the
//! planes.
//!
//! Usage: damage [--seed N] [--part NAME] [--case N]
//!
//! --part runs one part only, --case one case of it again. Status 0: all alike; 1: a difference, or
//! too little was compared; 2: wrong usage.

mod call;
mod cases;
mod codes;
mod draw;
mod plain;

use std::process::ExitCode;

use call::{Call, Left, Smallest};
use common::Noise;
use draw::Take;
use plain::{Shape, Words, END, PICTURE, PPS, REFUSED, SPS};

/// What a case can find wrong, in words.
type Outcome<T> = Result<T, String>;

/// Cases of one sort.
struct Part {
    name: &'static str,
    cases: u64,
    run: fn(&mut Run, &mut Noise, u64) -> Outcome<()>,
}

const PARTS: [Part; 10] = [
    // Calls whose answers are written down.
    Part { name: "table", cases: 1, run: |run, _, _| run.table() },
    // Takes as the writer leaves them.
    Part { name: "takes", cases: 6000, run: |run, noise, _| run.small_take(noise) },
    // Every cut of a small take.
    Part { name: "cuts", cases: 120, run: |run, noise, _| run.cuts(noise) },
    // Takes with a stretch replaced.
    Part { name: "damage", cases: 12_000, run: |run, noise, _| run.damage(noise) },
    // Planes that are a byte short, then enough.
    Part { name: "planes", cases: 3000, run: |run, noise, _| run.short_planes(noise) },
    // Parameter sets, most of them wrong.
    Part { name: "sets", cases: 40_000, run: |run, noise, _| run.parameter_sets(noise) },
    // Bytes rich in start codes and units, read from any state.
    Part { name: "bytes", cases: 30_000, run: |run, noise, _| run.any_bytes(noise) },
    // Pictures with something changed, read from a state that holds both sets.
    Part { name: "pictures", cases: 15_000, run: |run, noise, _| run.pictures(noise) },
    // Escaping and codes.
    Part { name: "codes", cases: 100_000, run: |run, noise, _| run.codes(noise) },
    // Takes of the largest widths and heights.
    Part { name: "limits", cases: 12, run: Run::limit_take },
];

/// Answers as they are counted: what they are, and a refusal's number.
const KINDS: [(&str, u64, u64); 14] = [
    ("end", END, 0),
    ("SPS", SPS, 0),
    ("PPS", PPS, 0),
    ("picture", PICTURE, 0),
    ("10", REFUSED, 10),
    ("11", REFUSED, 11),
    ("12", REFUSED, 12),
    ("13", REFUSED, 13),
    ("14", REFUSED, 14),
    ("15", REFUSED, 15),
    ("16", REFUSED, 16),
    ("17", REFUSED, 17),
    ("18", REFUSED, 18),
    ("19", REFUSED, 19),
];

/// What was compared so far.
#[derive(Default)]
struct Run {
    /// Calls by answer, as `KINDS` has them.
    calls: [u64; 14],
    /// Pictures whose samples were those written.
    pictures: u64,
    cuts: u64,
    /// Units behind a replaced stretch that were read as without the damage.
    behind_damage: u64,
    /// Rounds of the small calls.
    codes: u64,
}

impl Run {
    /// Makes one call with both readers. A difference is told by the smallest call that has it.
    fn call(&mut self, call: &Call) -> Outcome<Left> {
        let left = call.compare().map_err(|what| Smallest::of(call, what).text())?;
        let [what, _, _, _, _, _, number, _] = left.answer;
        let kind = KINDS.iter().position(|kind| (kind.1, kind.2) == (what, number));
        let kind = kind.ok_or(format!("the plain reader answers {:?}", left.answer))?;
        self.calls[kind] += 1;
        Ok(left)
    }

    /// Reads to the end from a state, with planes of the same lengths in each call. The last one
    /// left is that of the end.
    fn read(&mut self, take: &[u8], reader: Words, lengths: [usize; 3]) -> Outcome<Vec<Left>> {
        let mut all = Vec::new();
        let mut call = Call { take, lengths, reader, salt: 0 };
        loop {
            let left = self.call(&call)?;
            call.reader = left.reader;
            call.salt = call.salt.wrapping_add(37);
            let is_end = left.answer[0] == END;
            all.push(left);
            if is_end {
                return Ok(all);
            }
            if all.len() > take.len() + 1 {
                return Err("more answers than bytes".into());
            }
        }
    }

    /// The table's calls: both readers must give the answers written there.
    fn table(&mut self) -> Outcome<()> {
        for case in cases::cases() {
            let cases::Case { name, take, reader, lengths, answer, left } = case;
            let call = Call { take: &take, lengths, reader, salt: 5 };
            let found = self.call(&call).map_err(|what| format!("{name:?}: {what}"))?;
            if (found.answer, found.reader) != (answer, left) {
                return Err(format!(
                    "{name:?}: answer {:?} and state {:?}, not {answer:?} and {left:?}",
                    found.answer, found.reader
                ));
            }
            if answer[0] != PICTURE && found.planes != call.old_planes() {
                return Err(format!("{name:?}: the planes were changed"));
            }
        }
        Ok(())
    }

    /// A take of some small pictures is read as what was written.
    fn small_take(&mut self, noise: &mut Noise) -> Outcome<()> {
        let shape = draw::shape(noise, 40);
        let pictures = 1 + noise.below(4);
        self.whole_take(noise, shape, pictures)
    }

    /// So is one of a large picture.
    fn limit_take(&mut self, noise: &mut Noise, case: u64) -> Outcome<()> {
        self.whole_take(noise, limit_shape(case), 1)
    }

    fn whole_take(&mut self, noise: &mut Noise, shape: Shape, pictures: u64) -> Outcome<()> {
        let take = draw::take(noise, shape, pictures)?;
        let lengths = draw::enough(noise, &shape);
        let all = self.read(&take.bytes, [0; 8], lengths)?;
        self.is_whole(&take, &all)
    }

    /// Whether a take was read as what was written: SPS, PPS, its pictures with their samples, end.
    fn is_whole(&mut self, take: &Take, all: &[Left]) -> Outcome<()> {
        let Shape { width, height, colour, depth } = take.shape;
        let what: Vec<u64> = all.iter().map(|left| left.answer[0]).collect();
        let mut wanted = vec![SPS, PPS];
        wanted.resize(2 + take.pictures.len(), PICTURE);
        wanted.push(END);
        if what != wanted {
            return Err(format!("{:?} is read as {what:?}, not {wanted:?}", take.shape));
        }
        if all[0].answer != [SPS, 4, width, height, colour, depth, 0, 0] {
            return Err(format!("{:?} is read as {:?}", take.shape, all[0].answer));
        }
        let end = all.last().map(|left| left.reader);
        if end != Some([take.bytes.len() as u64, 1, width, height, colour, depth, 1, 0]) {
            return Err(format!("{:?} leaves the state {end:?}", take.shape));
        }
        for (left, written) in all[2..].iter().zip(&take.pictures) {
            is_picture(left, written)?;
            self.pictures += 1;
        }
        Ok(())
    }

    /// Each front of a small take: the pictures that it has whole, then the end, or one refusal and
    /// the end.
    fn cuts(&mut self, noise: &mut Noise) -> Outcome<()> {
        let shape = small_shape(noise);
        let pictures = 1 + noise.below(2);
        let take = draw::take(noise, shape, pictures)?;
        let lengths = draw::enough(noise, &shape);
        let whole = self.read(&take.bytes, [0; 8], lengths)?;
        self.is_whole(&take, &whole)?;
        let offset = |left: &Left| left.answer[1] as usize;
        let mut begins: Vec<usize> = whole[..whole.len() - 1].iter().map(offset).collect();
        begins.push(take.bytes.len() + 4);
        for cut in 0..take.bytes.len() {
            let all = self.read(&take.bytes[..cut], [0; 8], lengths)?;
            is_cut(&take, &begins, cut, &all).map_err(|what| {
                let all: Vec<Words> = all.iter().map(|left| left.answer).collect();
                format!("{shape:?}, cut to {cut} of {}: {what}: {all:?}", take.bytes.len())
            })?;
            self.cuts += 1;
        }
        Ok(())
    }

    /// A stretch behind the first picture's start code is replaced: from each start code behind it,
    /// everything is read as before.
    fn damage(&mut self, noise: &mut Noise) -> Outcome<()> {
        let shape = small_shape(noise);
        let pictures = 2 + noise.below(4);
        let take = draw::take(noise, shape, pictures)?;
        let lengths = draw::enough(noise, &shape);
        let whole = self.read(&take.bytes, [0; 8], lengths)?;
        self.is_whole(&take, &whole)?;

        let (begin, end) = stretch(noise, &take.bytes, whole[2].answer[1] as usize);
        let mut damaged = take.bytes[..begin].to_vec();
        damaged.extend(draw::damage(noise));
        let shift = (damaged.len() as u64).wrapping_sub(end as u64);
        damaged.extend(&take.bytes[end..]);
        let all = self.read(&damaged, [0; 8], lengths)?;

        let Some(first) = plain::start_code(&take.bytes, end) else { return Ok(()) };
        let behind = whole.iter().filter(|left| left.answer[1] >= first as u64 + 3).count();
        is_shifted(&whole, &all, behind, shift)
            .and_then(|()| {
                let last = &all[all.len() - 1 - behind..];
                let written = &take.pictures[take.pictures.len() - behind..];
                last.iter().zip(written).try_for_each(|(left, written)| is_picture(left, written))
            })
            .map_err(|what| format!("{shape:?}, bytes {begin} to {end} replaced: {what}"))?;
        self.behind_damage += behind as u64;
        Ok(())
    }

    /// Each picture is first read into planes of which one is a byte short: 19, and all stays. Then
    /// into enough.
    fn short_planes(&mut self, noise: &mut Noise) -> Outcome<()> {
        let shape = draw::shape(noise, 40);
        let pictures = 1 + noise.below(2);
        let take = draw::take(noise, shape, pictures)?;
        let mut bytes = vec![0; noise.below(3) as usize];
        bytes.extend(&take.bytes);
        let mut call = Call { take: &bytes, lengths: [0; 3], reader: [0; 8], salt: 1 };
        for _ in 0..2 {
            call.reader = self.call(&call)?.reader;
        }
        for written in &take.pictures {
            for plane in 0..shape.planes() {
                call.lengths = draw::enough(noise, &shape);
                call.lengths[plane] = match noise.below(3) {
                    0 => noise.below(shape.lengths()[plane] as u64) as usize,
                    _ => shape.lengths()[plane] - 1,
                };
                let left = self.call(&call)?;
                if left.answer[6] != 19 || left.reader != call.reader {
                    return Err(format!(
                        "{shape:?}, planes of {:?}: {:?} and state {:?}",
                        call.lengths, left.answer, left.reader
                    ));
                }
            }
            call.lengths = shape.lengths();
            let left = self.call(&call)?;
            is_picture(&left, written)?;
            self.pictures += 1;
            call.reader = left.reader;
        }
        Ok(())
    }

    /// Some parameter sets, of which most are refused, read from any state.
    fn parameter_sets(&mut self, noise: &mut Noise) -> Outcome<()> {
        let shape = draw::shape(noise, 40);
        let mut bytes = Vec::new();
        for _ in 0..1 + noise.below(4) {
            bytes.extend(draw::start_code(noise));
            bytes.extend(draw::parameter_set(noise, &shape));
        }
        let mut reader = [0; 8];
        if noise.once_in(2) {
            reader = draw::state(noise, &shape, bytes.len());
            reader[0] = 0;
        }
        self.read(&bytes, reader, [0; 3])?;
        Ok(())
    }

    /// Bytes of any kind, with whole units among them, read from any state.
    fn any_bytes(&mut self, noise: &mut Noise) -> Outcome<()> {
        let shape = draw::shape(noise, 20);
        let take = draw::take(noise, shape, 1)?;
        let mut bytes = Vec::new();
        for _ in 0..1 + noise.below(8) {
            match noise.below(6) {
                0 => bytes.extend(&take.bytes),
                1 => {
                    let begin = noise.below(take.bytes.len() as u64) as usize;
                    let end = begin + noise.below((take.bytes.len() - begin) as u64 + 1) as usize;
                    bytes.extend(&take.bytes[begin..end]);
                }
                2 => {
                    bytes.extend(draw::start_code(noise));
                    bytes.extend(draw::parameter_set(noise, &shape));
                }
                _ => bytes.extend(draw::rubble(noise)),
            }
        }
        let reader = draw::state(noise, &shape, bytes.len());
        let mut lengths = draw::enough(noise, &shape);
        if noise.once_in(8) {
            lengths = lengths.map(|length| noise.below(length as u64 + 1) as usize);
        }
        self.read_or_stay(&bytes, reader, lengths)
    }

    /// A picture with a few bytes changed, added or left out, or none, read from a state that holds
    /// both sets.
    fn pictures(&mut self, noise: &mut Noise) -> Outcome<()> {
        let shape = draw::shape(noise, 40);
        let take = draw::take(noise, shape, 1)?;
        // The picture's unit with its start code, less the sets before it.
        let mut bytes = take.bytes;
        let begin = 4 + 1 + plain::escape(&plain::sps(&shape)).len() + 8;
        bytes.drain(..begin);
        for _ in 0..noise.pick(&[0, 1, 1, 1, 2]) {
            let length = bytes.len() as u64;
            let at = match noise.below(4) {
                0 => 4 + noise.below(5),
                1 => length - 1 - noise.below(4),
                _ => 4 + noise.below(length - 4),
            } as usize;
            match noise.below(5) {
                0 => bytes[at] ^= 1 << noise.below(8),
                1 => bytes[at] = noise.pick(&[0, 1, 3, 0x0D, 0x80]),
                2 => drop(bytes.remove(at)),
                3 => bytes.insert(at, noise.pick(&[0, 1, 3, 0x0D, 0x80])),
                _ => bytes.extend(noise.pick(&[&[0][..], &[0, 0, 3], &[0, 0, 3, 0x80], &[0x80]])),
            }
        }
        let Shape { width, height, colour, depth } = shape;
        let mut reader = [0, 1, width, height, colour, depth, 1, 9];
        if noise.once_in(6) {
            // Another shape is held, often one of as many macroblocks.
            let word = noise.pick(&[2, 3]);
            reader[word] = reader[word] / 16 * 16 + 4 * (1 + noise.below(4));
        }
        let mut lengths = draw::enough(noise, &shape);
        if noise.once_in(8) {
            lengths = lengths.map(|length| length.saturating_sub(1));
        }
        self.read_or_stay(&bytes, reader, lengths)
    }

    /// The small calls.
    fn codes(&mut self, noise: &mut Noise) -> Outcome<()> {
        self.codes += 1;
        codes::compare(noise)
    }

    /// Reads to the end, or until 19 keeps the place.
    fn read_or_stay(&mut self, take: &[u8], mut reader: Words, lengths: [usize; 3]) -> Outcome<()> {
        for salt in 0..=u8::MAX {
            let left = self.call(&Call { take, lengths, reader, salt })?;
            reader = left.reader;
            if left.answer[0] == END || left.answer[6] == 19 {
                break;
            }
        }
        Ok(())
    }

    /// What was compared, as a table and a line.
    fn summary(&self) -> String {
        let row = |cells: [String; 14]| format!("| {} |\n", cells.join(" | "));
        let mut text = row(KINDS.map(|kind| kind.0.to_string()));
        text += &row(KINDS.map(|_| "---".into()));
        text += &row(self.calls.map(|calls| calls.to_string()));
        text + &format!(
            "{} calls compared; {} pictures as they were written; {} cuts; {} pictures behind \
                 damage; {} rounds of the small calls\n",
            self.calls.iter().sum::<u64>(),
            self.pictures,
            self.cuts,
            self.behind_damage,
            self.codes
        )
    }
}

/// The largest width or height of each kind, or one that is 4 less.
fn limit_shape(case: u64) -> Shape {
    let (colour, depth) = [(0, 8), (0, 12), (1, 8), (1, 12)][case as usize % 4];
    let (long, short) = (16_384 - case / 8 * 4, 2);
    let (width, height) = if case & 4 == 0 { (long, short) } else { (4, long) };
    Shape { width, height, colour, depth }
}

/// A shape for where every byte counts: mostly of a macroblock or two.
fn small_shape(noise: &mut Noise) -> Shape {
    let limit = noise.pick(&[16, 16, 20, 33]);
    draw::shape(noise, limit)
}

/// A stretch of a take that begins at `first` or behind and is mostly short; it often begins or ends
/// near a start code.
fn stretch(noise: &mut Noise, take: &[u8], first: usize) -> (usize, usize) {
    let near = |noise: &mut Noise, place: usize| {
        let code = plain::start_code(take, place).unwrap_or(take.len());
        (code + noise.below(8) as usize).saturating_sub(4)
    };
    let length = take.len();
    let mut begin = first + noise.below((length - first) as u64) as usize;
    if noise.once_in(2) {
        begin = near(noise, begin).clamp(first, length);
    }
    let long = noise.below((length - begin) as u64 + 1) as usize;
    let some = noise.below(12) as usize;
    let mut end = begin + noise.pick(&[0, 1, some, some, long]);
    if noise.once_in(3) {
        end = near(noise, end);
    }
    (begin, end.clamp(begin, length))
}

/// Whether the last answers of a damaged take, `behind` of them and the end, are those of the whole
/// one, with their places shifted, and no answer more begins behind the first of them.
fn is_shifted(whole: &[Left], all: &[Left], behind: usize, shift: u64) -> Outcome<()> {
    let tail = |all: &[Left], shift: u64| -> Vec<(Words, Words)> {
        let front = all.len().saturating_sub(behind + 1);
        let shifted = |mut words: Words, place: usize| {
            words[place] = words[place].wrapping_add(shift);
            words
        };
        let of = |left: &Left| match left.answer[0] {
            END => (left.answer, shifted(left.reader, 0)),
            _ => (shifted(left.answer, 1), shifted(left.reader, 0)),
        };
        all[front..].iter().map(of).collect()
    };
    let (wanted, found) = (tail(whole, shift), tail(all, 0));
    if found != wanted {
        return Err(format!("{found:?} behind it, not {wanted:?}"));
    }
    let front = &all[..all.len() - behind - 1];
    match (front.last(), found[0].0) {
        (Some(last), [what, first, ..]) if what != END && last.answer[1] >= first => {
            Err(format!("{:?} before {:?}", last.answer, found[0].0))
        }
        _ => Ok(()),
    }
}

/// Whether an answer is a picture with the samples written.
fn is_picture(left: &Left, written: &[Vec<u8>; 3]) -> Outcome<()> {
    if left.answer[0] != PICTURE {
        return Err(format!("{:?} where a picture was written", left.answer));
    }
    for (plane, rows) in left.planes.iter().zip(written) {
        if !plane.starts_with(rows) {
            return Err(format!("{:?}: other samples than were written", left.answer));
        }
    }
    Ok(())
}

/// The paper's word on cuts. `begins` has where each unit begins, behind its start code of four
/// bytes, and where one behind the take would.
fn is_cut(take: &Take, begins: &[usize], cut: usize, all: &[Left]) -> Outcome<()> {
    // How many units are whole.
    let whole = begins[1..].iter().filter(|begin| **begin - 4 <= cut).count();
    // Bytes of the next one's start code and of itself that are there.
    let code = cut.saturating_sub(begins[whole] - 4).min(4);
    let refusal = match (code, cut > begins[whole]) {
        (4, false) => Some(11),
        (4, true) if whole < 2 => Some(14),
        (4, true) => Some(17),
        _ => None,
    };
    let answers = all.iter().map(|left| (left.answer[0], left.answer[6]));
    let mut wanted: Vec<(u64, u64)> = vec![(SPS, 0), (PPS, 0)];
    wanted.resize(begins.len() - 1, (PICTURE, 0));
    wanted.truncate(whole);
    wanted.extend(refusal.map(|number| (REFUSED, number)));
    wanted.push((END, 0));
    if !answers.eq(wanted.iter().copied()) {
        return Err(format!("not {wanted:?}"));
    }
    for (left, written) in all.iter().take(whole).skip(2).zip(&take.pictures) {
        is_picture(left, written)?;
    }
    Ok(())
}

/// What the command line asks for.
struct Options {
    seed: u64,
    part: Option<String>,
    case: Option<u64>,
}

impl Options {
    fn parse(mut words: impl Iterator<Item = String>) -> Result<Options, String> {
        let mut options = Options { seed: 1, part: None, case: None };
        while let Some(word) = words.next() {
            let value = words.next().ok_or(format!("{word} wants a value"))?;
            let number = || value.parse().map_err(|_| format!("{word} {value}: no number"));
            match word.as_str() {
                "--seed" => options.seed = number()?,
                "--case" => options.case = Some(number()?),
                "--part" if PARTS.iter().any(|part| part.name == value) => {
                    options.part = Some(value)
                }
                "--part" => return Err(format!("{value} is no part")),
                _ => return Err(format!("{word} is no option")),
            }
        }
        Ok(options)
    }
}

/// Runs the parts, and prints what was compared or the first difference.
fn run(options: &Options) -> Outcome<()> {
    let seed = options.seed;
    println!("seed {seed}");
    let mut run = Run::default();
    for (number, part) in PARTS.iter().enumerate() {
        let name = part.name;
        if options.part.as_ref().is_some_and(|wanted| wanted != name) {
            continue;
        }
        let cases = options.case.map_or(0..part.cases, |case| case..case.saturating_add(1));
        println!("{name}: {} cases", cases.end - cases.start);
        for case in cases {
            let mut noise = Noise::new(seed, (number as u64) << 24 | case);
            (part.run)(&mut run, &mut noise, case).map_err(|what| {
                format!("{what}\nagain: damage --seed {seed} --part {name} --case {case}")
            })?;
        }
    }
    print!("{}", run.summary());
    let all = options.part.is_none() && options.case.is_none();
    let unmet = KINDS.iter().zip(run.calls).find(|(_, calls)| *calls == 0);
    match unmet {
        Some((kind, _)) if all => Err(format!("no call was to be answered with {}", kind.0)),
        _ if run.calls.iter().sum::<u64>() + run.codes == 0 => Err("nothing was compared".into()),
        _ => Ok(()),
    }
}

fn main() -> ExitCode {
    let options = match Options::parse(std::env::args().skip(1)) {
        Ok(options) => options,
        Err(fault) => {
            eprintln!("damage: {fault}");
            return ExitCode::from(2);
        }
    };
    match run(&options) {
        Ok(()) => {
            println!("ok");
            ExitCode::SUCCESS
        }
        Err(what) => {
            println!("FAILED: {what}");
            ExitCode::FAILURE
        }
    }
}
