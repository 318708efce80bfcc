//! `list`, `check` and `extract`: what a take holds, good or bad.

use std::io::{self, IsTerminal};
use std::path::{Path, PathBuf};

use reelpony::reader::{Answer, PlanesMut, Reader, Sps};
use reelpony::window::What;
use reelpony::{Refusal, Window};

use crate::error::{Error, Outcome, Result};
use crate::files::{Id, Input, Name, Output, Replace, Text, Way};
use crate::json::Object;
use crate::kinds;
use crate::look::{Look, Seen, Thing};
use crate::progress::{counted, Progress};
use crate::tally::{Loss, Part, Tally};
use crate::tap::Tap;
use crate::y4m;

/// Pictures a second that a Y4M gets, since a take doesn't hold them.
pub const RATE: &str = "25:1";

/// Losses of one kind that are told one by one; `list` tells all.
const TOLD: u64 = 10;

/// How a take is looked at.
#[derive(Default)]
pub struct Looking<'a> {
    /// A take whose size and kind is gone by.
    pub like: Option<&'a Path>,
    /// A size and kind that is gone by.
    pub size: Option<Sps>,
    /// Whether there is no second look.
    pub strict: bool,
    pub json: bool,
}

/// A take that is being looked through.
struct Take {
    look: Look,
    name: Name,
    tally: Tally,
    progress: Progress,
    /// The files that are read, which nothing is written to.
    read: Vec<Option<Id>>,
    /// Which option named the size and kind that is gone by.
    given: Option<(&'static str, Sps)>,
}

impl Take {
    fn open(path: &Path, looking: &Looking, keeps_samples: bool) -> Result<Take> {
        let Input { file, name, length, id } = Input::open(path)?;
        let read = vec![id, looking.like.and_then(Id::of_path)];
        let mut look = Look::new(Tap::new(file), keeps_samples, looking.strict);
        let given = match (looking.like, looking.size) {
            (Some(like), _) => Some(("--like", sps_of(like)?)),
            (None, Some(size)) => Some(("--size", size)),
            (None, None) => None,
        };
        if let Some((_, sps)) = given {
            look.hold(sps).map_err(|error| Error::reading(&name, error))?;
        }
        let tally = Tally::new(look.sps());
        Ok(Take { look, name, tally, progress: Progress::new(length), read, given })
    }

    /// The next thing, and what was lost before it, where that is over now.
    fn next(&mut self) -> Result<Option<(Thing, Option<Loss>)>> {
        let next = self.look.next().map_err(|error| Error::reading(&self.name, error))?;
        let Some(thing) = next else { return Ok(None) };
        if let (Seen::Another(sps), 0) = (&thing.seen, self.tally.pictures()) {
            if let Some((option, given)) = self.given.take() {
                let [given, size] = [&given, sps].map(y4m::words);
                let offset = thing.offset;
                self.progress.say(format!(
                    "{option} gives {given}; at offset {offset} the take says {size}"
                ));
            }
        }
        self.tally.is_of(self.look.sps());
        let lost = self.tally.add(&thing);
        Ok(Some((thing, lost)))
    }

    /// What is wrong with the take, in words that follow its name. None where it is whole.
    fn fault(&self) -> Option<String> {
        let tally = &self.tally;
        if tally.is_whole() {
            return None;
        }
        let mut words = Vec::new();
        if tally.lost > 0 {
            words.push(format!("about {} lost", counted(tally.lost, "picture")));
        }
        if let Some(loss) = &tally.first_loss {
            let Loss { offset, refusal, .. } = loss;
            let places = counted(tally.refused, "place");
            let place = loss.place();
            words.push(format!("{places} refused, first at offset {offset}, {place}: {refusal}"));
        }
        Some(words.join("; "))
    }

    /// Why there is no picture, in words that follow the file's name.
    fn nothing(&self) -> String {
        let tally = &self.tally;
        let bytes = self.look.offset();
        let sizes: Vec<String> = self.look.ambiguous().iter().map(y4m::words).collect();
        let front = self.look.front();
        match tally.first {
            _ if bytes == 0 => "is empty".into(),
            _ if is_swapped(&front) => {
                "is a take in which the bytes of each pair are swapped; dd conv=swab mends it"
                    .into()
            }
            Some(_) if kinds::told(&front).is_some() => {
                kinds::told(&front).unwrap_or_default().into()
            }
            _ if !sizes.is_empty() => format!(
                "has pictures, but its sequence parameter set is damaged and may have meant {}; \
                 --size says which",
                sizes.join(" or ")
            ),
            _ if tally.nothing_held > 0 => format!(
                "has {}, but not both parameter sets; --like GOOD_TAKE takes them from there, \
                 --size WxH:KIND says what they said",
                counted(tally.nothing_held, "picture")
            ),
            Some((offset, refusal)) => {
                let places = counted(tally.refused, "place");
                let given = match self.given {
                    Some((option, sps)) if tally.part.shape == Some(sps) => {
                        format!(" of the size that {option} gives, {}", y4m::words(&sps))
                    }
                    _ => " that can be saved".into(),
                };
                format!(
                    "has no picture{given}; {places} refused, first at offset {offset}: {refusal}"
                )
            }
            None if tally.units > 0 => "has parameter sets, but no picture".into(),
            None => "has no picture, only zeros".into(),
        }
    }

    /// Says what players put in, and where the size named isn't the take's.
    fn say_notes(&mut self) {
        for (name, number) in &self.tally.foreign {
            let what = counted(*number, "unit");
            let note = format!("note: {}: {what} of {name}, put in by a player", self.name);
            self.progress.say(note);
        }
    }
}

/// Whether a file begins with a sequence parameter set whose bytes are swapped in pairs.
fn is_swapped(front: &[u8]) -> bool {
    let unswapped: Vec<u8> = front.chunks_exact(2).flat_map(|two| [two[1], two[0]]).collect();
    let mut reader = Reader::new();
    matches!(reader.read(&unswapped, PlanesMut::none()), Answer::Sps { .. })
}

/// The sequence parameter set that a take begins with, if both sets stand before its first picture.
fn sps_of(take: &Path) -> Result<Sps> {
    let Input { file, name, .. } = Input::open(take)?;
    let mut window = Window::new(file);
    while let Some(found) = window.next().map_err(|error| Error::reading(&name, error))? {
        match window.sps() {
            Some(sps) if window.has_pps() => return Ok(sps),
            _ if found.what == What::Picture => break,
            _ => {}
        }
    }
    Error::sentence(format!("{name} has no parameter sets to go by"))
}

/// A refused part in words.
fn refused(refusal: &Refusal) -> String {
    format!("refused ({}): {refusal}", refusal.number())
}

/// A thing in words, as `list` shows it.
fn words(thing: &Thing, part: &Part) -> String {
    match &thing.seen {
        Seen::Sps(sps) => format!("sequence parameter set: {}", y4m::words(sps)),
        Seen::Pps => "picture parameter set".into(),
        Seen::Picture(None) => format!("picture {}", part.number),
        Seen::Picture(Some(mark)) => format!("picture {} by a second look: {mark}", part.number),
        Seen::Foreign(name) => format!("{name}, put in by a player"),
        Seen::Another(sps) => format!("another take begins: {}", y4m::words(sps)),
        Seen::Assumed(sps, words) => format!("from here on {}: {words}", y4m::words(sps)),
        Seen::Refused(refusal) => refused(refusal),
        Seen::Rest(refusal) => format!("beside a picture saved, {}", refused(refusal)),
    }
}

/// The same for a program.
fn fields(thing: &Thing, part: &Part) -> Object {
    let object = Object::default().plain("offset", thing.offset).plain("length", thing.length);
    match &thing.seen {
        Seen::Sps(sps) => shape(object.text("what", "sps"), sps),
        Seen::Pps => object.text("what", "pps"),
        Seen::Picture(mark) => {
            let object = object.text("what", "picture").plain("number", part.number);
            match mark {
                Some(mark) => object.text("second_look", mark),
                None => object,
            }
        }
        Seen::Foreign(name) => object.text("what", "foreign").text("name", name),
        Seen::Another(sps) => shape(object.text("what", "another take"), sps),
        Seen::Assumed(sps, words) => shape(object.text("what", "assumed").text("why", words), sps),
        Seen::Refused(refusal) => why(object.text("what", "refused"), refusal),
        Seen::Rest(refusal) => why(object.text("what", "rest"), refusal),
    }
}

fn shape(object: Object, sps: &Sps) -> Object {
    let object = object.plain("width", sps.width).plain("height", sps.height);
    object.plain("colour", sps.colour).plain("depth", sps.bit_depth.num_bits())
}

fn why(object: Object, refusal: &Refusal) -> Object {
    object.plain("refusal", refusal.number()).text("why", refusal)
}

/// A loss for a program.
fn lost(loss: &Loss) -> Object {
    let object = Object::default().plain("offset", loss.offset).plain("length", loss.bytes);
    let object = object.plain("places", loss.places).plain("behind", loss.behind);
    let object = match loss.pictures {
        Some(pictures) => object.plain("pictures", pictures),
        None => object,
    };
    why(object, &loss.refusal)
}

/// A list of objects, a line each, that is written while it is found.
struct Rows {
    empty: bool,
}

impl Rows {
    fn row(&mut self, text: &mut Text, row: Object) -> Result<()> {
        let comma = if self.empty { "" } else { "," };
        self.empty = false;
        text.line(format!("{comma}{row}"))
    }
}

pub fn list(path: &Path, looking: &Looking) -> Result<Outcome> {
    let mut take = Take::open(path, looking, false)?;
    let mut text = Text::new()?;
    let on_terminal = io::stdout().is_terminal();
    let mut rows = Rows { empty: true };
    match looking.json {
        true => text.line(format!(
            "{{{},\"things\":[",
            Object::default().text("take", &take.name).open()
        ))?,
        false => text.line(format!("{:>14} {:>12}  what", "offset", "length"))?,
    }
    while let Some((thing, _)) = take.next()? {
        let part = &take.tally.part;
        match looking.json {
            true => rows.row(&mut text, fields(&thing, part))?,
            false => {
                let (offset, length) = (thing.offset, thing.length);
                text.line(format!("{offset:>14} {length:>12}  {}", words(&thing, part)))?;
            }
        }
        if !on_terminal {
            take.progress.show(take.look.offset(), take.tally.pictures());
        }
    }
    take.tally.close();
    let tally = &take.tally;
    let bytes = take.look.offset();
    match looking.json {
        true => text.line(format!("],{}}}", totals(tally, bytes).open()))?,
        false => {
            let units = counted(tally.units, "unit");
            let refused = tally.refused;
            text.line(format!(
                "{units} and {refused} refused in {bytes} bytes: {}",
                tally.words()
            ))?;
        }
    }
    text.finish()?;
    Ok(Outcome::Complete)
}

/// What a take came to, for a program.
fn totals(tally: &Tally, bytes: u64) -> Object {
    let part = |part: &Part| {
        let object = Object::default().plain("offset", part.offset);
        let object = object.plain("pictures", part.pictures).plain("second_look", part.second);
        match &part.shape {
            Some(sps) => shape(object, sps).to_string(),
            None => object.to_string(),
        }
    };
    let parts: Vec<String> = tally.parts().map(part).collect();
    Object::default()
        .plain("pictures", tally.pictures())
        .plain("second_look", tally.second())
        .plain("refused", tally.refused)
        .plain("about_lost", tally.lost)
        .plain("takes", format!("[{}]", parts.join(",")))
        .plain("bytes", bytes)
}

pub fn check(path: &Path, looking: &Looking) -> Result<Outcome> {
    let mut take = Take::open(path, looking, false)?;
    let mut text = Text::new()?;
    let mut rows = Rows { empty: true };
    if looking.json {
        text.line(format!("{{{},\"lost\":[", Object::default().text("take", &take.name).open()))?;
    }
    loop {
        let next = take.next()?;
        let (more, loss) = match next {
            Some((_, loss)) => (true, loss),
            None => (false, take.tally.close()),
        };
        if let (true, Some(loss)) = (looking.json, loss) {
            rows.row(&mut text, lost(&loss))?;
        }
        if !more {
            break;
        }
        take.progress.show(take.look.offset(), take.tally.pictures());
    }
    let (name, pictures) = (&take.name, take.tally.words());
    let (outcome, word, verdict) = match take.fault() {
        _ if take.tally.pictures() == 0 => {
            (Outcome::Nothing, "nothing", format!("{name} {}", take.nothing()))
        }
        None => (Outcome::Complete, "whole", format!("{name} has {pictures}")),
        Some(_) if take.tally.is_cut() => {
            let (offset, refusal) = take.tally.first.unwrap_or((0, Refusal::PictureShort));
            let words = format!("{name} has {pictures}; then, at offset {offset}, {refusal}");
            (Outcome::Partial, "cut", words)
        }
        Some(_) if take.tally.refused == 0 && take.tally.second() == 0 => {
            (Outcome::Partial, "joined", format!("{name} has takes of different sizes: {pictures}"))
        }
        Some(fault) => {
            let fault = if fault.is_empty() { fault } else { format!("; {fault}") };
            let words = format!("{name} has {pictures} that can be saved{fault}");
            (Outcome::Partial, "damaged", words)
        }
    };
    match looking.json {
        true => {
            let totals = totals(&take.tally, take.look.offset());
            let object = totals.text("verdict", word).text("sentence", &verdict);
            text.line(format!("],{}}}", object.open()))?;
        }
        false => text.line(format!("{word}: {verdict}"))?,
    }
    text.finish()?;
    take.say_notes();
    Ok(outcome)
}

/// The command: saves what can be saved, and says what was lost.
pub fn extract(
    from: &Path,
    to: &Path,
    rate: &str,
    replace: Replace,
    part: Option<u64>,
    looking: &Looking,
) -> Result<Outcome> {
    let mut take = Take::open(from, looking, true)?;
    let mut outputs = Outputs::new(to, rate, replace, part, take.read.clone())?;
    let mut teller = Teller::default();
    let outcome = save(&mut take, &mut outputs, &mut |progress, told| teller.tell(progress, told));
    teller.finish(&mut take.progress);
    outcome?;
    if take.tally.pictures() == 0 {
        return Error::sentence(format!("{} {}", take.name, take.nothing()));
    }
    take.say_notes();
    outputs.finish(&mut take)
}

/// Saves what can be saved of a take, without a word. Answers why each part of it was lost.
pub fn save_all(from: &Path, to: &Path) -> Result<Vec<Refusal>> {
    let mut take = Take::open(from, &Looking::default(), true)?;
    let mut outputs = Outputs::new(to, RATE, Replace::Never, None, take.read.clone())?;
    let mut lost = Vec::new();
    save(&mut take, &mut outputs, &mut |_, told| {
        if let Told::Lost(loss) = told {
            lost.push(loss.refusal);
        }
    })?;
    outputs.next_part()?;
    Ok(lost)
}

/// What is told while pictures are saved.
enum Told<'a> {
    /// A picture's number, and its mark.
    Picture(u64, Option<&'a String>),
    Another(u64, Sps),
    Lost(&'a Loss),
}

/// Writes every picture that can be saved.
fn save(
    take: &mut Take,
    outputs: &mut Outputs,
    tell: &mut dyn FnMut(&mut Progress, Told),
) -> Result<()> {
    while let Some((thing, loss)) = take.next()? {
        if let Some(loss) = loss {
            tell(&mut take.progress, Told::Lost(&loss));
        }
        match &thing.seen {
            Seen::Picture(mark) => {
                let number = take.tally.part.number;
                tell(&mut take.progress, Told::Picture(number, mark.as_ref()));
                if let Some(sps) = take.look.sps() {
                    outputs.write(&sps, mark.is_some(), take.look.planes())?;
                }
            }
            Seen::Another(sps) if take.tally.pictures() > 0 => {
                tell(&mut take.progress, Told::Another(thing.offset, *sps));
                outputs.next_part()?;
            }
            _ => {}
        }
        take.progress.show(take.look.offset(), take.tally.pictures());
    }
    if let Some(loss) = take.tally.close() {
        tell(&mut take.progress, Told::Lost(&loss));
    }
    Ok(())
}

/// The Y4M files of a take, one for each size.
struct Outputs<'a> {
    to: &'a Path,
    rate: &'a str,
    replace: Replace,
    /// The part that is wanted, if not all.
    wanted: Option<u64>,
    read: Vec<Option<Id>>,
    /// The one that is being written, and whether it has a picture.
    output: Option<Output>,
    written: bool,
    /// Which part that is, counting those with pictures.
    part: u64,
    /// Those that are whole, and parts that standard output had no place for.
    names: Vec<Name>,
    left_out: u64,
}

impl<'a> Outputs<'a> {
    /// Begins the first one, so that a name that can't be written is told at once.
    fn new(
        to: &'a Path,
        rate: &'a str,
        replace: Replace,
        wanted: Option<u64>,
        read: Vec<Option<Id>>,
    ) -> Result<Outputs<'a>> {
        let output = Some(Output::create(to, &read, replace, Way::ByPart)?);
        let (names, left_out) = (Vec::new(), 0);
        Ok(Outputs {
            to,
            rate,
            replace,
            wanted,
            read,
            output,
            written: false,
            part: 1,
            names,
            left_out,
        })
    }

    /// A picture of the part that is being read.
    fn write(&mut self, sps: &Sps, marked: bool, planes: &[Vec<u8>; 3]) -> Result<()> {
        let first = !std::mem::replace(&mut self.written, true);
        if self.wanted.is_some_and(|wanted| wanted != self.part) {
            return Ok(());
        }
        if self.output.is_none() {
            if self.to.as_os_str() == "-" {
                self.left_out += u64::from(first);
                return Ok(());
            }
            let to = numbered(self.to, self.part);
            let output = Output::create(&to, &self.read, self.replace, Way::ByPart)?;
            self.output = Some(output);
        }
        let Some(output) = &mut self.output else { return Ok(()) };
        if first {
            output.write(y4m::header(sps, self.rate).as_bytes())?;
        }
        y4m::write(output, sps.bit_depth, marked, planes)
    }

    /// Ends the part, if it has a picture.
    fn next_part(&mut self) -> Result<()> {
        if std::mem::take(&mut self.written) {
            if self.wanted.is_none_or(|wanted| wanted == self.part) {
                self.end()?;
            }
            self.part += 1;
        }
        Ok(())
    }

    fn end(&mut self) -> Result<()> {
        if let Some(output) = self.output.take() {
            self.names.push(output.name.clone());
            output.finish()?;
        }
        Ok(())
    }

    /// Ends the last one, and says what came of all.
    fn finish(mut self, take: &mut Take) -> Result<Outcome> {
        self.next_part()?;
        if self.names.is_empty() {
            let parts = counted(self.part - 1, "take");
            return Error::sentence(format!("{} has {parts}, and no other part", take.name));
        }
        let have = if self.names.len() == 1 { "has" } else { "have" };
        let names: Vec<String> = self.names.iter().map(Name::to_string).collect();
        let names = format!("{} {have}", names.join(" and "));
        let pictures = take.tally.words();
        if self.left_out > 0 {
            let parts = counted(self.left_out, "take");
            take.progress.say(format!("{parts} of other sizes left out; --part 2 writes the next"));
        }
        let fault = take.fault().map(|fault| match fault.is_empty() {
            true => fault,
            false => format!("; {fault}"),
        });
        match fault {
            None => {
                take.progress.say(format!("complete: {names} {pictures}"));
                Ok(Outcome::Complete)
            }
            Some(fault) => {
                take.progress.say(format!("partial: {names} {pictures}{fault}"));
                Ok(Outcome::Partial)
            }
        }
    }
}

/// `out.y4m` as the name of another part: `out-2.y4m`.
fn numbered(path: &Path, part: u64) -> PathBuf {
    if part == 1 {
        return path.into();
    }
    let mut name = path.file_stem().unwrap_or_default().to_os_string();
    name.push(format!("-{part}"));
    if let Some(ending) = path.extension() {
        name.push(".");
        name.push(ending);
    }
    path.with_file_name(name)
}

/// Tells pictures of a second look and losses, many alike in one line.
#[derive(Default)]
struct Teller {
    /// Pictures in a row with the same mark: the first, the last, the mark.
    run: Option<(u64, u64, String)>,
    /// Of each refusal: how often it was told, and places and pictures that were not.
    losses: Vec<(Refusal, u64, u64, u64)>,
}

impl Teller {
    fn tell(&mut self, progress: &mut Progress, told: Told) {
        match told {
            Told::Picture(number, mark) => self.picture(progress, number, mark),
            Told::Another(offset, sps) => {
                self.flush(progress);
                let size = y4m::words(&sps);
                progress.say(format!("another take begins at offset {offset}: {size}"));
            }
            Told::Lost(loss) => self.lost(progress, loss),
        }
    }

    fn picture(&mut self, progress: &mut Progress, number: u64, mark: Option<&String>) {
        match (&mut self.run, mark) {
            (Some((_, last, same)), Some(mark)) if same == mark && *last + 1 == number => {
                *last = number;
            }
            _ => {
                self.flush(progress);
                self.run = mark.map(|mark| (number, number, mark.clone()));
            }
        }
    }

    fn flush(&mut self, progress: &mut Progress) {
        if let Some((first, last, mark)) = self.run.take() {
            let pictures = match first == last {
                true => format!("picture {first}"),
                false => format!("pictures {first} to {last}"),
            };
            progress.say(format!("second look: {pictures}: {mark}"));
        }
    }

    fn lost(&mut self, progress: &mut Progress, loss: &Loss) {
        self.flush(progress);
        let at = self.losses.iter().position(|(refusal, ..)| *refusal == loss.refusal);
        let at = at.unwrap_or_else(|| {
            self.losses.push((loss.refusal, 0, 0, 0));
            self.losses.len() - 1
        });
        let (_, told, places, pictures) = &mut self.losses[at];
        if *told == TOLD {
            *places += loss.places;
            *pictures += loss.pictures.unwrap_or(0);
            return;
        }
        *told += 1;
        let Loss { offset, refusal, .. } = loss;
        let (about, place) = (loss.about(), loss.place());
        progress.say(format!("lost: {about} at offset {offset}, {place}: {refusal}"));
    }

    /// What was not told one by one.
    fn finish(&mut self, progress: &mut Progress) {
        self.flush(progress);
        for (refusal, _, places, pictures) in self.losses.drain(..).filter(|loss| loss.2 > 0) {
            let places = counted(places, "more place");
            let about = counted(pictures, "picture");
            progress.say(format!(
                "lost: about {about} in {places}: {refusal}; reelpony list shows all"
            ));
        }
    }
}
