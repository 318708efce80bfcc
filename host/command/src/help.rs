//! What the command says of itself.

pub const ALL: &str = "\
Keeps pictures as H.264 takes, uncompressed, and gets them back.

  reelpony record IN.y4m OUT.h264   writes a take from a Y4M (mono, mono12, 420, 420p12)
  reelpony list TAKE                shows each unit: offset, length, what it is
  reelpony check TAKE               says whether a take is whole, cut or damaged
  reelpony extract TAKE OUT.y4m     saves every picture that can be saved
  reelpony demo [DIR]               writes a small shoot, damages it and saves it
  reelpony help [VERB]              shows this, or the options of one of these
  reelpony --version                says which version it is

A file named - is standard input or output. An option's value is the next argument or stands behind
an equals sign (--rate=25:1); behind -- everything is a file. No file is written over unless --force
or --in-place is given, and none that is read, whatever is given.

Status: 0 all is well; 3 a part: the source broke off, or the take is cut or damaged, and what can be
kept was; 1 failed, or there is no picture; 2 wrong usage. list gives 0 for every file that it can
read.

A take has no checksums: a sample that was changed to another can't be seen, and nor can a cut
between two pictures.";

pub const RECORD: &str = "\
reelpony record IN.y4m OUT.h264 [OPTION..]

Writes a take from a Y4M of the kind mono, mono12, 420 or 420p12; - is standard input or output.

  --force         replaces OUT, if it is there, at the end of the recording; mode and group stay
  --in-place      replaces OUT without room for old and new at once: the old bytes go when the first
                  picture is there, and if the work fails after that, they are gone
  --sets-every N  writes the parameter sets again before every Nth picture behind the first. A
                  decoder can begin there, but the file is no take as the promises have it
  --quiet         doesn't say what a take can't keep: frame rate, pixel aspect, where chroma is
                  sited, interlacing, limited range

OUT grows picture by picture under its own name, and can be read meanwhile; where --force replaces a
file, it is OUT.NUMBER.part until the end. Every two seconds it is brought onto the disk. If the source
breaks off in a picture or the disk is full, the whole pictures before are kept: status 3. SIGINT,
SIGTERM and SIGHUP end a recording behind the picture that is under way: status 0, or 3 where its rest
doesn't come within two seconds or a second signal does, and 3 where IN is a file that isn't at its
end. If there is no whole picture, nothing is left: status 1.";

pub const LIST: &str = "\
reelpony list TAKE [OPTION..]

Shows each unit of a take: its offset, its length, and what it is or why it is refused. What a second
look finds in a refused stretch is shown in its place, with what was assumed.

  --json           the same for a program
  --like GOOD_TAKE where the first bytes are lost: goes by the parameter sets of a take of that size
                   and kind
  --size WxH:KIND  the same with a size and a kind: mono, mono12, 420 or 420p12
  --strict         takes no second look: only what the proved reader hands out at once

Status: 0 for every file that can be read; 1 failed; 2 wrong usage.";

pub const CHECK: &str = "\
reelpony check TAKE [OPTION..]

Says whether a take is whole, cut or damaged, or takes of different sizes are joined, and how many
pictures are missing, as far as lengths tell.

  --json           the same for a program
  --like GOOD_TAKE where the first bytes are lost: goes by the parameter sets of a take of that size
                   and kind
  --size WxH:KIND  the same with a size and a kind: mono, mono12, 420 or 420p12
  --strict         takes no second look: only what the proved reader hands out at once

Status: 0 whole; 3 cut or damaged, but there are pictures; 1 failed, or there is no picture; 2 wrong
usage.";

pub const EXTRACT: &str = "\
reelpony extract TAKE OUT.y4m [OPTION..]

Saves every picture of a take that can be saved, as a Y4M; - is standard input or output. A picture
that a second look found has FRAME XREELPONY=SECOND-LOOK before it, which players pass over, and what
was assumed is said. Where takes of different sizes are joined, the second goes to OUT-2.y4m.

  --rate P:S       the Y4M's pictures a second, which a take doesn't hold; 25:1 if not given
  --like GOOD_TAKE where the first bytes are lost: goes by the parameter sets of a take of that size
                   and kind
  --size WxH:KIND  the same with a size and a kind: mono, mono12, 420 or 420p12
  --strict         takes no second look: only what the proved reader hands out at once
  --part N         only the Nth part, where a file has parts of several sizes or kinds
  --force          replaces OUT, if it is there, once the new one is whole; mode and group stay
  --in-place       replaces OUT without room for old and new at once: the old bytes go when the first
                   picture is there, and if the work fails after that, they are gone

OUT is called OUT.NUMBER.part until it is whole, and is taken away if it never is.

Status: 0 all was saved; 3 a part; 1 failed, or there is no picture; 2 wrong usage.";

pub const DEMO: &str = "\
reelpony demo [DIR]

Writes a small shoot of each kind, cuts one copy, damages another, saves what can be saved, compares it
with what was written and draws a contact sheet. Its files go to DIR, or to reelpony-demo: a folder
that isn't there yet or is empty.";
