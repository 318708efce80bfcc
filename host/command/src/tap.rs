//! A take's bytes as they are read, to be looked at once more: of a file all of them, of a pipe the
//! last ones.

use std::fs::File;
use std::io::{self, Read, Seek};
use std::os::unix::fs::FileExt;

/// So many bytes from the front of a pipe are kept.
const HEAD: usize = 1 << 12;

pub struct Tap {
    file: File,
    behind: Behind,
}

enum Behind {
    /// A file that can be read anywhere; the take begins at this place of it.
    File(u64),
    /// What came from a pipe: its first bytes, and the last ones, from this offset of the take on.
    Pipe { head: Vec<u8>, last: Vec<u8>, from: u64, most: usize },
}

impl Tap {
    pub fn new(mut file: File) -> Tap {
        let regular = file.metadata().is_ok_and(|about| about.is_file());
        let behind = match file.stream_position() {
            Ok(begin) if regular => Behind::File(begin),
            _ => Behind::Pipe { head: Vec::new(), last: Vec::new(), from: 0, most: 1 << 20 },
        };
        Tap { file, behind }
    }

    /// Whether bytes that were not read yet can be looked at.
    pub fn sees_ahead(&self) -> bool {
        matches!(self.behind, Behind::File(_))
    }

    /// Keeps so many bytes of a pipe from now on, at least.
    pub fn keep(&mut self, bytes: usize) {
        if let Behind::Pipe { most, .. } = &mut self.behind {
            *most = bytes.max(*most);
        }
    }

    /// The bytes between two offsets of the take, fewer where it ends before. None where they are no
    /// longer kept.
    pub fn bytes(&self, from: u64, to: u64) -> io::Result<Option<Vec<u8>>> {
        let length = to.saturating_sub(from) as usize;
        match &self.behind {
            Behind::File(begin) => {
                let mut bytes = reelpony::window::zeros(length)?;
                let mut read = 0;
                while read < length {
                    match self.file.read_at(&mut bytes[read..], begin + from + read as u64) {
                        Ok(0) => break,
                        Ok(more) => read += more,
                        Err(error) if error.kind() == io::ErrorKind::Interrupted => {}
                        Err(error) => return Err(error),
                    }
                }
                bytes.truncate(read);
                Ok(Some(bytes))
            }
            Behind::Pipe { head, last, from: kept, .. } => {
                let part = |bytes: &[u8], begin: u64| {
                    let at = usize::try_from(from.checked_sub(begin)?).ok()?;
                    Some(bytes.get(at..)?[..length.min(bytes.len() - at)].to_vec())
                };
                let in_head = to <= head.len() as u64;
                Ok(if in_head { part(head, 0) } else { part(last, *kept) })
            }
        }
    }
}

impl Read for Tap {
    fn read(&mut self, out: &mut [u8]) -> io::Result<usize> {
        let length = self.file.read(out)?;
        if let Behind::Pipe { head, last, from, most } = &mut self.behind {
            let new = &out[..length];
            head.extend(&new[..length.min(HEAD - head.len())]);
            last.extend(new);
            // Twice as many are kept now and then, so that few are moved for each.
            if last.len() > 2 * *most {
                *from += last.drain(..last.len() - *most).len() as u64;
            }
        }
        Ok(length)
    }
}
