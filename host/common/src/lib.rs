//! What the programs beside share: the repository's place, noise that is the same in every run,
//! and where the oracle's programs are.

use std::env;
use std::path::{Path, PathBuf};
use std::process::{Command, Stdio};

/// The repository's root.
pub fn root() -> PathBuf {
    let here = Path::new(env!("CARGO_MANIFEST_DIR"));
    let root = here.ancestors().nth(2);
    root.expect("host/common stands in the repository").into()
}

/// Numbers that look random and depend on the seed alone (xorshift64*).
pub struct Noise(u64);

impl Noise {
    /// Two numbers make a seed, so that each part of a run can have its own.
    pub fn new(seed: u64, part: u64) -> Noise {
        let mixed = (seed ^ part.rotate_left(32)).wrapping_mul(0x9E37_79B9_7F4A_7C15);
        let mut noise = Noise((mixed ^ mixed >> 29) | 1);
        for _ in 0..8 {
            noise.below(2);
        }
        noise
    }

    /// A number below `n`, which is at least 1 and at most 2^32.
    pub fn below(&mut self, n: u64) -> u64 {
        self.0 ^= self.0 >> 12;
        self.0 ^= self.0 << 25;
        self.0 ^= self.0 >> 27;
        let high = self.0.wrapping_mul(0x2545_F491_4F6C_DD1D) >> 32;
        (high * n) >> 32
    }

    /// True once in `n` times.
    pub fn once_in(&mut self, n: u64) -> bool {
        self.below(n) == 0
    }

    /// One of some values.
    pub fn pick<T: Copy>(&mut self, values: &[T]) -> T {
        values[self.below(values.len() as u64) as usize]
    }
}

/// A program of the oracle, which answers or times as the crate less-avc does.
pub enum OracleProgram {
    At(PathBuf),
    /// Not to be had here, and why.
    Absent(String),
}

/// Where the package is that the oracle's build script would install if it were missing.
const MEMCHR: &str = "/usr/share/cargo/registry/memchr-2.5.0";

/// Finds `oracle` or `bench`: in target/oracle, or built there from ../shared/oracle. Nothing is
/// installed unless REELPONY_INSTALL is 1. An error means that it is there but can't be built.
pub fn oracle_program(name: &str) -> Result<OracleProgram, String> {
    let folder = root().join("target/oracle");
    let program = folder.join(name);
    if program.is_file() {
        return Ok(OracleProgram::At(program));
    }
    let script = root().join("../shared/oracle/build.sh");
    if !script.is_file() {
        return Ok(OracleProgram::Absent("../shared/oracle isn't there".into()));
    }
    let install = env::var("REELPONY_INSTALL").is_ok_and(|value| value == "1");
    if !install && !Path::new(MEMCHR).is_dir() {
        return Ok(OracleProgram::Absent(
            "its build needs the Debian package librust-memchr-dev; REELPONY_INSTALL=1 installs it"
                .into(),
        ));
    }
    let status = Command::new(&script).arg(&folder).stdout(Stdio::null()).status();
    match status {
        Ok(status) if status.success() && program.is_file() => Ok(OracleProgram::At(program)),
        Ok(status) => Err(format!("../shared/oracle/build.sh failed ({status})")),
        Err(error) => Err(format!("../shared/oracle/build.sh: {error}")),
    }
}
