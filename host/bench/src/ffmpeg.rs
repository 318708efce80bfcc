//! ffmpeg's time for reading the same pictures.

use std::fs;
use std::path::{Path, PathBuf};
use std::process::{Command, Stdio};
use std::time::Instant;

/// Times ffmpeg on files in a folder of its own.
pub struct Ffmpeg {
    folder: PathBuf,
}

impl Ffmpeg {
    /// If ffmpeg can be started.
    pub fn new() -> Result<Ffmpeg, String> {
        let mut probe = Command::new("ffmpeg");
        probe.arg("-version").stdout(Stdio::null()).stderr(Stdio::null());
        if !probe.status().is_ok_and(|status| status.success()) {
            return Err("ffmpeg is missing (Debian package ffmpeg)".into());
        }
        let folder = common::root().join("target/host/bench");
        fs::create_dir_all(&folder).map_err(|error| format!("target/host/bench: {error}"))?;
        Ok(Ffmpeg { folder })
    }

    /// The least milliseconds of some runs that decode the take with one thread: the whole process
    /// from its start to its end, with the reading of the file, which is in memory by then.
    pub fn time(&self, take: &[u8]) -> Result<f64, String> {
        let file = self.folder.join("take.h264");
        fs::write(&file, take).map_err(|error| format!("target/host/bench: {error}"))?;
        let times: Result<Vec<f64>, String> = (0..3).map(|_| decode(&file)).collect();
        // A file that stays is no harm.
        let _ = fs::remove_file(&file);
        Ok(times?.into_iter().fold(f64::INFINITY, f64::min))
    }
}

/// The milliseconds of one run, which must not complain of anything.
fn decode(file: &Path) -> Result<f64, String> {
    let begun = Instant::now();
    let output = Command::new("ffmpeg")
        .args(["-nostdin", "-v", "error", "-threads", "1", "-f", "h264", "-i"])
        .arg(file)
        .args(["-f", "null", "-"])
        .output();
    let ms = begun.elapsed().as_secs_f64() * 1000.0;
    let output = output.map_err(|error| format!("ffmpeg: {error}"))?;
    let said = String::from_utf8_lossy(&output.stderr);
    if output.status.success() && said.is_empty() {
        Ok(ms)
    } else {
        Err(format!("ffmpeg: {}: {}", output.status, said.trim()))
    }
}
