//! The counts of callgrind, by running this program under it.

use std::env;
use std::fs;
use std::path::Path;
use std::process::{Command, Stdio};

/// The instructions of both sides of each row; none where valgrind is not at hand.
pub fn counts(seed: u64) -> Vec<(u64, u64)> {
    let folder = env::temp_dir().join(format!("compare-bench-{}", std::process::id()));
    if fs::create_dir(&folder).is_err() {
        return Vec::new();
    }
    let counts = if count_into(&folder, seed) { read(&folder) } else { Vec::new() };
    // What is left behind is in the folder of temporary files.
    let _ = fs::remove_dir_all(&folder);
    counts
}

fn count_into(folder: &Path, seed: u64) -> bool {
    let Ok(this) = env::current_exe() else {
        return false;
    };
    let status = Command::new("valgrind")
        .args(["--tool=callgrind", "--toggle-collect=bench_measured", "--dump-after=bench_measured", "--dump-line=no", "--dump-instr=no"])
        .arg(format!("--callgrind-out-file={}", folder.join("counts").display()))
        .arg(this)
        .args(["--bench-counted", &seed.to_string()])
        .stdout(Stdio::null())
        .stderr(Stdio::null())
        .status();
    status.is_ok_and(|status| status.success())
}

/// Each count is in a file of its own, numbered from 1; the engine's before the Rust's.
fn read(folder: &Path) -> Vec<(u64, u64)> {
    let count = |n: usize| {
        let text = fs::read_to_string(folder.join(format!("counts.{n}"))).ok()?;
        text.lines().find_map(|line| line.strip_prefix("totals: "))?.trim().parse().ok()
    };
    (0..).map_while(|row| Some((count(2 * row + 1)?, count(2 * row + 2)?))).collect()
}
