//! Counts instructions inside the measured calls with valgrind's callgrind.

use crate::asking::Buffers;
use crate::lines;
use std::hint::black_box;
use std::io::ErrorKind;
use std::path::{Path, PathBuf};
use std::process::Command;

/// The argument with which this program calls once with each input.
pub const ASK_ONCE: &str = "ask-once";

/// The calls inside which instructions are counted.
const CALLS: [&str; 5] = [
    "zimorgal_ask",
    "zimorgal_judge",
    "zimorgal_constant",
    "zimorgal_join",
    "zimorgal_height",
];

/// Settings of the C library: no `rep stosb` and no `rep movsb` in its memset and memcpy. Callgrind would count the one
/// that clears the work area 4,096 times.
const NO_REPEATS: &str = "glibc.cpu.x86_rep_stosb_threshold=1000000000:\
                           glibc.cpu.x86_rep_movsb_threshold=1000000000";

/// Calls once with each input, for callgrind. Prints of each family whether it has inputs and the library its call; if not, nothing is counted.
pub fn ask_once() {
    let mut buffers = Buffers::new();
    let lines = lines::all();
    // The rows to be judged were asked for. What was counted of that goes into a file of its own.
    bench_family_ends();
    for line in lines {
        let there = line.is_there();
        if there {
            for input in &line.family.inputs {
                buffers.call(line.call, input);
            }
        }
        bench_family_ends();
        println!("{there}");
    }
}

/// Callgrind writes what it counted whenever this returns.
#[no_mangle]
#[inline(never)]
extern "C" fn bench_family_ends() {
    black_box(());
}

/// The instructions of each family, all inputs together, or why there are none.
pub fn count(program: &Path) -> Result<Vec<u64>, String> {
    let folder = Folder::new().map_err(|error| error.to_string())?;
    let counts = folder.0.join("counts");
    let printed = run_counted(program, &counts)?;
    let count = |(number, there): (usize, &str)| {
        let file = counts.with_extension((number + 2).to_string());
        match count_of_file(&file)? {
            0 if there.parse() != Ok(false) => Err("callgrind counted nothing".to_string()),
            count => Ok(count),
        }
    };
    printed.lines().enumerate().map(count).collect()
}

/// Runs a program under callgrind, which writes a file for each family: `counts` and the family's number, from 2. Gives what the program
/// prints.
fn run_counted(program: &Path, counts: &Path) -> Result<String, String> {
    let run = Command::new("valgrind")
        .arg("--tool=callgrind")
        .args(CALLS.map(|call| format!("--toggle-collect={call}")))
        .arg("--dump-after=bench_family_ends")
        .arg(format!("--callgrind-out-file={}", counts.display()))
        .arg(program)
        .arg(ASK_ONCE)
        .env("LD_BIND_NOW", "1")
        .env("GLIBC_TUNABLES", NO_REPEATS)
        .output()
        .map_err(|error| match error.kind() {
            ErrorKind::NotFound => "valgrind is not installed".to_string(),
            _ => format!("valgrind: {error}"),
        })?;
    if !run.status.success() {
        let said = String::from_utf8_lossy(&run.stderr);
        let last = said.lines().last().unwrap_or_default();
        return Err(format!("valgrind failed: {last}"));
    }
    Ok(String::from_utf8_lossy(&run.stdout).into_owned())
}

/// The number that a file of callgrind gives as its total.
fn count_of_file(file: &Path) -> Result<u64, String> {
    let text = std::fs::read_to_string(file)
        .map_err(|error| format!("callgrind's {}: {error}", file.display()))?;
    let total = text.lines().find_map(|line| line.strip_prefix("totals: "));
    let number = total.and_then(|number| number.trim().parse().ok());
    number.ok_or_else(|| format!("callgrind's {} has no total", file.display()))
}

/// A folder that is there as long as this.
struct Folder(PathBuf);

impl Folder {
    fn new() -> std::io::Result<Folder> {
        let name = format!("zimorgal-bench-{}", std::process::id());
        let folder = std::env::temp_dir().join(name);
        std::fs::create_dir(&folder)?;
        Ok(Folder(folder))
    }
}

impl Drop for Folder {
    fn drop(&mut self) {
        let _ = std::fs::remove_dir_all(&self.0);
    }
}
