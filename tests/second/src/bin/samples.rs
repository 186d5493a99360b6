// SPDX-License-Identifier: MPL-2.0
//! Makes the sample files: `samples [SEED [FOLDER]]`.

use std::path::{Path, PathBuf};
use std::process::ExitCode;
use std::{env, fs, io};

use second::samples::{SEED, make};

const USAGE: &str = "usage: samples [SEED [FOLDER]], SEED decimal or 0x and hexadecimal";

fn main() -> ExitCode {
    let arguments: Vec<String> = env::args().skip(1).collect();
    let seed = arguments.first().map_or(Some(SEED), |text| number(text));
    let folder = arguments.get(1).map_or_else(bundled, PathBuf::from);
    let Some(seed) = seed.filter(|_| arguments.len() <= 2) else {
        eprintln!("{USAGE}");
        return ExitCode::FAILURE;
    };
    match write_all(seed, &folder) {
        Ok(count) => println!("{count} files from seed {seed:#x} in {}", folder.display()),
        Err(error) => {
            eprintln!("samples: {}: {error}", folder.display());
            return ExitCode::FAILURE;
        }
    }
    ExitCode::SUCCESS
}

fn number(text: &str) -> Option<u64> {
    match text.strip_prefix("0x") {
        Some(digits) => u64::from_str_radix(digits, 16).ok(),
        None => text.parse().ok(),
    }
}

/// samples/ of the repository.
fn bundled() -> PathBuf {
    Path::new(env!("CARGO_MANIFEST_DIR")).join("../../samples")
}

fn write_all(seed: u64, folder: &Path) -> io::Result<usize> {
    fs::create_dir_all(folder.join("messages"))?;
    let files = make(seed);
    for (name, bytes) in &files {
        fs::write(folder.join(name), bytes)?;
    }
    Ok(files.len())
}
