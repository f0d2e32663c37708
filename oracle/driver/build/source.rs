//! Finds the upstream source and recognises it.

use std::fs;
use std::path::PathBuf;

use crate::sha256;

/// Overrides the place in which the source is looked for.
pub const VARIABLE: &str = "BORESACU_RUST";

/// Files below the source's folder and their SHA-256.
const FILES: [(&str, &str); 5] = [
    (
        "src/sdio/v4x7.rs",
        "0616a0d7af666dbe50934a19e45e1b54cd4b0ccc2a826824f75841e6991078c2",
    ),
    (
        "src/sdio/v4x7_types.rs",
        "8183994b513408f64d75492a1c3b6076dbb425b7027ab87fc0869b2249697ade",
    ),
    (
        "src/internal/drop.rs",
        "9fdaec5c3f3b5acf9dd1d43ea34730188e68f54dd0d67500ae4f507aa1d860f5",
    ),
    (
        "src/time.rs",
        "60875b8410680d56245edbde5cdb300ef58bc07edd42d1e0cede6db35a189199",
    ),
    (
        "src/peripheral.rs",
        "d7931edd76aad066a29b23bfd31154492f6af9edbd79f4477e5c5583ac4e132e",
    ),
];

pub struct Source {
    pub driver: String,
    pub types: String,
    pub drop: PathBuf,
    pub time: PathBuf,
    pub peripheral: PathBuf,
}

/// The folder named by the variable, or `shared/docs/src` beside the
/// repository.
fn folder() -> PathBuf {
    println!("cargo::rerun-if-env-changed={VARIABLE}");
    match std::env::var_os(VARIABLE) {
        Some(folder) => PathBuf::from(folder),
        None => PathBuf::from(env!("CARGO_MANIFEST_DIR")).join("../../../shared/docs/src"),
    }
}

pub fn load() -> Result<Source, String> {
    let folder = folder();
    let mut paths = Vec::new();
    let mut texts = Vec::new();
    for (name, expected) in FILES {
        let path = folder.join(name);
        println!("cargo::rerun-if-changed={}", path.display());
        let bytes = fs::read(&path).map_err(|error| {
            format!(
                "the Rust is not at hand: {} ({error}); {VARIABLE} names the folder that holds {name}",
                path.display()
            )
        })?;
        let found = sha256::hex_digest(&bytes);
        if found != expected {
            return Err(format!(
                "{} is not the source that was meant: SHA-256 {found}, expected {expected}",
                path.display()
            ));
        }
        texts.push(String::from_utf8(bytes).map_err(|error| format!("{name}: {error}"))?);
        paths.push(path.canonicalize().map_err(|error| format!("{name}: {error}"))?);
    }
    let mut texts = texts.into_iter();
    let mut next = || texts.next().expect("as many texts as files");
    Ok(Source {
        driver: next(),
        types: next(),
        drop: paths[2].clone(),
        time: paths[3].clone(),
        peripheral: paths[4].clone(),
    })
}
