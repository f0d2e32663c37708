//! Brings the upstream source into the build: recognises it, makes the edits,
//! and writes the copy with the wrong hosts beside the right one.

mod apply;
mod edits;
mod sha256;
mod source;
mod wrongs;

use std::fs;
use std::path::Path;

use wrongs::File;

fn main() {
    println!("cargo::rerun-if-changed=build");
    println!("cargo::rustc-cfg=dma_v4x7");
    println!("cargo::rustc-check-cfg=cfg(dma_v4x7, afio_h4)");
    println!("cargo::rustc-check-cfg=cfg(feature, values(\"embassy\", \"defmt\"))");
    if let Err(message) = build() {
        println!("cargo::error={message}");
    }
}

fn build() -> Result<(), String> {
    let source = source::load()?;
    let out = std::env::var("OUT_DIR").map_err(|error| error.to_string())?;
    let out = Path::new(&out);
    let inside = Path::new(env!("CARGO_MANIFEST_DIR")).join("src/inside.rs");
    println!("cargo::rerun-if-changed=src/inside.rs");

    let driver = apply::edited(&source.driver, &edits::EDITS)?;
    let addition = edits::addition(&inside.display().to_string());
    let sites = wrongs::sites();
    let of = |file: File| -> Vec<_> { sites.iter().copied().filter(|site| site.file == file).collect() };

    write(out, "right/v4x7.rs", &format!("{driver}{addition}"))?;
    write(out, "right/v4x7_types.rs", &source.types)?;
    let switched = apply::switched(&driver, &of(File::Driver))?;
    write(out, "switched/v4x7.rs", &format!("{switched}{addition}"))?;
    write(
        out,
        "switched/v4x7_types.rs",
        &apply::switched(&source.types, &of(File::Types))?,
    )?;
    write(out, "wrongs.rs", &names(&wrongs::all())?)?;

    let module = |visibility: &str, name: &str, path: &Path| format!("#[path = {path:?}]\n{visibility}mod {name};\n");
    let modules = [
        module("pub ", "time", &source.time),
        module("pub(crate) ", "peripheral", &source.peripheral),
        format!(
            "pub(crate) mod internal {{\n{}}}\n",
            module("pub ", "drop", &source.drop)
        ),
        module("pub ", "sdio", &out.join("right/v4x7.rs")),
        module("pub ", "switched", &out.join("switched/v4x7.rs")),
    ];
    let quiet = "#[allow(dead_code, private_interfaces, unused_parens, clippy::all)]\n";
    let modules: String = modules.iter().map(|module| format!("{quiet}{module}")).collect();
    write(out, "modules.rs", &modules)
}

fn write(out: &Path, name: &str, text: &str) -> Result<(), String> {
    let path = out.join(name);
    let folder = path.parent().expect("a file lies in a folder");
    fs::create_dir_all(folder).map_err(|error| error.to_string())?;
    fs::write(&path, text).map_err(|error| format!("{}: {error}", path.display()))
}

/// A number for each wrong host, from 1 up, and the list of them.
fn names(wrongs: &[(&str, &str)]) -> Result<String, String> {
    let mut text = String::new();
    let mut list = String::new();
    for (place, (name, what)) in wrongs.iter().enumerate() {
        if wrongs[..place].iter().any(|earlier| earlier.0 == *name) {
            return Err(format!("two wrong hosts are called {name}"));
        }
        let constant = apply::constant(name);
        text.push_str(&format!("pub const {constant}: u16 = {};\n", place + 1));
        list.push_str(&format!("    ({constant}, {name:?}, {what:?}),\n"));
    }
    Ok(format!("{text}pub const ALL: &[(u16, &str, &str)] = &[\n{list}];\n"))
}
