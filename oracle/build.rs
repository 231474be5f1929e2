//! Two things that the crate is built around and that stand elsewhere.
//!
//! The original's files, in the folder that FIBER_SRC names (else ../../shared/docs/src): OUT_DIR/reference.rs has each of them whole, byte for byte,
//! between `pub mod NAME {` and `}`, with one line behind it that brings the stand-ins into scope, and our probe as a child module (a child sees its
//! parent's private items, so nothing in the file has to be made public).
//!
//! The library, as the static library that BASINPANTRY_LIB names (else ../target/staticlib/libcapi.a): it is linked to `compare` and the
//! benchmarks alone, so that `oracle` can be built without it.
use std::path::PathBuf;
use std::{env, fs};

#[path = "src/standins/blake2b.rs"]
mod blake2b;

fn folder() -> PathBuf {
    PathBuf::from(env::var("CARGO_MANIFEST_DIR").unwrap())
}

/// Where a file of the original stands: under its path, or under its path with `--` between the parts.
fn find(rel: &str) -> PathBuf {
    let dir = env::var("FIBER_SRC").map(PathBuf::from).unwrap_or_else(|_| folder().join("../../shared/docs/src"));
    let flat = format!("src--{}.txt", rel.replace('/', "--"));
    let tried = [rel.to_string(), format!("{rel}.txt"), flat.clone(), flat["src--".len()..].to_string()];
    match tried.iter().map(|name| dir.join(name)).find(|p| p.is_file()) {
        Some(p) => p,
        None => panic!("the original's file {rel} is not in {}; FIBER_SRC names the folder of its sources", dir.display()),
    }
}

fn reference() -> String {
    let probes = folder().join("src/probes");
    let mut list = String::from("pub const SOURCES: &[(&str, usize, &str)] = &[\n");
    let mut whole = |name: &str, rel: &str, probe: Option<&str>| -> String {
        let p = find(&format!("crates/fiber-lib/src/{rel}"));
        println!("cargo:rerun-if-changed={}", p.display());
        let text = fs::read_to_string(&p).unwrap();
        let hash: String = blake2b::blake2b_256(text.as_bytes()).iter().map(|b| format!("{b:02x}")).collect();
        list += &format!("({:?}, {}, {:?}),\n", p.display().to_string(), text.len(), hash);
        let child = match probe {
            Some(f) => format!("pub mod probe {{ include!({:?}); }}\n", probes.join(f).display().to_string()),
            None => String::new(),
        };
        format!("pub mod {name} {{\n{text}\n#[allow(unused_imports)] use crate::standins::crates::*;\n{child}}}\n")
    };
    let mut out = String::from("pub mod utils {\n");
    out += &whole("arithmetic", "utils/arithmetic.rs", None);
    out += "}\npub mod ckb {\npub use error::FundingError;\npub use crate::standins::chain::{config, contracts, CkbChainMessage};\n";
    out += &whole("error", "ckb/error.rs", None);
    out += &whole("held_cells", "ckb/held_cells.rs", Some("held_cells.rs"));
    out += "pub mod funding {\n";
    out += &whole("limits", "ckb/funding/limits.rs", None);
    out += &whole("funding_tx", "ckb/funding/funding_tx.rs", Some("funding_tx.rs"));
    out += "}\n}\n";
    out + &list + "];\n"
}

fn main() {
    println!("cargo:rerun-if-env-changed=FIBER_SRC");
    println!("cargo:rerun-if-env-changed=BASINPANTRY_LIB");
    println!("cargo:rerun-if-changed=build.rs");
    let library = env::var("BASINPANTRY_LIB").map(PathBuf::from).unwrap_or_else(|_| folder().join("../target/staticlib/libcapi.a"));
    println!("cargo:rerun-if-changed={}", library.display());
    if library.is_file() {
        for program in ["compare", "bench_update", "bench_tables", "bench_hostile"] {
            println!("cargo:rustc-link-arg-bin={program}={}", library.display());
        }
    }
    let to = PathBuf::from(env::var("OUT_DIR").unwrap());
    fs::write(to.join("reference.rs"), reference()).unwrap();
}
