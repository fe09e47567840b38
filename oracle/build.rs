//! Writes the list of gatk-rs modules to compile where they stand, the one of them that is compiled with a change too, and
//! links our own library's calls.
use std::env;
use std::fs;
use std::path::{Path, PathBuf};

/// The files of gatk-rs that the oracle runs as they stand.
const MODULES: [&str; 3] = ["assembly", "bio_ids", "seq_graph"];
/// The file with the signature. It is compiled twice: as it stands, under `UNCHANGED`, and under its own name with the edges in
/// the signature, so that the others call this one.
const SIMPLIFY: &str = "seq_graph_simplify";
const UNCHANGED: &str = "unchanged_seq_graph_simplify";
/// Where the signature of the Rust ends, and what comes behind it.
const SIGNATURE_END: &str = "        out.extend(graph.vertex_sequence(v));\n    }\n";
const SIGNATURE_EDGES: &str = "    for e in graph.edges() {
        out.extend_from_slice(&(e.from as u32).to_le_bytes());
        out.extend_from_slice(&(e.to as u32).to_le_bytes());
        out.extend_from_slice(&e.support.to_le_bytes());
        out.push(e.is_ref as u8);
    }
";
const DEFAULT_SRC: &str = "../shared/docs/src/gatk-haplotypecaller/src";
const CALLS: [&str; 7] = [
    "sg_vertex_sequence",
    "sg_from_assembly_graph",
    "sg_simplify_graph",
    "sg_cleanup_seq_graph",
    "sg_clean_non_ref_paths",
    "sg_reference_path_bytes",
    "sg_path_bases_bytes",
];

fn main() {
    let here = PathBuf::from(env::var("CARGO_MANIFEST_DIR").unwrap());
    let root = here.parent().unwrap();
    write_modules(root);
    link_calls(&here, root);
}

/// `GATK_RS_SRC` may be absolute or relative to the repository's root.
fn write_modules(root: &Path) {
    println!("cargo:rerun-if-env-changed=GATK_RS_SRC");
    let src = root.join(env::var("GATK_RS_SRC").unwrap_or(DEFAULT_SRC.to_string()));
    let out = PathBuf::from(env::var("OUT_DIR").unwrap());
    let mut text = String::new();
    for name in MODULES {
        text += &module(name, &source(&src, name));
    }
    let file = source(&src, SIMPLIFY);
    text += &module(UNCHANGED, &file);
    text += &module(SIMPLIFY, &with_edges(&file, &out));
    text += &prefix_bytes(&src.join("hc_allele_mapping.rs"));
    fs::write(out.join("gatk_rs.rs"), text).unwrap();
}

fn source(src: &Path, name: &str) -> PathBuf {
    let file = src.join(format!("{name}.rs"));
    assert!(file.is_file(), "no {}: set GATK_RS_SRC", file.display());
    println!("cargo:rerun-if-changed={}", file.display());
    file
}

fn module(name: &str, file: &Path) -> String {
    format!("#[allow(warnings)]\n#[path = {file:?}]\npub mod {name};\n")
}

/// The file with each edge in the signature, by one replacement, whose place must be there exactly once.
fn with_edges(file: &Path, out: &Path) -> PathBuf {
    let text = fs::read_to_string(file).unwrap();
    assert!(text.matches(SIGNATURE_END).count() == 1, "{}: not one end of the signature", file.display());
    let changed = out.join(format!("{SIMPLIFY}.rs"));
    fs::write(&changed, text.replace(SIGNATURE_END, &format!("{SIGNATURE_END}{SIGNATURE_EDGES}"))).unwrap();
    changed
}

/// The text of `prefix_bytes` alone: the rest of its file needs modules that are not there.
fn prefix_bytes(file: &Path) -> String {
    println!("cargo:rerun-if-changed={}", file.display());
    let text = fs::read_to_string(file).unwrap();
    let from = text.find("fn prefix_bytes(").expect("no prefix_bytes");
    let length = text[from..].find("\n}\n").expect("no end of prefix_bytes") + 3;
    format!("pub {}", &text[from..from + length])
}

/// Each call named in calls.txt becomes a cfg of its name; the library is linked if there is one.
fn link_calls(here: &Path, root: &Path) {
    let list = here.join("calls.txt");
    println!("cargo:rerun-if-changed={}", list.display());
    for call in CALLS {
        println!("cargo:rustc-check-cfg=cfg({call})");
    }
    let text = fs::read_to_string(&list).unwrap();
    let mut any = false;
    for name in text.lines().map(str::trim).filter(|l| !l.is_empty() && !l.starts_with('#')) {
        assert!(CALLS.contains(&name), "calls.txt: no call {name}");
        println!("cargo:rustc-cfg={name}");
        any = true;
    }
    if any {
        let library = root.join("target/staticlib");
        println!("cargo:rerun-if-changed={}", library.join("libsg.a").display());
        println!("cargo:rustc-link-search=native={}", library.display());
        println!("cargo:rustc-link-lib=static=sg");
    }
}
