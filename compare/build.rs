//! Links the archive of the Rattle library, where ./run names one, and tells the sources which
//! of the entries it has. Without one only the --self modes are there.

use std::env;

/// The entries of jobs by the manual: what ./run sets for each, and what the sources ask.
const JOBS: [(&str, &str); 3] = [
    ("NAZGWERN_MANUAL_BUILD", "library_manual_build"),
    ("NAZGWERN_MANUAL_LINE", "library_manual_line"),
    ("NAZGWERN_RELEASE_6_LINE", "library_release_6_line"),
];

fn main() {
    println!("cargo:rustc-check-cfg=cfg(library_build, library_line, library_count, library_text)");
    println!("cargo:rustc-check-cfg=cfg(library_dry_run, library_macros, library_page, library_index)");
    println!("cargo:rustc-check-cfg=cfg(library_patching)");
    for name in [
        "NAZGWERN_FOLDER",
        "NAZGWERN_BUILD",
        "NAZGWERN_LINE",
        "NAZGWERN_COUNT",
        "NAZGWERN_TEXT",
        "NAZGWERN_DRY_RUN",
        "NAZGWERN_MACROS",
        "NAZGWERN_PAGE",
        "NAZGWERN_INDEX",
        "NAZGWERN_PATCHING",
    ] {
        println!("cargo:rerun-if-env-changed={name}");
    }

    for (name, asked) in JOBS {
        println!("cargo:rerun-if-env-changed={name}");
        println!("cargo:rustc-check-cfg=cfg({asked})");
    }

    let Ok(folder) = env::var("NAZGWERN_FOLDER") else {
        return;
    };

    println!("cargo:rerun-if-changed={folder}/libnazgwern.a");
    println!("cargo:rustc-link-search=native={folder}");
    println!("cargo:rustc-link-lib=static=nazgwern");

    for (name, asked) in JOBS {
        if env::var(name).is_ok() {
            println!("cargo:rustc-cfg={asked}");
        }
    }
    if env::var("NAZGWERN_BUILD").is_ok() {
        println!("cargo:rustc-cfg=library_build");
    }
    if env::var("NAZGWERN_LINE").is_ok() {
        println!("cargo:rustc-cfg=library_line");
    }
    if env::var("NAZGWERN_COUNT").is_ok() {
        println!("cargo:rustc-cfg=library_count");
    }
    if env::var("NAZGWERN_TEXT").is_ok() {
        println!("cargo:rustc-cfg=library_text");
    }
    if env::var("NAZGWERN_DRY_RUN").is_ok() {
        println!("cargo:rustc-cfg=library_dry_run");
    }
    if env::var("NAZGWERN_MACROS").is_ok() {
        println!("cargo:rustc-cfg=library_macros");
    }
    if env::var("NAZGWERN_PAGE").is_ok() {
        println!("cargo:rustc-cfg=library_page");
    }
    if env::var("NAZGWERN_INDEX").is_ok() {
        println!("cargo:rustc-cfg=library_index");
    }
    if env::var("NAZGWERN_PATCHING").is_ok() {
        println!("cargo:rustc-cfg=library_patching");
    }
}
