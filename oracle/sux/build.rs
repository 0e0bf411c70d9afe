//! Lays links to the sux-rs files in the build folder, in their own layout, and empty files where they name a module
//! that the oracle leaves out. The compiler reads the files through the links: nothing is copied or changed.

use std::{env, fs, os::unix::fs::symlink, path::Path};

const READ: [&str; 6] = [
    "src/rank_sel/mod.rs",
    "src/rank_sel/select_adapt.rs",
    "src/rank_sel/select_zero_adapt.rs",
    "src/rank_sel/select_adapt_const.rs",
    "src/traits/rank_sel.rs",
    "src/utils/select_in_word.rs",
];

const LEFT_OUT: [(&str, &str); 5] = [
    ("rank_small", "#[allow(non_snake_case)] pub mod ambassador_impl_SmallCounters {}"),
    ("select_small", ""),
    ("select_zero_small", ""),
    ("rank9", ""),
    ("select9", ""),
];

fn main() {
    let here = env::var("CARGO_MANIFEST_DIR").unwrap();
    let out = env::var("OUT_DIR").unwrap();
    let out = Path::new(&out);
    println!("cargo:rerun-if-env-changed=SUX_SOURCES");
    // Beside the repository: <root>/oracle/sux/../../../shared/docs/src.
    let folder = env::var("SUX_SOURCES").unwrap_or(format!("{here}/../../../shared/docs/src"));
    let folder = fs::canonicalize(&folder).unwrap_or_else(|e| panic!("SUX_SOURCES: {folder}: {e}"));

    fs::remove_dir_all(out.join("src")).ok();
    let mut listed = String::new();
    for file in READ {
        let from = folder.join(file);
        println!("cargo:rerun-if-changed={}", from.display());
        fs::create_dir_all(out.join(file).parent().unwrap()).unwrap();
        symlink(&from, out.join(file)).unwrap();
        assert!(from.is_file(), "{} is missing", from.display());
        listed += &format!("({file:?}, include_bytes!({:?})),", from);
    }
    for (module, text) in LEFT_OUT {
        fs::write(out.join(format!("src/rank_sel/{module}.rs")), text).unwrap();
    }
    let zeros = format!("{here}/select_zero_adapt_const.rs");
    println!("cargo:rerun-if-changed={zeros}");
    symlink(zeros, out.join("src/rank_sel/select_zero_adapt_const.rs")).unwrap();

    for (place, file) in [("rank_sel", READ[0]), ("traits_rank_sel", READ[4]), ("select_in_word", READ[5])] {
        let module = Path::new(file).file_stem().unwrap().to_str().unwrap();
        let module = if module == "mod" { "rank_sel" } else { module };
        fs::write(out.join(format!("{place}.in")), format!("#[path = {:?}]\npub mod {module};\n", out.join(file)))
            .unwrap();
    }
    fs::write(
        out.join("files.in"),
        format!(
            "/// The folder the files were read from.\npub const FOLDER: &str = {folder:?};\n\
             /// The files as compiled.\npub const FILES: [(&str, &[u8]); {}] = [{listed}];\n",
            READ.len()
        ),
    )
    .unwrap();
}
