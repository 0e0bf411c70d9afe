//! What is read and what is linked, said at the start of every run.

use std::path::Path;

pub fn announce() {
    println!("sux-rs 5518907969, compiled unchanged from {}:", sux::FOLDER);
    for (file, text) in sux::FILES {
        println!("  {file}: {} bytes, FNV-1a {:016x}", text.len(), fnv(text));
    }
    let library = env!("EDGE_INDEX_LIBRARY");
    match std::fs::read(library) {
        Ok(bytes) => println!("linked: {library}, {} bytes, FNV-1a {:016x}", bytes.len(), fnv(&bytes)),
        Err(e) => println!("linked at build time: {library} ({e} now)"),
    }
}

/// The sources are compiled in; a folder named at run time must hold the same bytes.
pub fn verify(folder: &str) -> Result<(), String> {
    for (file, text) in sux::FILES {
        let path = Path::new(folder).join(file);
        let now = std::fs::read(&path).map_err(|e| format!("{}: {e}", path.display()))?;
        if now != text {
            return Err(format!("{} is not what was compiled: build again with SUX_SOURCES={folder}", path.display()));
        }
    }
    println!("the sources in {folder} are those compiled");
    Ok(())
}

fn fnv(bytes: &[u8]) -> u64 {
    bytes.iter().fold(0xcbf2_9ce4_8422_2325, |h, &b| (h ^ b as u64).wrapping_mul(0x0000_0100_0000_01b3))
}
