//! Links the proved machine's archive. `HAWSERMOLE_LIB_DIR` names the folder that holds it;
//! without it, the repository's own.
use std::path::PathBuf;

const ARCHIVE: &str = "libhawsermole.a";

fn main() {
    println!("cargo:rerun-if-env-changed=HAWSERMOLE_LIB_DIR");
    let folder = folder();
    let archive = folder.join(ARCHIVE);
    println!("cargo:rerun-if-changed={}", archive.display());
    let Ok(bytes) = std::fs::read(&archive) else {
        fail(&format!(
            "{ARCHIVE} is not in {}\n\
             build it with `make` at the root of the repository, or name its folder in HAWSERMOLE_LIB_DIR",
            folder.display()
        ))
    };
    let target = std::env::var("CARGO_CFG_TARGET_ARCH").unwrap();
    if let Some(message) = misfit(&bytes, &target) {
        fail(&format!("{}: {message}", archive.display()));
    }
    println!("cargo:rustc-link-search=native={}", folder.display());
    println!("cargo:rustc-link-lib=static=hawsermole");
}

fn fail(message: &str) -> ! {
    eprintln!("{message}");
    std::process::exit(1);
}

fn folder() -> PathBuf {
    match std::env::var_os("HAWSERMOLE_LIB_DIR") {
        Some(folder) => PathBuf::from(folder),
        None => {
            PathBuf::from(std::env::var_os("CARGO_MANIFEST_DIR").unwrap()).join("..").join("target/staticlib")
        }
    }
}

/// Rust's names of processors, and the numbers that ELF has for them.
const PROCESSORS: [(&str, u16); 5] =
    [("x86", 3), ("arm", 40), ("x86_64", 62), ("aarch64", 183), ("riscv64", 243)];

/// Why an archive can't be linked to a program for a processor, where that can be told: the linker would only say that
/// it finds none of the functions.
pub fn misfit(archive: &[u8], target: &str) -> Option<String> {
    let machine = machine(archive)?;
    let name = |&&(_, number): &&(&'static str, u16)| number == machine;
    let of = PROCESSORS.iter().find(name).map(|&(name, _)| name)?;
    (of != target && PROCESSORS.iter().any(|&(name, _)| name == target)).then(|| {
        format!(
            "it is for {of}, and this program for {target}\n\
             `make` at the root of the repository builds and runs programs for x86-64 on other machines, too \
             (`make run`, `make cli`);\n\
             for an archive of this machine's own, to try things out, call `make target/native/libhawsermole.a` there \
             and name its folder in HAWSERMOLE_LIB_DIR"
        )
    })
}

/// The processor of the first object in an archive, by ELF's number.
fn machine(archive: &[u8]) -> Option<u16> {
    const ELF: &[u8] = b"\x7FELF";
    let start = archive.windows(ELF.len()).position(|bytes| bytes == ELF)?;
    let little = *archive.get(start + 5)? == 1;
    let number = [*archive.get(start + 18)?, *archive.get(start + 19)?];
    Some(if little { u16::from_le_bytes(number) } else { u16::from_be_bytes(number) })
}
