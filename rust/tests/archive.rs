//! The build says why an archive of another machine can't be linked, where the linker would only miss its functions.
#[allow(dead_code)]
#[path = "../build.rs"]
mod build;

/// An archive of one object, as far as it is looked at.
fn archive(machine: u8, order: u8) -> Vec<u8> {
    let mut object = vec![0; 64];
    object[..4].copy_from_slice(b"\x7FELF");
    object[5] = order;
    object[if order == 1 { 18 } else { 19 }] = machine;
    [b"!<arch>\nobject.o/       0           0     0     644     64        `\n", object.as_slice()].concat()
}

const X86_64: u8 = 62;
const ARM_64: u8 = 183;

#[test]
fn an_archive_of_another_processor_is_told() {
    let told = build::misfit(&archive(X86_64, 1), "aarch64").unwrap();
    assert!(told.starts_with("it is for x86_64, and this program for aarch64\n`make` at the root"), "{told}");
    let told = build::misfit(&archive(ARM_64, 1), "x86_64").unwrap();
    assert!(told.starts_with("it is for aarch64, and this program for x86_64\n"), "{told}");
    assert!(build::misfit(&archive(ARM_64, 2), "x86_64").is_some());
}

#[test]
fn an_archive_that_fits_or_is_not_known_is_left_to_the_linker() {
    assert_eq!(build::misfit(&archive(X86_64, 1), "x86_64"), None);
    assert_eq!(build::misfit(&archive(ARM_64, 1), "aarch64"), None);
    assert_eq!(build::misfit(&archive(X86_64, 1), "sparc64"), None);
    assert_eq!(build::misfit(&archive(1, 1), "x86_64"), None);
    assert_eq!(build::misfit(b"!<arch>\n", "x86_64"), None);
    assert_eq!(build::misfit(b"!<arch>\n\x7FELF", "x86_64"), None);
}
