#!/bin/sh
# Tests the Rust crate with the oldest Rust that it is for, its rust-version, as Debian 12 has it.
# Its examples are left out: rustdoc of that time can't be told of an emulator.
# The compiler is fetched to target/oldest and installed nowhere. Not in the gate, since it needs Debian's archive.
#   CC=gcc EMULATOR= tools/oldest.sh       both as tools/host.mk has them
set -eu
cd "$(dirname "$0")/.."
wanted=$(sed -n 's/^rust-version = "\(.*\)"$/\1/p' rust/Cargo.toml)
root=$PWD/target/oldest/$wanted
if [ ! -x "$root/usr/bin/rustc" ]; then
    version=$(apt-cache madison rustc-web | awk -v wanted="$wanted." 'index($3, wanted) == 1 { print $3; exit }')
    [ -n "$version" ] || { echo "oldest: Debian's archive has no rustc-web $wanted" >&2; exit 2; }
    echo "oldest: fetching rustc-web $version"
    mkdir -p "$root"
    (cd "$root" && apt-get -qq download "rustc-web=$version" "libstd-rust-web-$wanted=$version" \
        "libstd-rust-web-dev=$version" "libstd-rust-web-dev:amd64=$version" libllvm19)
    for package in "$root"/*.deb; do
        dpkg-deb -x "$package" "$root"
    done
fi
LD_LIBRARY_PATH=$(echo "$root"/usr/lib/*-linux-gnu | tr ' ' ':')
export LD_LIBRARY_PATH RUSTC="$root/usr/bin/rustc" RUSTDOC="$root/usr/bin/rustdoc"
"$RUSTC" --version | grep -F "rustc $wanted."
target=x86_64-unknown-linux-gnu
cd rust
CARGO_TARGET_DIR=../target/oldest/build CARGO_BUILD_TARGET=$target \
    CARGO_TARGET_X86_64_UNKNOWN_LINUX_GNU_LINKER=${CC:-cc} \
    CARGO_TARGET_X86_64_UNKNOWN_LINUX_GNU_RUNNER="env -u LD_LIBRARY_PATH ${EMULATOR:-}" \
    cargo test --offline --quiet --locked --lib --tests
