#!/bin/sh
# module.sh FILE: writes the module that the proved archive is compiled from, as it is before any optimisation, to
# FILE. `rt lib` is run once more with a clang that keeps a copy of what it is given; the archive that comes of it has
# to be the one that was there, so that the module is its own.
set -eu
[ $# -eq 1 ] || { echo "usage: tools/module.sh FILE" >&2; exit 2; }
root=$(cd "$(dirname "$0")/.." && pwd)
archive=$root/target/staticlib/libhawsermole.a
[ -e "$archive" ] || { echo "module.sh: no archive yet: make library" >&2; exit 2; }
mkdir -p "$(dirname "$1")"
module=$(cd "$(dirname "$1")" && pwd)/$(basename "$1")
kit=$(dirname "$(dirname "$(readlink -f "$(command -v rt)")")")
# The kit by links, but for that clang, and for `rt`, which looks for the kit where it stands itself.
links=$(mktemp -d)
trap 'rm -rf "$links"' EXIT
mkdir -p "$links/bin" "$links/toolchain/bin"
link_all() {
    for file in "$1"/*; do
        [ -e "$2/$(basename "$file")" ] || ln -s "$file" "$2/$(basename "$file")"
    done
}
cat >"$links/toolchain/bin/clang" <<SCRIPT
#!/bin/sh
for word in "\$@"; do
    case \$word in *.bc) cp "\$word" "$links/module.bc" ;; esac
done
exec "$kit/toolchain/bin/clang" "\$@"
SCRIPT
chmod +x "$links/toolchain/bin/clang"
cp "$kit/bin/rt" "$kit/bin/rtlib.py" "$links/bin"
link_all "$kit/bin" "$links/bin"
link_all "$kit/toolchain/bin" "$links/toolchain/bin"
link_all "$kit/toolchain" "$links/toolchain"
link_all "$kit" "$links"
# With library.sh's own words.
cd "$root/crates/hawsermole"
"$links/bin/rt" lib --cpu x86-64 >"$links/log" 2>&1 || { cat "$links/log" >&2; exit 1; }
cmp out/libhawsermole.a "$archive" || { echo "module.sh: the module isn't the archive's" >&2; exit 1; }
cp "$links/module.bc" "$module"
chmod 644 "$module"
