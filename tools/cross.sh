#!/bin/sh
# Installs what builds and runs x86-64 programs where the machine is another;
# does nothing on x86-64, or where all is there.
set -eu
[ "$(uname -m)" != x86_64 ] || exit 0
have() {
    for tool in x86_64-linux-gnu-gcc x86_64-linux-gnu-g++ qemu-x86_64 /usr/bin/rustc /usr/bin/rustdoc; do
        command -v "$tool" >/dev/null || return 1
    done
    [ -d /usr/lib/rustlib/x86_64-unknown-linux-gnu/lib ] && [ -e /lib64/ld-linux-x86-64.so.2 ] \
        && [ -e /usr/lib/x86_64-linux-gnu/libstdc++.so.6 ]
}
if have; then
    exit 0
fi
echo "cross.sh: installing compilers for x86-64 and an emulator" >&2
dpkg --add-architecture amd64
apt-get update -qq
DEBIAN_FRONTEND=noninteractive apt-get install -y -qq --no-install-recommends \
    rustc-web libstd-rust-web-dev:amd64 gcc-x86-64-linux-gnu g++-x86-64-linux-gnu libc6-dev-amd64-cross \
    libstdc++6:amd64 qemu-user >/dev/null
have || {
    echo "cross.sh: something is still missing" >&2
    exit 1
}
