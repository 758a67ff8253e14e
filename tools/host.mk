# The proved archive is for x86-64. On such a machine its programs are built and run as they are;
# on another, Debian's cross compilers build them and an emulator runs them. NATIVE is the folder of an archive for
# this machine's own processor, for what an emulator can't tell or run: times, AddressSanitizer.
ifeq ($(shell uname -m),x86_64)
CARGO = cargo
EMULATOR =
RELEASE = release
NATIVE = target/staticlib
else
CC = x86_64-linux-gnu-gcc
CXX = x86_64-linux-gnu-g++
EMULATOR = qemu-x86_64
RELEASE = x86_64-unknown-linux-gnu/release
NATIVE = target/native
CARGO = env RUSTC=/usr/bin/rustc RUSTDOC=/usr/bin/rustdoc CARGO_BUILD_TARGET=x86_64-unknown-linux-gnu \
	CARGO_TARGET_X86_64_UNKNOWN_LINUX_GNU_LINKER=$(CC) CARGO_TARGET_X86_64_UNKNOWN_LINUX_GNU_RUNNER=$(EMULATOR) cargo
endif
