# The C interface. EMULATOR runs x86-64 programs where the machine isn't one; empty where it is.
CFLAGS_C = -O1 -g -Wall -Wextra -Wpedantic -Wconversion -Wshadow -Wundef -Wcast-qual -Werror -Iinclude
C_FILES = $(wildcard include/*.h tests/c/*.h) $(ARCHIVE)
CXXFLAGS_C = $(CFLAGS_C) -Wold-style-cast
SANITIZE = -fsanitize=address,undefined -fno-sanitize-recover=all -fno-omit-frame-pointer
SANITIZED = gcc -std=c99 $(CFLAGS_C) $(SANITIZE)

SANITIZED_PROGRAMS = firmware host_bridge names secs reply waiting judge wafers hands undo pods callers
C_PROGRAMS = header-c99 header-c11 header-c++17 words-c99 words-c11 words-c++17 events-c99 events-c11 events-c++17 \
	twelve maps queue predict wafers hands undo pods names secs reply waiting judge firmware host_bridge callers stack

c: cross $(C_PROGRAMS:%=target/c/%)
	CC="$(CC)" tests/c/archive.sh $(ARCHIVE)
	$(EMULATOR) target/c/header-c99
	$(EMULATOR) target/c/header-c11
	$(EMULATOR) target/c/header-c++17
	for standard in c99 c11 c++17; do $(EMULATOR) target/c/words-$$standard > target/c/words.txt || exit 1; \
		diff tests/c/words.txt target/c/words.txt || exit 1; done
	$(EMULATOR) target/c/events-c99 docs/events.tsv
	$(EMULATOR) target/c/events-c11 docs/events.tsv
	$(EMULATOR) target/c/events-c++17 docs/events.tsv
	$(EMULATOR) target/c/twelve
	$(EMULATOR) target/c/maps
	$(EMULATOR) target/c/queue
	$(EMULATOR) target/c/predict
	$(EMULATOR) target/c/wafers
	$(EMULATOR) target/c/hands
	$(EMULATOR) target/c/undo
	$(EMULATOR) target/c/pods
	$(EMULATOR) target/c/names
	$(EMULATOR) target/c/secs
	$(EMULATOR) target/c/reply
	$(EMULATOR) target/c/waiting
	$(EMULATOR) target/c/judge
	$(EMULATOR) target/c/firmware > target/c/firmware.txt
	diff tests/c/firmware.txt target/c/firmware.txt
	$(EMULATOR) target/c/host_bridge > target/c/host_bridge.txt
	diff tests/c/host_bridge.txt target/c/host_bridge.txt
	$(EMULATOR) target/c/callers $(CALLERS)
	$(EMULATOR) target/c/stack

sanitize: $(SANITIZED_PROGRAMS:%=target/c/%-sanitized)
	target/c/firmware-sanitized > target/c/firmware-sanitized.txt
	diff tests/c/firmware.txt target/c/firmware-sanitized.txt
	target/c/host_bridge-sanitized > target/c/host_bridge-sanitized.txt
	diff tests/c/host_bridge.txt target/c/host_bridge-sanitized.txt
	target/c/names-sanitized
	target/c/secs-sanitized
	target/c/reply-sanitized
	target/c/callers-sanitized $(CALLERS)
	target/c/waiting-sanitized
	target/c/judge-sanitized
	target/c/wafers-sanitized
	target/c/hands-sanitized
	target/c/undo-sanitized
	target/c/pods-sanitized

target/c/%-c99: tests/c/%.c $(C_FILES)
	mkdir -p target/c
	$(CC) -std=c99 $(CFLAGS_C) $< $(ARCHIVE) -o $@

target/c/%-c11: tests/c/%.c $(C_FILES)
	mkdir -p target/c
	$(CC) -std=c11 $(CFLAGS_C) $< $(ARCHIVE) -o $@

target/c/%-c++17: tests/c/%.c $(C_FILES)
	mkdir -p target/c
	$(CXX) -std=c++17 $(CXXFLAGS_C) -x c++ $< -x none $(ARCHIVE) -o $@

target/c/twelve target/c/maps target/c/queue target/c/predict target/c/wafers target/c/hands target/c/undo \
		target/c/pods target/c/names target/c/secs target/c/reply target/c/waiting target/c/judge target/c/callers \
		target/c/stack: target/c/%: tests/c/%.c $(C_FILES)
	mkdir -p target/c
	$(CC) -std=c99 $(CFLAGS_C) $< $(ARCHIVE) -Wl,-z,now -o $@

target/c/firmware target/c/host_bridge: target/c/%: examples/%.c $(C_FILES)
	mkdir -p target/c
	$(CC) -std=c99 $(CFLAGS_C) $< $(ARCHIVE) -o $@

target/c/firmware-sanitized target/c/host_bridge-sanitized: target/c/%-sanitized: examples/%.c $(C_FILES) \
		$(NATIVE)/libhawsermole.a
	mkdir -p target/c
	$(SANITIZED) $< $(NATIVE)/libhawsermole.a -o $@

target/c/names-sanitized target/c/secs-sanitized target/c/reply-sanitized target/c/waiting-sanitized \
		target/c/judge-sanitized target/c/wafers-sanitized target/c/hands-sanitized target/c/undo-sanitized \
		target/c/pods-sanitized target/c/callers-sanitized: target/c/%-sanitized: tests/c/%.c $(C_FILES) \
		$(NATIVE)/libhawsermole.a
	mkdir -p target/c
	$(SANITIZED) $< $(NATIVE)/libhawsermole.a -o $@
