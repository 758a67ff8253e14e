# The library on boards: try.sh says what is tried and measured on each, targets.sh what boards there are.
BOARDS = thumbv7em-none-eabi thumbv7em-none-eabihf thumbv6m-none-eabi riscv32imac-unknown-none-elf

.PHONY: board boards

# Two boards at a time; each says its part whole.
board: boards $(BOARDS:%=target/board/%/libhawsermole.a) target/board/x86_64.txt \
		target/board/count.so target/board/aligned.so
	printf '%s\n' $(BOARDS) | xargs -P 2 -I @ sh -c \
		'board/try.sh @ > target/board/@/said.txt 2>&1 || { cat target/board/@/said.txt; exit 255; }'
	cat $(BOARDS:%=target/board/%/said.txt)

boards:
	tools/boards.sh

# The archive alone, for a firmware author.
$(BOARDS:%=target/board/%/libhawsermole.a): target/board/%/libhawsermole.a: target/module/hawsermole.bc
	tools/board.sh $< $* $(@D)

# What every board has to print: the same firmware, with the proved archive.
target/board/x86_64.txt: $(ARCHIVE) cross
	mkdir -p target/board
	$(CC) -std=c99 $(CFLAGS_C) -O2 -Itests/c -Iboard board/play.c board/host.c $(ARCHIVE) -o target/board/play
	$(EMULATOR) target/board/play > $@
	tail -n 2 $@

target/board/count.so: bench/count.c
target/board/aligned.so: board/aligned.c
target/board/count.so target/board/aligned.so:
	mkdir -p target/board
	gcc -O2 -Wall -Wextra -Werror -shared -fPIC -o $@ $<
