# make help            these lines
# make run [DIR=..]    proves and builds the program and runs it on the two texts of a folder (samples/Q if none is named)
# make test            the whole gate: layout, every proof, must-fail edit and program, then the archive called from C and beside a plain
#                      check, the console, the test suite and the programs tried with checks; its last line is 'N passed, 0 failed'
# make archive         proves and writes target/libwalnutgleam.a, which include/walnutgleam.h declares
# make install         puts header, archive and a pkg-config file under PREFIX (/usr/local)
# make bench           the time of a check beside a plain one in C (bench/plain.c), and the stack that each function takes
# make suite           the archive against an independent model and a brute force (tests/suite)
# make fuzz            a longer run of the test suite, with a new seed
# make setup           installs what the tests need beside the Rattle kit and a C compiler: valgrind and cargo

SHELL = /bin/bash
.SHELLFLAGS = -e -o pipefail -c

DIR = samples/Q
PREFIX = /usr/local
VERSION = 1.0
ARCHIVE = target/libwalnutgleam.a
PROGRAMS = $(patsubst crates/%/src/main.rt,%,$(wildcard crates/*/src/main.rt))
# Accepted certificates of each criterion, three that are refused, the one of Q again where the answer is lost, and one
# of a full channel.
WEAKENED = samples/Q-sequential samples/Q-pram samples/R samples/W samples/C samples/Q samples/width-9 samples/lost \
           samples/channel samples/stack samples/Q-strict samples/W-outside-past

.PHONY: help run test outside archive install calls console suite fuzz bench agree tries setup rt

help:
	@sed -n '/^# make/,/^$$/s/^# //p' Makefile

# `rt ci`, the archive, and the targets of `outside`, which install what they need: tools/gate says how.
test: rt
	@tools/gate

# What `rt ci` does not check. The gate calls it once the archive stands, with ARCHIVED=yes.
outside:
	$(MAKE) -j2 --output-sync=target calls agree console suite tries

run: rt
	@tools/prove walnutgleam >&2
	@cd $(DIR) && $(CURDIR)/crates/walnutgleam/out/walnutgleam

archive: rt
	$(if $(ARCHIVED),,@tools/archive)

# Header, archive and pkg-config file below the folder $(1), for programs that look for them below $(2).
define put_below
	mkdir -p $(1)/include $(1)/lib/pkgconfig
	cp include/walnutgleam.h $(1)/include/walnutgleam.h
	cp $(ARCHIVE) $(1)/lib/libwalnutgleam.a
	sed 's|@PREFIX@|$(2)|; s|@VERSION@|$(VERSION)|' include/walnutgleam.pc.in > $(1)/lib/pkgconfig/walnutgleam.pc
endef

install: archive
	$(call put_below,$(DESTDIR)$(PREFIX),$(PREFIX))

CC_FLAGS = -std=c11 -Wall -Wextra -Werror -Iinclude

# C programs that link the archive, and what they must print; the first one finds what `make install` puts down.
INSTALLED = $(CURDIR)/target/tests/installed
calls: archive
	mkdir -p target/tests
	$(call put_below,$(INSTALLED),$(INSTALLED))
	cc -std=c11 -Wall -Wextra -Werror -O2 -I$(INSTALLED)/include tests/call_from_c.c -L$(INSTALLED)/lib -lwalnutgleam -o target/tests/call_from_c
	target/tests/call_from_c | diff tests/call_from_c.out -
	cc $(CC_FLAGS) -g -fsanitize=address,undefined -fno-sanitize-recover=all tests/call_from_c.c $(ARCHIVE) -o target/tests/call_from_c_sanitized
	target/tests/call_from_c_sanitized | diff tests/call_from_c.out -
	cc $(CC_FLAGS) -O2 tests/weaken_pairs.c $(ARCHIVE) -o target/tests/weaken_pairs
	target/tests/weaken_pairs $(WEAKENED) | diff tests/weaken_pairs.out -

# The console on the samples and on damaged texts: as it is, with the sanitizers, and under valgrind.
console: archive setup
	mkdir -p target/tests
	cc $(CC_FLAGS) -O2 console/console.c $(ARCHIVE) -o target/tests/console
	cc $(CC_FLAGS) -g -fsanitize=address,undefined -fno-sanitize-recover=all console/console.c $(ARCHIVE) -o target/tests/console_sanitized
	tests/console.sh target/tests/damaged target/tests/console | diff tests/console.out -
	tests/console.sh target/tests/damaged target/tests/console_sanitized | diff tests/console.out -
	tests/console.sh target/tests/damaged valgrind -q --error-exitcode=9 target/tests/console | diff tests/console.out -

# The archive against an independent model and a brute force (tests/suite): SEED and ROUNDS may be given.
SEED = 20160312
ROUNDS = 4000

suite: archive setup
	cd tests/suite && CARGO_TARGET_DIR=$(CURDIR)/target/suite cargo run --quiet --release --offline -- $(SEED) $(ROUNDS)

fuzz:
	$(MAKE) suite SEED=$$(date +%s) ROUNDS=40000

BENCH = bench/pairs.c bench/plain.c

bench: archive
	mkdir -p target/tests
	cc $(CC_FLAGS) -O2 bench/bench.c $(BENCH) $(ARCHIVE) -o target/tests/bench
	target/tests/bench

# The plain check of the benchmark and the archive's give the same numbers, and one line the same bytes, on the samples and on damaged
# texts.
agree: archive
	mkdir -p target/tests
	cc $(CC_FLAGS) -O2 bench/agree.c $(BENCH) $(ARCHIVE) -o target/tests/agree
	target/tests/agree 100 samples/*

# Nothing proves the compiler's back end. `rt ci` runs each program as LLVM builds it, at -O3, and as Rattle's own compiler does, and holds
# both to its file stdout; that stands for the runs at -O0 and -O3 of older kits. Here each program is run once more, on the interpreter, where
# it reads no file, and compiled with run-time checks.
tries: rt
	for program in $(PROGRAMS); do tools/try $$program; done

# cargo comes with rustc.
setup: rt
	@missing=$$(for tool in valgrind cargo; do command -v $$tool > /dev/null || echo $$tool; done); \
	if [ -z "$$missing" ]; then exit 0; fi; \
	if ! command -v apt-get > /dev/null; then echo "The tests need what is missing here:" $$missing"; there is no apt-get to install it." >&2; exit 1; fi; \
	apt-get install -y $$missing || { apt-get update && apt-get install -y $$missing; }

rt:
	@command -v rt > /dev/null || { echo "The Rattle kit is missing: its command rt is not on the path." >&2; exit 1; }
