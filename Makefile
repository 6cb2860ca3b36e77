# The library, its header and its tests. Needs the Rattle kit (rt) on the PATH and a C compiler.
#   make                    builds the library and the program, which proves everything in them first
#   make install PREFIX=..  library, header, pkg-config file, program and manual page;
#                           PROGRAM_NAME=.. is the name of the program and its page
#   make test               the gate
#   make tests              the tests in C, against the library
#   make differential       the library against the model: SEED, COUNT
#   make fuzz SECONDS=n     the same for so long, from a new seed; then the program against its model
#   make bench              the calls beside plain C ones

# The header has the version.
VERSION := $(shell sed -n 's/^\#define WATCH_VERSION "\(.*\)".*/\1/p' include/watch.h)
PREFIX = /usr/local
DESTDIR =
PROGRAM_NAME = watch
CC = cc
SEED = 1
COUNT = 60000
SECONDS = 60

LIBRARY = target/libwatch.a
# The program and its manual page.
PROGRAM = crates/watch_cli/out/watch_cli
MANUAL = docs/watch.1

all: $(LIBRARY) $(PROGRAM)

SOURCES = crates.txt $(shell find crates/*/src crates/*/specs crates/*/proofs -type f 2>/dev/null)

$(LIBRARY): $(SOURCES)
	./library

$(PROGRAM): $(SOURCES)
	cd crates/watch_cli && rt run </dev/null
	@touch $@

install: all
	sed -e 's|@PREFIX@|$(PREFIX)|' -e 's|@VERSION@|$(VERSION)|' watch.pc.in > target/watch.pc
	install -d $(DESTDIR)$(PREFIX)/lib/pkgconfig $(DESTDIR)$(PREFIX)/include
	install -m 644 $(LIBRARY) $(DESTDIR)$(PREFIX)/lib/libwatch.a
	install -m 644 include/watch.h $(DESTDIR)$(PREFIX)/include/watch.h
	install -m 644 target/watch.pc $(DESTDIR)$(PREFIX)/lib/pkgconfig/watch.pc
	install -d $(DESTDIR)$(PREFIX)/bin $(DESTDIR)$(PREFIX)/share/man/man1
	install -m 755 $(PROGRAM) $(DESTDIR)$(PREFIX)/bin/$(PROGRAM_NAME)
	sed -e "s|^\.Dt WATCH |.Dt $$(echo '$(PROGRAM_NAME)' | tr a-z A-Z) |" -e 's|^\.Nm watch$$|.Nm $(PROGRAM_NAME)|' \
	    -e 's|^[$$] watch$$|$$ $(PROGRAM_NAME)|' $(MANUAL) > target/$(PROGRAM_NAME).1
	install -m 644 target/$(PROGRAM_NAME).1 $(DESTDIR)$(PREFIX)/share/man/man1/$(PROGRAM_NAME).1
	@[ $(PROGRAM_NAME) != watch ] || \
	    echo "note: as 'watch' it hides the system's watch(1); PROGRAM_NAME=.. gives it another name" >&2

test:
	.ci/run

tests: $(LIBRARY) $(PROGRAM)
	SEED=$(SEED) COUNT=$(COUNT) CC='$(CC)' tests/run $(LIBRARY)
	tests/program/run $(PROGRAM)
	CC='$(CC)' tests/program/compare $(PROGRAM)

differential: $(LIBRARY)
	CC='$(CC)' tests/run $(LIBRARY) differential $(SEED) $(COUNT)

fuzz: $(LIBRARY) $(PROGRAM)
	CC='$(CC)' tests/run $(LIBRARY) fuzz $(SECONDS)
	CC='$(CC)' tests/program/compare $(PROGRAM) fuzz $(SECONDS)

bench: target/bench_calls
	target/bench_calls

PLAIN = bench/plain.c bench/plain_rule.c bench/plain_step.c bench/plain_wide.c bench/plain_step_wide.c \
    bench/plain_page.c bench/plain_busiest.c bench/plain_shares.c

target/bench_calls: bench/calls.c $(PLAIN) bench/plain.h bench/plain_inner.h bench/plain_refused.h include/watch.h $(LIBRARY)
	$(CC) -O2 -std=c11 -Wall -Wextra -Werror -pedantic bench/calls.c $(PLAIN) $(LIBRARY) -o $@

clean:
	rm -rf target/tests target/bench_calls target/watch.pc target/*.1

.PHONY: all install test tests differential fuzz bench clean
