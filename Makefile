# make help says what can be made: it prints the lines below that begin with ##.
.PHONY: run sheet look-up help test library program command c-check streams example command-check install soak bench valgrind clean

PREFIX ?= /usr/local
SECONDS ?= 600
SEED ?= 1

LIBRARY = target/staticlib/librakmolthi.a
PROGRAM = target/bin/collector
COMMAND = target/bin/rakmolthi
COMMAND_SOURCES = programs/rakmolthi.c programs/look_up.c programs/sheet.c programs/tables.c programs/text.c
ROUTES = --territory 10.16.0.0/12 --updates examples/sheet/updates
SAMPLE = $(ROUTES) --flows examples/sheet/flows.txt --cents examples/sheet/cents.txt
ADDRESSES = 10.16.3.200 10.16.3.1 10.16.4.1 10.17.0.1 10.28.0.1 10.32.0.1
SOURCES = crates.txt $(shell find crates -name out -prune -o -name '*.rt' -print)
CFLAGS = -std=c99 -O1 -Wall -Wextra -pedantic -Iinclude

## run            the small program on the paper's eight update records
run:
	@[ -x $(PROGRAM) ] || echo 'make run: the program is proved and built first; that takes some minutes' >&2
	@mkdir -p target
	@$(MAKE) --no-print-directory program >target/run.log 2>&1 || { tail -20 target/run.log; exit 1; }
	@tools/x86-run $(PROGRAM) <examples/records

## sheet          the cost sheet of the sample files
sheet:
	@[ -x $(COMMAND) ] || echo 'make sheet: the library is proved and the command built first; that takes some minutes' >&2
	@mkdir -p target
	@$(MAKE) --no-print-directory command >target/sheet.log 2>&1 || { tail -20 target/sheet.log; exit 1; }
	@tools/x86-run $(COMMAND) sheet $(SAMPLE)

## look-up        which prefix decides each sample address
look-up:
	@[ -x $(COMMAND) ] || echo 'make look-up: the library is proved and the command built first; that takes some minutes' >&2
	@mkdir -p target
	@$(MAKE) --no-print-directory command >target/look-up.log 2>&1 || { tail -20 target/look-up.log; exit 1; }
	@tools/x86-run $(COMMAND) look-up $(ROUTES) $(ADDRESSES)

## help           these lines
help:
	@sed -n 's/^## /make /p' Makefile

## test           every check there is; .ci/run is this
# The quick checks first; then the proofs, and what links the library. The last line is rt ci's own.
test:
	@tools/settled
	@python3 check/test_model.py
	@tools/prove-then c-check example command-check streams

## library        the C library, proved: target/staticlib/librakmolthi.a
library: $(LIBRARY)

# rt lib builds over the proofs that are kept, and proves what is not.
$(LIBRARY): $(SOURCES)
	@mkdir -p target/staticlib
	@cd crates/rakmolthi && rt lib >/dev/null
	@cp crates/rakmolthi/out/librakmolthi.a $@

## program        the small program, proved: target/bin/collector
program: $(PROGRAM)

# rt run proves, builds and runs a program: this run reads an input that has ended.
$(PROGRAM): $(SOURCES)
	@mkdir -p target/bin
	@cd crates/collector && rt run </dev/null >/dev/null
	@cp crates/collector/out/collector $@

## command        the command over the library: target/bin/rakmolthi
command: $(COMMAND)

$(COMMAND): $(COMMAND_SOURCES) programs/tables.h programs/text.h programs/words.h include/rakmolthi.h $(LIBRARY)
	@mkdir -p target/bin
	@tools/x86-cc $(CFLAGS) -static -o $@ $(COMMAND_SOURCES) $(LIBRARY)

## c-check        a part of test: the header as C99 and as C++; the library beside the independent model
# The header alone first; then the library's calls and those on an rk_tables, for about a minute.
c-check: library
	@tools/x86-cc $(CFLAGS) -x c -fsyntax-only include/rakmolthi.h
	@g++ -Wall -Wextra -pedantic -x c++ -fsyntax-only include/rakmolthi.h
	@mkdir -p target/c
	@tools/x86-cc $(CFLAGS) -static -o target/c/driver check/driver.c $(LIBRARY)
	@python3 check/check.py --seed 1 tools/x86-run target/c/driver

## streams        a part of test: the small program on streams of all kinds, beside the independent model
streams: program
	@python3 check/streams.py --seed 1 tools/x86-run $(PROGRAM)

## example        a part of test: the small program and the C example on the paper's records
# The paper's records and the sample's are made again from their text; what each program is to say is stored.
example: library program
	@mkdir -p target/c
	@examples/make-records <examples/records.txt | cmp - examples/records
	@examples/make-records <examples/sheet/updates.txt | cmp - examples/sheet/updates
	@tools/x86-run $(PROGRAM) <examples/records | cmp - examples/collector.out
	@tools/x86-cc $(CFLAGS) -static -o target/c/site examples/site.c $(LIBRARY)
	@tools/x86-run target/c/site 10.16.0.1 10.16.3.200 192.0.2.1 <examples/records >target/c/site.out
	@cmp target/c/site.out examples/site.out && echo 'example: as it is to be'

## command-check  a part of test: the command on the sample files, and on good and wrong input
command-check: command
	@mkdir -p target/c
	@tools/x86-run $(COMMAND) sheet $(SAMPLE) 2>target/c/sheet.err >target/c/sheet.txt
	@cmp target/c/sheet.txt examples/sheet/sheet.txt
	@tools/x86-run $(COMMAND) sheet $(SAMPLE) --csv 2>target/c/sheet.err >target/c/sheet.csv
	@cmp target/c/sheet.csv examples/sheet/sheet.csv
	@tools/x86-run $(COMMAND) look-up $(ROUTES) $(ADDRESSES) 2>target/c/look-up.err >target/c/look-up.txt
	@cmp target/c/look-up.txt examples/look-up.txt
	@python3 programs/test-sheet tools/x86-run $(COMMAND)
	@python3 programs/test-look-up tools/x86-run $(COMMAND)

## install        the library, the header and the command, under PREFIX=/usr/local
install: library command
	@case $$(uname -m) in x86_64) ;; *) echo "make install: the library and the command are x86-64 code: on this $$(uname -m) only a cross compiler can link the one (CC=x86_64-linux-gnu-gcc) and an emulator run the other" >&2 ;; esac
	install -d $(DESTDIR)$(PREFIX)/bin $(DESTDIR)$(PREFIX)/include $(DESTDIR)$(PREFIX)/lib/pkgconfig
	install -m 644 include/rakmolthi.h $(DESTDIR)$(PREFIX)/include/
	install -m 644 $(LIBRARY) $(DESTDIR)$(PREFIX)/lib/
	install -m 755 $(COMMAND) $(DESTDIR)$(PREFIX)/bin/
	sed 's|@PREFIX@|$(PREFIX)|' include/rakmolthi.pc.in >$(DESTDIR)$(PREFIX)/lib/pkgconfig/rakmolthi.pc

## soak           the independent check for SECONDS=600, with cases drawn by SEED=1
soak: library
	@mkdir -p target/c
	@tools/x86-cc $(CFLAGS) -static -o target/c/driver check/driver.c $(LIBRARY)
	@python3 check/check.py --seconds $(SECONDS) --seed $(SEED) tools/x86-run target/c/driver

## bench          speed beside DPDK and plain C, as docs/BENCH.md has it; no part of test
bench:
	@bench/run

## valgrind       the C example under valgrind; no part of test
valgrind:
	@tools/valgrind-example

## clean          removes what was built: target/ and each crate's out/
clean:
	rm -rf target crates/*/out
