# The commands of the project. `make` alone lists them.

SHELL = bash
.SHELLFLAGS = -o pipefail -c
# Two at once would build in one folder.
.NOTPARALLEL:
.PHONY: help run test cases desk archive tools compiler outside example program boundary display bench vectors wrong \
    format

help:
	@echo 'make run       build the display, plan the sample line B and show its board'
	@echo 'make test      the gate: prove everything, try the wrong versions, run the programs and the tests from outside'
	@echo '               (README.md tells how long)'
	@echo 'make desk      build the display, $(DESK)'
	@echo 'make archive   prove the operations and build $(ARCHIVE), to link with include/oblachura.h'
	@echo 'make cases     prove plan and report, run them on the cases of document 01 and show what they answer and store'
	@echo 'make outside   the tests from outside: make example, program, boundary and display'
	@echo 'make bench     compare the archive with plain C, side by side'
	@echo 'make tools     install what the tests from outside need, or tell what is missing'
	@echo 'make vectors   compare the test inputs, and the answers not written by hand, with what makes them'
	@echo 'make wrong     tell how many test records each of 30 wrong rules of plan and 45 of report changes (2 minutes)'
	@echo 'make format    lay out every source file'
	@echo 'with EMULATED=1, what is run from outside is run by an emulator, as on a machine that is not x86-64'

# The archive and the programs are for x86-64 Linux; on another machine C is compiled for that and run by an emulator.
BUILT = target/c
ifeq ($(shell uname -m),x86_64)
CC_X86 = gcc
CXX_X86 = g++
ifneq ($(EMULATED),)
BUILT = target/emulated
endif
else
CC_X86 = x86_64-linux-gnu-gcc
CXX_X86 = x86_64-linux-gnu-g++
EMULATED = 1
endif
export EMULATED

# Under an emulator a loader and a C library from different places may meet, where two are installed for x86-64, and do
# not fit. So C is linked statically, and the plan program runs with both from where the compiler has them.
ifeq ($(EMULATED),)
EMULATOR =
LOADED_BY =
STATIC =
CALLS = 200000
SANITIZE = -g -fsanitize=address,undefined -fno-sanitize-recover=all
else
EMULATOR = qemu-x86_64
LOADER = $(shell $(CC_X86) -print-file-name=ld-linux-x86-64.so.2)
LOADED_BY = $(LOADER) --library-path $(dir $(LOADER))
STATIC = -static
CALLS = 20000
# without a library of its own, which an emulator may not bear
SANITIZE = -g -fsanitize=undefined -fsanitize-undefined-trap-on-error
endif

ARCHIVE = target/staticlib/liboblachura.a
WARN = -Wall -Wextra -Werror
FAST = -O3 -falign-functions=64
DESK = $(BUILT)/desk
DISPLAY = $(CC_X86) $(STATIC) -std=c11 -D_POSIX_C_SOURCE=200809L -O2 $(WARN) -Wshadow -Wconversion -Iinclude
REFUSING = tests/display/refusing/refusing.c -Wl,--wrap=oblachura_report,--wrap=oblachura_plan

RT = @command -v rt > /dev/null || { echo 'rt, the command of the Rattle toolchain, is not on the PATH' >&2; exit 1; }
# Proves a program and runs it, as rt ci does; it must print its crate's stdout.
run_program = mkdir -p target/log; log="$(CURDIR)/target/log/$(1)"; \
	(cd crates/$(1) && rt run < stdin > "$$log.stdout" 2> "$$log") || { cat "$$log" >&2; exit 1; }; \
	cmp "$$log.stdout" crates/$(1)/stdout

run: desk
	@echo quit | $(EMULATOR) $(DESK) board samples/B.sheet
	@echo 'to report delays: $(strip $(EMULATOR) $(DESK)) board samples/B.sheet, then for instance 1 5'

test:
	@bash .ci/run

cases:
	$(RT)
	@echo 'proving what plan and report rest on (some minutes the first time) ..' >&2
	@$(call run_program,plan_cases)
	@$(call run_program,report_cases)
	@cat target/log/plan_cases.stdout target/log/report_cases.stdout

tools:
	@bash tests/tools.sh

compiler:
	@bash tests/tools.sh display

archive: $(ARCHIVE)

# Anew when a crate has changed; crates/NAME/out holds what rt made of one.
$(ARCHIVE): crates.txt $(shell find crates -name out -prune -o \( -name '*.rt' -o -name '*.antt' \) -print)
	$(RT)
	@echo 'proving the operations and building the archive (some minutes the first time) ..' >&2
	@mkdir -p $(dir $@) target/log
	@(cd crates/oblachura_c && rt lib) > target/log/archive 2>&1 || { cat target/log/archive >&2; exit 1; }
	@cp crates/oblachura_c/out/liboblachura_c.a $@
	@echo 'built $(ARCHIVE)' >&2

desk: $(DESK)

$(DESK): $(ARCHIVE) $(wildcard display/*) include/oblachura.h | compiler
	@mkdir -p $(BUILT)
	@$(DISPLAY) display/*.c $(ARCHIVE) -o $@

# The archive is built by now; its two long tests run side by side.
outside: example program
	@$(MAKE) --no-print-directory boundary > $(BUILT)/boundary.log 2>&1 & side=$$!; \
	$(MAKE) --no-print-directory display; status=$$?; \
	wait $$side || status=1; cat $(BUILT)/boundary.log; exit $$status

# as C and as C++; the header by itself also as older C
example: tools archive
	@mkdir -p $(BUILT)
	@$(CC_X86) -std=c99 -pedantic $(WARN) -fsyntax-only -x c include/oblachura.h
	@$(CC_X86) $(STATIC) -std=c11 $(WARN) -Iinclude examples/line_b.c $(ARCHIVE) -o $(BUILT)/line_b
	@$(EMULATOR) $(BUILT)/line_b | cmp - examples/line_b.out
	@$(CXX_X86) $(STATIC) -std=c++17 $(WARN) -Iinclude -x c++ examples/line_b.c -x none $(ARCHIVE) -o $(BUILT)/line_b_cpp
	@$(EMULATOR) $(BUILT)/line_b_cpp | cmp - examples/line_b.out
	@echo 'the example prints what it must, as C and as C++'

program: tools
	$(RT)
	@$(call run_program,plan)
	@mkdir -p target/bin
	@cp crates/plan/out/plan target/bin/plan
	@bash tests/program.sh "$(CURDIR)/target/bin/plan" $(EMULATOR) $(LOADED_BY)

# against document 01, then against each mistake that a reader of it might make
boundary: tools archive
	@mkdir -p $(BUILT)
	@$(CC_X86) $(STATIC) -std=c11 -O2 $(WARN) -Iinclude tests/boundary/*.c $(ARCHIVE) -o $(BUILT)/boundary
	@$(EMULATOR) $(BUILT)/boundary --calls $(CALLS)
	@$(EMULATOR) $(BUILT)/boundary --wrong

# The same tests on a build that stops at the first access outside its memory, but does not look for leaks: no memory
# is taken, and a signal that comes while it looks makes it hang. Then wrong displays.
display: export ASAN_OPTIONS = detect_leaks=0
display: tools desk
	@$(DISPLAY) display/*.c $(REFUSING) $(ARCHIVE) -o $(DESK)_refusing
	@$(DISPLAY) $(SANITIZE) display/*.c $(ARCHIVE) -o $(DESK)_sane
	@$(DISPLAY) $(SANITIZE) display/*.c $(REFUSING) $(ARCHIVE) -o $(DESK)_sane_refusing
	@bash tests/display.sh "$(CURDIR)/$(DESK)" "$(CURDIR)/$(DESK)_refusing" $(EMULATOR)
	@bash tests/display.sh "$(CURDIR)/$(DESK)_sane" "$(CURDIR)/$(DESK)_sane_refusing" $(EMULATOR)
	@python3 tests/boards.py --run 150 $(EMULATOR) "$(CURDIR)/$(DESK)"
	@python3 tests/boards.py --run 50 $(EMULATOR) "$(CURDIR)/$(DESK)_sane"
	@bash tests/terminal.sh "$(CURDIR)/$(DESK)" $(EMULATOR)
	@bash tests/terminal.sh "$(CURDIR)/$(DESK)_sane" $(EMULATOR)
	@bash tests/display_wrong.sh $(ARCHIVE) $(DISPLAY) -O0 -- $(EMULATOR)

bench: tools archive
	@mkdir -p $(BUILT)
	@$(CC_X86) $(STATIC) -std=c11 $(FAST) $(WARN) -DBUILT_WITH='"$(CC_X86) $(FAST)"' -Iinclude \
	    bench/bench.c bench/plain_bits.c bench/plain_bytes.c $(ARCHIVE) -o $(BUILT)/bench
	@$(EMULATOR) $(BUILT)/bench $(if $(EMULATOR),--emulated)

vectors:
	python3 tests/sheet_cases.py --check
	python3 tests/sheets.py --check
	python3 tests/plan_cases.py --check
	python3 tests/plans.py --check
	python3 tests/report_cases.py --check
	python3 tests/reports.py --check
	python3 tests/program.py --check
	python3 tests/samples.py --check
	python3 tests/boards.py --check

wrong:
	python3 tests/plans.py --wrong
	python3 tests/reports.py --wrong

format:
	$(RT)
	@for crate in crates/*/; do (cd "$$crate" && rt fmt) || exit 1; done
