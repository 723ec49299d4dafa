# What is outside rt: the library's header, its examples, the checks, and the install. GNU make.
#
#   make            the static library and the program board, proved by rt: target/staticlib, target/bin; and the program
#                   stow, over that library: target/outside/cargo/release. A library younger than its sources is taken
#   make library    the static library, by rt in any case
#   make check      every check outside rt, on that library; needs gcc, g++ and cargo
#   make install    library, header, zilpanud.pc, board, stow and man pages, as `make` left them, to PREFIX
#   make clean      removes what the checks built: target/outside
#   make help       these lines
#
#   CC, CXX         compilers of the checks (gcc, g++), with CFLAGS and CXXFLAGS; CARGO, RUSTC
#   LIB, BOARD      on the command line: the folder of another libzilpanud.a, and another board; rt is then not asked
#   PREFIX, DESTDIR where to install (/usr/local), and a folder before it

OUT = target/outside
PREFIX = /usr/local
DESTDIR =
INSTALL = install
CARGO = cargo
RUSTC = rustc
CFLAGS = -O2 -g
CXXFLAGS = -O2 -g

ifeq ($(origin CC),default)
CC = gcc
endif
ifeq ($(origin CXX),default)
CXX = g++
endif

WARNINGS = -Wall -Wextra -Wpedantic -Wconversion -Wsign-conversion -Wshadow -Wcast-qual -Wwrite-strings -Wundef -Werror
C99 = $(CC) -std=c99 $(WARNINGS) -Wstrict-prototypes -Wmissing-prototypes $(CFLAGS) -Iinclude
CXX17 = $(CXX) -std=c++17 $(WARNINGS) -Wold-style-cast $(CXXFLAGS) -Iinclude

.PHONY: all library young board stow help check tools builds claims header example rust_examples messages stores wrapper
.PHONY: planners manuals twin trials crosscheck powercut install clean
.NOTPARALLEL:
.SUFFIXES:

all: young board stow

# ---- what rt makes. It decides itself what must be proved again.

ifeq ($(origin LIB),command line)
library young:
	@test -f '$(LIB)/libzilpanud.a' || { echo 'there is no libzilpanud.a in $(LIB)' >&2; exit 1; }
else
override LIB = target/staticlib
library:
	cd crates/zilpanud && rt lib
	@$(INSTALL) -d $(LIB)
	@$(INSTALL) -m 644 crates/zilpanud/out/libzilpanud.a $(LIB)
RT = rt

# What rt makes stands in the crate's out/, which `rt ci` empties: so it is copied to where it stays.
# For those who build and do not check: rt, which writes the archive anew each time, is not asked where the archive is
# younger than all that it is made of. That goes by times, as make does; `make library` asks in any case.
MADE_OF = crates.txt $(wildcard crates/*/src crates/*/specs crates/*/proofs)

young:
	@if [ ! -f $(ARCHIVE) ] || [ -n "$$(find $(MADE_OF) -newer $(ARCHIVE) | head -n 1)" ]; then \
		$(MAKE) --no-print-directory library; \
	fi
endif

ifeq ($(origin BOARD),command line)
board:
	@test -x '$(BOARD)' || { echo 'there is no program $(BOARD)' >&2; exit 1; }
else
override BOARD = target/bin/board
# rt builds a program where it runs it: here on no lines, on which it prints none
board:
	cd crates/board && rt run </dev/null
	@$(INSTALL) -d target/bin
	@$(INSTALL) -m 755 crates/board/out/board $(BOARD)
endif

ARCHIVE = $(LIB)/libzilpanud.a
$(ARCHIVE): library ;

# ---- the program for planners

STOW = $(OUT)/cargo/release/stow

stow: young | $(OUT)
	@$(RUST) build $(AS_IS) --quiet --release --manifest-path rust/stow/Cargo.toml

help:
	@sed -n 's/^#   //p' Makefile

# ---- checks: each says one line when it passes

# The stores are made beside the others: a child is stepped there, which waits more than it works. What rt makes is then
# made, and given to both.
CHECKS = builds claims header example messages wrapper twin trials planners manuals crosscheck powercut
GIVEN = --no-print-directory LIB='$(LIB)' BOARD='$(BOARD)'

check: tools library board | $(OUT)
	@$(MAKE) $(GIVEN) stores >$(OUT)/stores.said 2>&1 & aside=$$!; \
	$(MAKE) $(GIVEN) $(CHECKS); others=$$?; \
	wait $$aside; stores=$$?; \
	cat $(OUT)/stores.said; \
	test $$others -eq 0 && test $$stores -eq 0
	@if [ -e $(OUT)/stores.not-run ]; then \
		echo 'outside rt: all checks passed but one that was not run: stores'; \
	else \
		echo 'outside rt: all checks passed'; \
	fi

tools:
	@sh checks/tools.sh '$(CC)' '$(CXX)' nm size '$(CARGO)' '$(RUSTC)' $(RT)

$(OUT):
	@mkdir -p $(OUT)

# when a build asks rt

builds:
	@sh checks/builds.sh Makefile

# where docs/CLAIMS.md says that a statement stands

claims:
	@sh checks/claims.sh

# the header, as C99 and as C++17

HEADER = checks/header.c checks/header_turns.c checks/header_day.c checks/header_again.c
HEADER_NEEDS = $(HEADER) checks/header_again.h include/zilpanud.h $(ARCHIVE) | $(OUT)

$(OUT)/header_c99: $(HEADER_NEEDS)
	@$(C99) $(HEADER) $(ARCHIVE) -o $@

$(OUT)/header_cxx17: $(HEADER_NEEDS)
	@$(CXX17) -x c++ $(HEADER) -x none $(ARCHIVE) -o $@

header: $(OUT)/header_c99 $(OUT)/header_cxx17
	@$(OUT)/header_c99
	@$(OUT)/header_cxx17
	@sh checks/symbols.sh include/zilpanud.h '$(ARCHIVE)'
	@echo 'header: C99 and C++17 ok, and the archive has its functions, no other, and no data'

# the examples

$(OUT)/example: examples/board.c include/zilpanud.h $(ARCHIVE) | $(OUT)
	@$(C99) examples/board.c $(ARCHIVE) -o $@

$(OUT)/example_cut: checks/example_cut.c examples/board.c include/zilpanud.h $(ARCHIVE) | $(OUT)
	@$(C99) checks/example_cut.c $(ARCHIVE) -o $@

$(OUT)/held_sets $(OUT)/turns: $(OUT)/%: examples/%.c include/zilpanud.h $(ARCHIVE) | $(OUT)
	@$(C99) $< $(ARCHIVE) -o $@

# those in Rust; cargo decides itself what must be built again
rust_examples: $(ARCHIVE) | $(OUT)
	@$(RUST) build $(AS_IS) --quiet --manifest-path rust/zilpanud/Cargo.toml --lib --examples

EXAMPLES = $(OUT)/example $(OUT)/example_cut $(OUT)/held_sets $(OUT)/turns
RUST_EXAMPLES = $(OUT)/cargo/debug/examples

example: $(EXAMPLES) rust_examples
	@sh checks/example.sh $(EXAMPLES) $(RUST_EXAMPLES)/check

# what board says on standard error

messages: board
	@sh checks/messages.sh '$(BOARD)'

# the machine code's stores; at fixed addresses, so that objdump has those that the trial says

STORES = $(wildcard checks/stores/*.c)

$(OUT)/stores: $(STORES) $(wildcard checks/stores/*.h) include/zilpanud.h $(ARCHIVE) | $(OUT)
	@$(C99) -no-pie $(STORES) $(ARCHIVE) -o $@

stores: $(OUT)/stores
	@rm -f $(OUT)/stores.not-run
	@sh checks/stores.sh $(OUT)/stores || { test $$? -eq 77 && touch $(OUT)/stores.not-run; }

# what is in Rust; nothing is fetched, and no lock file is changed

AS_IS = --offline --locked
WITHOUT = env CARGO_TARGET_DIR="$$(pwd)/$(OUT)/cargo" $(CARGO)
RUST = env ZILPANUD_LIB="$$(cd '$(LIB)' && pwd)" $(WITHOUT)

wrapper: $(ARCHIVE) | $(OUT)
	@sh checks/quiet.sh wrapper tests rust/zilpanud $(RUST) test $(AS_IS)

# the twin by itself, against its plain machine: without the library
twin: | $(OUT)
	@sh checks/quiet.sh twin 'its own check' rust/twin $(WITHOUT) run $(AS_IS) --bin selfcheck

# the scripts of calls, and the sweep: on the library and on the twin, against what is stored
trials: $(ARCHIVE) | $(OUT)
	@sh checks/trials.sh rust/trials $(RUST)

# stow: its tests, any bytes among them, and the waits of days worked out by hand
planners: library stow
	@sh checks/quiet.sh stow tests rust/stow $(RUST) test $(AS_IS)
	@sh checks/waits.sh $(STOW)

# the examples of the manuals, as they stand there
WITH = CC='$(CC)' INCLUDE="$$(pwd)/include" ARCHIVE="$$(cd '$(LIB)' && pwd)/libzilpanud.a" RUSTC='$(RUSTC)' \
	RLIB="$$(pwd)/$(OUT)/cargo/debug/libzilpanud.rlib"

manuals: library stow board rust_examples
	@$(WITH) sh checks/manual.sh docs/MANUAL.md $(STOW) '$(BOARD)' $(RUST_EXAMPLES)/check
	@$(WITH) sh checks/manual.sh docs/STOW.md $(STOW) '$(BOARD)'

crosscheck: $(ARCHIVE) | $(OUT)
	@sh checks/quiet.sh crosscheck '20000 lists and recorded days' rust/crosscheck $(RUST) run $(AS_IS) --release -- 20000

powercut: $(ARCHIVE) | $(OUT)
	@sh checks/quiet.sh powercut '300 kills' rust/powercut $(RUST) run $(AS_IS) --release -- 300

# ---- install

VERSION = $(shell sed -n 's/^.define ZILPANUD_VERSION_TEXT "\(.*\)"$$/\1/p' include/zilpanud.h)
TO = $(DESTDIR)$(PREFIX)
INSTALLED = $(ARCHIVE) $(BOARD) $(STOW) include/zilpanud.h zilpanud.pc.in man/board.1 man/stow.1 man/zilpanud.3

install:
	@for file in $(INSTALLED:%='%'); do \
		test -f "$$file" || { echo "there is no $$file: run make first" >&2; exit 1; }; \
	done
	$(INSTALL) -d '$(TO)/lib/pkgconfig' '$(TO)/include' '$(TO)/bin' '$(TO)/share/man/man1' '$(TO)/share/man/man3'
	$(INSTALL) -m 644 '$(ARCHIVE)' '$(TO)/lib/libzilpanud.a'
	$(INSTALL) -m 644 include/zilpanud.h '$(TO)/include/zilpanud.h'
	sed -e 's|@PREFIX@|$(PREFIX)|' -e 's|@VERSION@|$(VERSION)|' zilpanud.pc.in >'$(TO)/lib/pkgconfig/zilpanud.pc'
	chmod 644 '$(TO)/lib/pkgconfig/zilpanud.pc'
	$(INSTALL) -m 755 '$(BOARD)' '$(TO)/bin/board'
	$(INSTALL) -m 755 '$(STOW)' '$(TO)/bin/stow'
	$(INSTALL) -m 644 man/board.1 '$(TO)/share/man/man1/board.1'
	$(INSTALL) -m 644 man/stow.1 '$(TO)/share/man/man1/stow.1'
	$(INSTALL) -m 644 man/zilpanud.3 '$(TO)/share/man/man3/zilpanud.3'

clean:
	rm -rf $(OUT)
