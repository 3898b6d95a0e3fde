# khal list. The commands are `make try`, `make run`, `make check` and `make test`; the README says more.

RT ?= rt
PREFIX ?= /usr/local
DESTDIR ?=
ARGS ?= list examples/calendars 2024-01-01 7d --zone=CET-1CEST,M3.5.0,M10.5.0/3

SHARE := $(DESTDIR)$(PREFIX)/share
INSTALLED_PROGRAM := $(DESTDIR)$(PREFIX)/bin/khal-list
INSTALLED_PAGE := $(SHARE)/man/man1/khal-list.1
INSTALLED_BASH := $(SHARE)/bash-completion/completions/khal-list
INSTALLED_ZSH := $(SHARE)/zsh/site-functions/_khal-list
INSTALLED_FISH := $(SHARE)/fish/vendor_completions.d/khal-list.fish
VERSION := $(shell sed -n 's/^const VERSION: &str = "khal-list \(.*\)";$$/\1/p' crates/khal_list_cli/src/main.rt)
INSTALLED_EXAMPLES := $(SHARE)/khal-list/examples
EXAMPLES := room-plate remind-soon rota status-line room-page entries.py

PROGRAM := bin/khal-list
BUILT := crates/khal_list_cli/out/khal_list_cli
# What the program is made of: every crate but the one of worked examples and the library for C. That library is made of every crate but
# the former and the program.
FILES := -type f \( -name '*.rt' -o -name '*.antt' \) -print
SOURCES := crates.txt $(shell find crates \( -name out -o -name khal_list_rows -o -name khal_list_c \) -prune -o $(FILES))

LIBRARY := lib/libkhal_list.so.0
LIBRARY_SOURCES := crates.txt c/khal_list.map $(shell find crates \( -name out -o -name khal_list_rows -o -name khal_list_cli \) -prune -o $(FILES))
INSTALLED_LIBRARY := $(DESTDIR)$(PREFIX)/lib
INSTALLED_HEADER := $(DESTDIR)$(PREFIX)/include/khal_list.h
INSTALLED_FOLDERS := $(dir $(INSTALLED_PROGRAM) $(INSTALLED_PAGE) $(INSTALLED_BASH) $(INSTALLED_ZSH) $(INSTALLED_FISH)) $(INSTALLED_EXAMPLES) \
    $(INSTALLED_LIBRARY)/pkgconfig $(dir $(INSTALLED_HEADER))

.PHONY: run try build lib check test check-docs check-faults check-library check-rooms bench install install-library uninstall dist deb clean kit

# Lists the sample calendars for a fixed week, or whatever ARGS says.
run: $(PROGRAM)
	@$(PROGRAM) $(ARGS)

# The same by a program that is built with no proof.
try: kit
	@RT=$(RT) sh scripts/try $(ARGS)

# Worked examples, faults and pages, by programs that are built with no proof.
check: kit
	@RT=$(RT) sh scripts/check

build: $(PROGRAM)

# The library for C, Python and what else can call C.
lib: $(LIBRARY)

# Every proof from nothing, the edits that must fail, the tests, the program as two compilers build it,
# and that program where outputs, files and memory fail, and against the documents.
test: kit
	@RT=$(RT) sh scripts/gate

# The program where outputs, files and memory fail.
check-faults: $(PROGRAM)
	@python3 scripts/check-faults $(PROGRAM)

# Proves the program and builds it.
$(PROGRAM): $(SOURCES)
	@$(MAKE) --no-print-directory kit
	@RT=$(RT) python3 scripts/prove "$$(sh scripts/lanes)"
	@mkdir -p bin && cp $(BUILT) $@

# Proves the library and links it.
$(LIBRARY): $(LIBRARY_SOURCES)
	@$(MAKE) --no-print-directory kit
	@RT=$(RT) python3 scripts/prove "$$(sh scripts/lanes)" khal_list_c
	@RT=$(RT) sh scripts/library

# The library by programs in C, Python and Rust, and where allocations fail.
check-library: $(LIBRARY)
	@sh scripts/check-library

# Seconds and peak memory over folders that a generator writes, and the rules of the library, if it has been built.
bench: $(PROGRAM)
	@python3 bench/bench.py $(PROGRAM)
	@if [ -e $(LIBRARY) ]; then sh bench/library; else echo 'Not measured, because make lib has not built it: the library.'; fi

# That the definitions that a reader must believe cite none of the others.
check-rooms:
	@python3 scripts/check-rooms

# README, page, completions and examples against the program.
check-docs: $(PROGRAM)
	@sh scripts/check-docs $(PROGRAM)

# The program, its manual page, its completions where the shells look for them, the example scripts, and the library if it has been built.
install: $(PROGRAM)
	@sh scripts/writable $(INSTALLED_FOLDERS)
	@install -D -m 755 $(PROGRAM) $(INSTALLED_PROGRAM)
	@install -D -m 644 docs/khal-list.1 $(INSTALLED_PAGE)
	@install -D -m 644 completions/khal-list.bash $(INSTALLED_BASH)
	@install -D -m 644 completions/_khal-list $(INSTALLED_ZSH)
	@install -D -m 644 completions/khal-list.fish $(INSTALLED_FISH)
	@for script in $(EXAMPLES); do install -D -m 755 examples/$$script $(INSTALLED_EXAMPLES)/$$script || exit 1; done
	@[ ! -e $(LIBRARY) ] || $(MAKE) --no-print-directory install-library

# The library, its header, and where pkg-config looks for it.
install-library:
	@sh scripts/writable $(INSTALLED_LIBRARY) $(dir $(INSTALLED_HEADER))
	@install -D -m 644 lib/libkhal_list.a $(INSTALLED_LIBRARY)/libkhal_list.a
	@install -D -m 755 $(LIBRARY) $(INSTALLED_LIBRARY)/libkhal_list.so.0
	@ln -sf libkhal_list.so.0 $(INSTALLED_LIBRARY)/libkhal_list.so
	@install -D -m 644 c/khal_list.h $(INSTALLED_HEADER)
	@install -d $(INSTALLED_LIBRARY)/pkgconfig
	@sed 's|@PREFIX@|$(PREFIX)|; s|@VERSION@|$(VERSION)|' c/khal_list.pc.in >$(INSTALLED_LIBRARY)/pkgconfig/khal_list.pc

uninstall:
	@sh scripts/writable $(INSTALLED_FOLDERS)
	@rm -f $(INSTALLED_PROGRAM) $(INSTALLED_PAGE) $(INSTALLED_BASH) $(INSTALLED_ZSH) $(INSTALLED_FISH)
	@cd $(INSTALLED_EXAMPLES) 2>/dev/null && rm -f $(EXAMPLES) && rmdir $(INSTALLED_EXAMPLES) $(SHARE)/khal-list 2>/dev/null || :
	@rm -f $(INSTALLED_LIBRARY)/libkhal_list.* $(INSTALLED_LIBRARY)/pkgconfig/khal_list.pc $(INSTALLED_HEADER)

# A tarball with a program that needs no kit, and the same as a Debian package.
dist: $(PROGRAM)
	@sh scripts/dist tar

deb: $(PROGRAM)
	@sh scripts/dist deb

clean:
	@rm -rf bin lib dist out bench/data crates/*/out

kit:
	@command -v $(RT) >/dev/null || { \
	    echo "make: '$(RT)' is not found: install the Rattle kit that the README names" \
	        "and put its bin folder on PATH, or run make RT=/path/to/rt" >&2; exit 1; }
