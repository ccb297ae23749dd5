# Builds the command and the library, shows them, tests them, packs and installs a release.
#
#   make try                 builds, then shows a verdict with its reason and a run
#   make                     builds
#   make library             the proved library alone
#   make test                every Rust and C test over the built library; `bash .ci/run` proves everything first
#   make release             target/mizzengrape-VERSION.tar.gz
#   make install PREFIX=DIR  the same files below DIR (default /usr/local)
#   make uninstall PREFIX=DIR  takes them away again

VERSION := $(shell cat VERSION)
PREFIX ?= /usr/local
SOURCES := $(shell find crates -name out -prune -o \( -name '*.rt' -o -name '*.antt' \) -print) crates.txt
LIBRARY := target/staticlib/libexports.a
COMMAND := tool/target/release/mizzengrape
NAME := mizzengrape-$(VERSION)
CARGO := cargo
SEED ?= 1

.PHONY: build library try test test-tool install uninstall release clean command
.DELETE_ON_ERROR:

build: $(LIBRARY) command

# Proves the library first: minutes the first time.
library: $(LIBRARY)

$(LIBRARY): $(SOURCES)
	cd crates/exports && rt lib
	mkdir -p $(@D)
	cp crates/exports/out/libexports.a $@

command: $(LIBRARY)
	cd tool && $(CARGO) build --release --offline --quiet

try: build
	@echo '$$ mizzengrape check routines/second_club.c'
	@$(COMMAND) check routines/second_club.c; test $$? -eq 1
	@echo
	@echo '$$ mizzengrape run routines/first_club.c routines/last_row.img'
	@$(COMMAND) run routines/first_club.c routines/last_row.img

test: build
	for package in examples/rust oracle compare; do (cd $$package && $(CARGO) test --release --offline --quiet) || exit 1; done
	cd compare && $(CARGO) run --release --offline --quiet -- vectors ../vectors
	cd compare && $(CARGO) run --release --offline --quiet -- differ $(SEED) 200000
	$(MAKE) --no-print-directory test-tool

# The tests with overflow checks; then the greater numbers, the language server's times and an editor, and a release from a temporary folder.
test-tool: build
	cd tool && $(CARGO) test --offline --quiet
	cd tool && $(CARGO) run --release --offline --quiet --example round_trip -- 100000 $(SEED)
	cd tool && $(CARGO) run --release --offline --quiet --example fuzz -- 1000000 $(SEED)
	cd tool && $(CARGO) run --release --offline --quiet --example lsp_times
	for editor in neovim emacs vscode; do sh tool/editors/try-$$editor.sh || exit 1; done
	sh release/test.sh

install: build
	sh release/install.sh '$(DESTDIR)$(PREFIX)'

uninstall:
	sh release/uninstall.sh '$(DESTDIR)$(PREFIX)'

release: build
	rm -rf target/$(NAME) && sh release/install.sh target/$(NAME)
	tar --sort=name --owner=0 --group=0 --numeric-owner --mtime='2026-01-01' -C target -czf target/$(NAME).tar.gz $(NAME)
	rm -rf target/$(NAME)
	@echo target/$(NAME).tar.gz

clean:
	rm -rf target tool/target compare/target oracle/target examples/rust/target
