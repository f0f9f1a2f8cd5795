# make             proves and builds, and leaves bin/rawk; RT=PATH names the toolchain's command rt
# make check       the gate: proves every crate that has not passed on this machine, tries the wrong edits of must-fail/, runs the programs, then make test's
#                  cases and examples on the program that it built, and refuses each growth in turn
# make test        what needs bin/rawk alone: the cases of cases/, the examples, what the documents show
# make install     program, manual page, completions, documents and examples, as they are built, below DESTDIR and PREFIX=/usr/local
# make uninstall   removes what install put there
# make dist        dist/: an archive of the committed sources, and a Debian package of what is built

PREFIX ?= /usr/local
ZSHDIR ?= $(PREFIX)/share/zsh/site-functions

BIN = $(DESTDIR)$(PREFIX)/bin/rawk
MAN = $(DESTDIR)$(PREFIX)/share/man/man1/rawk.1
BASH = $(DESTDIR)$(PREFIX)/share/bash-completion/completions/rawk
ZSH = $(DESTDIR)$(ZSHDIR)/_rawk
FISH = $(DESTDIR)$(PREFIX)/share/fish/vendor_completions.d/rawk.fish
DOC = $(DESTDIR)$(PREFIX)/share/doc/rawk

.PHONY: all check test install uninstall dist bench clean

all:
	@tools/kit.py > /dev/null
	tools/build rawk_main
	mkdir -p bin
	cp crates/rawk_main/out/rawk_main bin/rawk

bin/rawk:
	@echo "bin/rawk is not built: \`make\` proves and builds it" >&2; exit 1

check:
	@rt=$$(tools/kit.py) && RT="$$rt" tools/gate

test: bin/rawk
	tools/cases bin/rawk
	tools/examples bin/rawk

install: bin/rawk
	install -D -m 755 bin/rawk $(BIN)
	install -D -m 644 docs/rawk.1 $(MAN)
	install -D -m 644 completions/rawk.bash $(BASH)
	install -D -m 644 completions/_rawk $(ZSH)
	install -D -m 644 completions/rawk.fish $(FISH)
	install -d $(DOC)/docs $(DOC)/examples
	install -m 644 README.md CHANGELOG.md $(DOC)
	install -m 644 docs/*.md $(DOC)/docs
	install -m 644 examples/* $(DOC)/examples

uninstall:
	rm -f $(BIN) $(MAN) $(BASH) $(ZSH) $(FISH)
	rm -rf $(DOC)

dist: bin/rawk
	tools/dist

bench: all
	bench/run.sh

clean:
	rm -rf bin dist crates/*/out
