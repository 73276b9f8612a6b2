# make          builds the program: proves the crates that it uses, many side by side, a line as each ends, and leaves build/hgtrack
# make demo     runs `hgtrack status` on a sample working copy, which it lays out in a temporary folder
# make test     proves every crate from nothing, and tests the program: what .ci/run runs
# make wrong-bodies CRATES=".."    tries the wrong bodies of these crates that the gate leaves out (wrong-bodies/)
# make documents    writes docs/DEFINITIONS.md from the comments of the definitions
# make bench    times the program against C loops (gcc)
# make install PREFIX=..    puts the program and hgtrack-parents into PREFIX/bin, the hooks that run it into PREFIX/share/hgtrack, and the man page and
#                           the completion for bash beside them
# make clean    takes away what the others made

PREFIX ?= /usr/local
SOURCES := crates.txt HANDLES $(shell find crates -name out -prune -o -name must-fail -prune -o -type f -print)

.PHONY: all demo test wrong-bodies documents bench install clean

all: build/hgtrack

# (what the toolchain says is in build/log; where no file that the program is built from has changed in truth, nothing is proved again)
build/hgtrack: $(SOURCES)
	@python3 .ci/build.py build/hgtrack

demo: build/hgtrack
	@python3 demo/demo.py build/hgtrack

test:
	bash .ci/run

wrong-bodies:
	python3 .ci/wrong_bodies.py $(CRATES)

documents:
	python3 .ci/documents.py

bench: build/hgtrack
	python3 bench/bench.py build/hgtrack

# (both by what the program's own help says)
build/hgtrack.1 build/hgtrack.bash &: build/hgtrack contrib/pages.py
	python3 contrib/pages.py build/hgtrack build

install: build/hgtrack build/hgtrack.1 build/hgtrack.bash
	install -d $(DESTDIR)$(PREFIX)/bin $(DESTDIR)$(PREFIX)/share/hgtrack
	install -m 755 build/hgtrack contrib/hgtrack-parents $(DESTDIR)$(PREFIX)/bin
	install -m 644 contrib/hgtrack.hgrc $(DESTDIR)$(PREFIX)/share/hgtrack
	install -D -m 644 build/hgtrack.1 $(DESTDIR)$(PREFIX)/share/man/man1/hgtrack.1
	install -D -m 644 build/hgtrack.bash $(DESTDIR)$(PREFIX)/share/bash-completion/completions/hgtrack
	sed -i 's|= hgtrack-parents|= "$(PREFIX)/bin/hgtrack-parents"|; s|/usr/local/|$(PREFIX)/|' $(DESTDIR)$(PREFIX)/share/hgtrack/hgtrack.hgrc

clean:
	rm -rf build crates/*/out
