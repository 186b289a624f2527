# make          proves and builds the program, build/purify
# make example  does that and runs it on an example
# make test     all that a change must pass, and what its proofs took
# make install  puts the program into $(PREFIX)/bin, and its page into $(PREFIX)/share/man/man1
PREFIX ?= /usr/local

.PHONY: all example test install
all: build/purify

build/purify: crates.txt $(shell find crates -name out -prune -o -name must-fail -prune -o -type f -print)
	tools/build purify

example: build/purify
	./build/purify examples/post.html

test:
	tests/costs bash .ci/run

install: build/purify
	install -D -m 755 build/purify $(DESTDIR)$(PREFIX)/bin/purify
	install -D -m 644 man/purify.1 $(DESTDIR)$(PREFIX)/share/man/man1/purify.1
