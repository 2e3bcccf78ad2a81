PREFIX ?= /usr/local
c_flags := -std=c99 -O2 -Wall -Wextra -pedantic

# A static library exports only what its own crate marks, so each crate with entries for C is named here.
entries := utf8b utf8b_cesu8 utf8b_reason utf8b_index
archive := build/libutf8b.a
program := build/codes
# The directories are named too: a file that is taken away changes nothing else.
sources := Makefile crates.txt $(shell find crates/*/src crates/*/specs crates/*/proofs)

pages_1 := $(wildcard man/*.1)
pages_3 := $(wildcard man/*.3)
installed := bin/codes include/utf8b.h lib/libutf8b.a lib/pkgconfig/utf8b.pc \
	$(pages_1:man/%=share/man/man1/%) $(pages_3:man/%=share/man/man3/%)

# A path goes to the shell as it was given: make would take a '$' in it for a variable, and a space for an end.
placed install uninstall: export given_prefix := $(value PREFIX)
placed install uninstall: export given_destdir := $(value DESTDIR)
unexport PREFIX DESTDIR

# Sets prefix and root, where the files go; or refuses, before anything is done, what would not arrive whole.
define place
set -eu; \
refuse() { printf 'make: %s; nothing was done\n' "$$1" >&2; exit 1; }; \
case $$PWD$$given_prefix$$given_destdir in *[[:cntrl:]]*) refuse 'a path has a control character' ;; esac; \
[ -n "$$given_prefix" ] || refuse 'PREFIX is empty'; \
prefix=$$(realpath -ms -- "$$given_prefix"); \
case $$prefix in *['$$()']*) refuse 'PREFIX has $$, ( or ), which pkg-config cannot pass on' ;; esac; \
root=$$given_destdir$$prefix
endef

.PHONY: archive codes run test bench install uninstall placed help
# placed comes before what is built; rt takes the cores by itself.
.NOTPARALLEL:

archive: $(archive) ## proves and builds build/libutf8b.a

# A build that fails leaves no half of an archive.
$(archive): $(sources)
	for entry in $(entries); do (cd crates/$$entry && rt lib) || exit; done
	rm -rf build/join && mkdir -p build/join
	printf '%s\n' 'CREATE build/join/libutf8b.a' $(foreach entry,$(entries),'ADDLIB crates/$(entry)/out/lib$(entry).a') SAVE END | $(AR) -M
	mv build/join/libutf8b.a $@

codes: $(program) ## proves and builds build/codes

# Nor half of the program. rt run runs it when it is built, so it is given its lines, and what it writes is compared.
$(program): $(sources)
	mkdir -p build/join
	cd crates/codes && rt run <stdin >../../build/join/codes.stdout
	cmp crates/codes/stdout build/join/codes.stdout
	cp crates/codes/out/codes build/join/codes
	mv build/join/codes $@

run: $(archive) ## runs an example
	$(CC) $(c_flags) -Iinclude examples/packets.c $(archive) -o build/packets
	build/packets

test: ## the gate
	.ci/run

bench: ## times the library beside others; ROUNDS=n for another number of rounds
	@CC="$(CC)" bench/run $(ROUNDS)

placed:
	@$(place)

install: placed $(archive) $(program) ## the library, codes and the pages, below PREFIX, with DESTDIR before it
	@$(place); umask 022; pc=$$root/lib/pkgconfig/utf8b.pc; \
	for file in $(installed); do mkdir -p -- "$$root/$${file%/*}"; done; \
	install -m 755 -t "$$root/bin" -- $(program); \
	install -m 644 -t "$$root/include" -- include/utf8b.h; \
	install -m 644 -t "$$root/lib" -- $(archive); \
	install -m 644 -t "$$root/share/man/man1" -- $(pages_1); \
	install -m 644 -t "$$root/share/man/man3" -- $(pages_3); \
	{ printf 'prefix='; printf '%s\n' "$$prefix" | LC_ALL=C sed 's,[^A-Za-z0-9_./-],\\&,g'; cat utf8b.pc.in; } >"$$pc"; \
	chmod 644 -- "$$pc"; \
	printf 'installed below %s\n' "$$root"

uninstall: ## takes the files of install away
	@$(place); for file in $(installed); do rm -f -- "$$root/$$file"; done

help: ## this list
	@sed -n 's/^\([a-z]*\):.*## /make \1: /p' Makefile
