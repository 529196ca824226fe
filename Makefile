# The seat register.
#   make [lib]                        the library: proves and builds the archive
#   make run                          builds the program and runs it on examples/listing.calls
#   make host                         builds and runs the examples, and compares what they print
#   make compare [SEED=n] [CASES=n]   random calls through the archive and the second implementation
#   make self-test                    the same with faults put in on purpose: each must be found
#   make bench                        both measured side by side: nanoseconds a call, and the ratio
#   make versus OTHER=archive [SEED=n]
#                                     this archive and another, such as an earlier landing's, side by side
#   make drawing                      writes the drawings in docs anew
#   make stack                        bytes of stack that each call needs
#   make install [PREFIX=dir] [DESTDIR=dir]
#   make uninstall [PREFIX=dir] [DESTDIR=dir]
#   make dist                         a tar file for those who have no toolchain, in target/dist
#   make test                         the gate
#   make clean                        removes what is built here; what is proved stays
#   make help                         prints this
PREFIX ?= /usr/local
SEED ?= 1
CASES ?= 2000000

ifeq ($(origin CC),default)
CC := gcc
endif
CFLAGS ?= -O2
STRICT := -std=c99 -Wall -Wextra -Wpedantic -Wconversion -Werror
RUSTC ?= rustc
RT ?= rt
INSTALL ?= install

archive := target/staticlib/libseatreg.a
program := target/bin/seatcalls
# Where the toolchain leaves it.
proved_archive := crates/seatreg/out/libseatreg.a
header := include/seatreg.h
# The crates below both the archive and the program.
below := text rules steptable block change regfile queue runs search reckoning rounds refusals order register slips transfer demands
sources = $(shell find $(addprefix crates/,$(1)) -name out -prune -o -name '*.rt' -print -o -name '*.antt' -print)
second := target/second/libsecond.rlib
generate := target/second/libgenerate.rlib
readers := target/compare/readers.o
compare := target/compare/compare
bench := target/bench/bench
versus := target/bench/versus
drawing := target/drawing/drawing
stack := target/stack/stack
hosts := $(patsubst examples/%.c,target/host/%,$(wildcard examples/*.c))
rust := $(RUSTC) --edition 2021 -D warnings -O -C overflow-checks=on
# For a program that makes calls through the archive which the second implementation's cases give.
linked := --extern second=$(second) --extern generate=$(generate) -L dependency=$(dir $(second)) -L native=$(dir $(archive)) -l static=seatreg

.PHONY: lib run host compare self-test bench versus drawing stack install uninstall dist test clean help
.DEFAULT_GOAL := lib

help:
	@sed -n 's/^#   //p' Makefile

lib: $(archive)

# For every x86-64 processor: the toolchain's default asks for one of x86-64-v2.
$(archive): crates.txt $(call sources,$(below) seatreg)
	cd crates/seatreg && $(RT) lib --cpu=x86-64
	@mkdir -p $(@D)
	cp $(proved_archive) $@

run: $(program)
	@$(program) < examples/listing.calls

# `rt run` proves and links it, and runs it, here on an empty input.
$(program): crates.txt $(call sources,$(below) replay callfile casefile seatcalls)
	cd crates/seatcalls && $(RT) run --cpu=x86-64 </dev/null >/dev/null
	@mkdir -p $(@D)
	cp crates/seatcalls/out/seatcalls $@

host: $(hosts)
	@for host in $(notdir $(hosts)); do \
	    target/host/$$host > target/host/$$host.stdout && cat target/host/$$host.stdout && \
	    diff examples/$$host.expected target/host/$$host.stdout || exit 1; \
	done

target/host/%: examples/%.c $(header) $(archive)
	@mkdir -p $(@D)
	$(CC) $(CFLAGS) $(STRICT) -Iinclude $< $(archive) -o $@

compare: $(compare)
	$(compare) $(SEED) $(CASES)

# The comparison with a fault put in on purpose, once for each: it must find them all.
self-test: $(compare)
	$(compare) self-test $(SEED) 5000

$(compare): $(wildcard tests/compare/*.rs) $(readers) $(second) $(archive)
	@mkdir -p $(@D)
	$(rust) --extern second=$(second) --crate-name compare tests/compare/main.rs -L native=$(dir $(archive)) -l static=seatreg -C link-arg=$(readers) -o $@

$(readers): tests/compare/readers.c $(header)
	@mkdir -p $(@D)
	$(CC) $(CFLAGS) $(STRICT) -Iinclude -c $< -o $@

bench: $(bench)
	$(bench)

measured := $(wildcard bench/*.rs) tests/compare/contents.rs tests/compare/entry.rs tests/compare/lent.rs $(second) $(generate)
$(bench): $(measured) $(archive)
	@mkdir -p $(@D)
	$(rust) -A dead_code --crate-name bench bench/main.rs $(linked) -o $@

versus: $(versus) $(archive)
	$(if $(OTHER),,$(error make versus OTHER=archive))
	$(versus) $(archive) '$(OTHER)' target/bench $(SEED)

# It links no archive: it lays out both and loads them.
$(versus): $(measured)
	@mkdir -p $(@D)
	$(rust) -A dead_code --crate-name versus bench/versus.rs --extern second=$(second) --extern generate=$(generate) -L dependency=$(dir $(second)) -o $@

drawing: $(drawing)
	$(drawing) > target/drawing/p5.svg
	$(drawing) examples/dealers.register > target/drawing/dealers.svg
	cp target/drawing/p5.svg target/drawing/dealers.svg docs

$(drawing): $(wildcard docs/drawing/*.rs) tests/compare/entry.rs tests/compare/lent.rs $(readers) $(second) $(generate) $(archive)
	@mkdir -p $(@D)
	$(rust) -A dead_code --crate-name drawing docs/drawing/main.rs $(linked) -C link-arg=$(readers) -o $@

$(generate): $(wildcard tests/second/generate/*.rs) $(second)
	$(rust) --extern second=$(second) --crate-type rlib --crate-name generate tests/second/generate/lib.rs --out-dir $(@D)

$(second): $(wildcard tests/second/*.rs)
	@mkdir -p $(@D)
	$(rust) --crate-type rlib --crate-name second tests/second/lib.rs --out-dir $(@D)

# Bound by the loader before main, so that its own stack is in no figure.
stack: $(stack)
	@$(stack)

$(stack): tests/compare/stack.c $(header) $(archive)
	@mkdir -p $(@D)
	$(CC) $(CFLAGS) $(STRICT) -Iinclude -pthread $< $(archive) -Wl,-z,now -o $@

# The version's one home is the header.
version := $(shell sed -n 's/^\#define SEATREG_VERSION "\(.*\)"$$/\1/p' $(header))

# The pkg-config file, after its line of the prefix, in which a space has a backslash before it.
define pc
includedir=$${prefix}/include
libdir=$${prefix}/lib

Name: seatreg
Description: The seat register: delegations, support chains, cuts
Version: $(version)
Cflags: -I$${includedir}
Libs: -L$${libdir} -lseatreg
endef

# The names may have spaces: they reach the shell as variables, and make splits none of them.
export PREFIX DESTDIR pc
paths = case "$$PREFIX" in /*) prefix="$$PREFIX" ;; *) prefix="$$PWD/$$PREFIX" ;; esac; dest="$$DESTDIR$$prefix"; doc="$$dest/share/doc/seatreg"

install: $(archive) $(program)
	@$(paths); set -ex; \
	$(INSTALL) -d "$$dest/include" "$$dest/lib/pkgconfig" "$$dest/bin" "$$doc"; \
	$(INSTALL) -m 644 $(header) "$$dest/include/seatreg.h"; \
	$(INSTALL) -m 644 $(archive) "$$dest/lib/libseatreg.a"; \
	$(INSTALL) -m 755 $(program) "$$dest/bin/seatcalls"; \
	$(INSTALL) -m 644 README.md CHANGELOG.md docs/01-scope.md docs/02-change-requests.md "$$doc"; \
	printf '%s\n' "prefix=$$(printf '%s' "$$prefix" | sed 's/ /\\ /g')" "$$pc" > "$$dest/lib/pkgconfig/seatreg.pc"; \
	chmod 644 "$$dest/lib/pkgconfig/seatreg.pc"

# What install wrote, and its folder of documents if that is empty then.
uninstall:
	@$(paths); set -ex; \
	rm -f "$$dest/include/seatreg.h" "$$dest/lib/libseatreg.a" "$$dest/lib/pkgconfig/seatreg.pc" "$$dest/bin/seatcalls"; \
	rm -f "$$doc/README.md" "$$doc/CHANGELOG.md" "$$doc/01-scope.md" "$$doc/02-change-requests.md"; \
	if [ -d "$$doc" ]; then rmdir --ignore-fail-on-non-empty "$$doc"; fi

# The same bytes from the same commit, whoever makes it, when and in which folder. Where git can't
# tell, the commit is 'unknown' and the date 0.
dist_name := seatreg-$(version)-x86-64-linux
dist: $(archive)
	@rm -rf target/dist && mkdir -p target/dist/$(dist_name) && cd target/dist/$(dist_name) && set -e; \
	umask 022; mkdir -p include lib/pkgconfig docs examples; repository=../../..; \
	cp $$repository/README.md $$repository/CHANGELOG.md .; \
	cp $$repository/$(header) include; \
	cp $$repository/$(archive) lib; \
	cp $$repository/docs/*.md $$repository/docs/*.svg docs; \
	cp $$repository/examples/*.c $$repository/examples/*.expected $$repository/examples/*.calls $$repository/examples/*.register examples; \
	printf '%s\n' 'prefix=$${pcfiledir}/../..' "$$pc" > lib/pkgconfig/seatreg.pc; \
	git describe --always --abbrev=40 --exclude '*' --dirty > COMMIT || echo unknown > COMMIT; \
	date="$$(git log -1 --format=%ct || echo 0)"; \
	find . -type f ! -name SHA256SUMS -printf '%P\n' | LC_ALL=C sort | xargs sha256sum > SHA256SUMS; \
	cd ..; find $(dist_name) -type d -exec chmod 755 {} + -o -type f -exec chmod 644 {} +; \
	tar --format=ustar --sort=name --owner=0 --group=0 --numeric-owner --mtime=@"$$date" -cf $(dist_name).tar $(dist_name); \
	sha256sum $(dist_name).tar | tee $(dist_name).tar.sha256

test:
	bash .ci/run

clean:
	rm -rf target
