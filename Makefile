# make try           builds the program and the library without proofs, in about a minute, and runs the program on the
#                    tour; with ARGS='..' on those arguments, as in make try ARGS='protect CONFIG IN OUT'. build/try has
#                    it and the commands in Python
# make test          builds without proofs and runs most checks, in at most 5 minutes
# make               proves and builds the program, build/macsec, for the processor at hand; with CPU=x86-64-v2 for every
#                    one, with CPU=x86-64-v3 for those with vectors of 256 bits
# make run           does the same, and runs it on the tour
# make lib           proves and builds the library for C of the header include/macsec.h: build/libmacsec.a and
#                    build/libmacsec.so.1 for every processor, and those of build/glibc-hwcaps/x86-64-v3 if CPU is that
# make kept          proves the program's libraries and keeps the work where rt takes it, before a crate is changed
# make device        builds the MACsec device build/macsecd, and build/macsecctl, over the library for C of CPU
# make install       copies the program, its manual pages, the libraries for C, their header and pkg-config file to
#                    PREFIX, /usr/local by default, under DESTDIR
# make install-device copies the device's programs, their manual pages and the unit for systemd to PREFIX, as make
#                    install does
# make install-python copies the Python package to PREFIX/lib/macsec/python, its commands and their manual pages
# make dist          makes build/dist: macsec-VERSION.tar.gz and the Debian packages macsec, libmacsec1, libmacsec-dev,
#                    python3-macsec, macsec-doc and macsecd
# make check         the gate
# make reference     writes docs/reference again, from the sources
# make clean         removes what make has built
# make help          prints this list and the checks, each of which is a target: make NAME runs it over what is built,
#                    and proves and builds that first
RT := $(shell command -v rt 2>/dev/null)
SOURCES := crates.txt $(shell find crates -name out -prune -o -type f \( -name '*.rt' -o -name '*.antt' \) -print)
INPUTS := 100000
SEED := 1
PREFIX ?= /usr/local
# Fails without `rt`, and warns of another version of it.
ifeq ($(RT),)
with_rt = echo "rt, the command of the Rattle toolchain, is not on the PATH: install Rattle and put its bin/ on the PATH." >&2; \
    exit 1
else
with_rt = grep -qF "$$(rt version)" docs/PROVED.md || \
    echo "warning: this Rattle is $$(rt version); docs/PROVED.md names the version that the proofs were made with" >&2
endif
# What programs are built for: by default the processor at hand, by what the loader of the C library says.
ifndef CPU
CPU := $(shell /lib64/ld-linux-x86-64.so.2 --help 2> /dev/null | grep -q 'x86-64-v3 .supported' \
    && echo x86-64-v3 || echo x86-64-v2)
endif
ifeq ($(filter x86-64-v2 x86-64-v3,$(CPU)),)
$(error CPU is x86-64-v2 or x86-64-v3, and not $(CPU))
endif
DEVICE_FLAGS := -std=c11 -pthread -Wall -Wextra -Werror -pedantic -Iinclude -O2 -fstack-protector-strong -D_FORTIFY_SOURCE=2 \
    -fstack-clash-protection -fcf-protection -fPIE -pie -Wl,-z,relro -Wl,-z,now -Wl,-z,noexecstack
HWCAPS := glibc-hwcaps/x86-64-v3
LIBRARIES := build/libmacsec.a build/$(HWCAPS)/libmacsec.a
BOTH := build/macsec-x86-64-v2 build/macsec-x86-64-v3
DEVICE_SOURCES := $(sort $(filter-out device/macsecctl.c,$(wildcard device/*.c)))

# The checks that make a program or a library first, and the others.
OVER_PROGRAM := conformance conformance-controls peer planted stored-runs
OVER_LIBRARY := axioms c-programs constant-time device-forged device-fuzz doctor instructions isolated \
    isolated-controls isolated-unit journal keys-in-memory macsecd macsecd-controls macsecd-isolated macsecd-workers pages python readers \
    two-hosts workers
CHECKS := $(OVER_PROGRAM) $(OVER_LIBRARY) against any-order c-header controls device-analyzed device-forged-linux \
    device-installed device-kernel edits failures fuzz isolated-kinds kept-frames kernel-captures live mistakes mka needed \
    packages sizes style table version

.PHONY: all try test run lib kept device device-of install install-device install-python dist check reference \
    toolchain clean help always $(CHECKS)

all: build/macsec

try: toolchain
	@tools/unproved macsec libmacsec.a
	@install -D -m 755 -t build/try build/unproved/macsec
	@for each in $$(sed -n 's/^\(macsec-[a-z]*\) = .*/\1/p' python/pyproject.toml); do \
	    install -m 755 python/tried_command.sh "build/try/$$each" || exit 1; done
	@build/unproved/macsec $(or $(ARGS),run - < examples/scripts/tour.macsec)
	@echo "make try: nothing of this build is proved, and its cipher is slow; make run proves and optimizes it" >&2

test: toolchain
	@tools/check --when test

run: build/macsec
	@build/macsec run - < examples/scripts/tour.macsec

lib: $(if $(filter x86-64-v3,$(CPU)),$(LIBRARIES),build/libmacsec.a)

kept: toolchain
	@tools/prove kept

install: build/macsec lib
	install -d "$(DESTDIR)$(PREFIX)/bin" "$(DESTDIR)$(PREFIX)/include" "$(DESTDIR)$(PREFIX)/lib/pkgconfig"
	install -d "$(DESTDIR)$(PREFIX)/share/man/man1" "$(DESTDIR)$(PREFIX)/share/man/man5"
	install -m 755 build/macsec "$(DESTDIR)$(PREFIX)/bin/macsec"
	install -m 644 man/macsec.1 "$(DESTDIR)$(PREFIX)/share/man/man1/macsec.1"
	install -m 644 man/macsec.5 "$(DESTDIR)$(PREFIX)/share/man/man5/macsec.5"
	tools/completions program --to "$(DESTDIR)$(PREFIX)"
	install -m 644 include/macsec.h "$(DESTDIR)$(PREFIX)/include/macsec.h"
	install -m 644 build/libmacsec.a build/libmacsec.so.1 "$(DESTDIR)$(PREFIX)/lib"
	ln -sfn libmacsec.so.1 "$(DESTDIR)$(PREFIX)/lib/libmacsec.so"
	rm -f "$(DESTDIR)$(PREFIX)/lib/$(HWCAPS)/libmacsec.so.1"
	if [ build/$(HWCAPS)/libmacsec.so.1 -nt build/libmacsec.so.1 ]; then \
	    install -D -m 644 -t "$(DESTDIR)$(PREFIX)/lib/$(HWCAPS)" build/$(HWCAPS)/libmacsec.so.1; fi
	sed 's|@PREFIX@|$(PREFIX)|; s|@VERSION@|'"$$(cat VERSION)"'|' include/macsec.pc.in \
	    > "$(DESTDIR)$(PREFIX)/lib/pkgconfig/macsec.pc"

install-python:
	install -D -m 644 -t "$(DESTDIR)$(PREFIX)/lib/macsec/python/macsec" python/macsec/*.py python/macsec/py.typed
	for each in cli report; do install -D -m 644 -t "$(DESTDIR)$(PREFIX)/lib/macsec/python/macsec/$$each" \
	    python/macsec/$$each/*.* || exit 1; done
	for each in $$(sed -n 's/^\(macsec-[a-z]*\) = .*/\1/p' python/pyproject.toml); do \
	    install -D -m 644 -t "$(DESTDIR)$(PREFIX)/share/man/man1" "man/$$each.1" && \
	    install -D -m 755 python/installed_command.py "$(DESTDIR)$(PREFIX)/bin/$$each" || exit 1; done
	tools/completions python --to "$(DESTDIR)$(PREFIX)"

dist: $(BOTH) $(LIBRARIES)
	tools/dist

check: toolchain
	@tools/check --when gate

# What is made from the sources.
reference:
	tools/reference

help:
	@sed -n '/^RT/q; s/^# //p' Makefile; tools/check --targets

$(CHECKS):
	@tools/check --inputs $(INPUTS) --seed $(SEED) $@

kept-frames mistakes any-order: toolchain
$(OVER_PROGRAM): build/macsec
fuzz: build/macsec build/macsec-rattle
failures: build/macsec
$(OVER_LIBRARY): build/libmacsec.a
c-programs pages python: build/macsec
axioms constant-time instructions: $(BOTH)
constant-time instructions keys-in-memory: build/$(HWCAPS)/libmacsec.a
packages: $(BOTH) $(LIBRARIES)
controls: build/macsec $(BOTH) build/macsec-rattle build/libmacsec.a
against: $(BOTH) $(LIBRARIES)

device: build/macsecd build/macsecctl

# The same in a folder TO, over a library LIBRARY that is there: for the packages.
device-of:
	$(CC) $(DEVICE_FLAGS) -o "$(TO)/macsecd" $(DEVICE_SOURCES) "$(LIBRARY)"
	$(CC) $(DEVICE_FLAGS) -o "$(TO)/macsecctl" device/macsecctl.c

install-device: device
	install -D -m 755 -t "$(DESTDIR)$(PREFIX)/sbin" build/macsecd build/macsecctl device/macsec-link
	sed -i 's|/usr/local|$(PREFIX)|' "$(DESTDIR)$(PREFIX)/sbin/macsec-link"
	install -D -m 644 -t "$(DESTDIR)$(PREFIX)/share/man/man8" man/macsecd.8 man/macsecctl.8 man/macsec-link.8
	install -d "$(DESTDIR)$(PREFIX)/lib/systemd/system"
	sed 's|/usr/local|$(PREFIX)|' device/macsecd@.service > "$(DESTDIR)$(PREFIX)/lib/systemd/system/macsecd@.service"
	tools/completions device --to "$(DESTDIR)$(PREFIX)"

# The program and the device for CPU, under their short names. They are compared, since a check may have built them for
# another processor.
build/macsec build/macsecd: %: %-$(CPU) always
	@for end in "" .proved; do \
	    [ ! -e $<$$end ] || cmp -s $<$$end $@$$end || cp -f $<$$end $@$$end || exit 1; done

# The program, proved and then built by LLVM, and as Rattle's own compiler builds it. Here and below `rt` is asked for
# when something is to be built, so that what is built can be installed without it.
$(BOTH) build/macsec-rattle: $(SOURCES)
	@$(with_rt)
	@echo "proving and building $@: from nothing many minutes, with a line for each crate" >&2
	@tools/prove $(@F)

# The library for C, with what it must be linked with.
build/libmacsec.a: $(SOURCES) tools/merged-library $(wildcard tools/library/*)
	@$(with_rt)
	@echo "proving and building build/libmacsec.a: from nothing many minutes, with a line for each crate" >&2
	@tools/prove libmacsec_c.a
	tools/merged-library build/libmacsec_c.a $@

build/macsecd-x86-64-v2: build/libmacsec.a
build/macsecd-x86-64-v3: build/$(HWCAPS)/libmacsec.a
build/macsecd-x86-64-v2 build/macsecd-x86-64-v3: $(DEVICE_SOURCES) $(wildcard device/*.h)
	$(CC) $(DEVICE_FLAGS) -o $@ $(filter %.c %.a,$^)

build/macsecctl: device/macsecctl.c device/system.h
	$(CC) $(DEVICE_FLAGS) -o $@ $<

# The same for processors with vectors of 256 bits, where the loader looks for it first.
build/$(HWCAPS)/libmacsec.a: build/libmacsec.a
	@$(with_rt)
	@tools/prove libmacsec_c-x86-64-v3.a
	tools/merged-library build/libmacsec_c-x86-64-v3.a $@

toolchain:
	@$(with_rt)

clean:
	rm -rf build "$$(tools/prove --where)"
