# The C library: builds it, installs it, and tries it, on x86-64 and on Arm.
#   make            the archive, proved first
#   make install PREFIX=DIR
#   make examples   the programs of examples/, against include/ and the archive
#   make NAME       the program crates/NAME, walk or one that runs cases: proved, built, and run on its input; ./run NAME runs it on other input
#   make test       installs into a folder of its own, compiles against that, and traces through namespaces (root)
# The archive is x86-64, and so is all that links it. On Arm Debian's cross compiler links it, and ./run runs it.
PREFIX ?= /usr/local
prefix = $(abspath $(PREFIX))
DESTDIR ?=
# The second number rises where a host must be changed with the library: 2, interface entries of 28 bytes (M-102).
VERSION = 0.2.0
CFLAGS ?= -O2
WARN = -std=c11 -Wall -Wextra -Wpedantic
packages = gcc and libc6-dev

ifeq ($(shell uname -m),aarch64)
ifeq ($(origin CC),default)
CC = x86_64-linux-gnu-gcc
endif
# Static: such a program needs an emulator and nothing else. Any other needs an x86-64 loader and a C library that fit each other
# and the compiler; where a machine has several, qemu-x86_64 -L takes one's loader and the other's library, and the program dies.
LDFLAGS ?= -static
packages = gcc-x86-64-linux-gnu and libc6-dev-amd64-cross
endif

lib = target/staticlib/libservicebough.a
bin = target/examples
programs = $(bin)/host $(bin)/trace $(bin)/sheet
proved = $(patsubst crates/%/src/main.rt,%,$(wildcard crates/*/src/main.rt))
compile = $(CC) $(WARN) $(CFLAGS) $(LDFLAGS)

.PHONY: all lib install examples test compiler compile-line $(proved)
all: lib
lib: $(lib)

# The archive is that of the crate servicebough_c; what C links keeps its name.
$(lib): crates.txt $(shell find crates -name out -prune -o \( -name '*.rt' -o -name '*.antt' \) -print)
	$(if $(shell command -v rt 2> /dev/null),,$(error rt is missing: the Rattle kit has it))
	cd crates/servicebough_c && rt lib
	@mkdir -p $(@D)
	cp crates/servicebough_c/out/libservicebough_c.a $@

# `rt run` leaves the program as crates/NAME/out/NAME.
$(proved):
	$(if $(shell command -v rt 2> /dev/null),,$(error rt is missing: the Rattle kit has it))
	cd crates/$@ && rt run < stdin | cmp - stdout

install: $(lib)
	install -d $(DESTDIR)$(prefix)/lib/pkgconfig $(DESTDIR)$(prefix)/include
	install -m 644 $(lib) $(DESTDIR)$(prefix)/lib/
	install -m 644 include/servicebough.h $(DESTDIR)$(prefix)/include/
	sed -e 's|@PREFIX@|$(prefix)|' -e 's|@VERSION@|$(VERSION)|' servicebough.pc.in > $(DESTDIR)$(prefix)/lib/pkgconfig/servicebough.pc

examples: compiler $(programs)

$(bin)/%: examples/%.c examples/bytes.h include/servicebough.h $(lib)
	@mkdir -p $(bin)
	$(compile) -Iinclude -o $@ $< $(lib)

# Tries the compiler on a program of its own, so that what is missing is said in one sentence and not by a linker.
trial = printf '\043include <stdio.h>\n\043ifdef __x86_64__\nint main(void) { return puts("") < 0; }\n\043endif\n'
compiler:
	$(if $(shell $(trial) | $(compile) -x c -o /dev/null - 2> /dev/null && echo yes),,$(error '$(strip $(CC) $(LDFLAGS))' \
	    makes no x86-64 program here: Debian's packages $(packages) have what is needed))
	@:

# What tests/installed.sh compiles with.
compile-line: compiler
	@echo '$(compile)'

test: examples
	tests/installed.sh
	tests/network.sh
