# Builds the library and the program over it, installs them, and runs the worked example and what tests and measures
# them. Everything made is under target/; what rt makes and keeps is under crates/*/out/.
PREFIX ?= /usr/local
CFLAGS ?= -O2 -Wall -Wextra
INSTALL ?= install
# What the library is linked into is for x86-64, as the library is, whatever this machine has.
ifeq ($(origin CC),default)
CC := $(shell bash -c '. .ci/x86-64 && echo "$$compiler"')
endif

version := 0.2.0
library := target/staticlib/libzobukwami.a
program := target/bin/check_file
example := target/bin/short_rows
documents := share/doc/zobukwami
crates := crates.txt $(shell find crates -name out -prune -o '(' -name '*.rt' -o -name '*.antt' ')' -print)
prefix = $(abspath $(PREFIX))
to = $(DESTDIR)$(prefix)
# pkg-config gives the prefix as words of a command line, where a blank would part it in two.
ifneq ($(filter install uninstall,$(MAKECMDGOALS)),)
ifneq ($(words $(prefix)),1)
$(error PREFIX is '$(PREFIX)': choose a folder without a blank in its path)
endif
endif

.PHONY: all example install uninstall test bench fuzz clean
.DELETE_ON_ERROR:

all: $(library) $(program)

# rt proves a crate and all that it stands on before it builds it, which takes minutes the first time. What the library
# is to be linked with is looked for before. It is for plain x86-64: nothing in it looks for what a processor lacks.
$(library): $(crates)
	@.ci/needs rt
	@.ci/needs compiler '$(CC)'
	cd crates/zobukwami && rt lib --cpu x86-64
	mkdir -p $(@D)
	cp crates/zobukwami/out/libzobukwami.a $@

# rt builds a program to run it, here on no input. After the library, as only one rt may work at a time.
target/bin/racecheck: $(crates) | $(library)
	cd crates/racecheck && rt run </dev/null >/dev/null
	mkdir -p $(@D)
	cp crates/racecheck/out/racecheck $@

define compile
@.ci/needs compiler '$(CC)'
mkdir -p $(@D)
$(CC) -std=c11 -Iinclude $(CPPFLAGS) $(CFLAGS) $(LDFLAGS) -o $@ $(filter %.c %.a,$^)
endef

$(program) $(example): target/bin/%: examples/%.c include/zobukwami.h $(library)
	$(compile)

$(example): examples/recorder.h

# Makes the calls for fire and the fuzzer.
target/tests/caller: tests/fire/caller.c include/zobukwami.h $(library)
	$(compile)

# The same with what does wrong in the library's place, and little time for a call.
target/tests/wrong_caller: override CPPFLAGS += -DSECONDS=2
target/tests/wrong_caller: tests/fire/caller.c tests/fire/wrong.c include/zobukwami.h
	$(compile)

example: $(example)
	@.ci/x86-64 $(example)

install: all
	sed 's|@PREFIX@|$(prefix)|; s|@VERSION@|$(version)|' zobukwami.pc.in >target/zobukwami.pc
	$(INSTALL) -d '$(to)/include' '$(to)/lib/pkgconfig' '$(to)/bin' '$(to)/$(documents)'
	$(INSTALL) -m 644 include/zobukwami.h '$(to)/include/zobukwami.h'
	$(INSTALL) -m 644 $(library) '$(to)/lib/libzobukwami.a'
	$(INSTALL) -m 644 target/zobukwami.pc '$(to)/lib/pkgconfig/zobukwami.pc'
	$(INSTALL) -m 755 $(program) '$(to)/bin/zobukwami-check'
	$(INSTALL) -m 644 docs/CODES.md docs/CONTRACTS.md docs/ROOM.md '$(to)/$(documents)'

uninstall:
	rm -f '$(to)/include/zobukwami.h' '$(to)/lib/libzobukwami.a' '$(to)/lib/pkgconfig/zobukwami.pc'
	rm -f '$(to)/bin/zobukwami-check'
	rm -rf '$(to)/$(documents)'

# What these run calls make itself, where the flags of this one do not belong.
apart := env -u MAKEFLAGS -u MFLAGS -u MAKELEVEL

test:
	.ci/needs
	$(apart) .ci/c
	$(apart) .ci/second
	$(apart) .ci/fire

bench:
	$(apart) bench/run

fuzz:
	$(apart) tests/fuzz/run

clean:
	rm -rf target crates/*/out
