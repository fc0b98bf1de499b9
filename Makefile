# make            proves and builds the program, and leaves it as build/abootimg
# make run        runs the main job at once, not proved; then proves and builds, and runs it proved
# make quick      runs the main job and all tests without a proof, in some minutes
# make test       the gate: every proof, the edits that must fail, the tests, the claims, the cases and the examples
# make lib        proves and builds the C library, and leaves it as build/libabootimg.a
# make wasm       builds the C library as a WebAssembly module, build/abootimg.wasm
# make page       makes the page build/abootimg.html, which shows and expands images in a browser
# make dist       packs the program, manual page, completions, C library and page into build/abootimg-VERSION-x86_64.tar.gz
# make install    copies what was built (program, manual page, C library) below PREFIX (/usr/local); proves nothing
# make install LINKS=1   also makes links to the program with the names of AOSP's tools, which it then stands in for
# make man        writes the manual page build/abootimg.1 from docs/COMMANDS.md
# make compare    compares the commands with AOSP's tools, byte for byte, and random calls under their names
# make bench      times the commands against AOSP's tools (needs 8 GiB of disk)
# make faults     has each system call of each command fail once (needs strace)
# make edits      tries every must-fail edit, those of the gate and all others (hours)
# make plant      plants wrong bodies in every library, and lists those that its contracts let through (hours)
# make clean      removes build/
# make help       prints this
#
# make, make run and make test need rt, the command of the Rattle toolchain (rt version prints its line), and Python 3.8.
# What is proved is kept on the machine: make, make test and other clones take from one another what has not changed.
# With TARGET=aarch64, make, make lib, make test, make dist and make install are about ARM64, below build/aarch64/. make test runs the
# cases and the scripts over the program by QEMU. (Debian: gcc-aarch64-linux-gnu, libc6-dev-arm64-cross, qemu-user-static)
# make JOBS=2     proves two crates at once; without it, as many as processors and memory allow

RT ?= rt
JOBS ?= 0
PREFIX ?= /usr/local
DESTDIR ?=
LINKS ?=
TARGET ?=
ifeq ($(TARGET),)
BUILT = build
BUILD = tools/build.py
MACHINE = x86_64
else ifeq ($(TARGET),aarch64)
BUILT = build/aarch64
BUILD = tools/build_places.py
MACHINE = aarch64
else
$(error TARGET is aarch64, or is left out: $(TARGET))
endif
PROGRAM = $(BUILT)/abootimg
MANUAL = build/abootimg.1
LIBRARY = $(BUILT)/libabootimg.a
MODULE = build/abootimg.wasm
PAGE = build/abootimg.html
WEB = $(wildcard web/*.html web/*.css web/*.js) web/build.py
VERSION = $(shell sed -n 's/^pub const VERSION: &str = "\(.*\)";$$/\1/p' crates/words_orders/src/table.rt)
TOOLS = simg2img img2simg simg2simg mkbootimg unpack_bootimg
EMPTY =
COMMA = ,
ARCHIVE = build/abootimg-$(VERSION)-$(MACHINE).tar.gz
LIBRARIES = $(shell sed -n 's/^\(\w*\)[: ].*/\1/p' crates.txt | grep -v -e '^test_' -e '^mem_test_data' -e '^abootimg$$')

# All that the program is made from, so that with no change since nothing is proved and rt is not called.
SOURCES := $(shell find crates \( -name out -o -name must-fail -o -name more-edits \) -prune -o \
	-type f \( -name '*.rt' -o -name '*.antt' \) -print)

.PHONY: all run quick test lib wasm page dist install install-lib man compare bench faults edits plant clean help

all: $(PROGRAM) $(MANUAL)

$(PROGRAM): crates.txt $(SOURCES) tools/arm64/support.c
	$(BUILD) --rt $(RT) --jobs $(JOBS) program $(PROGRAM)

$(MANUAL): docs/COMMANDS.md tools/make_man.py
	@mkdir -p build
	tools/make_man.py docs/COMMANDS.md > $(MANUAL)

run:
	@test -x $(PROGRAM) || tools/quick.py --rt $(RT) --first
	@$(MAKE) --no-print-directory $(PROGRAM)
	$(PROGRAM)

quick:
	@tools/quick.py --rt $(RT)

lib: $(LIBRARY)

$(LIBRARY): crates.txt $(SOURCES)
	$(BUILD) --rt $(RT) --jobs $(JOBS) library $(LIBRARY)

wasm: $(MODULE)

$(MODULE): crates.txt $(SOURCES)
	tools/build_places.py --rt $(RT) --jobs $(JOBS) wasm $(MODULE)

page: $(PAGE)

$(PAGE): $(MODULE) $(WEB) docs/COMMANDS.md
	web/build.py $(MODULE) $(PAGE)

dist: $(ARCHIVE)

$(ARCHIVE): $(PROGRAM) $(LIBRARY) $(PAGE) docs/COMMANDS.md include/abootimg.h include/abootimg.pc.in LICENSE tools/make_dist.sh
	tools/make_dist.sh $(PROGRAM) $(LIBRARY) $(PAGE) $(ARCHIVE)

ifeq ($(TARGET),)
test:
	@tools/test.py --rt $(RT)
else
test: $(PROGRAM) $(LIBRARY)
	@tools/try_arm64.sh $(PROGRAM) $(LIBRARY)
endif

man: $(MANUAL)

install: $(MANUAL)
	@test -x $(PROGRAM) || { echo 'There is no $(PROGRAM) yet: run make first.' >&2; exit 1; }
	install -d $(DESTDIR)$(PREFIX)/bin $(DESTDIR)$(PREFIX)/share/man/man1
	install -m 755 $(PROGRAM) $(DESTDIR)$(PREFIX)/bin/abootimg
	install -m 644 $(MANUAL) $(DESTDIR)$(PREFIX)/share/man/man1/abootimg.1
	@test -z '$(LINKS)' || for tool in $(TOOLS); do ln -sf abootimg $(DESTDIR)$(PREFIX)/bin/$$tool || exit 1; done
	@test ! -f $(LIBRARY) || $(MAKE) --no-print-directory install-lib
	@test ! -f $(MODULE) || install -D -m 644 $(MODULE) $(DESTDIR)$(PREFIX)/share/abootimg/abootimg.wasm
	@test ! -f $(PAGE) || install -D -m 644 $(PAGE) $(DESTDIR)$(PREFIX)/share/abootimg/abootimg.html

install-lib:
	install -d $(DESTDIR)$(PREFIX)/include $(DESTDIR)$(PREFIX)/lib/pkgconfig
	install -m 644 $(LIBRARY) $(DESTDIR)$(PREFIX)/lib/libabootimg.a
	install -m 644 include/abootimg.h $(DESTDIR)$(PREFIX)/include/abootimg.h
	sed -e 's,@PREFIX@,$(PREFIX),' -e 's,@VERSION@,$(VERSION),' include/abootimg.pc.in \
		> $(DESTDIR)$(PREFIX)/lib/pkgconfig/abootimg.pc

compare: $(PROGRAM)
	ABOOTIMG=$(PROGRAM) tools/compare_simg2img.sh
	ABOOTIMG=$(PROGRAM) tools/pieces_simg2img.sh
	ABOOTIMG=$(PROGRAM) tools/mkbootimg_interop.sh
	ABOOTIMG=$(PROGRAM) tools/flash_loop.sh
	tools/compare_names.py '$(PROGRAM) as' --names $(subst $(EMPTY) $(EMPTY),$(COMMA),$(TOOLS))

bench: $(PROGRAM)
	bench/table.py --program $(PROGRAM)

faults: $(PROGRAM)
	@ABOOTIMG=$(PROGRAM) tools/try_faults.py

edits:
	tools/edits.py --rt $(RT)

plant:
	tools/plant.py --rt $(RT) $(LIBRARIES)

clean:
	rm -rf build

help:
	@sed -n '/^[^#]/q; /^$$/q; s/^# \{0,1\}//p' Makefile
