# The C library: `make` proves and builds target/libmudasgup.a, which needs `rt`, the command of the Rattle kit, and says which crate is at work.
#   make help                 these lines
#   make check                the tests of the library
#   make install PREFIX=DIR   header, archive and pkg-config file, under /usr/local without PREFIX
#   make dist                 target/mudasgup-VERSION.tar.gz, which unpacked is such a DIR, with the examples
# With TARGET=MACHINE, as thumbv7em, the archive is for that machine (docs/MACHINES.md); tools/targets -h has their names.

PREFIX = /usr/local
DESTDIR =
VERSION = $(shell sed -n 's/^Version: //p' mudasgup.pc)
TARGET =
LIBRARY = $(if $(TARGET),target/machines/$(TARGET)/libmudasgup.a,target/libmudasgup.a)
BUILT = crates/firmware_c/out/libfirmware_c.a
DIST = target/mudasgup-$(VERSION)$(if $(TARGET),-$(TARGET))
EXAMPLES = $(wildcard examples/firmware/*.c examples/firmware/*.h) examples/firmware/Makefile
BARE = $(wildcard examples/firmware/bare/*.c examples/firmware/bare/*.ld) examples/firmware/bare/Makefile
CRATES = firmware_c $(shell sed -n 's/^firmware_c staticlib: //p' crates.txt)
SOURCES = $(foreach crate,$(CRATES),$(wildcard crates/$(crate)/src/*.rt))

ifeq ($(TARGET),wasm32)
$(error for WebAssembly there is a module and no archive: tools/targets wasm32 makes it)
endif

all: $(LIBRARY)

target/libmudasgup.a: $(BUILT)
	@mkdir -p target
	cp $(BUILT) $@

$(BUILT): $(SOURCES)
	@tools/build.sh lib firmware_c 'five to six minutes'
	@touch $@

target/machines/%/libmudasgup.a: $(BUILT)
	tools/targets $*

check: $(LIBRARY)
	python3 tests/run.py test_firmware
	python3 tests/run.py test_firmware_header
	python3 tests/run.py test_firmware_uses

install: $(LIBRARY)
	install -d $(DESTDIR)$(PREFIX)/include $(DESTDIR)$(PREFIX)/lib/pkgconfig
	install -m 644 include/mudasgup.h $(DESTDIR)$(PREFIX)/include
	install -m 644 $(LIBRARY) $(DESTDIR)$(PREFIX)/lib
	install -m 644 mudasgup.pc $(DESTDIR)$(PREFIX)/lib/pkgconfig

dist: $(LIBRARY)
	rm -rf $(DIST)
	$(MAKE) install PREFIX=$(DIST) DESTDIR=
	install -d $(DIST)/examples/bare
	install -m 644 $(EXAMPLES) $(DIST)/examples
	install -m 644 $(BARE) $(DIST)/examples/bare
	tar -C target -czf $(DIST).tar.gz $(notdir $(DIST))

help:
	@sed -n 's/^# *//p;/^$$/q' Makefile

.PHONY: all check install dist help
