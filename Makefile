# make            the library, the program and the command under build/, laid out as they are installed
# make install    copies them below DESTDIR and PREFIX
# make check      the gate, .ci/run
# make uninstall, make clean

PREFIX ?= /usr/local
DESTDIR ?=
CC ?= cc

# the version stands in the header; rust/Cargo.toml and CHANGELOG.md name it too, and a test compares them
version := $(shell sed -n 's/^\#define PLATE_VERSION "\(.*\)"/\1/p' include/plate.h)
soname := libplate.so.$(firstword $(subst ., ,$(version)))
# what a proof reads; out/ is what rt made of it
proved := crates.txt $(shell find crates -name out -prune -o \( -name '*.rt' -o -name '*.antt' \) -print)
archive := crates/plate_c/out/libplate_c.a
program := crates/platelist/out/platelist
modules := $(patsubst command/%,build/share/plate/%,$(wildcard command/shop/*.py command/shop/commands/*.py))
files := build/lib/libplate.a build/lib/libplate.so.$(version) build/lib/pkgconfig/plate.pc build/include/plate.h \
    build/bin/platelist build/bin/plate build/share/plate/shop/version.py $(modules) \
    build/share/man/man1/plate.1 build/share/man/man1/platelist.1
to = $(DESTDIR)$(PREFIX)

all: $(files)

# rt leaves what has not changed as old as it was
$(archive): $(proved)
	@tools/kit
	@echo 'proving the library: about eleven minutes from nothing, else seconds' >&2
	cd crates/plate_c && rt lib
	@touch $@

# after the library, for two runs of rt would prove the same crates twice
$(program): $(proved) | $(archive)
	@tools/kit
	cd crates/platelist && rt run < /dev/null > /dev/null
	@touch $@

build/lib/libplate.a: $(archive)
	install -D -m 644 $< $@

build/bin/platelist: $(program)
	install -D -m 755 $< $@

# more names of the file and no symbolic links, because rt ci refuses those anywhere in the repository
build/lib/libplate.so.$(version): build/lib/libplate.a
	$(CC) -shared -Wl,-soname,$(soname) -Wl,--whole-archive $< -Wl,--no-whole-archive -o $@
	ln -f $@ build/lib/$(soname)
	ln -f $@ build/lib/libplate.so

build/include/plate.h: include/plate.h
	install -D -m 644 $< $@

build/bin/plate: command/plate
	install -D -m 755 $< $@

build/share/plate/shop/%.py: command/shop/%.py
	install -D -m 644 $< $@

build/share/plate/shop/version.py: include/plate.h
	mkdir -p $(@D)
	echo "VERSION = '$(version)'" > $@

build/lib/pkgconfig/plate.pc: command/plate.pc include/plate.h
	mkdir -p $(@D)
	sed 's/@VERSION@/$(version)/' $< > $@

build/share/man/man1/%.1: command/%.1 include/plate.h
	mkdir -p $(@D)
	sed 's/@VERSION@/$(version)/' $< > $@

install: all
	install -d '$(to)/bin' '$(to)/lib/pkgconfig' '$(to)/include' '$(to)/share/plate/shop/commands' '$(to)/share/man/man1'
	install -m 755 build/bin/plate build/bin/platelist '$(to)/bin'
	install -m 644 build/lib/libplate.a '$(to)/lib'
	install -m 755 build/lib/libplate.so.$(version) '$(to)/lib'
	ln -sf libplate.so.$(version) '$(to)/lib/$(soname)'
	ln -sf $(soname) '$(to)/lib/libplate.so'
	install -m 644 build/lib/pkgconfig/plate.pc '$(to)/lib/pkgconfig'
	install -m 644 build/include/plate.h '$(to)/include'
	install -m 644 build/share/plate/shop/*.py '$(to)/share/plate/shop'
	install -m 644 build/share/plate/shop/commands/*.py '$(to)/share/plate/shop/commands'
	install -m 644 build/share/man/man1/plate.1 build/share/man/man1/platelist.1 '$(to)/share/man/man1'

uninstall:
	rm -f '$(to)/bin/plate' '$(to)/bin/platelist' '$(to)/include/plate.h' '$(to)/lib/pkgconfig/plate.pc'
	rm -f '$(to)/lib/libplate.a' '$(to)/lib/libplate.so' '$(to)/lib/$(soname)' '$(to)/lib/libplate.so.$(version)'
	rm -f '$(to)/share/man/man1/plate.1' '$(to)/share/man/man1/platelist.1'
	rm -rf '$(to)/share/plate'

check:
	.ci/run

clean:
	rm -rf build

.PHONY: all install uninstall check clean
