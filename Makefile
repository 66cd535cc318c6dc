# make              proves and builds the library, static and shared, and the command line
# make install      puts them under PREFIX, with the header, the pkg-config file, the man page and completions; below DESTDIR where that is set
# make uninstall    takes away what install put there
# make check        the gate
#
# For Linux; rt, cargo, a C compiler and GNU make are needed.

PREFIX = /usr/local
BINDIR = $(PREFIX)/bin
LIBDIR = $(PREFIX)/lib
INCLUDEDIR = $(PREFIX)/include
DATADIR = $(PREFIX)/share

CARGO ?= cargo
INSTALL ?= install

VERSION := $(shell sed -n 's/^version = "\(.*\)"$$/\1/p' rust/Cargo.toml)
# Before version 1 each minor version may change the layout of an answer.
SONAME := libstation.so.$(basename $(VERSION))

ARCHIVE := target/staticlib/libstation_c.a
OUT := target/install
SHARED := $(OUT)/libstation.so.$(VERSION)
TOOL := target/rust/release/vaigunthe

# What checks keep below out/ has folders of these names too.
PROVED := $(shell find crates -name out -prune -o -type f \( -path '*/src/*' -o -path '*/specs/*' -o -path '*/proofs/*' \) -print)

# Each file that the command line prints, and where it is put.
MAN := $(DATADIR)/man/man1/vaigunthe.1
BASH := $(DATADIR)/bash-completion/completions/vaigunthe
ZSH := $(DATADIR)/zsh/site-functions/_vaigunthe
FISH := $(DATADIR)/fish/vendor_completions.d/vaigunthe.fish

.PHONY: all install uninstall check tool
.DELETE_ON_ERROR:

all: $(ARCHIVE) $(SHARED) tool

$(ARCHIVE): $(PROVED)
	tools/archive

# The whole archive, nothing left undefined, and no code that would have to be changed when it is loaded.
$(SHARED): $(ARCHIVE)
	@mkdir -p $(@D)
	$(CC) $(LDFLAGS) -shared -Wl,-soname,$(SONAME) -Wl,-z,defs -Wl,-z,text -Wl,-z,noexecstack \
	    -Wl,--whole-archive $(ARCHIVE) -Wl,--no-whole-archive -o $@

# cargo knows by itself what has to be built again.
tool: $(ARCHIVE)
	cd rust && $(CARGO) build --quiet --release --package vaigunthe --target-dir ../target/rust

# What the command line prints for the words $(1) becomes the file $(2), where it knows these words.
define put_printed
	@if $(TOOL) $(1) >$(OUT)/printed 2>/dev/null; then $(INSTALL) -D -m 644 $(OUT)/printed "$(DESTDIR)$(2)"; fi
endef

install: all
	$(INSTALL) -D -m 755 $(TOOL) "$(DESTDIR)$(BINDIR)/vaigunthe"
	$(INSTALL) -D -m 644 include/station.h "$(DESTDIR)$(INCLUDEDIR)/station.h"
	$(INSTALL) -D -m 644 $(ARCHIVE) "$(DESTDIR)$(LIBDIR)/libstation.a"
	$(INSTALL) -D -m 644 $(SHARED) "$(DESTDIR)$(LIBDIR)/libstation.so.$(VERSION)"
	ln -sf libstation.so.$(VERSION) "$(DESTDIR)$(LIBDIR)/$(SONAME)"
	ln -sf $(SONAME) "$(DESTDIR)$(LIBDIR)/libstation.so"
	@printf '%s\n' 'prefix=$(PREFIX)' 'libdir=$(LIBDIR)' 'includedir=$(INCLUDEDIR)' '' 'Name: station' \
	    'Description: The proved reader of BIFF8 workbook streams' 'Version: $(VERSION)' \
	    'Libs: -L$${libdir} -lstation' 'Cflags: -I$${includedir}' >$(OUT)/station.pc
	$(INSTALL) -D -m 644 $(OUT)/station.pc "$(DESTDIR)$(LIBDIR)/pkgconfig/station.pc"
	$(call put_printed,man,$(MAN))
	$(call put_printed,completions bash,$(BASH))
	$(call put_printed,completions zsh,$(ZSH))
	$(call put_printed,completions fish,$(FISH))

uninstall:
	rm -f "$(DESTDIR)$(BINDIR)/vaigunthe" "$(DESTDIR)$(INCLUDEDIR)/station.h" "$(DESTDIR)$(LIBDIR)/libstation.a" \
	    "$(DESTDIR)$(LIBDIR)/libstation.so.$(VERSION)" "$(DESTDIR)$(LIBDIR)/$(SONAME)" "$(DESTDIR)$(LIBDIR)/libstation.so" \
	    "$(DESTDIR)$(LIBDIR)/pkgconfig/station.pc" \
	    "$(DESTDIR)$(MAN)" "$(DESTDIR)$(BASH)" "$(DESTDIR)$(ZSH)" "$(DESTDIR)$(FISH)"

check:
	.ci/run
