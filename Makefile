# The library for those who use it.
#   make lib          target/lib: libgougelily, static and shared. rt proves it first; where that is done it takes seconds
#   make install      header, libraries, pkg-config file, walklist, Python module, man pages and licences, under DESTDIR and PREFIX
#   make uninstall    takes away what install put there
# What is proved and tested is the gate's matter: .ci/run.
PREFIX = /usr/local
BINDIR = $(PREFIX)/bin
LIBDIR = $(PREFIX)/lib
INCLUDEDIR = $(PREFIX)/include
MANDIR = $(PREFIX)/share/man
DOCDIR = $(PREFIX)/share/doc/gougelily
PYTHON = python3
# Where this Python looks below the prefix, or else where it would by habit.
PYTHONDIR = $(shell $(PYTHON) -c 'import sys, sysconfig; own = [p for p in sys.path if p.startswith("$(PREFIX)/lib/") and p.endswith("-packages")]; \
    print(own[0] if own else sysconfig.get_path("purelib", "posix_prefix", {"base": "$(PREFIX)"}))')
CC = cc

number = $(shell sed -n 's/^.define GOUGELILY_VERSION_$(1) //p' include/gougelily.h)
MAJOR := $(call number,MAJOR)
VERSION := $(MAJOR).$(call number,MINOR).$(call number,PATCH)
SONAME = libgougelily.so.$(MAJOR)
SHARED = libgougelily.so.$(VERSION)

# What the library and the program are compiled for: every x86-64 processor. rt itself takes x86-64-v2.
CPU = x86-64
SOURCES := $(shell find crates crates.txt -name out -prune -o -name '*.rt' -print -o -name '*.antt' -print -o -name crates.txt -print)
PROVED = target/staticlib
OUT = target/lib

lib: $(OUT)/libgougelily.a $(OUT)/$(SHARED) $(OUT)/libparts.so $(OUT)/gougelily.pc

$(PROVED)/lib%.a: $(filter-out crates/walklist/%,$(SOURCES))
	cd crates/$* && rt lib --cpu=$(CPU)
	mkdir -p $(PROVED)
	cp crates/$*/out/lib$*.a $@

# rt builds a program to run it.
target/bin/walklist: $(SOURCES)
	cd crates/walklist && rt run --cpu=$(CPU) -- --help >/dev/null
	mkdir -p target/bin
	cp crates/walklist/out/walklist $@

$(OUT)/libgougelily.a: $(PROVED)/libgougelily.a
	mkdir -p $(OUT)
	cp $< $@

# The archive is position-independent and has no global symbol but the public ones, so that it is linked whole as it is. Its other two names are
# copies here, since rt ci refuses links below the repository's root.
$(OUT)/$(SHARED): $(PROVED)/libgougelily.a
	mkdir -p $(OUT)
	$(CC) -shared $(LDFLAGS) -Wl,-soname,$(SONAME) -Wl,-z,defs -Wl,-z,relro -Wl,-z,now -o $@ -Wl,--whole-archive $< -Wl,--no-whole-archive
	cp $@ $(OUT)/$(SONAME)
	cp $@ $(OUT)/libgougelily.so

# For the Python module alone, which explains plans by it.
$(OUT)/libparts.so: $(PROVED)/libparts.a
	mkdir -p $(OUT)
	$(CC) -shared $(LDFLAGS) -Wl,-z,defs -o $@ -Wl,--whole-archive $< -Wl,--no-whole-archive

# Made anew each time, since it says where the library is installed.
$(OUT)/gougelily.pc: FORCE
	mkdir -p $(OUT)
	sed -e 's|@PREFIX@|$(PREFIX)|' -e 's|@INCLUDEDIR@|$(INCLUDEDIR)|' -e 's|@LIBDIR@|$(LIBDIR)|' -e 's|@VERSION@|$(VERSION)|' \
	    include/gougelily.pc.in > $@

install: lib target/bin/walklist
	install -d $(DESTDIR)$(INCLUDEDIR) $(DESTDIR)$(LIBDIR)/pkgconfig $(DESTDIR)$(BINDIR)
	install -m 644 include/gougelily.h $(DESTDIR)$(INCLUDEDIR)
	install -m 644 $(OUT)/libgougelily.a $(OUT)/$(SHARED) $(DESTDIR)$(LIBDIR)
	ln -sf $(SHARED) $(DESTDIR)$(LIBDIR)/$(SONAME)
	ln -sf $(SONAME) $(DESTDIR)$(LIBDIR)/libgougelily.so
	install -m 644 $(OUT)/gougelily.pc $(DESTDIR)$(LIBDIR)/pkgconfig
	install -m 755 target/bin/walklist $(DESTDIR)$(BINDIR)
	install -d $(DESTDIR)$(MANDIR)/man1 $(DESTDIR)$(MANDIR)/man3 $(DESTDIR)$(DOCDIR)
	install -m 644 docs/man/walklist.1 $(DESTDIR)$(MANDIR)/man1
	install -m 644 docs/man/gougelily.3 $(DESTDIR)$(MANDIR)/man3
	install -m 644 NOTICE $(DESTDIR)$(DOCDIR)
	to=$(DESTDIR)$(PYTHONDIR)/gougelily && install -d $$to/rules && \
	    install -m 644 python/gougelily/*.py python/gougelily/py.typed $(OUT)/libparts.so $$to && \
	    install -m 644 python/gougelily/rules/*.py $$to/rules

uninstall:
	rm -f $(DESTDIR)$(INCLUDEDIR)/gougelily.h $(DESTDIR)$(LIBDIR)/pkgconfig/gougelily.pc $(DESTDIR)$(BINDIR)/walklist
	rm -f $(addprefix $(DESTDIR)$(LIBDIR)/,libgougelily.a libgougelily.so $(SONAME) $(SHARED))
	rm -f $(DESTDIR)$(MANDIR)/man1/walklist.1 $(DESTDIR)$(MANDIR)/man3/gougelily.3 $(DESTDIR)$(DOCDIR)/NOTICE
	rm -rf $(DESTDIR)$(PYTHONDIR)/gougelily

FORCE:

.PHONY: lib install uninstall FORCE
.DELETE_ON_ERROR:
.NOTPARALLEL:
