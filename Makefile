# The library, the programs, the tools and the clients: `make` builds them, `make install PREFIX=..` puts them
# where users look, `make uninstall PREFIX=..` takes them away. `rt` proves what it compiles.
PREFIX = /usr/local
PYTHON = python3
CC = gcc
OUT = target/clients

HEADER = clients/tl16c750.h
VERSION := $(shell awk '/define UART_VERSION_/ { printf "%s%s", dot, $$3; dot = "." }' $(HEADER))
LAYOUT := $(shell awk '/define UART_LAYOUT/ { print $$3 }' $(HEADER))
override PREFIX := $(abspath $(PREFIX))

# The first folder below PREFIX in which PYTHON looks for packages, or the usual one where it looks in none.
PYTHONDIR = $(shell $(PYTHON) -c 'import site, sys; lib = "$(PREFIX)/lib/"; print(next( \
    (d for d in site.getsitepackages() if d.startswith(lib)), \
    lib + "python%d.%d/site-packages" % sys.version_info[:2]))')
PYTHON_LOOKS = $(PYTHON) -c 'import site, sys; sys.exit("$(PYTHONDIR)" not in site.getsitepackages())'

# $(call sources_of,CRATE): the code of a crate and of all that it stands on, which crates.txt lists below it.
sources_of = $(wildcard $(patsubst %,crates/%/src/*.rt,$(shell awk -F: '{ split($$1, head, " "); uses[head[1]] = $$2 } \
    END { more = "$1"; while (n = split(more, at, " ")) { more = ""; for (i = 1; i <= n; i++) \
        if (!seen[at[i]]++) { print at[i]; more = more " " uses[at[i]] } } }' crates.txt)))

PROGRAMS = calls replay expect
TOOLS = capture explain divisor-chart
ARCHIVE = target/staticlib/libexport.a
STATIC = $(OUT)/libtl16c750.a
SHARED = $(OUT)/libtl16c750.so

SHARE = $(DESTDIR)$(PREFIX)/share/tl16c750
PACKAGE = $(DESTDIR)$(abspath $(PYTHONDIR))/tl16c750
PAGES = docs/CAPTURE.md docs/CALLS.md

# $(call quietly,NAME,COMMAND): what the command writes goes to a file, and is shown where it fails.
quietly = @mkdir -p $(OUT) && echo '$2' && { $2 >$(OUT)/$1.log 2>&1 || { cat $(OUT)/$1.log; exit 1; }; }

all: library programs tools

library: $(STATIC) $(SHARED)

programs: $(PROGRAMS:%=target/bin/%)

tools: $(ARCHIVE)
	@$(MAKE) -s -C tools all

$(ARCHIVE): $(call sources_of,export)
	$(call quietly,staticlib,(cd crates/export && rt lib))
	@mkdir -p $(@D)
	@cp crates/export/out/libexport.a $@

$(STATIC): $(ARCHIVE)
	@mkdir -p $(OUT)
	cp $< $@

$(SHARED): $(ARCHIVE) $(HEADER)
	@mkdir -p $(OUT)
	$(CC) -shared -Wl,-soname,libtl16c750.so.$(LAYOUT) -o $@ -Wl,--whole-archive $< -Wl,--no-whole-archive

$(foreach program,$(PROGRAMS),$(eval target/bin/$(program): $(call sources_of,$(program))))
target/bin/%:
	$(call quietly,$*,(cd crates/$* && rt run </dev/null))
	@mkdir -p $(@D)
	@cp crates/$*/out/$* $@

install: all
	install -d $(DESTDIR)$(PREFIX)/bin $(DESTDIR)$(PREFIX)/include $(DESTDIR)$(PREFIX)/lib/pkgconfig
	install -m 755 $(PROGRAMS:%=target/bin/%) $(TOOLS:%=target/bin/%) $(DESTDIR)$(PREFIX)/bin
	install -m 644 $(HEADER) $(DESTDIR)$(PREFIX)/include
	install -m 644 $(STATIC) $(DESTDIR)$(PREFIX)/lib
	install -m 755 $(SHARED) $(DESTDIR)$(PREFIX)/lib/libtl16c750.so.$(LAYOUT)
	ln -sf libtl16c750.so.$(LAYOUT) $(DESTDIR)$(PREFIX)/lib/libtl16c750.so
	sed -e 's|@PREFIX@|$(PREFIX)|' -e 's|@VERSION@|$(VERSION)|' clients/tl16c750.pc.in \
	    >$(DESTDIR)$(PREFIX)/lib/pkgconfig/tl16c750.pc
	install -d $(PACKAGE)
	install -m 644 clients/python/tl16c750/*.py clients/python/tl16c750/py.typed $(PACKAGE)
	install -m 755 $(SHARED) $(PACKAGE)
	install -d $(SHARE)/docs $(SHARE)/examples $(SHARE)/rust/src $(SHARE)/rust/examples
	install -m 644 $(PAGES) $(SHARE)/docs
	install -m 644 clients/c/example.c clients/python/example.py $(SHARE)/examples
	install -m 644 clients/rust/Cargo.toml clients/rust/Cargo.lock clients/rust/build.rs $(SHARE)/rust
	install -m 644 clients/rust/src/*.rs $(SHARE)/rust/src
	install -m 644 clients/rust/examples/*.rs $(SHARE)/rust/examples
	@echo 'Programs linked with the shared library: run ldconfig, where it knows $(PREFIX)/lib; else they'
	@echo 'start with LD_LIBRARY_PATH=$(PREFIX)/lib'
	@if $(PYTHON_LOOKS); \
	then echo 'Python: $(PYTHON) finds the package in $(PYTHONDIR)'; \
	else echo 'Python: $(PYTHON) finds the package with PYTHONPATH=$(abspath $(PYTHONDIR))'; fi

uninstall:
	rm -f $(PROGRAMS:%=$(DESTDIR)$(PREFIX)/bin/%) $(TOOLS:%=$(DESTDIR)$(PREFIX)/bin/%)
	rm -f $(DESTDIR)$(PREFIX)/include/tl16c750.h
	rm -f $(DESTDIR)$(PREFIX)/lib/libtl16c750.a $(DESTDIR)$(PREFIX)/lib/libtl16c750.so*
	rm -f $(DESTDIR)$(PREFIX)/lib/pkgconfig/tl16c750.pc
	rm -rf $(PACKAGE) $(SHARE)

.PHONY: all library programs tools install uninstall
