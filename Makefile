# Builds, installs and packs what a user of krl needs. It proves nothing: the proved library is the committed one.
#
#     make                        builds the programs in Rust, and the client and the cache for C
#     make install PREFIX=/usr    puts them, the headers and the libraries there; DESTDIR stands before it
#     make dist                   makes an archive of the same in OUT
#     make deb                    makes a package for Debian of the same in OUT, and one of the extension for PostgreSQL
#     make wheel                  makes a wheel of the client for Python in OUT
#     make release VERSION=0.1.0  makes all that goes next to a tag in OUT: docs/maintainers/RELEASE.md
#     make playground             makes the simulator of docs/playground again, which is committed
PREFIX = /usr/local
TARGET = $(CURDIR)/hosts/target
LIBRARY = $(TARGET)/library
OUT = $(CURDIR)/dist
# The crates come from Debian's packages if all of them are installed, as in ./krl serve.
CARGO_FLAGS = $(shell hosts/packaging/requirements debian && echo --config debian.toml)
CARGO = cargo

# The libraries for C are built by themselves: together with the server they would need what only the server does.
all:
	hosts/packaging/library fits
	hosts/packaging/library make $(LIBRARY)
	cd hosts && export CARGO_TARGET_DIR=$(TARGET) && \
	    $(CARGO) build --release $(CARGO_FLAGS) -p krl-server -p krl-client && \
	    $(CARGO) build --release $(CARGO_FLAGS) -p krl-client-c -p krl-cache-c --lib

install: all
	LIBRARY=$(LIBRARY) PROGRAMS=$(TARGET)/release hosts/packaging/install $(DESTDIR)$(PREFIX)
	hosts/packaging/registered $(PREFIX) $(DESTDIR)

dist: all
	LIBRARY=$(LIBRARY) PROGRAMS=$(TARGET)/release hosts/packaging/archive $(OUT)

deb: all
	LIBRARY=$(LIBRARY) PROGRAMS=$(TARGET)/release hosts/packaging/debian-package $(OUT)
	@if [ -f "$$(pg_config --pgxs 2>/dev/null)" ]; then \
	    PROGRAMS=$(TARGET)/release hosts/packaging/extension-package $(OUT); \
	else \
	    echo 'NOT MADE: the package of the extension: there are no header files of PostgreSQL' >&2; \
	fi

wheel: all
	hosts/packaging/wheel $(TARGET)/release/libkrl_client.so $(OUT)

release:
	hosts/packaging/release $(VERSION) $(OUT)

playground:
	hosts/simulator/wasm/make docs/playground/krl_simulator.js

.PHONY: all deb dist install playground release wheel
