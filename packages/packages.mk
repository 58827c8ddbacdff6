# Packages of the built program. The Makefile at the top includes it.
#
# make addon          compiles the addon for node
# make package        makes an archive, packages for Debian, npm and Python, and their SHA-256 sums, in dist/packages
# make try-packages   installs each in a temporary folder, runs it and removes it
# make bench-bindings measures a call from node and from Python, and compares what they make of the examples
#
# With `LIBRARY=` they have no library for C. Without the headers of node the package for npm has no addon, and runs
# processes.

PYTHON ?= python3
NODE_HEADERS ?= /usr/include/node
PACKAGES ?= dist/packages
ADDON ?= $(LIBRARY)/cssmin.node
HAS_ADDON := $(and $(LIBRARY),$(wildcard $(NODE_HEADERS)/node_api.h))

addon: $(ADDON)

$(ADDON): bindings/node/addon.c library/cssmin.h $(LIBRARY)/libcssmin.a
	$(CC) -std=c11 -O2 -Wall -Wextra -DNAPI_VERSION=8 -fPIC -fvisibility=hidden -shared -s \
		-Wl,--exclude-libs,ALL -Wl,--gc-sections -I$(NODE_HEADERS) -Ilibrary -o $@ $< $(LIBRARY)/libcssmin.a

package: cssmin $(if $(LIBRARY),library) $(if $(HAS_ADDON),$(ADDON))
	$(PYTHON) packages/build.py $(if $(LIBRARY),--library $(LIBRARY)) $(if $(HAS_ADDON),--addon $(ADDON)) ./cssmin $(PACKAGES)

try-packages: package
	$(PYTHON) packages/try.py $(PACKAGES)

bench-bindings: cssmin library $(ADDON)
	$(PYTHON) bench/bindings.py ./cssmin $(LIBRARY) examples

.PHONY: addon package try-packages bench-bindings
