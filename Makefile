# The habits of the field: make, make install [PREFIX=/usr/local] [DESTDIR=], make uninstall, make check.
PREFIX ?= /usr/local
DESTDIR ?=
export PREFIX DESTDIR

.PHONY: all install uninstall check
all:
	install/all build
install:
	install/all into-place
uninstall:
	install/all remove
check:
	.ci/run
