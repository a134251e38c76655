# make: proves and builds the library for C hosts and the program judge.
# make install PREFIX=..: puts them there, with the header, the pkg-config file and the manual pages. DESTDIR goes before.
PREFIX = /usr/local
DESTDIR =
VERSION = 0.1.0
AT = $(DESTDIR)$(PREFIX)

all:
	tools/build library judge

install: all
	install -d $(AT)/include $(AT)/lib/pkgconfig $(AT)/bin $(AT)/share/man/man1 $(AT)/share/man/man3
	install -m 644 include/tyttmose.h $(AT)/include/tyttmose.h
	install -m 644 target/staticlib/libhost.a $(AT)/lib/libtyttmose.a
	sed -e 's,@PREFIX@,$(PREFIX),' -e 's,@VERSION@,$(VERSION),' include/tyttmose.pc.in >$(AT)/lib/pkgconfig/tyttmose.pc
	install -m 755 target/bin/judge $(AT)/bin/judge
	install -m 644 docs/man/judge.1 $(AT)/share/man/man1/judge.1
	install -m 644 docs/man/tyttmose.3 $(AT)/share/man/man3/tyttmose.3

uninstall:
	rm -f $(AT)/include/tyttmose.h $(AT)/lib/libtyttmose.a $(AT)/lib/pkgconfig/tyttmose.pc $(AT)/bin/judge \
	    $(AT)/share/man/man1/judge.1 $(AT)/share/man/man3/tyttmose.3

check:
	.ci/run

.PHONY: all install uninstall check
