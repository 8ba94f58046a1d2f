# make alone prints the targets. Everything but install and uninstall is the work of a script of the same repository.
.PHONY: help run test bench compare pictures install uninstall clean
.DEFAULT_GOAL := help

# Where install puts things: PREFIX, an absolute path, or the folders one by one. DESTDIR stands before all of them, for packages.
PREFIX     = /usr/local
BINDIR     = $(PREFIX)/bin
INCLUDEDIR = $(PREFIX)/include
LIBDIR     = $(PREFIX)/lib
MANDIR     = $(PREFIX)/share/man
VERSION   := $(shell cat VERSION)

help:
	@echo 'make run        answers the lines of examples/sample/capture.lines and shows what they mean'
	@echo 'make test       the gate: documents, all proofs, and tests'
	@echo 'make bench      the benchmarks beside plain C'
	@echo 'make compare    other demappers beside this one'
	@echo 'make pictures   the pictures of the documents'
	@echo 'make install    header, archive, pkg-config file, softlines and its man page to PREFIX=$(PREFIX); make uninstall'
	@echo 'make clean      removes target/ and crates/*/out/, all that was built'

run:
	@scripts/need python3 python3
	@scripts/program
	@target/bin/softlines < examples/sample/capture.lines | scripts/show-answers examples/sample/capture.lines

test:
	.ci/run

bench:
	scripts/bench

compare:
	scripts/compare

pictures:
	@scripts/need python3 python3
	@scripts/shared
	docs/pictures/make

# Signs in the folders' names that sed, the shell, make or pkg-config would take for something else are refused.
hash := \#
define newline


endef
folders = $(DESTDIR) $(PREFIX) $(BINDIR) $(INCLUDEDIR) $(LIBDIR) $(MANDIR)
signs = | & ' " ` \ $$ $(hash)
unfit = $(strip $(foreach sign,$(signs),$(findstring $(sign),$(folders))))$(findstring $(newline),$(folders))
check_folders = $(if $(unfit),$(error PREFIX and the other folders must be named without $(signs) and without a newline))

# A file with its @NAMES@ filled in.
filled = sed -e 's|@PREFIX@|$(PREFIX)|' -e 's|@LIBDIR@|$(LIBDIR)|' -e 's|@INCLUDEDIR@|$(INCLUDEDIR)|' -e 's|@VERSION@|$(VERSION)|'

install:
	$(check_folders)
	@case '$(PREFIX)' in /*) ;; *) echo 'PREFIX must be an absolute path' >&2; exit 1 ;; esac
	@scripts/archive
	@scripts/program
	install -d '$(DESTDIR)$(BINDIR)' '$(DESTDIR)$(INCLUDEDIR)' '$(DESTDIR)$(LIBDIR)/pkgconfig' '$(DESTDIR)$(MANDIR)/man1'
	install -m 755 target/bin/softlines '$(DESTDIR)$(BINDIR)/softlines'
	install -m 644 include/softdemap.h '$(DESTDIR)$(INCLUDEDIR)/softdemap.h'
	install -m 644 target/staticlib/libsoftdemap.a '$(DESTDIR)$(LIBDIR)/libsoftdemap.a'
	$(filled) softdemap.pc.in > '$(DESTDIR)$(LIBDIR)/pkgconfig/softdemap.pc'
	$(filled) docs/man/softlines.1 > '$(DESTDIR)$(MANDIR)/man1/softlines.1'
	chmod 644 '$(DESTDIR)$(LIBDIR)/pkgconfig/softdemap.pc' '$(DESTDIR)$(MANDIR)/man1/softlines.1'

# The files that install puts there; folders are left.
uninstall:
	$(check_folders)
	rm -f '$(DESTDIR)$(BINDIR)/softlines' '$(DESTDIR)$(INCLUDEDIR)/softdemap.h' '$(DESTDIR)$(LIBDIR)/libsoftdemap.a' \
		'$(DESTDIR)$(LIBDIR)/pkgconfig/softdemap.pc' '$(DESTDIR)$(MANDIR)/man1/softlines.1'

clean:
	rm -rf target crates/*/out
