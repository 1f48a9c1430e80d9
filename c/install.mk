# make install PREFIX=/usr/local DESTDIR=: what is built goes under PREFIX, which may be moved as a whole later; DESTDIR is put
# in front of all places, for packages. make uninstall, with the same words, removes it.
#
#   BINDIR        gasnetcc, gasnetrun, caf, cafrun
#   INCLUDEDIR    the headers
#   LIBDIR        libgasnet.a, libcaf.a, libgasnet.so.0, libcaf.so.0 (by gfortran); pkgconfig/gasnet.pc, cmake/gasnet
#   MANDIR        man1, man3
#   DOCDIR        README.md, the documents, the examples

PREFIX = /usr/local
DESTDIR =
BINDIR = $(PREFIX)/bin
INCLUDEDIR = $(PREFIX)/include
LIBDIR = $(PREFIX)/lib
MANDIR = $(PREFIX)/share/man
DOCDIR = $(PREFIX)/share/doc/gasnet
INSTALL = install

PUBLIC_HEADERS = $(filter-out include/gasnet_c.h,$(wildcard include/*.h))
COMMANDS = gasnetcc gasnetrun caf cafrun
MANUALS = $(wildcard man/*.1 man/*.3)
CMAKE_DIR = $(LIBDIR)/cmake/gasnet
PC_DIR = $(LIBDIR)/pkgconfig

# The way from one folder to another, and those of a template, relative to its own place.
way = $(shell realpath -m --relative-to='$(1)' '$(2)')
ways = $(call fill,$(1)$(call way,$(2),$(PREFIX)),$(1)$(call way,$(2),$(LIBDIR)),$(1)$(call way,$(2),$(INCLUDEDIR)))

# All that is installed.
INSTALLED = $(COMMANDS:%=$(BINDIR)/%) $(PUBLIC_HEADERS:include/%=$(INCLUDEDIR)/%) \
    $(LIBDIR)/libgasnet.a $(LIBDIR)/libcaf.a $(foreach so,$(SHARED) $(CAF_SHARED),$(LIBDIR)/$(notdir $(so)) $(LIBDIR)/$(notdir $(so:.0=))) \
    $(PC_DIR)/gasnet.pc $(CMAKE_DIR)/gasnet-config.cmake $(CMAKE_DIR)/gasnet-config-version.cmake \
    $(foreach page,$(MANUALS),$(MANDIR)/man$(subst .,,$(suffix $(page)))/$(notdir $(page)))

install: all
	$(INSTALL) -d $(patsubst %,'$(DESTDIR)%',$(sort $(patsubst %/,%,$(dir $(INSTALLED)))) $(DOCDIR)/docs $(DOCDIR)/c/examples)
	$(INSTALL) -m 755 $(filter-out bin/gasnetrun,$(COMMANDS:%=bin/%)) $(OUT)/gasnetrun '$(DESTDIR)$(BINDIR)'
	$(INSTALL) -m 644 $(PUBLIC_HEADERS) '$(DESTDIR)$(INCLUDEDIR)'
	$(INSTALL) -m 644 $(OUT)/libgasnet.a $(OUT)/libcaf.a '$(DESTDIR)$(LIBDIR)'
	$(INSTALL) -m 755 $(SHARED) $(CAF_SHARED) '$(DESTDIR)$(LIBDIR)'
	for so in $(notdir $(SHARED) $(CAF_SHARED)); do ln -sf $$so "$(DESTDIR)$(LIBDIR)/$${so%.0}"; done
	sed $(call ways,$${pcfiledir}/,$(PC_DIR)) gasnet.pc.in > '$(DESTDIR)$(PC_DIR)/gasnet.pc'
	for file in gasnet-config gasnet-config-version; do \
	    sed $(call ways,,$(CMAKE_DIR)) $$file.cmake.in > "$(DESTDIR)$(CMAKE_DIR)/$$file.cmake"; \
	done
	for page in $(MANUALS); do $(INSTALL) -m 644 $$page "$(DESTDIR)$(MANDIR)/man$${page##*.}"; done
	$(INSTALL) -m 644 ../README.md '$(DESTDIR)$(DOCDIR)'
	$(INSTALL) -m 644 $(wildcard ../docs/*.md ../docs/*.svg) '$(DESTDIR)$(DOCDIR)/docs'
	$(INSTALL) -m 644 $(wildcard examples/*.c) '$(DESTDIR)$(DOCDIR)/c/examples'

uninstall:
	rm -f $(INSTALLED:%='$(DESTDIR)%')
	rm -rf '$(DESTDIR)$(DOCDIR)'
	-rmdir --ignore-fail-on-non-empty '$(DESTDIR)$(CMAKE_DIR)'

.PHONY: install uninstall
