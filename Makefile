# make help lists the targets.
PREFIX ?= /usr/local
LIBDIR = $(PREFIX)/lib
MANDIR = $(PREFIX)/share/man
DESTDIR ?=
ROUNDS ?= 25

ARCHIVE = target/staticlib/libsurface_network.a
LISTER = target/bin/lister
HEADER = include/surface_network.h
MANUAL = man/surface-network-lister.1
VERSION := $(shell sed -n 's/^.define SN_VERSION_[MP][A-Z]* //p' $(HEADER) | paste -sd.)

# Where things are installed, each as one word for a shell.
quoted = '$(subst ','\'',$(1))'
INCLUDE = $(call quoted,$(DESTDIR)$(PREFIX)/include)
LIB = $(call quoted,$(DESTDIR)$(LIBDIR))
PKGCONFIG = $(LIB)/pkgconfig
BIN = $(call quoted,$(DESTDIR)$(PREFIX)/bin)
MAN = $(call quoted,$(DESTDIR)$(MANDIR)/man1)

.PHONY: all archive lister example test bench install uninstall clean help folders built
# Two runs of rt would write the same files.
.NOTPARALLEL:

# What rt builds stands in the folders of the crates; both are copied from there. It is for any
# x86-64 processor; if not told, rt takes a later one.
PROVED_ARCHIVE = crates/surface_network/out/libsurface_network.a
PROVED_LISTER = crates/lister/out/lister
CPU = --cpu x86-64

all: archive lister ## the archive and the lister

archive: ## proves the library and builds target/staticlib/libsurface_network.a
	cd crates/surface_network && rt lib $(CPU)
	@mkdir -p $(dir $(ARCHIVE)) && install -m 644 $(PROVED_ARCHIVE) $(ARCHIVE)

# rt runs what it builds. With this argument the lister reads nothing.
lister: ## proves the lister and builds target/bin/lister
	cd crates/lister && rt run $(CPU) -- --version
	@mkdir -p $(dir $(LISTER)) && install -m 755 $(PROVED_LISTER) $(LISTER)

example: lister ## lists an example plot
	$(LISTER) <examples/plots/star.svy

test: ## runs all proofs and tests; the last line sums them
	tests/run

bench: archive ## times the library against a C twin; ROUNDS=1 for a short look
	ROUNDS=$(ROUNDS) bench/run

install: folders built ## copies what is built to PREFIX, /usr/local if not given; DESTDIR is put before it
	umask 022 && mkdir -p $(INCLUDE) $(PKGCONFIG) $(BIN) $(MAN)
	install -m 644 $(HEADER) $(INCLUDE)/surface_network.h
	install -m 644 $(ARCHIVE) $(LIB)/libsurface_network.a
	install -m 755 $(LISTER) $(BIN)/surface-network-lister
	install -m 644 $(MANUAL) $(MAN)/surface-network-lister.1
	sed -e 's|@PREFIX@|$(PREFIX)|' -e 's|@LIBDIR@|$(LIBDIR:$(PREFIX)/%=$${prefix}/%)|' \
	    -e 's|@VERSION@|$(VERSION)|' surface_network.pc.in >$(PKGCONFIG)/surface_network.pc
	chmod 644 $(PKGCONFIG)/surface_network.pc

uninstall: folders ## removes what install put there; folders stay
	rm -f $(INCLUDE)/surface_network.h $(LIB)/libsurface_network.a $(PKGCONFIG)/surface_network.pc \
	    $(BIN)/surface-network-lister $(MAN)/surface-network-lister.1

# The pkg-config file names the first two of these folders: they must mean the same from every
# folder, and what pkg-config prints goes through a shell, which would part or change other signs.
folders:
	@LC_ALL=C; for name in PREFIX LIBDIR MANDIR; do \
	    case $$name in \
	        PREFIX) folder=$(call quoted,$(PREFIX)) ;; \
	        LIBDIR) folder=$(call quoted,$(LIBDIR)) ;; \
	        MANDIR) folder=$(call quoted,$(MANDIR)) ;; \
	    esac; \
	    case $$folder in \
	        [!/]* | '') wrong='must begin with /' ;; \
	        *[!A-Za-z0-9/._+,:=@~-]*) wrong='may have only letters, digits and / . _ + , : = @ ~ - (no space)' ;; \
	        *) continue ;; \
	    esac; \
	    printf '%s %s: %s\n' "$$name" "$$wrong" "$$folder" >&2; exit 1; \
	done

# It is not built here: whoever may write to PREFIX need not have rt.
built:
	@for file in $(ARCHIVE) $(LISTER); do \
	    test -f $$file || { echo "$$file is not built: run make archive lister first" >&2; exit 1; }; \
	done

clean: ## removes all that was built
	rm -rf target crates/*/out

help: ## this list
	@sed -n 's/^\([a-z]*\):.*## /\1	/p' Makefile | expand -t 12
