# Installs the programs and the tools, builds a package of Debian, and tries the example without proofs.
#   make install PREFIX=/usr/local DESTDIR=     make uninstall PREFIX= DESTDIR=     make deb     make try
# PROGRAM=PATH and REVIEW=PATH name programs that are built elsewhere, sudo_audit and sudo_review.
.PHONY: install uninstall deb try

PREFIX ?= /usr/local
DESTDIR ?=
BUILT := $(foreach name,sudo_audit sudo_review,crates/$(name)/out/$(name))
PROGRAM ?= $(firstword $(BUILT))
REVIEW ?= $(lastword $(BUILT))

install: $(PROGRAM) $(REVIEW)
	packaging/install install --prefix "$(PREFIX)" --destdir "$(DESTDIR)" --program "$(PROGRAM)" --review "$(REVIEW)"

uninstall:
	packaging/install uninstall --prefix "$(PREFIX)" --destdir "$(DESTDIR)"

deb: $(PROGRAM) $(REVIEW)
	packaging/deb "$(PROGRAM)" "$(REVIEW)"

# A first build proves every crate below the programs. README says how long that takes.
$(BUILT):
	@command -v rt >/dev/null || { echo "$@ is not built, and there is no rt: build it where the toolchain is, or give PROGRAM=PATH and REVIEW=PATH"; exit 1; }
	@echo "proving and building $(@F); README says how long that takes where nothing is built yet"
	cd crates/$(@F) && rt run -- --help >/dev/null

try:
	packaging/try/run
