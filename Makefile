# The targets for people and for the gate. `make help` lists them.
JOBS ?= $(shell nproc)
PREFIX ?= /usr/local
CTFD_ARCHIVE ?= crates/ctf_c/out/libctfd.a

PROGRAM = $(if $(CTFD),$(CTFD),crates/ctfd/out/ctfd)
.PHONY: all check check-all prove install uninstall deb dist release help

# Builds the program and the library, without checking proofs, and the compiled commands. Does
# nothing if they are up to date.
all:
	@nice scripts/rust.py --ahead & scripts/quick.py; status=$$?; wait; exit $$status
	@scripts/rust.py --quiet

# Tests what is built, or the program that CTFD names.
check: $(if $(CTFD),,all)
	@tests/all.py --lanes $(JOBS) $(if $(CTFD),--program $(CTFD))

# The same, with all cases of those tests that by default run only a share of theirs.
check-all: $(if $(CTFD),,all)
	@tests/all.py --whole --lanes $(JOBS) $(if $(CTFD),--program $(CTFD))

# Checks all proofs. The builds of the kit replace those of `make`.
prove:
	@tests/all.py --prove-only

# Installs below PREFIX, inside DESTDIR if it is set.
PLACE = scripts/tree.py --prefix "$(PREFIX)" $(if $(DESTDIR),--root "$(DESTDIR)")

install:
	@$(PLACE) --program $(PROGRAM) --archive $(CTFD_ARCHIVE)

uninstall:
	@$(PLACE) --remove

# `release` packages only a proved build.
deb dist release:
	@scripts/package.py $@ --program $(PROGRAM) --archive $(CTFD_ARCHIVE)

help:
	@echo 'make              builds the program crates/ctfd/out/ctfd and the library'
	@echo '                  crates/ctf_c/out/libctfd.a, without checking proofs; beside that'
	@echo '                  libctfd.so, and the part for ELF files. It tells each of its steps.'
	@echo '                  Where cargo is, ctfd-tools and ctfd-front in'
	@echo '                  clients/rust/target/release too'
	@echo 'make check        runs every test over these, JOBS=$(JOBS) at a time: the last line is'
	@echo '                  "N passed, M failed"'
	@echo 'make check CTFD=P runs the tests over the program P'
	@echo 'make check-all    runs them with all cases of those that try a share; 25 minutes'
	@echo 'make prove        checks every proof, and puts what the kit builds in place of these'
	@echo 'STRICT=1          makes check fail where the machine lacks what a test needs'
	@echo 'make install      puts what make built, headers, manual pages and the Python package'
	@echo '                  below PREFIX=$(PREFIX), in DESTDIR if it is given'
	@echo 'make uninstall    takes these away again'
	@echo 'make deb          makes dist/ctfd_VERSION_amd64.deb of the same'
	@echo 'make dist         makes a tarball with an install script, and a wheel, in dist/'
	@echo 'make release      makes all of these, of what make prove built and of nothing else'
