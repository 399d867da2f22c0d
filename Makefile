# Builds, tests and installs the programs blkq and gate_races with their manuals, and the libraries for C by c/Makefile. Section 5 of the
# manuals is made from docs/FORMATS.md and docs/races/README.md.
#
#   make                               builds the programs with cargo in some 15 s, unless there is a proved build of this tree
#   make check                         tests what cargo builds, without the Rattle kit; .ci/Makefile has all tests, including the longer ones
#   make check-races                   tests the explorer of races, without the kit
#   make prove                         proves the crates, and builds the programs from them: needs the kit, and some minutes
#   make install PREFIX=/usr/local     installs the programs and the manuals below DESTDIR and PREFIX
#   make install-c PREFIX=/usr/local   builds and installs both libraries for C, the queue's and the gate's (uninstall-c removes them): the proved ones
#                                      if the Rattle kit or a release of this tree is there, otherwise cargo's, in seconds
#   make deb                           builds packages for Debian with cargo, in DEB (out/deb)
#   make dist                          makes a release of the last commit in RELEASE (out/release), with the proved libraries for C if the
#                                      kit is installed
#   make measure                       measures the times of docs/MEASURED.md again; WHAT selects parts, which tools/measure names
#   make install-nbd PREFIX=/usr/local   builds the queue's library, and installs nbdkit-blkq-filter and blkqctl
#   make uninstall-nbd PREFIX=/usr/local removes them
PREFIX ?= /usr/local
override PREFIX := $(abspath $(PREFIX))
AWK ?= awk
CARGO ?= cargo
DEB ?= out/deb
AT = $(DESTDIR)$(PREFIX)
RELEASE ?= out/release

all:
	./blkq run <examples/first.blkq >/dev/null
	./gate_races <examples/races/removal.races >/dev/null

# Each test prints TAP, and tests/run runs them in parallel, the longest first. BLKQ, GATE_RACES, PLAY_CALLS and BUILD name the programs
# and libraries to test; the default is what cargo builds.
OVER_LIBRARIES = tests/nbd/run c/tests/run 'COMPILER=clang c/tests/run' tests/pages/run
OVER_BOTH = tests/sizes/run tests/sweeps/devices tests/switches/run tests/examples tests/rows/run tests/rows/calls
OVER_PROGRAMS = $(OVER_BOTH) tests/install
OVER_TREE = tests/packages 'tests/planted/run --fit' tests/tap tests/contracts tests/pictures/run 'tools/erase --check' 'tools/version --check'
RACES_OVER_BOTH = tests/races/sizes tests/races/devices 'tests/rows/run races' 'tests/examples races'
OVER_GATE_RACES = $(addprefix tests/races/,random_races large program watched) $(RACES_OVER_BOTH)
OF_RACES = $(OVER_GATE_RACES) tests/races/run tests/races/lanes 'tests/rust/run races'

HAS_CARGO = $(and $(shell command -v $(CARGO)),$(shell command -v cc))
PLAIN = 'tests/rust/run tests' $(if $(HAS_CARGO),$(OVER_LIBRARIES) $(OVER_PROGRAMS)) $(OVER_TREE)

check: builds
	tests/run $(PLAIN)

check-races: builds
	tests/run $(OF_RACES)

# What cargo and a C compiler build for the tests.
builds:
	@$(if $(HAS_CARGO),cd rust && $(CARGO) build -q --offline --locked --release --target-dir target --bins, \
		echo 'skipped: the tests over what cargo builds (https://rustup.rs, or apt-get install cargo gcc)')
	@$(if $(and $(HAS_CARGO),$(shell command -v objcopy)), \
		$(MAKE) -s -C c BUILD=erased, \
		echo 'skipped: the libraries for C (apt-get install gcc libc6-dev binutils)')

# The crates that both depend on are proved in parallel.
prove:
	tools/run_program --prove blkq gate_races
	tools/run_program --prove gate_races

install: all
	$(MAKE) install-programs PROGRAMS="$$(tools/run_program --path blkq) $$(tools/run_program --path gate_races)"

# The programs that cargo builds, whatever else is there.
plain:
	cd rust && $(CARGO) build -q --offline --locked --release --target-dir target -p blkq -p gate-races --bins

install-plain: plain
	$(MAKE) install-programs PROGRAMS="rust/target/release/blkq rust/target/release/gate_races"

install-programs:
	install -d $(AT)/bin $(AT)/share/man/man1 $(AT)/share/man/man5
	install -m 755 $(PROGRAMS) $(AT)/bin
	install -m 644 docs/blkq.1 docs/races/gate_races.1 $(AT)/share/man/man1
	$(AWK) -f tools/formats_page docs/FORMATS.md >$(AT)/share/man/man5/blkq.5
	$(AWK) -v of=gate_races -f tools/formats_page docs/races/README.md >$(AT)/share/man/man5/gate_races.5
	@echo "installed: $(PROGRAMS)"

install-c:
	$(MAKE) --no-print-directory -C c install PREFIX=$(PREFIX) RELEASE=$(abspath $(RELEASE))

uninstall-c:
	$(MAKE) --no-print-directory -C c uninstall PREFIX=$(PREFIX)

install-nbd:
	$(MAKE) -C services/nbd install PREFIX=$(PREFIX)

uninstall-nbd:
	$(MAKE) -C services/nbd uninstall PREFIX=$(PREFIX)

deb:
	tools/debian_packages $(DEB)

dist:
	tools/dist $(RELEASE)

measure:
	tools/measure $(WHAT)

.PHONY: all check check-races builds prove plain install install-plain install-programs install-c uninstall-c install-nbd uninstall-nbd deb dist measure
