# What run, test and umd need and take: README.md, "Quick start".
# make run: shows the program's main job; where no proved program stands, one is built without its proofs.
# make unproved: builds a program without its proofs, out/unproved/umd.
# make umd: builds the proved program, crates/umd/out/umd, and prints crate by crate how far it is.
# make test: the whole gate. Sees that each edit applies to the text. Proves every crate and its tests from nothing, tries each must-fail edit, and runs the tests and the program as two
# compilers build it; then plays the rows with real processes, sockets and files against the program that was proved.
# make edits NAME ..: tries the further edits of these crates, which stand in crates/NAME/edits; with no name those of every crate.
# make runner-rows: plays the rows of a runner against the proved program, with real processes.
# make serve-rows: plays the rows of a served store against the proved program, with real processes, sockets and files.
# make ctl-rows: plays the rows of the command line against the proved program: create and ctl, their faults, statuses, help and output.
# make status-rows: plays the rows of the texts for people against the proved program: status, verify, ctl --wait and help.
# make memory-rows: lets each single allocation of a manager in memory fail in turn, and asserts that nothing changes (it needs cc).
# make mutated: plays 200,000 frames, 50,000 unit files, 20,000 images and 5,000 folders of runners that were changed at random through the proved
# program, outside the gate (tools/mutated --help); the gate plays a selection of them.
# make in-turn: refuses everything that can be refused, one after another, and asserts what must hold each time (it needs cc; README.md has its
# time). `tools/in-turn --wrong` plays wrong programs in the same way, each of which must fail.
# make install: copies the proved program, its man pages, completion and documents below PREFIX (/usr/local) and DESTDIR; builds nothing. UNPROVED=1 takes the
# program of make unproved.
# make uninstall: removes just these, with the same PREFIX and DESTDIR.
# make deb: packs the same for Debian, out/umd_VERSION_ARCHITECTURE.deb (it needs dpkg-deb). UNPROVED=1 as above.
# make soak MINUTES=N: 200 services, 16 clients and a kill each 10 s for so long, 1 to 1440 minutes; a table of what grows (tools/soak --help).
# make pictures: the tables of bench as pictures, out/pictures, beside systemd, s6, runit and supervisord as far as they are installed (tools/pictures --help).
# make installed-rows: plays the rows of the installed files: pages, completion, package, container, systemd, s6, soak. Outside the gate, since some need root
# and programs that aren't everywhere; one that is missing fails its row and is named.
# make bench: measures the proved program, and the writing and reading of states (um_bench); the figures that a document calls
# measured come from it. It ends with an error if a wanted ratio isn't reached, that of queries while services run, or a step costs more than it may
# (docs/COST.md, "What a step costs").
.PHONY: run umd unproved test edits bench runner-rows serve-rows ctl-rows status-rows memory-rows mutated in-turn install uninstall deb soak pictures installed-rows
# the variables of install and its kin, as their scripts take them
export PREFIX DESTDIR UNPROVED BASHDIR ZSHDIR
MINUTES ?= 10
PROGRAM := $(if $(filter 1,$(UNPROVED)),out/unproved/umd,crates/umd/out/umd)
run:
	@sh tools/show

umd:
	@sh tools/build

unproved:
	@tools/unproved umd

test:
	@tools/gate

# the words after 'edits' name crates, and aren't built
ifeq ($(firstword $(MAKECMDGOALS)),edits)
NAMES := $(wordlist 2,$(words $(MAKECMDGOALS)),$(MAKECMDGOALS))
.PHONY: $(NAMES)
$(NAMES):
	@:
endif

edits:
	@tools/edits $(NAMES) $(NAME)

bench: umd
	@cd crates/um_bench && rt run >/dev/null
	@bench/run crates/umd/out/umd
	@bench/bytes crates/um_bench/out/um_bench
	@bench/serve crates/umd/out/umd
	@bench/sync crates/umd/out/umd
	@bench/snapshots crates/umd/out/umd
	@bench/steps crates/umd/out/umd

runner-rows: umd
	@tools/runner-rows crates/umd/out/umd

serve-rows: umd
	@tools/serve-rows crates/umd/out/umd

ctl-rows: umd
	@tools/ctl-rows crates/umd/out/umd

status-rows: umd
	@tools/status-rows crates/umd/out/umd

mutated: umd
	@tools/mutated crates/umd/out/umd

memory-rows:
	@tools/memory-rows

in-turn:
	@tools/in-turn

install:
	@tools/install

uninstall:
	@tools/install --remove

deb:
	@tools/deb

soak:
	@tools/soak $(PROGRAM) --minutes $(MINUTES)

pictures:
	@tools/pictures $(PROGRAM)

installed-rows:
	@tools/installed-rows $(PROGRAM)
