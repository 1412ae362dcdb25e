# make test: the merge gate. It holds the public calls against their table, proves every crate from nothing, tries the wrong bodies, and runs all tests and cases.
# make build: the proved program, as build/strata. make demo: shows it at work.
# make kept: as make build, but proved so that `rt check` in a crate's folder and make trials then prove what has changed alone.
# make doors: the public calls against their table. make links: all that README.md and docs/ name exists, and no page or paragraph is too
# long. make crate_order: crates.txt and the pages that list crates are in the order of layers. make logic: the program names the logic of
# this prover. make pictures: draws docs/crates.svg and docs/mounts.svg anew. None of these needs a proof.
# make cases: the cases alone, on build/strata. make plant: sees that the cases notice wrong lines.
# make mounted [STRATA=PROGRAM]: real mounts, looked at through the kernel; with STRATA_READERS=N in the environment, each by N readers.
# make layers: tools/layers.py on layouts made on the spot, and, if umoci is installed, on images that umoci makes.
# make registry: layers on many machines: a store, and, if the programs are installed, a registry on the loopback and sandboxes.
# make snapshots: the snapshotter of containerd by a client, if python3-grpcio is installed. make engines: with containerd, runc and a
# registry, as root, in namespaces of its own; it says what is missing.
# make wrong_bodies: tries the wrong bodies of trials/gate, over what is proved. The gate tries them, too.
# make trials [CRATES=..] [ONLY=EDIT]: tries the wrong bodies of trials/CRATE.edits, over what make kept has kept; trials/outcomes.txt has
# the last runs.
# make bench: bounds of time. make growth: how time and memory grow with nodes and layers, drawn in docs/growth.svg.
# make speed: measures the tables of docs/SPEED.md and writes them, with README's table and the pictures; as root, on a quiet machine.
# make fuzz [FUZZ=WORDS]: random and changed inputs, against a plain reading of the formats; WORDS are those of checks/fuzz/fuzz.py,
# as `--minutes 120 --seed 1000000 long device`.
# make liar [LIAR=WORDS]: sealed images whose files lie; WORDS are those of checks/liar/liar.py, as `--minutes 120 --seed 1000 mounts`.
# make threads: 10,000 runs of one stream by 64 workers, each of which must give the same bytes; and valgrind over it.
# make soak [MINUTES=20]: little memory by steps, the largest image, and random requests for so many minutes a part.
# make demo_files: writes the images, requests and container image of demo/ once more, which give the same bytes.
# make install [PREFIX=/usr/local] [DESTDIR=], make uninstall: what make build has made, with man pages and the mount helper.
# make deb, make dist [PACKAGES=build]: a Debian package, a tar of the same files. make installed: all of these in fresh roots.
# Each of these starts a file of checks/ by `python3 checks NAME WORDS..`; `python3 checks` lists them.
.PHONY: test build kept demo doors links crate_order logic cases layers registry mounted plant trials wrong_bodies bench growth speed fuzz liar threads soak demo_files needed pictures
.PHONY: install uninstall deb dist installed snapshots engines

PYTHON = python3 -B
CHECKS = $(PYTHON) checks

test: needed
	$(CHECKS) doors
	$(CHECKS) links
	$(CHECKS) crate_order
	$(CHECKS) pictures
	$(CHECKS) logic
	$(CHECKS) ci
	$(CHECKS) wrong_bodies
	@mkdir -p build
	@cp crates/strata_main/out/strata_main build/strata
	$(CHECKS) cases build/strata
	$(CHECKS) layers_test build/strata
	$(CHECKS) layers_umoci build/strata
	$(CHECKS) registry build/strata --quick
	$(CHECKS) mounted build/strata
	$(CHECKS) liar build/strata --quick
	$(CHECKS) snapshots build/strata
	$(CHECKS) installed build/strata
	$(CHECKS) soak build/strata --quick memory
	$(CHECKS) bench build/strata --quick

build: build/strata

build/strata: crates.txt $(shell find crates -name '*.rt' -o -name '*.antt') | needed
	@$(CHECKS) prove

kept: needed
	$(CHECKS) prove --kept

LAYERS = demo/lower.romfs demo/upper.romfs
demo: build/strata
	build/strata check $(LAYERS)
	build/strata list demo/lower.romfs
	build/strata list $(LAYERS)
	build/strata serve --requests demo/requests.fuse --replies build/replies --balances build/balances $(LAYERS)
	@$(PYTHON) tools/show.py demo/requests.fuse build/replies
	cat build/balances

doors links crate_order logic: needed
	$(CHECKS) $@

pictures:
	$(CHECKS) pictures --drawn

cases: build/strata
	$(CHECKS) cases build/strata

STRATA = build/strata
mounted: $(STRATA)
	$(CHECKS) mounted $(STRATA)

plant: build/strata
	$(CHECKS) plant build/strata

wrong_bodies: build/strata
	$(CHECKS) wrong_bodies $(CRATES)

trials: needed
	$(CHECKS) trials $(addprefix --only ,$(ONLY)) $(CRATES)

bench: build/strata
	$(CHECKS) bench build/strata

growth: build/strata
	$(CHECKS) growth build/strata --drawn docs/growth.svg

speed: build/strata
	$(CHECKS) tables build/strata --write

fuzz: build/strata
	$(CHECKS) fuzz build/strata $(FUZZ)

liar: build/strata
	$(CHECKS) liar build/strata $(LIAR)

threads: build/strata
	nice $(CHECKS) threads build/strata
	nice $(CHECKS) threads build/strata --watch helgrind
	nice $(CHECKS) threads build/strata --watch drd

MINUTES = 20
soak: build/strata
	$(CHECKS) soak build/strata --minutes $(MINUTES)

layers: build/strata
	$(CHECKS) layers_test build/strata
	$(CHECKS) layers_umoci build/strata

demo_files:
	$(CHECKS) demo_files demo
	$(CHECKS) demo_layout demo/layout

PREFIX = /usr/local
DESTDIR =
# where mount(8) seeks its helpers, whatever the prefix is; empty for nowhere
HELPERS = /sbin
PACKAGES = build
install:
	@$(PYTHON) packaging/install.py $(STRATA) "$(DESTDIR)" "$(PREFIX)" "$(HELPERS)"

uninstall:
	@$(PYTHON) packaging/install.py $(STRATA) "$(DESTDIR)" "$(PREFIX)" "$(HELPERS)" --remove

deb:
	@$(PYTHON) packaging/deb.py $(STRATA) "$(PACKAGES)"

dist:
	@$(PYTHON) packaging/dist.py $(STRATA) "$(PACKAGES)"

installed: $(STRATA)
	$(CHECKS) installed $(STRATA)

registry: build/strata
	$(CHECKS) registry build/strata

snapshots engines: $(STRATA)
	$(CHECKS) $@ $(STRATA)

needed:
	@command -v rt > /dev/null || { echo "strata needs the command rt of the Rattle kit on the path"; exit 1; }
	@command -v python3 > /dev/null || { echo "strata needs python3 (3.9 or later, its standard library alone)"; exit 1; }
