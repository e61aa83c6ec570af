# What one does with this repository: `make help` lists it. `rt` is the command of the Rattle toolchain.

# With it the kit's rt asks for each crate's sum once, and not once for each path that leads to it through crates.txt.
export PYTHONPATH := $(CURDIR)/tools/once$(if $(PYTHONPATH),:$(PYTHONPATH))

# Where `rt run` leaves the program once every crate below it is proved.
PROGRAM := crates/xv6/out/xv6

# Whether that program is there, and no source is newer than it.
IS_FRESH := [ -x $(PROGRAM) ] && [ -z "$$(find crates crates.txt -name out -prune -o \( -name '*.rt' -o -name '*.antt' -o -name crates.txt \) \
	-newer $(PROGRAM) -print -quit)" ]

# The user programs: a text each. user/manifest puts them on an image, and user/demo is what is typed at it.
TEXTS := $(wildcard user/*.s)
USER := $(TEXTS:user/%.s=out/user/%)
IMAGE := out/xv6.img

# The library for C and Python.
LIBRARY := out/library

.DEFAULT_GOAL := help
.PHONY: help demo build program image user live fresh qemu check-live library check-library test check-docs quick edits check bench measure measure-gate \
	check-assembly check-qemu kills full places limits large fuzz accesses outages refusals fmt

# Lists the targets.
help:
	@awk '/^# /{if (!said) said = substr($$0, 3)} /^$$/{said = ""} \
		/^[a-z][a-z-]*:/{split($$0, name, ":"); if (said) printf "%-15s %s\n", name[1], said; said = ""}' $(MAKEFILE_LIST)

# Boots an image with the user programs, types two lines at its shell, and shows its console.
# It takes the proved program if there is one that is not older than the sources. Else it compiles one, unproved, in some two minutes.
demo:
	@if $(IS_FRESH); then make -s image && tools/demo.sh $(PROGRAM) $(IMAGE) user/demo; else tools/demo.sh '' '' user/demo; fi

# The merge gate: the docs, every proof from nothing, the wrong bodies that must be refused, all tests.
test:
	.ci/run

# Proves what the program is built on, several crates at a time, and builds it: 48 minutes on two processors.
# Where nothing was proved before, the time is noted for `make measure`.
build:
	@if $(IS_FRESH); then echo '$(PROGRAM) is proved and built'; else \
		$$([ -d crates/unixmodel/out ] || echo tools/timed.py build) tools/prove.py --below xv6 && cd crates/xv6 && rt run -- flat data/hello.bin data/hello.txt && touch out/xv6; \
	fi

# The program that is there: what needs it starts no proofs by itself.

program:
	@[ -x $(PROGRAM) ] || { echo '$(PROGRAM) is not built: make build proves and builds it, in 48 minutes on two processors' >&2; exit 1; }
	@$(IS_FRESH) || echo 'note: $(PROGRAM) is older than the sources (make build)' >&2

# Assembles the user programs.
user: $(USER)

out/user/%: user/%.s $(wildcard $(PROGRAM)) | program
	@mkdir -p $(@D)
	$(PROGRAM) asm $< $@

# Makes a disk image with the user programs, out/xv6.img.
image: $(IMAGE)

$(IMAGE): user/manifest $(USER)
	cd out/user && $(abspath $(PROGRAM)) mkfs $(abspath $<) $(abspath $@)

# The disk of `make live`, which keeps what its sessions write.
DISK := out/live.img

$(DISK): | $(IMAGE)
	cp $(IMAGE) $@

# A session at the shell: ^A x ends it, ^P shows the processes, ^C kills it. out/live.img keeps its files; out/last.script replays it.
live: $(DISK)
	@tools/live.sh $(PROGRAM) $(DISK) out/last.script out/last.img

# Makes the disk of `make live` anew, with the user programs as they are now: what sessions left on it is gone.
fresh: $(IMAGE)
	cp $(IMAGE) $(DISK)

# The same as live: what xv6's users type.
qemu: live

# Makes out/library for C and Python: libxv6.a, libxv6.so, xv6.h and the package cathompi.
library:
	@if [ -f $(LIBRARY)/libxv6.so ] && [ -z "$$(find crates crates.txt bindings tools -name out -prune -o \
		\( -name '*.rt' -o -name '*.antt' -o -name crates.txt -o -name xv6.h -o -path 'bindings/python/cathompi/*.py' -o -name library.sh \) \
		-newer $(LIBRARY)/libxv6.so -print -quit)" ]; then echo '$(LIBRARY) is proved and made'; else tools/library.sh $(LIBRARY); fi

# Makes the page, out/web/xv6.html: the machine in one file that opens offline. It needs Debian's binaryen.
# It takes the proved library of crates/xv6_c. A module that is there already is taken by MODULE=FILE, the texts of another language by WORDS=FILE,
# and the exercises of a folder by EXERCISES=DIR, as EXERCISES=course/first_week.
.PHONY: web check-web
web: out/web/xv6.html

WEB := out/web/xv6.html
MODULE := out/web/machine.wasm
WORDS := web/words.json
EXERCISES :=
PACKED := $(if $(EXERCISES),out/web/exercises.json)

out/web/machine.wasm: $(wildcard crates/xv6_c/src/*.rt bindings/c/xv6.h web/*.sh)
	web/build.sh out/web

# The page's image has the user programs, unhex, by which files are put on it, race, which loses an update where a tick comes in between,
# and crash.
WEB_TEXTS := $(wildcard web/*.s)

out/web/xv6.img: user/manifest $(WEB_TEXTS) $(USER) | program
	{ cat user/manifest; for name in $(WEB_TEXTS:web/%.s=%); do echo "file /$$name $$name"; done; } > out/user/web-manifest
	for name in $(WEB_TEXTS:web/%.s=%); do $(PROGRAM) asm web/$$name.s out/user/$$name || exit 1; done
	@mkdir -p $(@D)
	cd out/user && $(abspath $(PROGRAM)) mkfs web-manifest $(abspath $@)

# Packed anew each time: another folder may be wanted than the last time.
out/web/exercises.json: $(USER) always
	@mkdir -p $(@D)
	course/pack.py $(EXERCISES) $@

# The page that is checked has the exercises of the first week.
out/web/checked.html: $(WEB) $(wildcard course/first_week/*/*)
	course/pack.py course/first_week out/web/checked.json
	web/make_page.py $(MODULE) out/web/xv6.img $@ $(WORDS) out/web/checked.json

$(WEB): $(MODULE) out/web/xv6.img $(wildcard web/*.js web/*.css web/*.html) $(WORDS) web/make_page.py $(PACKED)
	web/make_page.py $(MODULE) out/web/xv6.img $@ $(WORDS) $(PACKED)
	@echo '$@ is written: open it in a browser'

# Makes out/release: program, page, image, library, wheel, man page, completions and their sums.
.PHONY: release check-release
release: $(IMAGE) $(WEB) library
	tools/release.py out/release

# Uses out/release in an empty folder: the program, the wheel in a new venv, C by pkg-config, the page.
check-release:
	tools/check_release.py out/release

# ---- proofs, in parts

# Proves every crate over what earlier checks kept, several at a time.
check:
	tools/prove.py

# Proves and tests what differs from the last commit of main, and all above it.
quick:
	tools/prove.py --changed

# Tries the wrong bodies that the gate leaves out: some four hours of a processor.
edits:
	tools/edits.py

# Lays out the sources of every crate.
fmt:
	@for crate in crates/*/; do (cd $$crate && rt fmt) || exit 1; done

# Looks whether paths, contracts and sentences of the docs are there, and reads the words that a change adds.
check-docs:
	@tools/check_docs.sh

# ---- what is tried by hand; CONTRIBUTING.md says what each needs and takes

# Times the program beside a plain Rust interpreter of the same design, and where they are installed beside qemu and the host's own code.
bench: | program
	bench/run.py $(PROGRAM)

# Measures what docs/MEASURED.md and the README say, and writes it there: half an hour or more.
measure: | program
	bench/report.py $(PROGRAM)

# Times the gate from nothing, and notes that for `make measure`: hours.
measure-gate:
	tools/timed.py gate rt ci --anew

# Sessions at a pseudo-terminal: keys while a program spins, ^A x, ^C, the end of the input.
check-live: $(IMAGE)
	trials/terminal.py $(PROGRAM) $(IMAGE)

# Tries the library: C under valgrind and on small stacks, Python, and 100 random sessions beside the program.
check-library: $(IMAGE) library
	tools/check_library.sh $(LIBRARY) $(PROGRAM) $(IMAGE)

# Uses the page in Chromium and Firefox without a window, compares it with the program, and its views with kept pictures.
# KEEP=1 keeps new ones.
check-web: out/web/checked.html
	web/check.py $< $(PROGRAM) out/web/xv6.img out/web/pictures

# Compares multiplications and divisions with qemu's: the stored rows and 1,000,000 random pairs.
check-qemu: | program
	trials/qemu/compare.py $(PROGRAM)

# Assembles the examples of docs/ASSEMBLY.md, and runs the programs of examples/assembly, with the exercises there.
check-assembly: | program
	trials/assembly.py $(PROGRAM)

# Compares what `xv6 as` makes with the files of GNU as and ld: for random texts, exercises as textbooks have them, what gcc makes of C.
.PHONY: check-as check-names
check-as: | program
	trials/as.py $(PROGRAM)

# Compares the names of `xv6 dump --names` with binutils' at each instruction of programs that gcc and clang compile.
check-names: | program
	trials/names.py $(PROGRAM)

# Ends a thousand saves at random moments: the old file or the new one is there, whole.
kills: | program
	trials/saves.py kills $(PROGRAM)

# Saves to a full disk, at each length.
full: | program
	trials/saves.py full $(PROGRAM)

# Saves to links, pipes, closed folders and the like.
places: | program
	trials/saves.py places $(PROGRAM)

# Hands the program inputs without end, and looks how much memory it takes.
limits: | program
	trials/saves.py memory $(PROGRAM)

# Makes the longest file on the largest image; a shell fills, reads and removes such files.
large: | program
	trials/large.py $(PROGRAM)

# Hands the program random files for a minute.
fuzz: | program
	trials/fuzz.py --seed $$$$ $(PROGRAM)

# Counts how often jobs read and write the disk, with the cache and without.
accesses: | program
	trials/accesses.py $(PROGRAM)

# Lets each access of the disk fail in its turn, in a session at the shell.
outages: $(IMAGE)
	trials/each_access.py $(PROGRAM) $(IMAGE)

# Refuses each request for memory in its turn, in each command.
refusals: | program
	trials/each_allocation.py $(PROGRAM)

# ---- programs in C

# An image with the programs of user-c.
IMAGE_C := out/user-c.img

.PHONY: user-c live-c check-user-c check-picolibc check-course always

# Compiles the programs of user-c, as out/user-c/NAME, by gcc, or by clang: make user-c CC=clang.
user-c:
	$(MAKE) -C user-c

# Compiles one of them, or another one whose text is user-c/NAME.c.
user-c/%: always
	$(MAKE) -C user-c $*

# Compiles a program over Debian's picolibc, whose text is user-c/picolibc/NAME.c.
user-c/picolibc/%: always
	$(MAKE) -C user-c/picolibc $*

# Compiles interpreters of Lua and of JavaScript, whose sources are fetched from Debian, as out/picolibc/lua and duk.
user-c/lua user-c/duk: user-c/%: always
	$(MAKE) -C user-c/picolibc $*

# A session at the shell of an image of them, as make live. Faults name functions and lines of programs whose NAME.elf is made.
live-c: user-c | program
	$(MAKE) -C user-c ../$(IMAGE_C) XV6=$(abspath $(PROGRAM))
	@$(if $(wildcard out/user-c/*.elf),SYMBOLS=out/user-c) tools/live.sh $(PROGRAM) $(IMAGE_C) out/last.script

# gdb over a run, whose processes it debugs forward and back: docs/DEBUG.md. What happens is in SCRIPT=FILE.
# Another image than that of user-c, and the folder of its NAME.elf: make gdb RUN=.. SYMBOLS=..
.PHONY: gdb check-gdb
gdb: $(if $(RUN),,user-c) | program
	$(if $(RUN),,$(MAKE) -C user-c ../$(IMAGE_C) XV6=$(abspath $(PROGRAM)) && $(MAKE) -C user-c $(notdir $(patsubst %.c,%.elf,$(wildcard user-c/*.c))))
	tools/gdb.sh $(PROGRAM) $(or $(RUN),$(IMAGE_C)) '$(or $(SYMBOLS),$(if $(RUN),,out/user-c))' $(SCRIPT)

# Tries every order of calls of a program of examples/races, as make explore RACE=locks WORDS="--ticks 2": docs/RACES.md.
.PHONY: explore check-explore
RACE := counter
WORDS :=

explore: | program
	$(MAKE) -s -C examples/races XV6=$(abspath $(PROGRAM)) out/$(RACE).img
	$(PROGRAM) explore $(WORDS) --scripts examples/races/out/$(RACE).scripts examples/races/out/$(RACE).img || true

# Explores the programs of examples/races and 50 random ones, both ways, and replays each outcome by its script; then by a plain search.
# It needs Debian's package gcc-riscv64-unknown-elf, and for the last part `make library`.
check-explore: | program
	trials/explore/check.py $(PROGRAM)
	trials/explore/plain.py $(PROGRAM)

# Runs the processes of a session again by their log of commits alone, with a simulator of RV64IM in Python: docs/TRACES.md.
.PHONY: check-commits
check-commits: | program
	trials/commits.py $(PROGRAM)

# Debugs small programs in C by scripts of gdb and lldb, and compares what they print; then 200 random runs, times from all sides, and hostile packets.
# It needs Debian's packages gdb-multiarch and gcc-riscv64-unknown-elf; what is for lldb is left out where there is none.
check-gdb: | program
	trials/gdb/check.py $(PROGRAM)
	trials/gdb/agree.py $(PROGRAM)
	trials/gdb/times.py $(PROGRAM)
	trials/gdb/hostile.py $(PROGRAM)

# Compiles them by gcc and clang, and tries them beside the programs in assembly.
# selftest passes at each pace of a clock, and the file that the gate runs is what the compiler gives. It needs Debian's packages
# gcc-riscv64-unknown-elf, clang and lld.
check-user-c: $(USER)
	tools/check_user_c.sh $(PROGRAM)

# Compares what programs over picolibc print with what the same texts print on the host. It needs Debian's packages
# picolibc-riscv64-unknown-elf and dpkg-dev, and fetches the sources of Lua and Duktape.
check-picolibc: out/user/init out/user/sh
	tools/check_picolibc.sh $(PROGRAM)

check-course: check-user-c check-picolibc check-names check-grader check-labs

# Tries the grader of course/ over programs of user/ and its own, hostile ones among them: no compiler is needed.
.PHONY: check-grader check-labs
check-grader: | program
	XV6=$(abspath $(PROGRAM)) course/tests/run.py

# Grades all solutions, right and wrong, of the labs and of the first week's exercises.
# A right one has all points, and a wrong one loses the test that it names. It needs gcc-riscv64-unknown-elf, and node.
check-labs: | program
	XV6=$(abspath $(PROGRAM)) course/labs/check.py
	XV6=$(abspath $(PROGRAM)) course/check_judge.py
