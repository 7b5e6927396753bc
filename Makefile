# The program is proved and run by the kit's command `rt`; nothing else is needed. `make` alone lists the targets, and each
# target prints its line, on standard error, before it begins.

# a script, by its path: of map calls; of `play`, of calls on collections of all kinds
SCRIPT ?= examples/first.script
# a crate, by its name; of `wrong`, none: all; of `vendor`, the crate of the other repository that is to use the library
CRATE ?=
# a mutant, by its name
BODY ?=
# the lines of a benchmark run of Rust's, to be set beside ours; none: ours alone
RUST ?=
# the repository that is to have the crates
INTO ?=
# `dict`: dictionaries and small maps alone; `small`: small maps alone; `all`; none: what was copied before, or all
TYPES ?=
# not empty: what the checks of these crates kept comes too
PROOFS ?=
export SCRIPT CRATE BODY RUST INTO TYPES

.PHONY: help try run demo play check tests test minutes pages bench chart vendor wrong refused hostile attack clean

define says
@awk -F ' *## ' '/^$@:.*## / { print "make $@: " $$2 }' Makefile >&2
endef

help:
	@awk -F ':.*## ' '/^[a-z]+:.*## / { printf "make %-8s %s\n", $$1, $$2 }' Makefile

try: ## plays SCRIPT (examples/first.script) with no proof, in about a minute
	$(says)
	@./examples/play try "$$SCRIPT"

run: ## proves the program and plays SCRIPT: some twelve minutes the first time, then seconds
	$(says)
	@./examples/play run "$$SCRIPT"

demo: ## plays a few lines on the scopes of an interpreter, with no proof, in about a minute
	$(says)
	@cd crates/program_demo && rt try

play: SCRIPT := examples/player.script
play: ## plays SCRIPT (examples/player.script), calls on several collections, with no proof, in about two minutes
	$(says)
	@./examples/play try "$$SCRIPT" program_player

check: ## proves CRATE and the crates below it: minutes for each crate the first time, then seconds
	$(says)
	@./examples/crate "$$CRATE"
	@cd "crates/$$CRATE" && rt check

tests: ## runs the tests of CRATE with no proof, in about a minute
	$(says)
	@./examples/crate "$$CRATE"
	@cd "crates/$$CRATE" && rt try --test

test: ## the merge gate, every proof, test and program: half an hour to an hour on four cores, and 4.6 GB in out/, see clean
	$(says)
	@./examples/as-in-readme
	@./docs/pages.py check
	@rt ci

minutes: ## the gate from nothing, and a table of what each crate took of a processor, into CONTRIBUTING.md
	$(says)
	@./docs/minutes.py --anew

pages: ## writes docs/reference from the comments and contracts of the sources, at once
	$(says)
	@./docs/pages.py write

bench: ## proves and runs the benchmarks, beside the maps of the kit: some ten minutes the first time; with RUST=FILE also beside those
	$(says)
	@cd crates/program_bench && rt run > /dev/null
	@if [ -n "$$RUST" ]; then ./bench/measure "$$RUST"; else ./bench/measure; fi

chart: ## draws the pictures of speed from their tables, at once
	$(says)
	@python3 bench/chart.py docs/SPEED.md "Texts" > docs/speed_texts.svg
	@python3 bench/chart.py docs/SPEED.md "Beside Rust's maps" > docs/speed.svg

vendor: ## copies the library INTO another repository, whose CRATE is to use it, in seconds; with TYPES=dict dictionaries and small maps alone; with PROOFS=yes also their proofs
	$(says)
	@./vendor/copy "$$INTO" $(if $(CRATE),"$$CRATE") $(if $(TYPES),"--types=$$TYPES") $(if $(PROOFS),--proofs)

wrong: ## tries the mutant BODY, in about a minute, and prints the goal at which the check stops; or those outside the gate, of CRATE or of all: minutes for each crate
	$(says)
	@if [ -n "$$BODY" ]; then ./wrong-bodies/one "$$BODY"; elif [ -n "$$CRATE" ]; then ./wrong-bodies/try "$$CRATE"; else ./wrong-bodies/try; fi

refused: ## has each request for memory refused in turn, of scripts of the player and of the tests of memory, with no proof, in some four minutes
	$(says)
	@./refusals/try
	@./refusals/tests

hostile: run ## plays scripts with the streams closed, full, cut short or not to be read: seconds after `run`
	$(says)
	@./hostile/streams

attack: run ## times hashes that an attacker may choose beside random ones: a few minutes after `run`
	$(says)
	@python3 hostile/attack.py crates/script_program/out/script_program

clean: ## removes each out/, where checks keep their work (4.6 GB after a whole gate): the next check proves anew
	$(says)
	@rm -rf crates/*/out
