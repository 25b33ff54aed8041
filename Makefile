# make: builds ./bx (its proof comes first) · make look: a first look, unproved · make test: proves and tests everything
PREFIX ?= /usr/local
man = $(DESTDIR)$(PREFIX)/share/man/man1
bash = $(DESTDIR)$(PREFIX)/share/bash-completion/completions
fish = $(DESTDIR)$(PREFIX)/share/fish/vendor_completions.d
zsh = $(DESTDIR)$(PREFIX)/share/zsh/$(if $(filter /usr,$(PREFIX)),vendor-completions,site-functions)
# of a program that is there already, nothing is built: make check BX=PATH, and so each target below that looks at the program
program = $(or $(BX),./bx)
built = $(if $(BX),,all)
.PHONY: all look test case check release install uninstall package tour pictures check-docs docs compare record hostile hints stops power fuzz bench clean

all: bx

bx: FORCE
	tools/prove.py
	cd crates/bx && rt run -- --help > /dev/null
	cp crates/bx/out/bx bx
FORCE:

# The program as it runs before any proof, on this README.
look:
	@echo 'bx, not proved: what it would do, after a minute or two of compiling'
	cd crates/bx && rt try --data README.md=../../README.md -- xxd -l 64 README.md

# The gate, which is `rt ci` and nothing else. make ends with 2 where that fails, so .ci/run names a file for its status.
test:
	rt ci$(if $(STATUS),; echo $$? > $(STATUS))

install: $(built)
	install -D -m 755 $(program) $(DESTDIR)$(PREFIX)/bin/bx
	install -D -m 644 man/bx.1 $(man)/bx.1
	install -D -m 644 completions/bx.bash $(bash)/bx
	install -D -m 644 completions/_bx $(zsh)/_bx
	install -D -m 644 completions/bx.fish $(fish)/bx.fish

uninstall:
	rm -f $(DESTDIR)$(PREFIX)/bin/bx $(man)/bx.1 $(bash)/bx $(zsh)/_bx $(fish)/bx.fish

# A Debian package, in the folder package.
package: all
	tools/package.sh bx package

# The tags of the versions that have none, where version, CHANGELOG.md, man page, authors and package agree.
# make release DRY=1 says which.
release: $(built)
	tools/release.sh $(if $(DRY),--dry-run) $(program)

.PHONY: check-package check-completions

# The package, installed, upgraded and removed in a root of its own. As root, or by fakeroot; it needs lintian.
check-package: $(built)
	tests/hostile.py --bx $(program) package

# One file of cases, or one case, alone and before any proof: make case NAME=redone, make case NAME='patch and undo'.
case:
	tools/case.py "$$NAME"

# What follows is run by hand and is no part of the gate.

# All of it that says whether something is right, with a line for each: ok, failed, or skipped and why.
check: $(built)
	tools/check.py --bx $(program)

# The commands of README.md and of the recipes, and what they write.
tour: $(built)
	tests/hostile.py --bx $(program) tour recipes

# The pictures of docs/pictures, each drawn from what its commands write.
pictures: $(built)
	tools/draw.py --bx $(program)

# The options of bx beside those of its help, man page, completions and README.md; the code that documents quote; the pages of
# docs/generated; the words and names of documents; which room imports which; the sizes of definitions, functions and contracts.
check-docs: $(built)
	tools/docs.py
	tests/hostile.py --bx $(program) options

# The pages of docs/generated, and what other pages quote, written again.
docs:
	tools/docs.py --write

# What bash, zsh and fish offer, where they are installed.
check-completions: $(built)
	tests/hostile.py --bx $(program) completions

# The real tools beside bx, on random inputs and options; SEED draws others.
compare: $(built)
	tools/cases.py --compare --bx $(program) --seed $(or $(SEED),2)
	tests/hostile.py --bx $(program) seeks

# The case files that hold what the real tools do, and random lists of commands, written again.
record:
	tools/cases.py

# Bad texts, full devices, closed pipes and streams, what is no file, two programs at once, loop devices (as root), and each
# memory request, read and write failing in turn.
hostile: $(built)
	tests/hostile.py --bx $(program)

# What standard error gets at each fault, on a terminal and in a pipe.
hints: $(built)
	tests/hostile.py --bx $(program) hints

# Each command killed before each of its writes and syncs, by strace, and then the next one on the right image and on another one;
# and random histories with kills, beside a model.
stops: $(built)
	tests/stops.py --bx $(program)
	tests/histories.py --bx $(program)

# The order in which the files of a command reach the disk, by strace; and losses of power, played on what bx wrote, and (as root)
# on what the kernel's page cache held back.
power: $(built)
	tests/hostile.py --bx $(program) orders
	tests/power.py --bx $(program)

# Texts, journals and words that AFL++ makes of tests/fuzz/corpus, ten minutes of them (MINUTES=60: an hour); it needs afl-fuzz.
fuzz: $(built)
	tests/fuzz/run.py --bx $(program) --minutes $(or $(MINUTES),10)

bench: $(built)
	bench/run.py --bx $(program)

clean:
	rm -rf bx package bench/out tests/fuzz/out crates/*/out
