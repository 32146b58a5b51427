# make quick      builds the programs into quick/ in two minutes, checked as they run and not proved, and runs every command of the README
# make            proves and builds the programs into bin/, compares pages, results, names and documents with them, tries their ends that touch
#                 the system, and runs the README
# make install    puts what make built where a shell finds it: PREFIX=/usr/local, NAME=tor (another name: programs NAME, NAMEcheck ..)
# make dist       makes an archive of it for machines without the kit
# make tour       runs every command of the README in a fresh folder, over bin/
# make test       is the whole gate
# make clean      removes all that was built and all that was proved
#
# Outside the gate:
# make samples    compares the lists of two real tables with what other readers give, and checks, grades and resumes their results
# make system     the ends alone: full devices, closed pipes, folders and the like
# make memory     tries them with each of their allocations refused
# make container  tries the archive of make dist on a bare system

# A program has its man page in man/, its completions in completions/, and its stored run (args, data, stdout, status) in its crate.
PROGRAMS = tor torcheck torgrade torleak torrank torwhy torview

# The logic of the kit with which all is proved, as `rt version` has it.
LOGIC = dac8208d650f15bf

# How many processes prove side by side: 0 is as many as there are processors.
LANES = 0

# Where `make install` puts the programs, and what stands in the place of `tor` in their names.
PREFIX = /usr/local
NAME = tor

BUILT = $(PROGRAMS:%=bin/%)
ARCHIVE = bin/tor-$(shell git describe --always --dirty)-$(shell uname -m).tar.gz

# What the programs of `make quick` are made of.
SOURCES = crates.txt tools/unproved.py tools/libraries.py tools/quick.rs $(shell find crates -path '*/src/*.rt')

.PHONY: all quick kit proved pages results documents names tour install dist test samples system memory container clean
.DELETE_ON_ERROR:

all: tour system documents names
	@echo "bin/ has $(PROGRAMS), proved"

quick: quick/tor
	@for program in $(PROGRAMS); do tools/stored_run.sh $$program $(CURDIR)/quick/$$program || exit 1; done
	tools/tour.sh quick samples README.md
	@echo "quick/ has $(PROGRAMS). They are checked as they run, and not proved: make proves them, and builds them into bin/"

# One build makes all of them.
quick/tor: $(SOURCES) | kit
	@echo "this takes one to three minutes"
	tools/unproved.py --checked . quick $(PROGRAMS)

kit:
	@tools/kit.sh $(LOGIC)

# A program is built only once it and all below it are proved. What was proved before stays.
proved: | kit
	tools/libraries.py . $(LANES) $(PROGRAMS)

bin/%: proved
	@mkdir -p bin
	tools/stored_run.sh $* $(CURDIR)/crates/$*/out/$*
	@cp crates/$*/out/$* bin/

pages: $(BUILT)
	tools/pages.sh bin $(PROGRAMS)

results: $(BUILT)
	tools/results.sh bin samples docs

documents:
	tools/documents.sh

# The list is shown only where it is too long.
names:
	@mkdir -p bin
	tools/names.py > bin/names.txt || { cat bin/names.txt; exit 1; }
	@tail -n 1 bin/names.txt

tour: pages results
	tools/tour.sh bin samples README.md

install:
	tools/install.sh "$(DESTDIR)$(PREFIX)" $(NAME) $(PROGRAMS)

dist: $(BUILT)
	tools/dist.sh $(ARCHIVE) $(PROGRAMS)

test: | kit
	rt ci

samples: $(BUILT)
	for dump in samples/openbgpd.table samples/frr.routes-mrt; do \
		bin/tor --list $$dump | cmp - $$dump.list.txt || exit 1; \
		bin/tor --list --as-sets skip $$dump | cmp - $$dump.skip.txt || exit 1; \
		bin/tor $$dump > bin/sample.result.txt || exit 1; \
		bin/torcheck bin/sample.result.txt $$dump || exit 1; \
		bin/tor --serial1 $$dump > bin/sample.rel.txt || exit 1; \
		bin/torgrade bin/sample.rel.txt $$dump > bin/sample.grades.txt || exit 1; \
		sed -n 's/^kept|//p' bin/sample.result.txt > bin/sample.kept.txt || exit 1; \
		sed -n 's/^free|//p' bin/sample.grades.txt | cmp - bin/sample.kept.txt || exit 1; \
		grep '^grade|[0-9]*|[0-9]*|0$$' bin/sample.grades.txt || exit 1; \
	done
	python3 bench/resume.py bin/tor bin/torcheck 1 0 samples/openbgpd.table samples/frr.routes-mrt
	@echo "the lists are the same, the results are right, exactly the kept paths are free, and results can be resumed"

system: $(BUILT)
	bench/system.sh bin samples

memory: $(BUILT)
	bench/memory.sh bin samples

container: dist
	tools/container.sh $(ARCHIVE)

clean:
	rm -rf bin quick crates/*/out
