# Builds, installs and packages the programs. `make help` says what there is.
PREFIX = /usr/local
DESTDIR =
VERSION = 0.9
# Set it to 1 to install or to package what `make quick` built.
UNPROVED =

PROGRAMS := $(shell python3 tools/quick.py --list)
BUILT = $(foreach p,$(PROGRAMS),$(if $(UNPROVED),build/unproved/$(p)-unproved,crates/$(p)/out/$(p)))
MANUAL = $(wildcard docs/*.1)
TEXTS = README.md docs/guide.md docs/reference.md docs/PROVED.md
SHARE = $(DESTDIR)$(PREFIX)/share

all:
	python3 tools/build.py

help:
	@echo 'make                      proves and builds all programs: two hours of one processor from nothing, seconds after that'
	@echo 'make quick                builds them unproved, a minute each, as build/unproved/NAME-unproved'
	@echo 'make install PREFIX=DIR   installs what make built; with UNPROVED=1 what make quick built'
	@echo 'make deb                  makes a Debian package of the same, in build/'
	@echo 'make dist                 makes a tar of the same, in build/'
	@echo 'make test                 runs the tests of the scripts; .ci/run is the whole gate'

quick:
	python3 tools/quick.py build/unproved

install:
	@for p in $(BUILT); do test -x $$p || { echo "make: $$p isn't built: run make$(if $(UNPROVED), quick) first" >&2; exit 1; }; done
	install -d $(DESTDIR)$(PREFIX)/bin $(SHARE)/kaudit/plans $(SHARE)/man/man1 $(SHARE)/doc/kaudit $(SHARE)/bash-completion/completions
	install -m 755 $(BUILT) tools/ktriage $(DESTDIR)$(PREFIX)/bin
	install -m 644 $(wildcard plans/*.toml) plans/kernels.txt $(SHARE)/kaudit/plans
	install -m 644 plans/reader.py $(SHARE)/kaudit/plans
	install -m 755 plans/heads.py $(SHARE)/kaudit/plans
	install -m 755 tools/addnote $(SHARE)/kaudit
	for m in $(MANUAL); do gzip -9nc $$m > $(SHARE)/man/man1/$$(basename $$m).gz || exit 1; done
	install -m 644 $(TEXTS) $(SHARE)/doc/kaudit
	for p in $(PROGRAMS) ktriage; do install -m 644 tools/completion.bash $(SHARE)/bash-completion/completions/$$p || exit 1; done

deb:
	sh tools/deb.sh $(VERSION) $(UNPROVED)

dist:
	rm -rf build/dist && $(MAKE) -s install DESTDIR=build/dist/kaudit-$(VERSION) PREFIX= UNPROVED=$(UNPROVED)
	tar -C build/dist --sort=name --owner=0 --group=0 --numeric-owner -czf build/kaudit-$(VERSION).tar.gz kaudit-$(VERSION)
	@echo build/kaudit-$(VERSION).tar.gz

test:
	python3 -m unittest discover -s tools/tests

.PHONY: all help quick install deb dist test
