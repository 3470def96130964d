# Builds, shows and tests the programs modulecmd and module, which is modcheck, modaudit and modport too.
#
#   make try     compiles the programs before any proof, with a sanitizer, leaves them in build/unproved, and shows with them
#                what `make demo` does (some three minutes); neither an install nor a package takes them
#   make smoke   what a change most often breaks: the layout and text that the gate asks of crates, the pages, rows, and
#                bash, over the programs in build/unproved, which are made of the text as it is (ten minutes)
#   make build   proves the crates that the programs stand on, side by side, and leaves them in build/bin, linked
#                statically by the system's compiler where it is there; JOBS=N says how many processors may be used
#   make check   proves every crate as `make build` does, without the gate; with CRATE=name that crate and those below;
#                with ONLY=function besides, that function of the crate and what it calls
#   make install PREFIX=/opt/modulecmd DESTDIR=
#                lays out the programs, the init files, completion and the pages below a prefix, and `make uninstall`
#                takes them away
#   make package leaves in build/dist an archive with an install.sh for every Linux, Debian's package and an RPM
#   make demo    proves what modulecmd needs and shows loads, a switch and unloads by it; then proves the rest, installs both
#                programs below build/demo, and shows a check and an audit too, all in a POSIX shell
#   make test    the merge gate `rt ci`, the tests over real folders and real shells, and what each part took; with
#                ONLY="NAME..." those suites, or folders of tests/, alone, over the programs in build/bin, or in
#                PROGRAMS=build/unproved
#   make bench   a table of ratios beside a native program, Environment Modules and Lmod, and instructions where
#                something grows (some minutes)
#   make deps    installs by apt-get what try, build, demo, package, test and bench need; each of them does so where
#                something is missing

PREFIX ?= /opt/modulecmd
DESTDIR ?=
CRATE ?=
ONLY ?=
PROGRAMS = build/bin
BUILT = build/bin/modulecmd build/bin/module

.PHONY: try smoke build check deps install uninstall package demo test bench clean

try:
	sh tools/deps.sh try
	@echo 'Both programs take some five minutes of processor time to compile.'
	python3 -B tools/try_out.py
	sh tools/product.sh try '' '$(CURDIR)/build/try' build/unproved/modulecmd build/unproved/module
	sh demo/demo.sh build/try
	@echo 'This was done by the programs in build/unproved, of which nothing is proved. To use them: . build/try/init/sh; module use build/try/share/examples'

smoke:
	sh tools/deps.sh smoke
	python3 -B tools/build.py --text
	python3 -B tools/try_out.py
	python3 -B tests/run.py --smoke

build:
	sh tools/deps.sh build
	python3 -B tools/build.py

check:
	python3 -B tools/build.py --check $(CRATE) $(if $(ONLY),--only $(ONLY))

deps:
	sh tools/deps.sh

$(BUILT) &:
	python3 -B tools/build.py

install: $(PROGRAMS)/modulecmd $(PROGRAMS)/module
	sh tools/product.sh install '$(DESTDIR)' '$(PREFIX)' '$(PROGRAMS)/modulecmd' '$(PROGRAMS)/module'

uninstall:
	sh tools/product.sh uninstall '$(DESTDIR)' '$(PREFIX)'

package:
	sh tools/deps.sh package
	python3 -B tools/build.py
	python3 -B tools/package.py

demo:
	sh tools/deps.sh demo
	python3 -B tools/build.py modulecmd_main
	sh demo/modulecmd.sh build/bin/modulecmd
	python3 -B tools/build.py
	sh tools/product.sh install '' '$(CURDIR)/build/demo' $(BUILT)
	sh demo/demo.sh build/demo

test:
	sh tools/deps.sh test
	python3 -B tests/run.py $(if $(ONLY),--only $(ONLY)) --program-dir '$(PROGRAMS)'

bench:
	sh tools/deps.sh bench
	python3 -B tools/build.py
	python3 -B bench/run.py build/bin/modulecmd

clean:
	rm -rf build crates/*/out
