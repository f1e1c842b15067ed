# Each target calls a script that is there for itself; './test' is what CI runs. PREFIX and DESTDIR
# say where to install.
PREFIX ?= /usr/local
export PREFIX DESTDIR

.DEFAULT_GOAL := help
.PHONY: help build check quick documents install uninstall deb wheel dist try-packages reproducible bench

help:                   ## show this list
	@sed -n 's/^\([a-z-]*\): *## /\1\t/p' Makefile | expand -t 16

build:                  ## prove and build the program and the library
	@packaging/build.sh

check:                  ## run all tests, as CI does
	@./test

quick:                  ## look at layout, names and tests, without a proof
	@tests/quick.sh

documents:              ## write what scripts know into the documents
	@tools/rules.py && tools/clauses.py && tools/figures.py && tools/json_tables.py
	@tools/base.py --write docs/PROOF.md > /dev/null && python3 python/make_reasons.py

install:                ## install what is built into PREFIX, below DESTDIR
	@packaging/install.sh install

uninstall:              ## remove what 'install' has put there
	@packaging/install.sh uninstall

deb:                    ## make the Debian packages, in out/deb
	@packaging/deb.sh

wheel:                  ## make the wheel for Python and its sources, in out/wheel
	@packaging/wheel.sh

dist:                   ## make the tarballs and SHA256SUMS, in out/dist
	@packaging/dist.sh

try-packages:           ## install all packages in a clean Debian, and use them
	@tests/packages/try_packages.sh

reproducible:           ## make all packages twice, and compare the bytes
	@packaging/reproducible.sh

bench:                  ## measure the commands beside other programs
	@bench/run commands
