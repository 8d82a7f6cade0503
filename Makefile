# Installs ssign, ssign-keys and ssign-archive, or makes a Debian package of them. GNU make.
#
#   make                      sees that there is a program to install, and builds it if not
#   make install              installs below PREFIX
#   make uninstall            takes away what `make install` put there
#   make deb                  makes a Debian package in the folder BUILD
#   make test                 runs the tests, and skips what lacks a tool; JOBS says how many at a time. ./setup test
#                             installs the tools before
#   make pages                makes man/, completions/, and the lists of clauses, edits and decisions again
#   make docs                 builds the book of docs/user as HTML with search, in BUILD/docs; `make install` installs it
#
# DESTDIR is a scratch root in front of PREFIX. PYTHON is the interpreter for both tools; without it `env` finds one.

PREFIX ?= /usr/local
DESTDIR ?=
PYTHON ?=
BUILD ?= build
export PREFIX DESTDIR PYTHON BUILD

all:
	@tools/install.sh program >/dev/null

install:
	@tools/install.sh install

uninstall:
	@tools/install.sh uninstall

deb:
	@tools/deb.sh

test:
	@tests/all.sh $(if $(JOBS),-j $(JOBS))

pages:
	@tools/make-pages

docs:
	@tools/make-docs

.PHONY: all install uninstall deb test pages docs
