# Installs the program that was built, bgt-geo, the man pages and the completions: make install PREFIX=/usr/local
# DESTDIR goes before PREFIX, for packages. `make uninstall` takes away just what was installed.
PREFIX ?= /usr/local
DESTDIR ?=
PROGRAM ?= crates/bgt/out/bgt

root = $(DESTDIR)$(PREFIX)
bin = $(root)/bin
lib = $(root)/lib/bgt
man = $(root)/share/man/man1
bash = $(root)/share/bash-completion/completions
zsh = $(root)/share/zsh/site-functions
fish = $(root)/share/fish/vendor_completions.d

modules = $(notdir $(wildcard tools/bgt_geo/*.py tools/bgt_geo/*.html))

.PHONY: help install uninstall test

help:
	@echo 'make install [PREFIX=/usr/local] [DESTDIR=]    the program, bgt-geo, man pages and completions'
	@echo 'make uninstall [PREFIX=/usr/local] [DESTDIR=]  takes away what was installed'
	@echo 'make test                                      the tests of the tools'

install:
	@test -x '$(PROGRAM)' || { echo 'make: bgt is not built yet: run `./bgt check < examples/street.txt` first' >&2; exit 1; }
	install -d '$(bin)' '$(lib)/bgt_geo' '$(man)' '$(bash)' '$(zsh)' '$(fish)'
	install -m 755 '$(PROGRAM)' '$(bin)/bgt'
	install -m 755 tools/bgt-geo '$(bin)/bgt-geo'
	install -m 644 $(addprefix tools/bgt_geo/,$(modules)) '$(lib)/bgt_geo'
	install -m 644 docs/bgt.1 docs/bgt-geo.1 '$(man)'
	install -m 644 tools/completion/bgt.bash '$(bash)/bgt'
	install -m 644 tools/completion/bgt-geo.bash '$(bash)/bgt-geo'
	install -m 644 tools/completion/_bgt tools/completion/_bgt-geo '$(zsh)'
	install -m 644 tools/completion/bgt.fish tools/completion/bgt-geo.fish '$(fish)'

uninstall:
	rm -f '$(bin)/bgt' '$(bin)/bgt-geo' '$(man)/bgt.1' '$(man)/bgt-geo.1' '$(bash)/bgt' '$(bash)/bgt-geo'
	rm -f '$(zsh)/_bgt' '$(zsh)/_bgt-geo' '$(fish)/bgt.fish' '$(fish)/bgt-geo.fish'
	rm -rf '$(lib)/bgt_geo'
	if [ -d '$(lib)' ]; then rmdir --ignore-fail-on-non-empty '$(lib)'; fi

test:
	tools/tests/run
