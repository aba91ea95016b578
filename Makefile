# Installs what is there; proving and building are `./ecat --build` and `rt ci`.
#
#     make install [PREFIX=/usr/local] [DESTDIR=]
#     make uninstall [PREFIX=/usr/local] [DESTDIR=]

PREFIX = /usr/local
DESTDIR =

help:
	@echo 'make install, make uninstall: PREFIX is $(PREFIX), DESTDIR is "$(DESTDIR)"; nothing is built'

install:
	@tools/install "$(PREFIX)" "$(DESTDIR)"

uninstall:
	@tools/install --remove "$(PREFIX)" "$(DESTDIR)"

.PHONY: help install uninstall
