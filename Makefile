# make install PREFIX=DIR [DESTDIR=DIR]: the program that ./demo or `rt ci` built, its man page and the completion of bash's words.
PREFIX ?= /usr/local
to = $(DESTDIR)$(PREFIX)
CQMMC ?= crates/cqmmc/out/cqmmc

install:
	@test -x $(CQMMC) || { echo "build the program first: ./demo" >&2; exit 1; }
	install -D -m 755 $(CQMMC) $(to)/bin/cqmmc
	install -D -m 644 docs/cqmmc.1 $(to)/share/man/man1/cqmmc.1
	install -D -m 644 docs/cqmmc.bash $(to)/share/bash-completion/completions/cqmmc

uninstall:
	rm -f $(to)/bin/cqmmc $(to)/share/man/man1/cqmmc.1 $(to)/share/bash-completion/completions/cqmmc

.PHONY: install uninstall
