# Builds, checks and installs the program, with its manual and its completion.
#
#     make [all]          proves and builds it, where that is wanting
#     make check          the gate
#     make install        into PREFIX, behind DESTDIR; make uninstall removes just that

PREFIX = /usr/local
DESTDIR =

bin = $(DESTDIR)$(PREFIX)/bin
libexec = $(DESTDIR)$(PREFIX)/libexec/isdbt
man = $(DESTDIR)$(PREFIX)/share/man/man1
completions = $(DESTDIR)$(PREFIX)/share/bash-completion/completions

.PHONY: all check install uninstall

all:
	./isdbt remux 1 1/4 A:13:qpsk:1/2:0 A=- </dev/null

check:
	.ci/run

# The installed script is the one here without its building part.
install: all
	install -d $(bin) $(libexec) $(man) $(completions)
	install -m 755 crates/isdbt_cli/out/isdbt_cli $(libexec)/isdbt
	sed -e '/^# From here on/d' -e '/^# ----$$/,/^# ----$$/d' -e 's|^program=.*|program=$$top/../libexec/isdbt/isdbt|' isdbt >$(bin)/isdbt
	chmod 755 $(bin)/isdbt
	gzip -9n <docs/isdbt.1 >$(man)/isdbt.1.gz
	chmod 644 $(man)/isdbt.1.gz
	install -m 644 completion/isdbt.bash $(completions)/isdbt

uninstall:
	rm -f $(bin)/isdbt $(libexec)/isdbt $(man)/isdbt.1.gz $(completions)/isdbt
	if [ -d $(libexec) ]; then rmdir --ignore-fail-on-non-empty $(libexec); fi
