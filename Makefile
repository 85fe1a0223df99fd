# make install PREFIX=/usr/local DESTDIR= FROM=release: puts what was released, or what tools/release.py made in another folder,
# where programs and libraries belong, and the scripts beside the program, for which Python is needed; make uninstall takes it away.
# make check is the gate, for which the toolchain is needed; make check-all ONLY="rows dumps" is what is tried beside it, without
# ONLY all.
PREFIX ?= /usr/local
FROM ?= release
AT = $(DESTDIR)$(PREFIX)
DOCUMENTS = share/doc/hwtool
MOVED = hwtool:bin/hwtool:755 libhwtool.a:lib/libhwtool.a:644 libhwtool.so:lib/libhwtool.so.2:755 hwtool.h:include/hwtool.h:644 \
	hwtool.pc:lib/pkgconfig/hwtool.pc:644 hwtool.1:share/man/man1/hwtool.1:644 LICENSE:$(DOCUMENTS)/LICENSE:644 \
	NOTICES:$(DOCUMENTS)/NOTICES:644 PROVED.txt:$(DOCUMENTS)/PROVED.txt:644 SHA256SUMS:$(DOCUMENTS)/SHA256SUMS:644 \
	hwtool.bash:share/bash-completion/completions/hwtool:644 _hwtool:share/zsh/site-functions/_hwtool:644 \
	hwtool.fish:share/fish/vendor_completions.d/hwtool.fish:644
FLOW = $(foreach it,$(notdir $(wildcard tools/flow/*.*)),tools/flow/$(it):lib/hwtool/flow/$(it):644)
SCRIPTS = $(foreach it,hwtool-flow hwtool-judge witness-circuit.py yw-witness.py,tools/$(it):bin/$(it):755)
PUT = $(addprefix $(FROM)/,$(MOVED)) $(FLOW) $(SCRIPTS) examples/flow/one-clock.ys:share/hwtool/one-clock.ys:644
# the pages and completions of scripts, which are made of their words when they are installed
PAGES = $(foreach it,hwtool-flow hwtool-judge,$(it).1:share/man/man1/$(it).1:644 $(it).bash:share/bash-completion/completions/$(it):644 \
	_$(it):share/zsh/site-functions/_$(it):644 $(it).fish:share/fish/vendor_completions.d/$(it).fish:644)
OWN_FOLDERS = $(DOCUMENTS) lib/hwtool/flow lib/hwtool share/hwtool
.PHONY: install uninstall check check-all
install:
	set -e; made=$$(mktemp -d); trap 'rm -r "$$made"' EXIT; python3 tools/manual.py --scripts "$$made"; \
	for it in $(PUT) $(addprefix "$$made"/,$(PAGES)); do IFS=:; set -- $$it; install -D -m "$$3" "$$1" "$(AT)/$$2"; done
	ln -sf libhwtool.so.2 "$(AT)/lib/libhwtool.so"
uninstall:
	set -e; for it in $(PUT) $(PAGES); do IFS=:; set -- $$it; rm -f "$(AT)/$$2"; done
	rm -f "$(AT)/lib/libhwtool.so"
	for it in $(OWN_FOLDERS); do [ ! -d "$(AT)/$$it" ] || rmdir --ignore-fail-on-non-empty "$(AT)/$$it"; done
check:
	.ci/run
check-all:
	tests/all.py $(ONLY)
