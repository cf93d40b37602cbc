# make          proves and builds the program, crates side by side, and leaves it as ./wmax; what the prover says goes to build.log
# make demo     solves a week's roster, and checks the certificate of its optimum
# make test     the gate (rt ci), and then the scripts of tests/ on the program that it left
# make edits    all edits that the prover must refuse, also those that the gate leaves out (some hours; CRATES='wcnf ..' for some)
# make install  the program, its manual page, python/wmax.py and the converters of examples/, under PREFIX (/usr/local)
PREFIX ?= /usr/local
# Where python3 looks for modules below PREFIX. If it looks for none there, PYTHONPATH has to name this folder.
PYTHON_FOLDER ?= $(shell python3 -c 'import site, sys, sysconfig; under = sys.argv[1]; \
	print(next((it for it in site.getsitepackages() if it.startswith(under + "/lib/")), \
	sysconfig.get_path("purelib", "posix_prefix", {"base": under})))' '$(PREFIX)' || echo '$(PREFIX)/lib/python3')
.PHONY: all demo test edits install clean

all:
	@bash tools/build

demo:
	@[ -x wmax ] || $(MAKE) all
	@examples/demo

test:
	@bash tests/gate

edits:
	@bash tests/edits $(CRATES)

install:
	@[ -x wmax ] || $(MAKE) all
	bash tools/manual > wmax.1
	install -D -m 755 wmax "$(DESTDIR)$(PREFIX)/bin/wmax"
	install -D -m 644 wmax.1 "$(DESTDIR)$(PREFIX)/share/man/man1/wmax.1"
	install -D -m 644 python/wmax.py "$(DESTDIR)$(PYTHON_FOLDER)/wmax.py"
	install -D -m 755 examples/older_form "$(DESTDIR)$(PREFIX)/bin/wmax-older-form"
	install -D -m 755 examples/result_of_others "$(DESTDIR)$(PREFIX)/bin/wmax-result-of-others"

clean:
	rm -rf crates/*/out .build.* wmax wmax.1 build.log
