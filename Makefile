# make alone lists what can be made.
.POSIX:
.PHONY: help build demo attacks test faults wakes starve prove bench soak install uninstall deb clean

PREFIX = /usr/local
VERSION = 0.1
DESTDIR =

help:
	@echo 'make build   proves the programs and leaves them as bin/factotum, bin/authd, bin/auth_attach, bin/pass_change and bin/nine_show'
	@echo 'make demo    runs logins between two agents and a conversation, without proofs, and shows each request and reply'
	@echo 'make attacks plays the attacks of docs/WEAKNESSES.md, without proofs, and says what happened'
	@echo 'make test    builds without proofs and runs every row, stored run and test: minutes'
	@echo 'make faults  starts, floods, stops and cuts off the programs that are built, and says what was not as their pages say'
	@echo 'make wakes   shows that no wake-up is lost, and finds wrong bodies that lose one: up to half an hour'
	@echo 'make starve  plays sessions and scripts while one allocation fails, for each of them: some minutes'
	@echo 'make prove   runs the gate: every proof, wrong body, test and program: over an hour from nothing'
	@echo 'make bench   measures the programs and the codec beside plain C programs, the server and the ciphers beside OpenSSL'
	@echo 'make soak    ten minutes of mixed load on two agents: no wrong reply, no growth, no thread left'
	@echo 'make install puts programs, manual pages and systemd units under DESTDIR and PREFIX (make uninstall removes them)'
	@echo 'make deb     makes a package for Debian out of them, and checks it where mmdebstrap and lintian are'
	@echo 'make clean   removes what the others made'

build:
	@scripts/need rt bash awk python3
	@mkdir -p bin
	@OF='factotum authd auth_attach pass_change nine_show' scripts/progress bin/build.log scripts/programs factotum authd auth_attach pass_change nine_show
	@echo 'bin/factotum, bin/authd, bin/auth_attach, bin/pass_change and bin/nine_show are built, each proved'

demo:
	@scripts/need rt python3
	@echo 'The programs are built without their proofs for this demonstration, each once; make build proves them.'
	@scripts/build_unproved factotum authd
	@scripts/login bin/unproved
	@scripts/build_unproved auth_attach pass_change nine_show
	@scripts/demo bin/unproved

attacks:
	@scripts/need rt python3
	@echo 'The program is built without its proof, once; make build proves it.'
	@scripts/build_unproved factotum
	@scripts/attacks bin/unproved

test:
	@scripts/need rt python3
	@scripts/try_all

faults:
	@scripts/need python3
	@scripts/faults bin

wakes:
	@scripts/need rt python3
	@scripts/wake_ups
	@scripts/wakes

starve:
	@scripts/need rt python3 openssl
	@scripts/starve

prove:
	@scripts/need rt git bash awk python3
	@mkdir -p bin
	@scripts/progress bin/gate.log rt ci
	@scripts/check_repository

bench: build
	@bench/pipe
	@bench/rpc
	@bench/lists
	@bench/rings
	@bench/serve
	@bench/authsrv
	@bench/tickets
	@bench/gen
	@bench/codec
	@bench/ciphers

soak: build
	@bench/soak

install:
	@scripts/install '$(DESTDIR)' '$(PREFIX)'

uninstall:
	@scripts/install --remove '$(DESTDIR)' '$(PREFIX)'

deb: build
	@scripts/deb '$(VERSION)'
	@if command -v mmdebstrap >/dev/null 2>&1 && command -v lintian >/dev/null 2>&1; then \
		scripts/check_deb "bin/boragegate_$(VERSION)_$$(dpkg --print-architecture).deb"; \
	else echo 'it was not checked: install mmdebstrap and lintian, and run scripts/check_deb'; fi

clean:
	rm -rf bin crates/*/out
