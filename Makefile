# What there is to do here. Each target needs the Rattle toolchain (`rt`); the viewer a C compiler besides, `outside` Rust's cargo.
.PHONY: help run test library viewer viewer-test outside speed stack

help:
	@echo 'make run          run the program bench on its example'
	@echo 'make test         prove every crate, run every program, try every must-fail edit'
	@echo 'make viewer       build viewer/viewer, a terminal viewer in C over the proved library'
	@echo 'make viewer-test  run the viewer on the tour and the corpus under the address and undefined-behaviour sanitizers'
	@echo 'make outside      hold the proved library against an independent implementation in Rust'
	@echo 'make speed        time each call against that implementation and a plain pass'
	@echo 'make stack        measure the stack and the time of a step that compares two large values, and of others'

run:
	@tools/run bench_main

test:
	bash .ci/run

library:
	@tools/library

viewer: library
	$(CC) -std=c11 -O2 -Wall -Wextra -o viewer/viewer viewer/viewer.c target/staticlib/libbench.a

viewer-test: library
	$(CC) -std=c11 -g -Wall -Wextra -fsanitize=address,undefined -fno-sanitize-recover -o viewer/viewer-checked viewer/viewer.c target/staticlib/libbench.a
	viewer/try.sh ./viewer/viewer-checked

outside: library
	cd outside && cargo run --release --quiet -- compare

speed: library
	cd outside && cargo run --release --quiet -- speed

stack: library
	$(CC) -std=c11 -O2 -Wall -Wextra -o target/stack outside/stack.c target/staticlib/libbench.a
	@target/stack
