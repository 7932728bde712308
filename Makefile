# explore: four drives, a write, a flush and two writes in succession: every moment at which power can go, times what the caches kept, times the drive that does not come back
# test:  that meaning/ cites no laws, the worked values of log_walks and of docs/FORMAT.md, then everything proved (`rt ci`), the wrong programs and the archive; the merge gate
# check: prove every crate (only what changed since the last time)
# wrong: the wrong programs and wrong rules alone
# archive: prove the C edge and write lib/libzrv.a anew, which C links with include/zrv.h
# zrv: the command-line tool over a shelf kept as files, target/zrv (`target/zrv help`)
# from-c: all tests of the archive and of the tool:
#   edge-test: the conformance vectors replayed, and bad input; then both once more with the C side's sanitizers
#   tool-test: the tool used as a person would, with the exact words and exit codes; then once more with the sanitizers; then commands killed while they save.
#   Before it stores read by the patterns of their calls, hosts that compact in time, and commands without memory
#   explore-test: explore's counts, its histories that do not fit, its messages and its picture; a part of it once more with the sanitizers
#   example: the program of docs/USING.md, built and run
# kill-test: the last of these in full: kills before every change of a file, 400 at drawn moments, and full disks (part of no test)
# format-test: the model of docs/FORMAT.md in Python: the conformance vectors replayed, then the worked values of the page
# vectors: other conformance vectors put in place of those of crates/replay: `make vectors FROM=FOLDER` with a script PART.txt and its answers PART.out a part
# bench: the archive's speed as a share of plain C's
# bench-isal: the time of a stripe's write beside that of memcpy and ISA-L's xor_gen (needs libisal-dev; part of no test)
.PHONY: explore test check wrong archive zrv from-c edge-test tool-test kill-test explore-test example format-test vectors bench bench-isal fmt

explore: target/zrv
	@target/zrv explore

test: format-test
	@! grep -nE '^use .*(specs\.laws|proofs)\.' crates/*/specs/meaning/*.antt
	@python3 scripts/expect_log_walks.py | cmp - crates/log_walks/stdout
	@scripts/gate

check:
	@rt all check

wrong:
	@scripts/wrong_programs

archive:
	@cd crates/zrv_c && rt lib
	@mkdir -p lib
	@cp crates/zrv_c/out/libzrv_c.a lib/libzrv.a

LIBRARY = lib/libzrv.a
COMPILE = gcc -std=c11 -Wall -Wextra -Werror -pedantic -Iinclude -Ihost -Itool
SANITIZE = -O1 -g -fsanitize=address,undefined -fno-sanitize-recover=all
EDGE = target/edge

REPLAY_C = c/replay.c c/script_host.c c/damage.c c/script.c host/shelf.c host/call.c
PLAIN_C = c/plain.c c/plain_emptying.c c/plain_logs.c c/plain_look.c c/plain_refusals.c c/plain_rows.c c/plain_sectors.c c/plain_stores.c host/journal.c
BAD_INPUT_C = c/bad_input.c c/fixture.c c/expected.c $(PLAIN_C) host/shelf.c host/call.c
GROUPED_REPLAY_C = c/grouped_replay.c c/script.c host/shelf.c host/call.c
BENCH_C = c/bench.c c/bench_grouped.c c/plain_grouped.c $(PLAIN_C) host/shelf.c host/call.c
BENCH_ISAL_C = c/bench_isal.c host/shelf.c host/call.c
HOST_C = host/driver.c host/call_kinds.c host/drives.c host/saving.c host/redo.c host/lock.c host/drive_file.c host/mapped_sectors.c host/files.c host/folder.c host/assembling.c host/bounds.c host/journal.c host/cached_resets.c host/old_zones.c host/stores.c host/progress.c host/message.c host/shelf.c host/call.c
EXPLORE_C = tool/explore/explore.c tool/explore/ending.c tool/explore/options.c tool/explore/oracle.c tool/explore/caches.c tool/explore/world.c tool/explore/story.c \
	tool/explore/check.c tool/explore/engine.c tool/explore/report.c tool/explore/picture.c
ZRV_C = tool/zrv.c tool/commands.c tool/pull.c tool/assemble.c tool/info.c tool/transfer.c tool/report.c tool/grouped.c tool/look_json.c tool/checklist.c tool/bad_log.c tool/left_out.c tool/holders.c tool/tool.c tool/options.c tool/words.c tool/refusals.c $(EXPLORE_C) $(HOST_C)
ZRV_H = include/zrv.h $(wildcard host/*.h tool/*.h tool/explore/*.h)

zrv: target/zrv

target/zrv: $(ZRV_C) $(ZRV_H) $(LIBRARY)
	@mkdir -p target
	@$(COMPILE) -O2 $(ZRV_C) $(LIBRARY) -o $@

target/zrv_sanitized: $(ZRV_C) $(ZRV_H) $(LIBRARY)
	@mkdir -p target
	@$(COMPILE) $(SANITIZE) $(ZRV_C) $(LIBRARY) -o $@

from-c: edge-test tool-test explore-test example

edge-test:
	@mkdir -p $(EDGE)
	@g++ -std=c++11 -Wall -Wextra -Werror -pedantic -fsyntax-only -x c++ include/zrv.h
	@$(COMPILE) -O2 $(REPLAY_C) $(LIBRARY) -o $(EDGE)/replay
	@$(COMPILE) -O2 $(GROUPED_REPLAY_C) $(LIBRARY) -o $(EDGE)/grouped_replay
	@$(COMPILE) -O2 $(BAD_INPUT_C) $(LIBRARY) -o $(EDGE)/bad_input
	@$(COMPILE) $(SANITIZE) $(REPLAY_C) $(LIBRARY) -o $(EDGE)/replay_sanitized
	@$(COMPILE) $(SANITIZE) $(GROUPED_REPLAY_C) $(LIBRARY) -o $(EDGE)/grouped_replay_sanitized
	@$(COMPILE) $(SANITIZE) $(BAD_INPUT_C) $(LIBRARY) -o $(EDGE)/bad_input_sanitized
	@$(EDGE)/replay < crates/replay/stdin | cmp - crates/replay/stdout && echo "replay: $$(wc -l < crates/replay/stdout) lines equal"
	@$(EDGE)/grouped_replay < c/vectors/grouped.txt | cmp - c/vectors/grouped.out && echo "grouped replay: $$(wc -l < c/vectors/grouped.out) lines equal"
	@$(EDGE)/bad_input
	@$(EDGE)/replay_sanitized < crates/replay/stdin | cmp - crates/replay/stdout && echo "replay, sanitized: $$(wc -l < crates/replay/stdout) lines equal"
	@$(EDGE)/grouped_replay_sanitized < c/vectors/grouped.txt | cmp - c/vectors/grouped.out && echo "grouped replay, sanitized: $$(wc -l < c/vectors/grouped.out) lines equal"
	@$(EDGE)/bad_input_sanitized

target/no_memory.so: tool/test/no_memory.c
	@mkdir -p target
	@$(COMPILE) -O2 -shared -fPIC $< -o $@

target/stop: tool/test/stop.c
	@mkdir -p target
	@$(COMPILE) -O2 $< -o $@

STORES_C = tool/test/stores.c host/stores.c host/call_kinds.c host/shelf.c host/message.c

target/stores: $(STORES_C) $(ZRV_H)
	@mkdir -p target
	@$(COMPILE) $(SANITIZE) $(STORES_C) -o $@

SHARES_C = tool/test/shares.c host/bounds.c host/journal.c host/shelf.c host/call.c host/message.c

target/shares: $(SHARES_C) $(ZRV_H) $(LIBRARY)
	@mkdir -p target
	@$(COMPILE) $(SANITIZE) $(SHARES_C) $(LIBRARY) -o $@

tool-test: target/zrv target/zrv_sanitized target/stop target/stores target/shares target/no_memory.so
	@target/stores
	@target/shares
	@tool/test/memory target/zrv target/no_memory.so
	@tool/test/tool target/zrv
	@tool/test/tool target/zrv_sanitized
	@tool/test/kills target/zrv target/stop 4 4

kill-test: target/zrv target/stop
	@tool/test/kills target/zrv target/stop 1 100

explore-test: target/zrv target/zrv_sanitized
	@tool/test/explore target/zrv target/zrv_sanitized

example:
	@mkdir -p target
	@$(COMPILE) -O2 host/example.c $(LIBRARY) -o target/example
	@target/example

format-test:
	@model/format_model.py replay < crates/replay/stdin | cmp - crates/replay/stdout && echo "format model: $$(wc -l < crates/replay/stdout) lines equal"
	@model/format_model.py grouped < c/vectors/grouped.txt | cmp - c/vectors/grouped.out && echo "grouped model: $$(wc -l < c/vectors/grouped.out) lines equal"
	@model/format_model.py check docs/FORMAT.md crates/replay/stdout

VECTOR_PARTS = plain refusals damage worn corners

vectors:
	@cat $(VECTOR_PARTS:%=$(FROM)/%.txt) > crates/replay/stdin
	@cat $(VECTOR_PARTS:%=$(FROM)/%.out) > crates/replay/stdout

bench:
	@mkdir -p $(EDGE)
	@$(COMPILE) -O3 $(BENCH_C) $(LIBRARY) -o $(EDGE)/bench
	@$(EDGE)/bench

bench-isal:
	@mkdir -p $(EDGE)
	@$(COMPILE) -O3 $(BENCH_ISAL_C) $(LIBRARY) -lisal -o $(EDGE)/bench_isal
	@$(EDGE)/bench_isal

fmt:
	@for crate in crates/*/; do (cd $$crate && rt fmt) || exit 1; done
