#!/usr/bin/env bash
# Runs each example with the built program and compares its output. Build it first: rt run, in crates/calcdb.
set -euo pipefail
cd "$(dirname "$0")"
program=../crates/calcdb/out/calcdb
for script in bank conflict upgrade checkpoint; do
    diff <("$program" run "$script.calc") "$script.expected"
    echo "$script.calc: as expected"
done
diff <(./tour.sh) tour.expected
echo "tour.sh: as expected"
# A page, which of its programs, and the test that it is.
for shown in README.md=1=embedding docs/EMBEDDING.md=1=service docs/EMBEDDING.md=2=live_log docs/EMBEDDING.md=3=next_cores; do
    IFS='=' read -r page place test <<< "$shown"
    diff <(awk -v place="$place" '/^```rust$/ { inside = ++count == place; next } /^```$/ { inside = 0 } inside' "../$page") \
        <(tail -n +3 "../tests/src/$test.rt.txt")
    echo "$page: shows the test $test as it is"
done
./threads.sh
