#!/usr/bin/env bash
# A run in threads: 100,000 calls of eight sessions at 100 keys, beside twenty checkpoints. Every chain of its images
# recovers with its log to the table that the opening does.
# Build the program first: rt run -- run data/new_and_get.calc, in crates/calcdb.
set -euo pipefail
cd "$(dirname "$0")"
program=$PWD/../crates/calcdb/out/calcdb
folder=$(mktemp -d)
trap 'rm -r "$folder"' EXIT
cd "$folder"

# Each third checkpoint is full, from the first on.
kind() {
    (($1 % 3 == 1)) && echo full || echo partial
}

{
    printf '%s\n' 'proc set 2' 'put $0 $1' end
    for ((number = 1; number <= 20; number++)); do
        echo "checkpoint $(kind $number)"
    done
    seq 0 99999 | awk '{ print "call", $1 % 8, int($1 / 8) + 1, "set", "\047k" ($1 * 7919) % 100, "#" $1 }'
    echo "view 'k1"
} > script

mkdir run
"$program" run script --threads --out run | grep -v "^view"
"$program" recover script run/log whole run/0.img > /dev/null
chains=0
chain=(run/0.img)
for ((number = 1; number <= 20; number++)); do
    [ "$(kind $number)" = full ] && chain=()
    chain+=("run/$number.img")
    "$program" recover script run/log table "${chain[@]}" > /dev/null
    cmp whole table
    chains=$((chains + 1))
done
echo "threads.sh: $chains chains recover one table"
