#!/usr/bin/env bash
# From a script to a checkpoint, to files, to recovery after a log that was cut off, in a folder of its own.
# Build the program first: rt run -- run data/new_and_get.calc, in crates/calcdb.
set -euo pipefail
cd "$(dirname "$0")"
program=$PWD/../crates/calcdb/out/calcdb
folder=$(mktemp -d)
trap 'rm -r "$folder"' EXIT
cp accounts.pairs tour.calc threads.calc "$folder"
cd "$folder"

calcdb() {
    echo "$ calcdb $*"
    "$program" "$@"
}

calcdb load accounts.pairs opening.img
mkdir bank
calcdb run tour.calc --open opening.img --out bank
calcdb show bank/2.img
calcdb merge merged.img bank/1.img bank/2.img
calcdb show bank/log
calcdb recover tour.calc bank/log whole.img bank/1.img bank/2.img
calcdb show whole.img
# The engine stopped while it wrote the last record.
head -c -10 bank/log > cut.log
calcdb recover tour.calc cut.log recovered.img bank/1.img bank/2.img
calcdb show recovered.img
calcdb run threads.calc --open opening.img --threads
