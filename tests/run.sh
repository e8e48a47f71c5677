#!/usr/bin/env bash
# Proves and runs these tests of the program and of the engine as a whole, in a copy of the checkout, where they
# become the module `tests` of the program. They are no part of the gate: with them the program is proved once more.
set -euo pipefail
cd "$(dirname "$0")/.."
copy=$(mktemp -d)
trap 'rm -rf "$copy"' EXIT
git ls-files -z | tar --null --files-from=- --create | tar --extract --directory="$copy"
cd "$copy/crates/calcdb"
cp -r "$copy/tests/src" src/tests
cp -r "$copy/tests/proofs" proofs/tests
find src/tests proofs/tests -name '*.txt' -exec sh -c 'mv "$1" "${1%.txt}"' _ {} \;
printf '\n#[cfg(test)]\nmod tests;\n' >> src/main.rt
rt test "$@"
