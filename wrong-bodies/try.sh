#!/usr/bin/env bash
# Tries the wrong bodies of this folder, in a copy of the checkout: the prover must refuse each.
#     wrong-bodies/try.sh [NAME..]
# With names it tries those of these crates. Each crate is proved first.
set -euo pipefail
cd "$(dirname "$0")/.."
copy=$(mktemp -d)
trap 'rm -rf "$copy"' EXIT
git ls-files -z | tar --null --files-from=- --create | tar --extract --directory="$copy"
rm -rf "$copy"/crates/*/must-fail
for bodies in wrong-bodies/*/; do
    cp -r "$bodies" "$copy/crates/$(basename "$bodies")/must-fail"
done
cd "$copy"
rt must-fail "$@"
