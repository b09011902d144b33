#!/usr/bin/env bash
# Builds the static library of crates/bank_c, and calls it from C and from Rust (tools/elsewhere): worked cases, random calls against std's map, and
# anything at all in the bank and its tables.
#   tools/elsewhere.sh
# Needs gcc (or another C compiler in CC), rustc and cargo beside the kit, and no network. On a fresh machine the library and what it stands on are
# proved first, which takes some ten minutes. Its last line says that all passed.
set -euo pipefail
here=$(cd "$(dirname "$0")" && pwd)
work=$(mktemp -d)
trap 'rm -rf "$work"' EXIT
(cd "$here/../crates/bank_c" && rt lib > "$work/lib" 2>&1) || { tail -n 20 "$work/lib"; exit 1; }
tail -n 1 "$work/lib"
library=$here/../crates/bank_c/out/libbank_c.a
"${CC:-gcc}" -std=c11 -O2 -Wall -Wextra -Werror -pedantic "$here/elsewhere/example.c" "$library" -o "$work/example"
"$work/example"
for profile in dev release; do
  (cd "$here/elsewhere" && CARGO_TARGET_DIR=$work/target cargo test --offline --quiet --profile "$profile" --lib --tests)
done
echo "elsewhere: all passed, from C and from Rust"
