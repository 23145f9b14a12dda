#!/bin/sh
# Builds the library and tests it with its header and its Rust bindings, from nothing on a fresh clone. Needs rt, cc, nm and cargo; no network.
#   bindings/test.sh
set -eu
cd "$(dirname "$0")/.."
work=$(mktemp -d)
trap 'rm -rf "$work"' EXIT

(cd crates/abi && rt lib) >"$work/log" 2>&1 || { tail -20 "$work/log"; exit 1; }
library=crates/abi/out/libabi.a

# The header and the bindings declare what the library has, and nothing else.
nm "$library" | sed -n 's/.* T \(atz_.*\)/\1/p' | sort >"$work/has"
grep -o '^uint64_t atz_[a-z_]*' include/atzunelca.h | sed 's/uint64_t //' | sort >"$work/header"
grep -o 'pub fn atz_[a-z_]*' bindings/src/sys.rs | sed 's/pub fn //' | sort >"$work/sys"
diff "$work/has" "$work/header"
diff "$work/has" "$work/sys"
echo "calls: $(wc -l <"$work/has") in library, header and bindings"

cc -std=c99 -Wall -Wextra -Werror -pedantic -O1 -Iinclude -o "$work/test" bindings/c/test.c "$library"
"$work/test"
echo '#include "atzunelca.h"' | c++ -std=c++11 -Wall -Wextra -Werror -Iinclude -fsyntax-only -x c++ -
echo "C++: the header is read"

cd bindings
cargo test --offline --quiet
cargo run --offline --quiet --example tour >"$work/tour"
sed -n '/^```text$/,/^```$/p' ../docs/TOUR.md | grep -v '^```' | diff - "$work/tour"
echo "tour: as docs/TOUR.md says"
cargo run --offline --quiet --example trace
