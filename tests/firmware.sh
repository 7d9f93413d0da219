#!/usr/bin/env bash
# The C library: all its functions are called through the header; its examples are built against the archive, run, held to their
# output and run under valgrind; the stack frames of the archive are measured, its sum is looked through for products, and the
# instructions of its tally, of its alike and of its list of gets are counted.
set -euo pipefail
cd "$(dirname "$0")/.."

tools/archive
archive=target/staticlib/libfirmware.a
out=$(mktemp -d)
trap 'rm -rf "$out"' EXIT

strict=(-Wall -Wextra -Werror -I include)
gcc -std=c99 "${strict[@]}" tests/boundary.c "$archive" -o "$out/boundary"
"$out/boundary"
if command -v g++ >/dev/null; then
  g++ -std=c++11 "${strict[@]}" -x c++ tests/boundary.c -x none "$archive" -o "$out/boundary-c++"
  "$out/boundary-c++" >/dev/null
  echo "boundary: the same from C++"
fi

for example in save photograph; do
  gcc -std=c99 "${strict[@]}" "examples/firmware/$example.c" "$archive" -o "$out/$example"
  "$out/$example" | cmp - "examples/firmware/$example.out"
  valgrind -q --error-exitcode=1 --leak-check=full "$out/$example" >/dev/null
done
echo "firmware: the examples saved whole, blocks and a photograph with its index, and valgrind found nothing"

largest=$(bash tests/frames.sh "$archive")
echo "firmware: the largest stack frame has $largest bytes"
((largest <= 1536))

sum=$(objdump -d --disassemble=fnv::sum_from "$archive")
grep -q 'ret' <<<"$sum"
if grep -E 'mul|call' <<<"$sum"; then exit 1; fi
echo "firmware: the sum is there, and nothing in it multiplies or calls"

# What a full log adds to a tally is the same on a card with ten times as many data blocks. A search of the log for each data block would
# add to it, unless it took as long in an empty log.
gcc -O2 "${strict[@]}" bench/passes.c bench/pass.c "$archive" -o "$out/passes"
counted() { # CALL PROGRAM N COUNT: the instructions of a call, whose answer has to be right; the C library's names are bound before
  LD_BIND_NOW=1 valgrind -q --tool=callgrind --toggle-collect="trapcard_$1" --callgrind-out-file="$out/dump" "$out/$2" "$3" "$4" &&
    sed -n 's/^totals: *//p' "$out/dump"
}
added() { # CALL PROGRAM N: the instructions that a full log adds
  local full empty
  full=$(counted "$@" 32) && empty=$(counted "$@" 0) && echo $((full - empty))
}
small=$(added tally passes 134)
large=$(added tally passes 1034)
echo "firmware: a full log adds $small instructions to a tally of 100 data blocks, and $large to one of 1,000"
((small > 0 && small == large))

# Likewise for an alike of equal cards: the slots are compared once, and nothing is searched for each data block.
gcc -O2 "${strict[@]}" bench/alikes.c bench/pass.c "$archive" -o "$out/alikes"
small=$(added alike alikes 134)
large=$(added alike alikes 1034)
echo "firmware: full logs add $small instructions to an alike of equal cards of 100 data blocks, and $large to one of 1,000"
((small > 0 && small == large))

# What a full log adds to a list is the same for 32 addresses as for one, where the log has none with their low bits: it is not walked for each.
gcc -O2 "${strict[@]}" bench/screens.c "$archive" -o "$out/screens"
one=$(added get_list screens 1)
all=$(added get_list screens 32)
echo "firmware: a full log adds $one instructions to a list of one block at home, and $all to a list of 32"
((one > 0 && one == all))
