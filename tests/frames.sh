#!/usr/bin/env bash
# Prints the bytes of the largest stack frame of the archive $1. Registers that a function saves come on top of its frame, 56 bytes at
# most.
set -euo pipefail

code=$(objdump -d --no-show-raw-insn "$1")
if grep -E 'sub +%r[a-z0-9]+,%rsp' <<<"$code" >&2; then
  echo "frames: a frame of unknown size" >&2
  exit 1
fi
largest=0
for hex in $(grep -oE 'sub +\$0x[0-9a-f]+,%rsp' <<<"$code" | grep -oE '0x[0-9a-f]+'); do
  if ((hex > largest)); then largest=$((hex)); fi
done
echo "$largest"
