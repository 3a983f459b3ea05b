#!/usr/bin/env bash
# Runs modules through Khronos' validator, where it is installed: those of the examples, and those that the cases of validity take.
set -eu
top=$(cd "$(dirname "$0")/.." && pwd)
if ! command -v spirv-val >/dev/null; then
  echo "spirv-val is not installed (Debian's spirv-tools): nothing was validated"
  exit 0
fi
made=$(mktemp -d)
trap 'rm -rf "$made"' EXIT
for shader in "$top"/examples/*.comp; do
  name=$(basename "$shader" .comp)
  "$top/gsl" compile comp "$made/$name.spv" "$shader"
  spirv-val --target-env vulkan1.0 "$made/$name.spv"
  echo "$name: valid"
done
mkdir "$made/texts"
python3 "$top/tests/validity.py" texts "$top/crates/gsl_rows/data/validity.cases" "$made/texts"
count=0
for text in "$made"/texts/*.txt; do
  version=vulkan1.0
  if head -1 "$text" | grep -q 'spirv 1.3'; then version=vulkan1.1; fi
  "$top/gsl" asm "$text" "$made/module.spv"
  spirv-val --target-env "$version" "$made/module.spv"
  count=$((count + 1))
done
echo "$count modules of the cases: valid"
