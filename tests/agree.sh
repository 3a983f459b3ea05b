#!/usr/bin/env bash
# Compiles the cases of `gsl_reference` and runs their modules, and compares what these do with the listings that are wanted; then runs the modules through Khronos' validator, where it is
# installed.
set -eu
top=$(cd "$(dirname "$0")/.." && pwd)
reference="$top/crates/gsl_reference"
made=$(mktemp -d)
trap 'rm -rf "$made"' EXIT
python3 "$top/tests/agree.py" "${1-$top/gsl}" "$reference/data/reference.cases" "$reference/stdout" "$made"
if ! command -v spirv-val >/dev/null; then
  echo "spirv-val is not installed (Debian's spirv-tools): nothing was validated"
  exit 0
fi
count=0
for module in "$made"/*.spv; do
  spirv-val --target-env vulkan1.0 "$module"
  count=$((count + 1))
done
echo "$count modules: valid"
