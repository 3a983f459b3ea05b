#!/usr/bin/env bash
# Runs the compute shaders of the cases of `gsl_reference` on Mesa's software Vulkan driver, compiled by glslang and then by the program, where all are installed, and compares the
# words of their buffers with those of the cases.
set -eu
top=$(cd "$(dirname "$0")/.." && pwd)
driver=$(ls /usr/share/vulkan/icd.d/lvp_icd*.json 2>/dev/null | head -1)
if ! command -v glslangValidator >/dev/null || [ -z "$driver" ] || [ ! -e /usr/include/vulkan/vulkan.h ]; then
  echo "Debian's glslang-tools, mesa-vulkan-drivers and libvulkan-dev are not all installed: nothing was compared"
  exit 0
fi
made=$(mktemp -d)
trap 'rm -rf "$made"' EXIT
cc -O1 -Wall -o "$made/host" "$top/tests/vulkan_host.c" -lvulkan
reference="$top/crates/gsl_reference"
export VK_ICD_FILENAMES=$driver VK_DRIVER_FILES=$driver
for compiler in "" "${1-$top/gsl}"; do
  echo "compiled by $(basename "${compiler:-glslang}"):"
  python3 "$top/tests/driver.py" "$reference/data/reference.cases" "$reference/stdout" "$made/host" ${compiler:+"$compiler"}
done
