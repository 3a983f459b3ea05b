#!/usr/bin/env bash
# random.sh FIRST COUNT: compares what random programs do with what their modules do, for COUNT seeds from FIRST on; and as many plain ones on Mesa's software Vulkan driver, where it
# and glslang are installed. The program and that of `gsl_reference` have to be built (`./gsl --prove`, and `rt run` in crates/gsl_reference); or GSL and REFERENCE name other builds.
set -eu
top=$(cd "$(dirname "$0")/.." && pwd)
gsl=${GSL-$top/crates/gsl/out/gsl}
reference=${REFERENCE-$top/crates/gsl_reference/out/gsl_reference}
if [ $# != 2 ] || [ ! -x "$gsl" ] || [ ! -x "$reference" ]; then
  echo "random.sh FIRST COUNT, where $gsl and $reference are built" >&2
  exit 2
fi
python3 "$top/tests/random_agree.py" "$reference" "$gsl" "$1" "$2"
driver=$(ls /usr/share/vulkan/icd.d/lvp_icd*.json 2>/dev/null | head -1)
if ! command -v glslangValidator >/dev/null || [ -z "$driver" ] || [ ! -e /usr/include/vulkan/vulkan.h ]; then
  echo "Debian's glslang-tools, mesa-vulkan-drivers and libvulkan-dev are not all installed: nothing was run on a device"
  exit 0
fi
made=$(mktemp -d)
trap 'rm -rf "$made"' EXIT
cc -O1 -Wall -o "$made/host" "$top/tests/vulkan_host.c" -lvulkan
VK_ICD_FILENAMES=$driver VK_DRIVER_FILES=$driver python3 "$top/tests/random_agree.py" "$reference" "$gsl" "$1" "$2" "$made/host"
