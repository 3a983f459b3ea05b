#!/usr/bin/env bash
# Times the program beside Khronos' compiler, assembler, disassembler and validator, in one run: seconds, peak memory in KiB, and their ratio; then the program's
# instructions as inputs double. What is not installed is left out. It is no part of the gate.
set -eu
top=$(cd "$(dirname "${BASH_SOURCE[0]}")/.." && pwd)
program=$top/crates/gsl/out/gsl
if [ ! -x "$program" ]; then
  echo "bench: the program is not built; ./gsl --prove builds it" >&2
  exit 1
fi
made=$(mktemp -d)
trap 'rm -rf "$made"' EXIT

source_of() { python3 "$top/tests/generate.py" "$1" "$2"; }

# Seconds and peak memory of a command, the best of three runs.
measure() {
  local best=none seconds memory
  for _ in 1 2 3; do
    /usr/bin/time -f '%e %M' -o "$made/time" "$@" >"$made/out" 2>&1 || true
    read -r seconds memory < <(tail -1 "$made/time")
    if [ "$best" = none ] || [ "$(echo "$seconds < ${best% *}" | bc)" = 1 ]; then best="$seconds $memory"; fi
  done
  echo "$best"
}

beside() {
  local ours theirs
  source_of "$2" "$3" >"$made/a.comp"
  ours=$(measure "$program" compile comp "$made/a.spv" "$made/a.comp")
  if command -v glslangValidator >/dev/null; then
    theirs=$(measure glslangValidator -V -S comp -o "$made/b.spv" "$made/a.comp")
  else
    theirs="- -"
  fi
  told "$1" "$made/a.comp" "$ours" glslang "$theirs"
}

# The time and memory of both, and how many times as fast ours is.
told() {
  awk -v name="$1" -v bytes="$(stat -c %s "$2")" -v ours="$3" -v other="$4" -v theirs="$5" 'BEGIN {
    split(ours, o, " "); split(theirs, t, " ");
    ratio = t[1] == "-" || o[1] == 0 ? "-" : sprintf("%.1f", t[1] / o[1]);
    printf "%-24s %9d bytes   ours %6.2f s %8d KiB   %-9s %6s s %8s KiB   times as fast %s\n", name, bytes, o[1], o[2], other, t[1], t[2], ratio }'
}

# Many source files: the time and memory of each alone, added up and the greatest, and of all together. What the second has more is linking.
linked() {
  local alone all answer k files=()
  for k in $(seq 0 63); do
    source_of "$2" "${3:-$k}" >"$made/$k.comp"
    files+=("$made/$k.comp")
  done
  alone=$(for k in $(seq 0 63); do measure "$program" compile comp "$made/a.spv" "$made/$k.comp"; done | awk '{ s += $1; m = $2 > m ? $2 : m } END { print s, m }')
  all=$(measure "$program" compile comp "$made/a.spv" "${files[@]}")
  answer=$("$program" compile comp "$made/a.spv" "${files[@]}" 2>&1 | sed 's/.*comp:/line /' || true)
  printf '%-24s %9d bytes   alone %6.2f s %8d KiB, together %6.2f s %8d KiB   %s\n' "$1" "$(cat "${files[@]}" | wc -c)" ${alone} ${all} "$answer"
}

# A module as text: `asm`, and then `dis`. Khronos' text has no line with the version and the bound, and names the function's control.
as_text() {
  local theirs="- -"
  source_of assembly "$2" >"$made/a.txt"
  sed '1d; s/OpFunction %2 0/OpFunction %2 None/' "$made/a.txt" >"$made/b.txt"
  if command -v spirv-as >/dev/null; then theirs=$(measure spirv-as --target-env spv1.0 -o "$made/b.spv" "$made/b.txt"); fi
  told "asm, $1" "$made/a.txt" "$(measure "$program" asm "$made/a.txt" "$made/a.spv")" spirv-as "$theirs"
  if command -v spirv-dis >/dev/null; then theirs=$(measure spirv-dis --raw-id -o "$made/b.txt" "$made/a.spv"); fi
  told "dis, $1" "$made/a.txt" "$(measure "$program" dis "$made/a.spv" "$made/c.txt")" spirv-dis "$theirs"
  cmp "$made/a.txt" "$made/c.txt"
}

# The file of a module, made from its text: `check`.
judged() {
  local theirs="- -"
  source_of "$2" "$3" >"$made/a.txt"
  "$program" asm "$made/a.txt" "$made/a.spv"
  if command -v spirv-val >/dev/null; then theirs=$(measure spirv-val --target-env vulkan1.0 "$made/a.spv"); fi
  told "check, $1" "$made/a.spv" "$(measure "$program" check "$made/a.spv")" spirv-val "$theirs"
}

# A module that asks for much: what is answered, and the time and memory of the whole program.
hostile_module() {
  local ours answer
  source_of "$2" "$3" >"$made/a.txt"
  "$program" asm "$made/a.txt" "$made/a.spv"
  ours=$(measure "$program" check "$made/a.spv")
  answer=$("$program" check "$made/a.spv" 2>&1 || true)
  printf '%-24s %9d bytes   ours %6.2f s %8d KiB   %s\n' "$1" "$(stat -c %s "$made/a.spv")" "${ours% *}" "${ours#* }" "$answer"
}

# A text that asks for much: what is answered, and the time and memory of the whole program.
hostile() {
  local ours answer
  source_of "$2" "$3" >"$made/a.comp"
  ours=$(measure "$program" compile comp "$made/a.spv" "$made/a.comp")
  answer=$("$program" compile comp "$made/a.spv" "$made/a.comp" 2>&1 | sed 's/.*comp:/line /' || true)
  printf '%-24s %9d bytes   ours %6.2f s %8d KiB   %s\n' "$1" "$(stat -c %s "$made/a.comp")" "${ours% *}" "${ours#* }" "$answer"
}

# valgrind cannot read what the program says for debuggers, so it counts a copy without it.
instructions() {
  strip -o "$made/stripped" "$program"
  valgrind --tool=callgrind --callgrind-out-file="$made/callgrind" "$made/stripped" compile comp "$made/a.spv" "$made/a.comp" 2>&1 |
    awk '/Collected/ { print $4 }'
}

doubling() {
  local one two
  source_of "$2" "$3" >"$made/a.comp"
  one=$(instructions)
  source_of "$2" "$((2 * $3))" >"$made/a.comp"
  two=$(instructions)
  awk -v name="$1" -v one="$one" -v two="$two" 'BEGIN { printf "%-24s %13d, doubled %13d instructions: %.2f times\n", name, one, two, two / one }'
}

beside "1 function" functions 1
beside "100 functions" functions 100
beside "1,000 functions" functions 1000
beside "1 MiB of dense tokens" tokens 1048000
beside "a chain of 10,000 macros" macros 10000
hostile "1,000,000 (" parens 999987
hostile "300 nested ?:" choices 300
hostile "200 if .. else" elses 200
hostile "300 nested macro uses" nested 300
hostile "a condition of 300 (" tests 300
hostile "20,000 globals" globals 20000
hostile "20,000 locals" locals 20000
hostile "20,000 overloads" overloads 20000
hostile "16,383 members" fields 16383
hostile "16,383 parts" parts 16383
hostile "a chain of 63 structs" twice 63
linked "64 units of functions" units
linked "64 times 16,383 structs" structs 16383
as_text "1 MiB" 1048576
as_text "64 MiB" 67108864
judged "1 function" module 1
judged "100 functions" module 100
judged "1,000 functions" module 1000
hostile_module "1,000,000 heights" heights 1000000
hostile_module "600,000 selections" nests 600000
hostile_module "1,000,000 blocks" blocks 1000000
hostile_module "800,000 calls" chain 800000
hostile_module "30,000 pairs" pairs 30000
hostile_module "65,000 members" members 65000
hostile_module "60,000 offsets" marks 60000
if command -v valgrind >/dev/null; then
  doubling "tokens" tokens 100000
  doubling "macros defined" directives 2000
  doubling "macro uses" uses 2000
  doubling "a chain of macros" macros 1000
  doubling "nested conditions" conditions 2000
  doubling "functions" functions 500
  doubling "global variables" globals 10000
  doubling "local variables" locals 10000
  doubling "members" fields 8000
  doubling "parts" parts 8000
else
  echo "valgrind is not installed: no instructions counted"
fi
