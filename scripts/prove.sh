#!/usr/bin/env bash
# Proves the crates that the program stands on, as many at a time as there are cores, and builds it. Each crate is named when
# it is proved, with the count of those that are left.
# It works on a copy of those crates, since `rt all` takes every crate that it sees; what was proved is handed back at the end.
set -eu -o pipefail
top=$(cd "$(dirname "${BASH_SOURCE[0]}")/.." && pwd)
work=$(mktemp -d)
trap 'rm -rf "$work"' EXIT
declare -A uses
while IFS=: read -r name deps; do
  case $name in ''|\#*) continue ;; esac
  uses[$name]=$deps
done <"$top/crates.txt"

# The crates that the program stands on, and it last.
wanted=()
declare -A seen
visit() {
  local dep
  [ -z "${seen[$1]-}" ] || return 0
  seen[$1]=1
  for dep in ${uses[$1]}; do
    # What crates.txt does not list is a crate of the kit.
    if [ -n "${uses[$dep]+listed}" ]; then visit "$dep"; fi
  done
  wanted+=("$1")
}
visit gsl

mkdir "$work/crates"
for name in "${wanted[@]}"; do
  cp -a "$top/crates/$name" "$work/crates/"
  echo "$name:${uses[$name]}" >>"$work/crates.txt"
done

# Hands back what is proved, whether or not all is, so that the next run goes on from there.
hand_back() {
  local name
  for name in "${wanted[@]}"; do
    [ -d "$work/crates/$name/out" ] || continue
    rm -rf "$top/crates/$name/out"
    mv "$work/crates/$name/out" "$top/crates/$name/out"
  done
}

# Says which crates are proved as the lines of `rt all` come. What it says of a crate begins with "== NAME", and comes at once when it has ended.
announce() {
  local name='' line left=${#wanted[@]} refused='' ended
  while true; do
    ended=0
    IFS= read -r -t 1 line || ended=$?
    if [ -n "$name" ] && { [ "$ended" -ne 0 ] || [ "${line#== }" != "$line" ]; }; then
      left=$((left - 1))
      echo "gsl: $name ${refused:-proved}, $left left" >&2
      name=''
    fi
    # More than 128 says that no line came yet.
    if [ "$ended" -gt 128 ]; then continue; fi
    if [ "$ended" -ne 0 ]; then return 0; fi
    case $line in
      '== summary'*) ;;
      '== '*) name=${line#== } refused='' ;;
      logic=not-proved*) refused='is not proved' ;;
    esac
  done
}

echo "gsl: ${#wanted[@]} crates to prove" >&2
status=0
(cd "$work" && rt all check --jobs "$(nproc)" 2>&1) | tee "$work/log" | announce || status=$?
hand_back
if [ "$status" -ne 0 ]; then
  tail -20 "$work/log" >&2
  echo "gsl: not proved" >&2
  exit 3
fi

# Building the program runs it, without words; it then ends with status 2, and what counts is that it is there.
cd "$top/crates/gsl"
rm -f out/gsl
rt run >"$work/log" 2>&1 || true
if [ ! -x out/gsl ]; then
  tail -20 "$work/log" >&2
  echo "gsl: the program could not be built" >&2
  exit 3
fi
echo "gsl: the program is proved and built" >&2
