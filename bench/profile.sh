#!/usr/bin/env bash
# Shows where the program's time goes: the ten dearest functions of the built program on three programs (bench/profile_programs.py).
#
#     bench/profile.sh [PATH_TO_PIPS]
#
# With valgrind: the share of instructions that each function executes itself, which no other work on the machine changes. Else with perf: the share of samples.
# PIPS_PROFILE=perf takes perf where both are there. A run under valgrind takes about fifty times as long as the program alone.
set -eu
top=$(dirname "$(dirname "$(readlink -f "$0")")")
binary=${1:-$top/crates/pips/out/pips}
if [ ! -x "$binary" ]; then
  echo "profile.sh: $binary is not built: ./pips --build builds it" >&2
  exit 1
fi
tool=${PIPS_PROFILE:-}
if [ -z "$tool" ]; then
  if command -v valgrind >/dev/null; then tool=valgrind; elif command -v perf >/dev/null; then tool=perf; fi
fi
place=$(mktemp -d)
trap 'rm -rf "$place"' EXIT
python3 "$top/bench/profile_programs.py" "$place"

# lines with a share in percent and a function, the ten dearest
dearest() {
  case $tool in
    valgrind)
      valgrind --tool=callgrind --callgrind-out-file="$place/out" "$binary" "$1" >/dev/null 2>"$place/said" || true
      callgrind_annotate --show-percs=yes "$place/out" | grep -E '^ *[0-9,]+ +\( *[0-9.]+%\) .*:' | head -10
      ;;
    perf)
      perf record -q -e cpu-clock -o "$place/out" "$binary" "$1" >/dev/null 2>"$place/said" || true
      perf report -i "$place/out" --stdio --no-children -g none 2>/dev/null | grep -E '^ +[0-9.]+%' | head -10
      ;;
    *)
      echo 'profile.sh: neither valgrind nor perf is there' >&2
      exit 1
      ;;
  esac
}

for program in assignments nests calls; do
  echo "== $program"
  dearest "$place/$program.f"
done
