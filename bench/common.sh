# What the scripts here share; each of them reads this file first.

crates="$(cd "$(dirname "${BASH_SOURCE[0]}")/../crates" && pwd)"

# whether the program of a crate is there, and no file of a crate is newer, as behind the gate
is_built() {
  local built="$crates/$1/out/$1"
  [ -x "$built" ] && [ -z "$(find "$crates" -name out -prune -o -type f -newer "$built" -print -quit)" ]
}

# builds the program of a crate if it isn't built, by a run with the words given, and goes to the crate's folder
build() {
  program=("$crates/$1/out/$1")
  cd "$crates/$1"
  is_built "$1" || rt run -- "${@:2}" >/dev/null
}

# builds the program of benches, by a run of a bench with the words given; from then on it is called with the bench's word
build_bench() {
  build benches "$@"
  program+=("$1")
}

# the milliseconds of the processor that a run of the program with these words takes
taken_by() {
  local TIMEFORMAT=%3U taken
  taken=$({ time "${program[@]}" "$@" >/dev/null; } 2>&1)
  echo $((10#${taken/./}))
}

# what the benchmarks over rows of valves begin with: their folder, the sizes given or these, a folder of their own, which
# goes in the end, and the program
prepare() {
  here="$(cd "$(dirname "$0")" && pwd)"
  sizes="${*:-8 16 32 64 128 256}"
  work="$(mktemp -d)"
  trap 'rm -rf "$work"' EXIT
  build livingstone_cli run absent absent || true
}
