# shellcheck shell=bash
# Sourced by ./explorer and tools/package: which crates the program stands on, and whether it is as new as their sources.

# The lines of TOP/crates.txt of the crates that the program stands on, and that of the program behind them.
find_crates() { # TOP
  sed -e 's/#.*//' -e '/:/!d' "$1/crates.txt" | awk '
    { name = $1; sub(/:.*/, "", name); line[name] = $0; sub(/^[^:]*:/, ""); below[name] = $0 }
    function walk(name,   names, count, i) {
      if (!(name in line) || name in found) return
      found[name]
      count = split(below[name], names, " ")
      for (i = 1; i <= count; i++) walk(names[i])
      print line[name]
    }
    END { walk("explorer") }'
}

# A source that was changed or added is newer than the program, and so is the folder of one that was deleted.
find_newer() { # TOP PROGRAM CRATE...
  local top=$1 program=$2 crate sources=("$1/crates.txt")
  shift 2
  for crate in "$@"; do sources+=("$top/crates/$crate"/{src,specs,proofs}); done
  # Not each crate has all three.
  find "${sources[@]}" -newer "$program" -print -quit 2>/dev/null || true
}

is_current() { # TOP PROGRAM CRATE...
  [ -x "$2" ] && [ -z "$(find_newer "$@")" ]
}
