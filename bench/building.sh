# Sourced by the scripts that measure by a program of their own over the crates. The program is put into a temporary copy of the
# crates, and proved and built there by `rt run`; the one that PROGRAM names is taken, or kept there once it is built. With BUILD_ONLY
# set, nothing is measured.

# The comment at the script's head.
usage() { sed -n '2,/^[^#]/s/^# //p' "$0"; }

if [ "${1:-}" = --help ]; then
  usage
  exit 0
fi
top=$(cd "$(dirname "${BASH_SOURCE[0]}")/.." && pwd)
rt=${RT:-rt}
programs=$top/bench/programs
# malloc is set as the launcher sets it.
. "$top/tools/starting.sh"
set_malloc
copy=$(mktemp -d)
litter=("$copy")
trap 'rm -rf "${litter[@]}"' EXIT

# take_text NAME: puts the program's text into the copy. It stands in bench/programs, each file by its name in a crate with `.in` behind
# it, since the gate refuses a file of code or of proofs that no crate has.
take_text() {
  local file folder=$copy/crates/$1
  mkdir -p "$folder/proofs"
  echo >"$folder/proofs/Lib.antt"
  while IFS= read -r file; do
    install -D -m 644 "$programs/$1/$file" "$folder/${file%.in}"
  done < <(cd "$programs/$1" && find . -name '*.in')
}

# new_program NAME CRATE..: makes room for the program, which stands on these crates, and takes its text.
new_program() {
  name=$1
  shift
  folder=$copy/crates/$name
  program=${PROGRAM:-$folder/out/$name}
  if [ -x "$program" ]; then return; fi
  tar -C "$top" --exclude=out -cf - crates HANDLES | tar -C "$copy" -xf -
  { cat "$top/crates.txt"; echo "$name: $*"; } >"$copy/crates.txt"
  take_text "$name"
}

# What the prover needs of a function `are_short`, by which a program knows that its texts have at most 65,536 bytes.
prove_are_short() {
  mkdir -p "$folder/proofs/are_short"
  sed "s/PROGRAM/$name/" "$programs/are_short/proofs/are_short/Invariants.antt.in" >"$folder/proofs/are_short/Invariants.antt"
}

build_program() {
  if [ ! -x "$program" ]; then
    (cd "$folder" && $rt run >"$copy/log" 2>&1 </dev/null) || true
    if [ ! -x "$folder/out/$name" ]; then
      tail -n 40 "$copy/log" >&2
      exit 1
    fi
    [ "$program" = "$folder/out/$name" ] || cp "$folder/out/$name" "$program"
  fi
  if [ -n "${BUILD_ONLY:-}" ]; then exit 0; fi
}

# needs_files COUNT WORD..: puts the files that so many words name into `files`, or ends with the usage.
needs_files() {
  count=$1
  shift
  files=()
  if [ -n "${BUILD_ONLY:-}" ]; then return; fi
  for word; do
    if [ -f "$word" ]; then files+=("$(readlink -f "$word")"); fi
  done
  if [ $# -eq "$count" ] && [ ${#files[@]} -eq "$count" ]; then return; fi
  usage >&2
  exit 2
}

# means FILE: of lines that begin with a number of workers and end with microseconds, the mean for each number of workers, and how
# many times as fast four are as one by the means.
means() {
  awk '
    { count[$1]++; sum[$1] += $(NF - 1); all[$1] = all[$1] " " int($(NF - 1) / 1000 + 0.5) }
    END {
      for (workers = 1; workers <= 16; workers++)
        if (workers in count)
          printf "%d workers: %.1f ms in the mean of %d runs (%s)\n", workers, sum[workers] / count[workers] / 1000, count[workers],
            substr(all[workers], 2)
      if (1 in count && 4 in count)
        printf "4 workers are %.2f times as fast as 1, by the means\n", sum[1] / count[1] / (sum[4] / count[4])
    }' "$1"
}
