# shellcheck shell=bash
# Sourced by ./explorer and by the command `explorer` of the package: what can be done with it, and how the program is started.

tell_uses() { # NAME
  local name=$1
  cat >&2 <<USES
An opening explorer for chess: what was played in a position, and how those games ended.

  $name count [QUERY] < GAMES         count the games of a file of PGN, and answer a query
  $name create STORE                  make a store, a file that games are kept in
  $name import STORE GAMES            add the games of a file to it
  $name migrate OLD NEW               make a store of one of format 1
  $name query STORE [QUERY]           answer a query over it
  $name batches STORE                 list its batches and their labels
  $name serve STORE ADDRESS [GAMES..] answer over HTTP, and import meanwhile
  $name trial NUMBER SEED             try it on games that are drawn

Three examples:

  $name count 'play=e2e4' < games.pgn

  $name create games.store && $name import games.store games.pgn

  $name serve games.store 127.0.0.1:9000 &
  curl 'http://127.0.0.1:9000/lichess?play=e2e4'

'$name COMMAND --help' has the options of a command, docs/QUERIES.md has ten queries with their answers.
USES
}

# What threads let go is kept for what they ask for next. By glibc's own settings they give it back to the system, and have it cleared
# and handed out anew, for which all threads of a process wait. The most that is held at once is the same. What takes 4 MiB or more at
# once, as the reply to a large request, goes back to the system all the same. Threads share as many heaps as there are processors: more
# would each keep what its threads let go.
set_malloc() {
  export GLIBC_TUNABLES=${GLIBC_TUNABLES-glibc.malloc.mmap_threshold=4194304:glibc.malloc.trim_threshold=1073741824:glibc.malloc.top_pad=4194304:glibc.malloc.arena_max=$(nproc)}
}

# Becomes the program; without words it says what can be done, and ends with status 2.
start() { # NAME PROGRAM WORD...
  local name=$1 program=$2
  shift 2
  if [ $# -eq 0 ]; then
    tell_uses "$name"
    exit 2
  fi
  set_malloc
  exec "$program" "$@"
}
