# What the scripts share that run, build and keep the two programs `inet` and `inet_export`: their sources, which program answers, and a call
# without any proof. They source this file; its functions may be called from any folder.
top="$(dirname "$(dirname "$(readlink -f "${BASH_SOURCE[0]}")")")"

# One line on standard error; where that can't be written, nothing changes.
say() {
  echo "${0##*/}: $1" >&2 || true
}

# The crates of these programs: they themselves and all that they use, by crates.txt.
crates_of() {
  local -A uses=() met=()
  local head used crate crates=("$@") i
  while IFS=: read -r head used; do
    if [ -n "$head" ]; then uses[${head%% *}]=$used; fi
  done <"$top/crates.txt"
  for crate in "$@"; do met[$crate]=1; done
  for ((i = 0; i < ${#crates[@]}; i++)); do
    crate=${crates[i]}
    echo "$crate"
    for used in ${uses[$crate]-}; do
      if [ -z "${met[$used]-}" ] && [ -d "$top/crates/$used" ]; then
        met[$used]=1
        crates+=("$used")
      fi
    done
  done
}

# The sources of both programs, in the order of their names, each ended by a zero byte.
source_files() {
  local folders
  mapfile -t folders < <(crates_of inet inet_export)
  (cd "$top/crates" && find "${folders[@]/%//src}" -type f -print0 | LC_ALL=C sort -z)
}

# The sum of these files.
sources() {
  (cd "$top/crates" && xargs -0 sha256sum < <(source_files) | sha256sum | cut -d' ' -f1)
}

# The file that holds the sum of the code, and the sum as it should be there: of the sources without comments, blank lines, tests and this
# file. So it stays where nothing else changes, and with it the bytes of the programs.
stamp=in_version/src/sources.rt
code() {
  (cd "$top/crates" && grep -zvE "^$stamp\$|/tests\.rt\$" < <(source_files) | xargs -0 awk 'FNR == 1 { print FILENAME } !/^[ \t]*(\/\/.*)?$/' | sha256sum | cut -c1-12)
}

# The sum of a file.
sum_of() {
  sha256sum <"$1" | cut -d' ' -f1
}

# What dist/inet.from says of the kept programs: the sum of one, or `sources` or `kit` from which they were made.
kept_from() {
  sed -n "s/^$1 //p" "$top/dist/inet.from"
}

# Where it is noted which program of this name answers, as long as nothing changes on which that rests: so a call needs no sum of the sources.
# The file has the time at which they were looked at.
noted="$top/out/answers"

# Sets `program` to the one that is noted, if there is one and nothing has changed since: no source, no kept and no built program.
choose_noted() {
  local name=$1 note="$noted-$1" part changed
  program=
  if [ ! -s "$note" ]; then return; fi
  for part in crates "crates/$name" "crates/$name/out" "crates/$name/out/$name"; do
    if [ "$top/$part" -nt "$note" ]; then return; fi
  done
  changed="$(find "$top/crates"/*/src "$top/dist" "$top/crates.txt" "$top/tools/programs.sh" -newercm "$note" -print -quit 2>&1)" || return 0
  if [ -z "$changed" ]; then
    program="$(<"$note")"
    if [ ! -x "$program" ]; then program=; fi
  fi
}

# Notes that a program of this name answers, by a look that began at this time. Where that can't be noted, the next call looks again.
note() {
  local name=$1 since=$2 room
  {
    mkdir -p "$top/out" &&
      room="$(mktemp "$noted.XXXXXX")" &&
      echo "$program" >"$room" &&
      touch -d "@$since" "$room" &&
      mv "$room" "$noted-$name"
  } 2>/dev/null || true
}

# Sets `program` to the program of this name that answers: the one that was built here from this code; else the kept one, where it is whole
# and runs on this system, with one line where it is of other sources; else to nothing.
choose() {
  local name=$1 built="$top/crates/$1/out/$1" kept="dist/$1-x86_64-linux"
  # A file may have the time of a clock that is some thousandths of a second late, so that what changes now is newer.
  local since=$((EPOCHSECONDS - 1))
  choose_noted "$name"
  if [ -n "$program" ]; then return; fi
  if [ -x "$built" ] && [ "$("$built" --version 2>/dev/null)" = "$name $(version) ($(code))" ]; then
    program=$built
    note "$name" "$since"
  elif [ ! -e "$top/$kept" ]; then
    :
  elif [ "$(sum_of "$top/$kept")" != "$(kept_from "$name")" ]; then
    say "$kept is damaged or replaced, and isn't run: its sum is not the one in dist/inet.from"
  elif ! "$top/$kept" --version >/dev/null 2>&1; then
    say "$kept doesn't run on this system: see README.md, \"What you need\""
  else
    program="$top/$kept"
    if [ "$(sources)" != "$(kept_from sources)" ]; then
      say "$kept, which answers, was made from other sources than these; ./build proves and builds these"
    else
      note "$name" "$since"
    fi
  fi
}

# The version of both programs.
version() {
  sed -n 's/^pub const VERSION: .*"\(.*\)";$/\1/p' "$top/crates/in_version/src/lib.rt"
}

# Whether large pages pay for these words of `inet`. A run with the usual cells is small, and a short one takes longer with them.
want_large_pages() {
  local words=" $* "
  [[ $words != *" run "* || $words == *" --"*cells[\ =]* ]]
}

# Becomes this program, with these words. Under `set -e` an `exec` that fails would end the script with status 1. The C library is told to ask for
# large pages where they pay, if the variable says nothing else: a net that outgrows the cache takes less time with them (docs/work/SPEED.md).
become() {
  set +e
  if want_large_pages "${@:2}"; then
    export GLIBC_TUNABLES="${GLIBC_TUNABLES-glibc.malloc.hugetlb=1}"
  fi
  shopt -s execfail
  exec "$@"
  exit 70
}

# That `rt` is there, without which nothing is compiled; else the script ends.
need_rt() {
  if ! type -P rt >/dev/null; then
    say "no program here that runs, and to build one needs \`rt\`, the command of the Rattle kit, on the path: see README.md, \"What you need\""
    exit 70
  fi
  say "not built: each call compiles the program anew, without any proof, in 75 seconds or more; ./build proves it and builds it once"
}

# Runs the program of this name with these words, compiled without any proof, and ends the script with its status. `rt try` passes on what
# the program writes, and reports on standard error; its last line says whether the program came to its end: its own failures have statuses
# that are the program's too.
run_unbuilt() {
  local name=$1 said last status=0
  shift
  cd "$top/crates/$name"
  { said="$(rt try -- "$@" 2>&1 >&3)" || status=$?; } 3>&1
  last=${said##*$'\n'}
  if [[ $last != "run=ended status=$status "* ]]; then
    printf '%s\n' "$said" >&2 || true
    say "\`rt try\` did not bring the program to its end"
    exit 70
  fi
  # Its lines on a run that came to its end say no more than the status.
  grep -vxE 'checked: ended status=[0-9]+|races: not looked for, .*|run=ended status=[0-9]+ .*' <<<"$said" >&2 || true
  trap - EXIT
  exit "$status"
}
