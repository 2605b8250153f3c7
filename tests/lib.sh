# For the scripts beside it, which source it. It runs a script's cases, each in a shell and an empty folder of its own, and says
# what each came to. A case is a function named case_..; a script that makes such functions lists their names in `cases`. Its
# function `prepare`, if it has one, runs before the first case. `root` is a folder that is empty at first, for a target.
#
#     tests/SCRIPT              all cases
#     tests/SCRIPT WORD..       the cases whose names hold one of the words; a word that no name holds is an error
#     tests/SCRIPT --list       the names of the cases
#
# The last line is `N passed, N failed`; the status is 1 where one failed, and 2 where a word names none. JOP names another
# program to try than the one that is built here.
# shellcheck shell=bash
# shellcheck disable=SC2034 # what the scripts use

top=$(cd "$(dirname "${BASH_SOURCE[0]}")/.." && pwd) || exit 1
script=$top/tests/$(basename "$0")
program=${JOP:-$top/crates/jop/out/jop}

own=11111111111111111111111111111111
other=22222222222222222222222222222222
third=33333333333333333333333333333333
usage='usage: jop [--profile PATH] COMMAND'

export LC_ALL=C
umask 022
unset CDPATH JOP_PASSWORD JOP_PROFILE JOP_TARGET JOP_TARGET_PASSWORD RT_JOBS

SKIPPED=77

# ---------------------------------------------------------------------------------------------------------- the runner

# run_cases WORD..: the last line of a script.
run_cases() {
  [ -n "${cases+set}" ] || mapfile -t cases < <(sed -n 's/^case_\([a-z0-9_]*\)() {.*$/\1/p' "$script")
  if [ "${1-}" = --list ]; then
    printf '%s\n' "${cases[@]}"
    exit 0
  fi
  names_cases "$@" || exit 2
  work=$(mktemp -d) || exit 1
  trap 'chmod -R u+rwX "$work" 2>/dev/null; rm -rf "$work"' EXIT
  # A program that never ends is stopped.
  limit=()
  has timeout && limit=(timeout -k 1 60)
  if declare -F prepare >/dev/null; then
    prepare
  fi

  local passed=0 failed=0 name
  for name in "${cases[@]}"; do
    is_wanted "$name" "$@" || continue
    run_case "$name"
    case $? in
      0) passed=$((passed + 1)) ;;
      "$SKIPPED") ;;
      *) failed=$((failed + 1)) ;;
    esac
  done
  echo "$passed passed, $failed failed"
  [ "$failed" -eq 0 ]
}

# Whether each word is in the name of a case.
names_cases() {
  local word name
  for word in "$@"; do
    for name in "${cases[@]}"; do
      is_wanted "$name" "$word" && continue 2
    done
    printf 'no case has a name with: %s\n' "$word" >&2
    return 1
  done
}

# is_wanted CASE WORD..: whether its name holds one of the words, or there are none.
is_wanted() {
  local name=$1 word
  shift
  [ $# -eq 0 ] && return 0
  for word in "$@"; do
    [[ $name == *"$word"* ]] && return 0
  done
  return 1
}

# Runs one case, and says what it came to.
run_case() {
  local name=$1 status
  root=$work/$name/target
  mkdir -p "$root" || return 1
  (cd "$work/$name" && "case_$name") >"$work/said" 2>&1 </dev/null
  status=$?
  case $status in
    0) echo "passed: $name$(note)" ;;
    "$SKIPPED") echo "skipped: $name ($(tail -n 1 "$work/said"))" ;;
    *) echo "FAILED: $name" && sed 's/^/    /' "$work/said" ;;
  esac
  chmod -R u+rwX "$work/$name" 2>/dev/null
  rm -rf "${work:?}/$name"
  return "$status"
}

# What a case that passed has to say: its last line that begins with `note: `.
note() { sed -n 's/^note: \(.*\)$/ (\1)/p' "$work/said" | tail -n 1; }

# in_memory KIB: the folders of the cases are in memory, where that has so much room and nothing else is asked for. For runs that flush
# what they have written, which takes a disk longer than the run.
in_memory() {
  local room
  room=$(df --output=avail -k /dev/shm 2>/dev/null | tail -n 1)
  if [ -z "${TMPDIR-}" ] && [ -w /dev/shm ] && [ "${room:-0}" -ge "$1" ]; then
    export TMPDIR=/dev/shm
  fi
}

# find_program: builds the program that is tried, where it isn't built from these sources.
find_program() {
  [ -n "${JOP-}" ] || "$top/scripts/build" || exit 1
  [ -x "$program" ] || { echo "no program to try: $program" && exit 1; }
  program=$(cd "$(dirname "$program")" && pwd)/$(basename "$program")
}

# ---------------------------------------------------------------------------------------- what a case may do and expect

# has COMMAND: whether this machine has it.
has() { command -v "$1" >/dev/null 2>&1; }

fail() { echo "$*" && exit 1; }

needs() { has "$1" || skip "no $1"; }

skip() { echo "$*" && exit "$SKIPPED"; }

# is WHAT WANTED GOT
is() { [ "$2" = "$3" ] || fail "$1: wanted '$2', got '$3'"; }

# same_file WHAT WANTED GOT: both files have the same bytes.
same_file() { cmp -s "$2" "$3" || fail "$1: $(diff "$2" "$3" 2>&1 | head -n 40)"; }

# Runs the program with these words. What it printed stands in the files `out` and `err`.
jop() { "${limit[@]}" "$program" "$@" >out 2>err; }

# expect STATUS OUT ERR WORDS..: the program with these words ends so, having printed exactly these lines, or nothing. An OUT
# of `@FILE` is what that file has.
expect() {
  local status=$1 out=$2 err=$3 got
  shift 3
  jop "$@"
  got=$?
  [ "$got" -eq "$status" ] || fail "jop $*: status $got, not $status; it printed: $(head -c 2000 out err)"
  case $out in
    @*) same_file "jop $*: printed" "${out#@}" out ;;
    *) cmp -s out <(line "$out") || fail "jop $*: printed '$(head -c 2000 out)', not '$out'" ;;
  esac
  cmp -s err <(line "$err") || fail "jop $*: printed '$(cat err)' on standard error, not '$err'"
}

line() { [ -z "$1" ] || printf '%s\n' "$1"; }

# ------------------------------------------------------------------------------------------------ a target that is a folder

# The names of what stands in the target or below, folders aside.
files() { find "$root" -mindepth 1 ! -type d -printf '%P\n' | sort; }

# moment AGE: the moment so many seconds ago, as a time for `touch`. Its nanoseconds end in no whole millisecond.
moment() { echo "@$(($(date +%s) - $1)).123999999"; }

# millis MOMENT: its whole milliseconds since 1970.
millis() { local whole=${1#@} && echo "${whole/./}" | cut -c 1-13; }

# lock NAME MOMENT: a file of the folder `locks`.
lock() { mkdir -p "$root/locks" && touch -d "$2" "$root/locks/$1"; }

# ------------------------------------------------------------------------------------------------- a program that is traced

can_trace() { strace -o /dev/null true 2>/dev/null; }

# calls_of_the_system WORDS..: the calls of the system that the program makes with these words, from the first one on the target
# on, each with its number among those of its name.
calls_of_the_system() {
  strace -o trace "$program" "$@" >out 2>err
  awk -F '(' -v root="$root/" '
    /^[a-z]/ { count[$1]++; if (index($0, root) && $1 != "execve") begun = 1; if (begun) print $1, count[$1] }' trace
}

# What a line of a trace is about: the file that it names, or else the one that it uses.
place_in='function place_in(line) {
  return match(line, /"\/[^"]*"/) || match(line, /<\/[^>]*>/) ? substr(line, RSTART + 1, RLENGTH - 2) : "-" }'

# sorts_of_calls WORDS..: those of them that are the first of their name at their place, ids aside, each with its number among those of
# its name. None of memory, and none that can't fail.
sorts_of_calls() {
  strace -y -o trace "$program" "$@" >out 2>err
  awk -F '(' -v root="$root" "$place_in"'
    /^[a-z]/ {
      count[$1]++
      if (index($0, root "/") && $1 != "execve") begun = 1
      if (!begun || $1 ~ /^(exit|brk|mmap|munmap|mremap|clock_nanosleep|nanosleep)/) next
      place = place_in($0)
      gsub(/[0-9a-f]{32}/, "ID", place)
      if (!(($1, place) in seen)) print $1, count[$1]
      seen[$1, place] = 1
    }' trace
}

# fails_and_is_told CALL NTH ERROR WORDS..: so ends the program with these words if that call of the system fails: as a fault of the
# target, of the tables, of the output or of the random source, as the place is where it was; or well, where nothing rests on it, and
# where the run made fewer calls of that name. What it was stands in `hit` then.
fails_and_is_told() {
  local call=$1 nth=$2 error=$3 status place wanted
  shift 3
  strace -y -o hits -e "inject=$call:error=$error:when=$nth" "$program" "$@" >out 2>err
  status=$?
  place=$(awk "$place_in"'/INJECTED/ { print place_in($0) }' hits)
  hit="$call $nth of $place with $error"
  case $place in
    "$root"*) wanted='9 target fault' ;;
    *.sqlite*) wanted='10 keeper fault' ;;
    */out) wanted='12 output fault' ;;
    *) wanted='14 random source fault' ;;
  esac
  if [ "$status" -eq 0 ]; then
    [ -z "$place" ] || is_harmless "$call" "$place" || fail "$hit is told by nobody"
  else
    is "$hit" "$wanted" "$status $(cat err)"
  fi
  return "$status"
}

# is_harmless CALL PLACE: whether nothing rests on it. What it is for is done or told by another call, or the next run does it, as what
# the database does when it closes its file. A clock of the target that isn't written is made anew.
is_harmless() {
  case $1:$2 in
    close:* | flock:* | fcntl:* | mkdir:* | *:*.sqlite* | write:*.clock.tmp* | statx:*.clock.tmp*'(deleted)') return 0 ;;
  esac
  return 1
}

# ------------------------------------------------------------------------------------ a program that is killed, or has few rights

# killed_after MICROSECONDS WORD..: whether the program with these words, killed so long after its start, was still running. What it
# printed stands in the files `out` and `err`.
killed_after() {
  local pid seconds
  printf -v seconds '0.%06d' "$1"
  shift
  # Behind an ampersand a shell gives nothing to read, unless it is told.
  "$program" "$@" >out 2>err <&0 &
  pid=$!
  pause "$seconds"
  kill -KILL "$pid" 2>/dev/null
  wait "$pid" 2>/dev/null
  [ $? -eq 137 ]
}

# Sets `nobody` to the words that run a program without root's rights, and makes a copy of ours that anyone may run.
finds_nobody() {
  if [ "$(id -u)" -ne 0 ]; then
    nobody=(env)
  elif has setpriv; then
    nobody=(setpriv --reuid=nobody "--regid=$(id -g nobody)" --clear-groups)
  elif has runuser; then
    nobody=(runuser -u nobody --)
  else
    skip 'no setpriv, no runuser'
  fi
  chmod 711 "$work" && cp "$program" jop && chmod 755 jop
  program=$PWD/jop
  "${nobody[@]}" "$program" check mem: "$own" >/dev/null 2>&1 || skip 'nobody can run the program here'
}

# A sleep of a part of a second. It reads what nobody writes, since starting `sleep` would take longer than a check.
pause() { read -rt "$1" <> <(:); }
