# shellcheck shell=bash
# For the scripts at the root, which source it and set top: one line where something fails, proving only after a change, and the kit's tools.
# shellcheck disable=SC2154

# The crate of the C functions.
# shellcheck disable=SC2034
c_crate=capi

# fail TEXT: ends the command with status 2 and one line that says what failed.
fail() {
  printf '%s: %s\n' "${0##*/}" "$1" >&2
  exit 2
}

# print TEXT: where standard output does not take it, a reader that has gone included, the command fails.
print() {
  trap '' PIPE
  printf '%s\n' "$1" 2>/dev/null || fail 'standard output could not be written'
}

# offer_help WORD..: where the only word is --help, prints the comment at the head of the command and ends it.
offer_help() {
  if [ "$*" = --help ]; then
    print "$(sed -n '2,/^[^#]/s/^# //p' "$0")"
    exit 0
  fi
}

unknown() { # WORD..
  fail "it does not know what to do with '$*' (--help says what it takes)"
}

# memory CRATE: the file that has how many seconds its first run took last on this machine, for this user: it outlives a clone.
memory() {
  printf '%s/gearcard/first-run-%s' "${XDG_CACHE_HOME:-${HOME:-/nonexistent}/.cache}" "$1"
}

# expected CRATE: how long its first run will take, from what it took last, or 3 minutes.
expected() {
  local seconds=
  { read -r seconds <"$(memory "$1")"; } 2>/dev/null
  [[ $seconds =~ ^[1-9][0-9]{0,4}$ ]] || seconds=180
  if [ "$seconds" -lt 60 ]; then printf '%d s' "$seconds"; else printf '%d min' $(((seconds + 30) / 60)); fi
}

# remember CRATE SECONDS: where it cannot be kept, it is not.
remember() {
  local file
  file=$(memory "$1")
  [ "$2" -eq 0 ] || { mkdir -p "${file%/*}" && printf '%d\n' "$2" >"$file"; } 2>/dev/null || true
}

# progress CRATE LOG [EXPECTED]: how far rt is with CRATE and the crates below it, by what it has printed, and of a first run how long it will take. rt proves
# one crate after the other, the lowest first, and names each as it begins; what it finds built it passes over.
progress() {
  awk -v crate="$1" -v seconds="$SECONDS" -v expected="${3-}" '
    function visit(name,   below, n, k) {
      if (name in seen) return
      seen[name]
      n = split(uses[name], below, " ")
      for (k = 1; k <= n; k++) if (below[k] in uses) visit(below[k])
      order[++all] = name
    }
    FILENAME == ARGV[1] { sub(/#.*/, ""); if (split($0, half, ":") == 2) { split(half[1], head, " "); uses[head[1]] = half[2] } next }
    /^rt: chose --jobs [0-9]+ for / { begun = $NF }
    /^crate [^ ]+: modules / { read = substr($2, 1, length($2) - 1) }
    /^logic=proved / { proved[read] }
    END {
      visit(crate)
      if (begun in seen) for (k = 1; order[k] != begun; k++) proved[order[k]]
      for (k = 1; k <= all; k++) if (order[k] in proved) done++; else if (now == "") now = order[k]
      printf "%s: %d of %d proved, ", now == "" ? "building " crate : "proving " now, done, all
      if (seconds >= 60) printf "%d min ", seconds / 60
      printf "%d s", seconds % 60
      if (expected != "") printf " of about %s", expected
    }' "$top/crates.txt" "$2"
}

# show_progress CRATE LOG [EXPECTED]: rewrites one line on the terminal each second, until standard input ends, and leaves nothing of it.
show_progress() {
  local columns line
  trap '' INT
  while :; do
    columns=$(stty size <&2 2>/dev/null)
    columns=${columns#* }
    [ "${columns:-0}" -gt 0 ] || columns=80
    line=$(progress "$@" 2>/dev/null)
    printf '\r%s\033[K' "${line:0:columns-1}" >&2
    read -rt 1 _
    [ $? -gt 128 ] || break
  done
  printf '\r\033[K' >&2
}

# below CRATE: the crates below it, each on a line.
below() {
  awk -v crate="$1" '
    { sub(/#.*/, ""); if (split($0, half, ":") == 2) { split(half[1], head, " "); uses[head[1]] = half[2] } }
    END {
      todo[1] = crate; n = 1
      for (i = 1; i <= n; i++) {
        count = split(uses[todo[i]], each, " ")
        for (k = 1; k <= count; k++) if (each[k] in uses && !(each[k] in seen)) { seen[each[k]]; todo[++n] = each[k]; print each[k] }
      }
    }' "$top/crates.txt"
}

# ready CRATE: the libraries below it stand there, built since any crate changed: as rt ci leaves them.
ready() {
  local name
  for name in $(below "$1"); do current "$top/crates/$name/out/rlib/$name.rlib" || return 1; done
}

# prove CRATE COMMAND..: the command, in the crate's folder, which proves and builds it. What it prints is shown only where it fails. In a subshell, so that the
# trap is its own.
prove() (
  crate=$1 will_take=() begun=$SECONDS
  shift
  # A first run: nothing of it is proved here yet.
  [ -d "$top/crates/$crate/out" ] || will_take=("$(expected "$crate")")
  log=$(mktemp) || exit 2
  take_back() {
    exec {line}>&-
    wait
  }
  trap 'take_back; rm -f "$log"' EXIT
  # An interrupt by itself would not wait until the line is gone.
  trap 'take_back; rm -f "$log"; trap - EXIT INT; kill -s INT "$BASHPID"' INT
  if [ -t 2 ]; then exec {line}> >(show_progress "$crate" "$log" "${will_take[@]}"); else exec {line}>/dev/null; fi
  if ! (cd "$top/crates/$crate" && "$@") </dev/null >"$log" 2>&1 {line}>&-; then
    take_back
    printf '%s: %s is not proved and built; rt says:\n' "${0##*/}" "$crate" >&2
    cat "$log" >&2
    exit 2
  fi
  [ "${#will_take[@]}" -eq 0 ] || remember "$crate" $((SECONDS - begun))
)

# up_to_date FILE PART..: FILE is there, and no part, nor a file below one, is newer.
up_to_date() {
  [ -e "$1" ] && [ -z "$(find "${@:2}" -newer "$1" -print -quit)" ]
}

# take_turn, end_turn: of all that make something in this folder one does at a time, so that it is made once. The lock is on the folder of the crates, which
# whoever can read it can open, and goes with the process that has it; where a file system has no such lock, each makes its own.
turn=
take_turn() {
  exec {turn}<"$top/crates" || exit 2
  if flock -n "$turn" 2>/dev/null; then return 0; fi
  [ ! -t 2 ] || printf '\r%s\033[K' 'another command is proving and building here' >&2
  flock "$turn" 2>/dev/null
  [ ! -t 2 ] || printf '\r\033[K' >&2
}
end_turn() {
  exec {turn}<&-
}

# current FILE: FILE is there, and nothing that a proof reads is newer: no file of a crate, nor a folder of them, but for what rt makes in out/.
current() {
  [ -e "$1" ] && [ ! "$top/crates.txt" -nt "$1" ] && [ -z "$(find "$top/crates" -mindepth 2 -name out -prune -o -newer "$1" -print -quit)" ]
}

# proved FILE CRATE COMMAND..: the command proves CRATE and makes FILE, where that is missing or older than the crates.
proved() {
  local file=$1 begun
  shift
  if current "$file"; then return 0; fi
  take_turn
  # Another has made it meanwhile.
  if current "$file"; then
    end_turn
    return 0
  fi
  find_kit
  begun=$(date +%s.%N)
  prove "$@" || exit 2
  # Dated from the start, so that what is edited while rt proves counts as a change.
  touch -cd "@$begun" "$file" || exit 2
  end_turn
}

# by_apt WORD..: apt-get, which is tried again while another package manager has its lock, for ten minutes (or as many seconds as APT_WAIT says). What it says,
# the errors above all, is kept in $said.
by_apt() {
  local until=$((SECONDS + ${APT_WAIT:-600}))
  while ! said=$(DEBIAN_FRONTEND=noninteractive apt-get "$@" 2>&1); do
    [[ $said == *'Could not get lock'* || $said == *'Unable to acquire the dpkg frontend lock'* || $said == *'Unable to lock'* ]] || return 1
    [ "$SECONDS" -lt "$until" ] || return 1
    sleep "${APT_PAUSE:-5}"
  done
}

# needs COMMAND PACKAGE..: from Debian's packages, where the command is missing. Where several ask, they are installed one after the other. Says which package
# could not be had, and apt's first word why.
needs() (
  command=$1 said='' missing=()
  shift
  if command -v "$command" >/dev/null; then return 0; fi
  if command -v apt-get >/dev/null && command -v flock >/dev/null && exec 9>"${TMPDIR:-/tmp}/gearcard-needs" && flock 9; then
    if command -v "$command" >/dev/null; then return 0; fi
    if by_apt update && by_apt install -y --no-install-recommends "$@" &&
      { [[ $command == *' '* || $command == /* ]] || command -v "$command" >/dev/null; }; then
      return 0
    fi
  fi
  for package; do
    [ "$(dpkg-query -W -f '${db:Status-Status}' "$package" 2>/dev/null)" = installed ] || missing+=("$package")
  done
  [[ $said =~ (^|$'\n')'E: '([^$'\n']*) ]] && said="; ${BASH_REMATCH[2]}" || said=
  printf '%s is missing, and of its packages (%s) could not be had: %s%s\n' "$command" "$*" "${missing[*]:-none, but it is in none of them}" "$said" >&2
  return 1
)

# find_kit: sets kit to the kit's folder, and tools to the folder of its tools. rt stands in the kit's bin/; only where it does not, as where a script stands
# for it, is it asked, since that takes longer than all that ./gearcard does.
# shellcheck disable=SC2034
kit='' tools=''
find_kit() {
  [ -z "$tools" ] || return 0
  kit=$(command -v rt) || fail 'the Rattle kit is missing: there is no command rt'
  kit=$(readlink -f "$kit")
  kit=${kit%/bin/rt}
  [ -d "$kit/toolchain" ] || kit=$(dirname "$(rt doc)")
  tools=$kit/toolchain
  [ -d "$tools" ] || fail "the Rattle kit is missing: there is no folder $tools"
}
