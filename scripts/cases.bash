# What tests of the built program share: the program (the one that MAILX_PROGRAM names, or else the built one), a room of their own, and a home folder
# in it, with what is run there and what is compared. Where the test may, it begins anew with mounts of its own, and the room is in memory, so that a
# disk that is busy doesn't slow it. To be sourced by a test, which ends by `ended_well`.
# shellcheck shell=bash disable=SC2034
export LC_ALL=C
if [ -z "${MAILX_APART:-}" ] && unshare -m true 2>/dev/null; then
  MAILX_APART=1 exec unshare -m "$0" "$@"
fi
test_name=tests/${0##*/}
top=$(cd "$(dirname "${BASH_SOURCE[0]}")/.." && pwd) || exit 1
program=${MAILX_PROGRAM:-$top/crates/mailx/out/mailx}
[ -n "${MAILX_PROGRAM:-}" ] || "$top/scripts/build" || exit 1
room=$(mktemp -d) || exit 1
room=$(cd "$room" && pwd -P) || exit 1
home=$room/home
trap 'cd / && { umount -l "$room" 2>/dev/null; rm -rf "$room"; }' EXIT
[ -z "${MAILX_APART:-}" ] || mount -t tmpfs -o size=1g tmpfs "$room" 2>/dev/null
cd "$room" || exit 1
chmod 755 .
passed=0
failed=0

# skipped WHAT: says what isn't tried on this machine
skipped() {
  echo "$test_name: not tried here: $1"
}

# ended_well: says how many cases passed, and fails where one did not
ended_well() {
  echo "$passed passed, $failed failed"
  [ "$failed" = 0 ]
}

# same NAME WANTED FOUND
same() {
  if [ "$2" = "$3" ]; then
    passed=$((passed + 1))
  else
    failed=$((failed + 1))
    printf '%s: wanted\n%.3000s\nand found\n%.3000s\n' "$1" "$2" "$3"
  fi
}

# tick: waits until what changes now has a later time than what changed before. Systems stamp files by a clock that moves in steps.
tick() {
  local before
  echo >"$room/.tick"
  before=$(stat -c %z "$room/.tick")
  until [ "$(stat -c %z "$room/.tick")" != "$before" ]; do echo >"$room/.tick"; done
}

# look_at_clock: the hundredths of a second since the machine began, in `now`
look_at_clock() {
  read -r now _ </proc/uptime
  now=${now/./}
}

# lasts LEAST MOST COMMAND..: in `lasted`, whether the command is in time: it takes these milliseconds at least, and in one of ten tries these at most, since
# the machine may be slow for a while, or held up by others
lasts() {
  local least=$1 most=$2 k began now
  shift 2
  for k in {1..10}; do
    look_at_clock
    began=$now
    "$@"
    look_at_clock
    lasted=$(((now - began) * 10))
    if [ $((lasted + 10)) -lt "$least" ]; then break; fi
    if [ "$lasted" -le "$most" ]; then
      lasted="in time"
      return
    fi
  done
  lasted="after $lasted ms"
}

# letter SUBJECT: a message
letter() {
  printf 'From cat@z Wed Jan  3 12:00:00 2024\nFrom: cat@z\nSubject: %s\n\ntext of %s\n\n' "$1" "$1"
}

# anew: a home folder with the mailbox `box` of two messages, `one` and `two`, and the file `kept` with one, `old`
anew() {
  rm -rf "$home"
  mkdir "$home"
  cp "$top/examples/two.mbox" "$home/box"
  letter old >"$home/kept"
}

# What the program is run under, its environment beside the home folder, its system mailbox, and the folder that it is run in
under=()
variables=(LOGNAME=u TZ=UTC0 MAILX_WAIT=0)
mail=$home/none
where=$home

# apart: takes what a run said of what stands of a change that failed out of the file `errors`, into `stands`
stood='^mail(x|_deliver): .*\.commit: (nothing was decided|an earlier [a-z]+ isn.t settled yet|(the|whether the) [a-z]+ was decided)'
apart() {
  stands=$(grep -E "$stood" errors | sed 's/.*\.commit: //')
  sed -i -E "/$stood/d" errors
}

# mailx WORD..: the program over the file `in`; what it says stands in `said`, what it says of faults in `why`, of what stands of a change that failed
# in `stands`, and its status in `status`
mailx() {
  # A shell says of a child that it was killed.
  {
    (cd "$where" && exec timeout -k 5 300 env -i PATH="$PATH" HOME="$home" MAIL="$mail" "${variables[@]}" "${under[@]}" "$program" "$@") <in >out 2>errors
    status=$?
  } 2>/dev/null
  said=$(cat out)
  apart
  why=$(cat errors)
}

# session FILE LINE..: lines over a mailbox
session() {
  local file=$1
  shift
  printf '%s\n' "$@" >in
  mailx -nN -f "$file"
}

# whys: what was said of faults, in which names stand as they do in the home folder
whys() {
  sed -E "/$stood/d; s#$home/##g; s#mailx: \\./#mailx: #" errors
}

# fault NAME STATUS WHAT-IT-SAYS WHY: how the last run ended
fault() {
  same "$1" "$(printf %b "$3")|status $2|$4" "$said|status $status|$(whys)"
}

# kinds FILE..: what stands there
kinds() {
  (cd "$home" && stat -c '%N %F' "$@" 2>&1)
}

# standing: which locks, staged files, records and inputs of children stand in the home folder
standing() {
  (cd "$home" && find . \( -name '*.lock' -o -name '*.mx????????????????' -o -name '.mailx.commit*' -o -name '.mailx.in.*' \) | sort | paste -sd ' ')
}

# counted FILE..: each mailbox of the home folder with the subjects of its messages, as another program finds them: a line that begins with `From ` is
# a message's first, at the start of the file or behind an empty line
counted() {
  (cd "$home" && for file; do
    printf '%s:%s\n' "$file" "$(awk '
      /^From / && (NR == 1 || before == "") { first = 1 }
      first && /^Subject: / { printf " %s", substr($0, 10); first = 0 }
      { before = $0 }' "$file")"
  done)
}

# works NAME: the next run, in another folder, finds mail and says nothing; a session then copies and leaves; nothing is left standing
works() {
  local name=$1 where=/ mail=$home/box
  : >in
  mailx -ne
  same "$name: the next run" "|status 0|" "$said|status $status|$why"
  session "$home/box" "copy 1 $home/again" x
  same "$name: a session then" "\"$home/again\" [Appended] 1|status 0|" "$said|status $status|$why"
  same "$name: what is left standing" "" "$(standing)"
}
