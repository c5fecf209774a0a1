# A sender that is a script, and what is compared of a run that sends. To be sourced by a test that has `program`, `room`, `passed` and `failed`, in the
# folder `room`.
# shellcheck shell=bash disable=SC2154

# same NAME WANTED FOUND
same() {
  if [ "$2" = "$3" ]; then
    passed=$((passed + 1))
  else
    failed=$((failed + 1))
    printf '%s: wanted\n%s\nand found\n%s\n' "$1" "$2" "$3"
  fi
}

# The sender: it notes what it is given, and then carries out the file `how`.
cat >sender <<'SENDER'
#!/bin/sh
cd "$(dirname "$0")" || exit 99
printf '%s\n' "$@" >arguments
cat >message
. ./how
SENDER
chmod +x sender

# What the cases of a test are run with: the words and the input, lines of the start-up file, what the sender does, the environment, and what stands
# in the home folder: files with their bytes, and folders, whose names end in a slash.
words=(-s hi bob@y)
input='yo\n'
rc=
how=
variables=(HOME=. LOGNAME=u TZ=UTC0 MAILX_WAIT=0)
files=()

# anew: a home folder with a start-up file that names the sender, and nothing that was sent
anew() {
  rm -rf home arguments message
  mkdir home
  printf 'set sendmail=%s\n%b' "$room/sender" "$rc" >home/.mailrc
  printf '%b' "$how" >how
  local k
  for ((k = 0; k < ${#files[@]}; k += 2)); do
    case ${files[k]} in
    */) mkdir "home/${files[k]}" ;;
    *) printf %s "${files[k + 1]}" >"home/${files[k]}" ;;
    esac
  done
}

# mailx WORD..: the program in that folder, what it says and its status; what children say of their errors isn't looked at
mailx() {
  (cd home && env -i PATH="$PATH" "${variables[@]}" "$program" -n "$@" 2>../errors; echo "status $?") 2>/dev/null
}

# undated: its input, in which NOW stands for the date of a message and of a From line, where these are well formed and of this year or the next
undated() {
  local day='(Mon|Tue|Wed|Thu|Fri|Sat|Sun)' month='(Jan|Feb|Mar|Apr|May|Jun|Jul|Aug|Sep|Oct|Nov|Dec)' time='[0-9]{2}:[0-9]{2}:[0-9]{2}' year
  year="($(date +%Y)|$(($(date +%Y) + 1)))"
  sed -E "s/^Date: $day, [0-9]{2} $month $year $time [+]0000\$/Date: NOW/; s/^From u $day $month [ 0-9][0-9] $time $year\$/From u NOW/"
}

# given: the sender's arguments in one line, or that it wasn't run
given() {
  if [ -e arguments ]; then tr '\n' ' ' <arguments | sed 's/ $//'; else echo "not run"; fi
}

# stored MESSAGE: a message as it stands in a mailbox
stored() {
  local text
  text=$(printf %s "$1" | sed '1,/^$/!s/^From />From /')
  printf 'From u NOW\n%s\n\n' "$text"
}

# expect NAME STATUS WHAT-IT-SAYS ARGUMENTS MESSAGE [FILE BYTES]..: a run that sends, what the sender was given, and the files that stand then in the
# home folder beside its start-up file
expect() {
  local name=$1 status=$2 said=$3 arguments=$4 message=$5 file named
  shift 5
  declare -A wanted=()
  while [ $# -gt 0 ]; do
    wanted[./$1]=$2
    shift 2
  done
  anew
  same "$name" "$(printf %b "$said"; echo "status $status")" "$(printf %b "$input" | mailx "${words[@]}")"
  same "$name: the sender" "$arguments" "$(given)"
  [ ! -e message ] || same "$name: the message" "$message." "$(undated <message; echo .)"
  while IFS= read -r file; do
    named=$file
    [[ $file != ./.mailx.in.* ]] || named=./.mailx.in.TOKEN
    same "$name: $file" "${wanted[$named]-no such file}." "$(undated <"home/$file"; echo .)"
    unset "wanted[$named]"
  done < <(cd home && find . -type f ! -name .mailx.right ! -name .mailrc)
  same "$name: files that are missing" "" "${!wanted[*]}"
}

# faulted NAME WHAT-IT-SAYS ARGUMENTS: a run that a fault of the disk ends, what the sender was given, and that nothing is left after the next run
faulted() {
  anew
  same "$1" "$(printf %b "$2"; echo "status 5")" "$(printf %b "$input" | mailx "${words[@]}")"
  same "$1: the sender" "$3" "$(given)"
  (cd home && env -i PATH="$PATH" HOME=. LOGNAME=u MAIL=none MAILX_WAIT=0 "$program" -e)
  same "$1: what is left" "" "$(cd home && find . -type f ! -name .mailx.right ! -name .mailrc)"
}

# The message that most cases send, as it stands in a mailbox, what is said of it where it goes to the dead letter, and what stood in a mailbox
# before.
# shellcheck disable=SC2034
yo=$'Date: NOW\nTo: bob@y\nSubject: hi\n\nyo\n'
dead=$(stored "$yo"; echo .)
dead=${dead%.}
# shellcheck disable=SC2034
letter='"./dead.letter" [Dead] 1\n'
# shellcheck disable=SC2034
old=$'From z@z Mon Jan  1 09:00:00 2024\n\nold\n\n'

# read_again: the fields of the message as Python's library reads them, and what is wrong with it
read_again() {
  python3 - <<'PYTHON'
import datetime
import email
import email.policy

with open("message", "rb") as file:
    message = email.message_from_binary_file(file, policy=email.policy.default)
age = datetime.datetime.now(datetime.timezone.utc) - message["Date"].datetime
print("now" if abs(age.total_seconds()) < 3600 else message["Date"])
for name in message.keys():
    value = message[name]
    if name in ("To", "Cc", "From"):
        print(name, *(f"{it.display_name}|{it.addr_spec}" for it in value.addresses))
    elif name != "Date":
        print(name, value)
print(message.get_content(), end="")
print([type(it).__name__ for it in message.defects] + [type(it).__name__ for name in message.keys() for it in message[name].defects])
PYTHON
}
