# A terminal that a test types into, whose screen it compares with what is wanted. To be sourced by a test that has `room`, `passed` and `failed`.
# shellcheck shell=bash

# shellcheck disable=SC2154
tmux=(tmux -S "$room/tmux" -f /dev/null)

# what runs in the terminal, and what is to stand on its screen
name=
wanted=

# trimmed: its input without blanks at the ends of lines
trimmed() {
  sed 's/ *$//'
}

# How many seconds a screen is waited for
patience=60

# look WHAT: the screen is as wanted, at the latest after that time
look() {
  local found lines end=$((SECONDS + patience))
  lines=$(printf %s "$wanted" | trimmed)
  while [ "$SECONDS" -le "$end" ]; do
    found=$("${tmux[@]}" capture-pane -p -t mail | trimmed)
    [ "$found" != "$lines" ] || { passed=$((passed + 1)); return; }
    sleep 0.02
  done
  failed=$((failed + 1))
  printf '%s: %s: wanted\n%s\nand found\n%s\n' "$name" "$1" "$lines" "$found"
}

# in_terminal NAME SCREEN WORD..: a command in a terminal, in the folder `home`, and what stands on the screen then; its status stands there at its
# end. The server stays when a terminal is closed, since a new one could still meet a server that ends.
in_terminal() {
  local words
  name=$1
  wanted=$2
  shift 2
  "${tmux[@]}" kill-session -t mail 2>/dev/null
  printf -v words ' %q' "$@"
  "${tmux[@]}" new-session -d -s mail -x 80 -y 50 "cd home;$words; echo \"status \$?\"; read -r line" ';' set-option -g exit-empty off
  look "at the start"
}

# typed LINE WHAT-FOLLOWS: the line is typed behind what stands last, and this stands below it then
typed() {
  wanted+=$1$'\n'$2
  "${tmux[@]}" send-keys -t mail -l -- "$1"
  "${tmux[@]}" send-keys -t mail Enter
  look "$1"
}

# ended WHAT-FOLLOWS: the end of the input is typed, and this stands behind what stands last
ended() {
  wanted+=$1
  "${tmux[@]}" send-keys -t mail C-d
  look "the end of the input"
}
