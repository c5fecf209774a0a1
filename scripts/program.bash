# What the launchers, the gate and the tests share: where the program stands, and of what it was built. To be sourced. The program is mailx, unless who
# sources it has set `built` to another's name; it is the one that was built without proofs, if `tried` is set.
# shellcheck shell=bash
set -o pipefail

top=$(cd "$(dirname "${BASH_SOURCE[0]}")/.." && pwd) || exit 70
built=${built:-mailx}
program=$top/crates/$built/out/${tried:+tried/}$built
stamp=$program.sources

# fail LINE..: says the lines and ends with the status of a program that can't be had
fail() {
  printf 'mailx: %s\n' "$@" >&2
  exit 70
}

# how_many: RT_JOBS, or else a proof for each processor, as far as memory lasts: each takes up to 2.8 GB
how_many() {
  local processors memory
  if [ "${RT_JOBS:-0}" -gt 0 ] 2>/dev/null; then
    echo "$RT_JOBS"
    return
  fi
  processors=$(nproc)
  memory=$(awk '/^MemAvailable:/ { print int($2 / 2800000) }' /proc/meminfo)
  echo $((memory < 1 ? 1 : memory < processors ? memory : processors))
}

# crates_below NAME: the crates of crates.txt that a crate stands on, and itself, each behind those that it stands on
crates_below() {
  awk -v want="$1" '
    { sub(/#.*/, ""); at = index($0, ":"); split(at ? substr($0, 1, at - 1) : $0, head, " ") }
    head[1] { uses[head[1]] = at ? substr($0, at + 1) : " " }
    function visit(name, words, count, k) {
      if (!(name in uses) || seen[name]++) return
      count = split(uses[name], words, " ")
      for (k = 1; k <= count; k++) visit(words[k])
      print name
    }
    END { visit(want) }' "$top/crates.txt"
}

# sum_of_sources: one sum over the name and the content of each file that the program is built from; without proofs that is the code alone
sum_of_sources() {
  local crate parts=(crates.txt)
  cd "$top" || return
  for crate in $(crates_below "$built"); do
    parts+=("crates/$crate/src")
    [ -n "${tried:-}" ] || [ ! -d "crates/$crate/specs" ] || parts+=("crates/$crate/specs")
    [ -n "${tried:-}" ] || [ ! -d "crates/$crate/proofs" ] || parts+=("crates/$crate/proofs")
  done
  find "${parts[@]}" -type f -print0 | LC_ALL=C sort -z | xargs -0 sha256sum | sha256sum
}

# sum_of_program: the sum of the built program, or a failure where there is none
sum_of_program() {
  [ -x "$program" ] && sha256sum <"$program"
}

# toolchain: the version of the toolchain on the PATH. Without one, nothing else can be built, so that of the stamp stands.
toolchain() {
  if command -v rt >/dev/null 2>&1; then
    rt version </dev/null
  else
    sed -n 2p "$stamp"
  fi
}

# is_current: whether the program that stands there was built from these sources, by this toolchain
is_current() {
  [ -x "$program" ] && [ -f "$stamp" ] &&
    [ "$(sum_of_sources && toolchain && sum_of_program)" = "$(cat "$stamp")" ]
}

# write_stamp SUM-OF-SOURCES: notes of what the program that stands there was built; whole or not at all
write_stamp() {
  local version sum
  version=$(rt version </dev/null) && sum=$(sum_of_program) && printf '%s\n' "$1" "$version" "$sum" >"$stamp.new.$$" && mv -f "$stamp.new.$$" "$stamp"
}
