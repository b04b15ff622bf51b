#!/usr/bin/env bash
# Tries the edits that the gate does not try: crates/CRATE/edits/*.edit. The prover must refuse each.
#
#   tools/edits.sh CRATE..        those of these crates
#   tools/edits.sh --since REV    those of the crates whose files changed since that commit
#   tools/edits.sh                likewise, since the commit before the last one
#
# They are copied to crates/CRATE/must-fail for the time of `rt must-fail` and taken back whatever happens. The status is 0
# where each was refused, 1 where one was not or could not be tried, and 64 where the words are wrong.
set -u
top=$(cd "$(dirname "${BASH_SOURCE[0]}")/.." && pwd) || exit 64
cd "$top" || exit 64

say() { printf 'edits: %s\n' "$*" >&2; }

since=HEAD~1
crates=()
while [ $# -gt 0 ]; do
  case $1 in
    --since)
      [ $# -gt 1 ] || { say "--since wants a commit"; exit 64; }
      since=$2
      shift 2
      ;;
    -*)
      say "no such word: $1"
      exit 64
      ;;
    *)
      [ -d "crates/$1" ] || { say "no such crate: $1"; exit 64; }
      crates+=("$1")
      shift
      ;;
  esac
done

# The crates whose code, specs, proofs or edits changed since the commit, those with files that git does not know yet among them.
changed() {
  { git diff --name-only "$since" -- crates && git ls-files --others --exclude-standard -- crates; } | cut -d/ -f2 | sort -u
}

if [ ${#crates[@]} = 0 ]; then
  git rev-parse --quiet --verify "$since^{commit}" >/dev/null || { say "no such commit: $since"; exit 64; }
  mapfile -t crates < <(changed)
fi

copied=()
made=()
log=
back() {
  [ ${#copied[@]} = 0 ] || rm -f -- "${copied[@]}"
  [ ${#made[@]} = 0 ] || rmdir -- "${made[@]}" 2>/dev/null
  [ -z "$log" ] || rm -f -- "$log"
}
trap back EXIT
trap 'exit 130' INT
trap 'exit 143' TERM HUP

# Copies the edits of a crate. Fails where one of the same name stands in must-fail already.
copy() {
  local edit to
  if [ ! -d "crates/$1/must-fail" ]; then
    made+=("crates/$1/must-fail")
    mkdir "crates/$1/must-fail" || return 1
  fi
  for edit in "crates/$1"/edits/*.edit; do
    to=crates/$1/must-fail/${edit##*/}
    [ ! -e "$to" ] || { say "$to stands already"; return 1; }
    copied+=("$to")
    cp -- "$edit" "$to" || return 1
  done
}

names=()
for crate in ${crates[@]+"${crates[@]}"}; do
  compgen -G "crates/$crate/edits/*.edit" >/dev/null || continue
  copy "$crate" || exit 1
  names+=("$crate")
done
if [ ${#names[@]} = 0 ]; then
  say "0 edits: none of these crates has a folder edits"
  exit 0
fi

log=$(mktemp) || exit 1
say "trying ${#copied[@]} edits of ${names[*]}"
rt must-fail "${names[@]}" 2>&1 | tee "$log"
status=${PIPESTATUS[0]}
refused=0
for edit in "${copied[@]}"; do
  crate=${edit#crates/}
  grep -qF "must-fail ${crate%%/*}/${edit##*/}: refused, as it must be" "$log" && refused=$((refused + 1))
done
say "$refused of ${#copied[@]} refused"
[ "$refused" = ${#copied[@]} ] || exit 1
[ "$status" = 0 ] || exit 1
