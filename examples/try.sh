#!/usr/bin/env bash
# Copies an example into a new folder, changes the copy, and shows each answer and the difference.
#   examples/try.sh                              the shop: runs it, renames a method, moves a type, runs it again, takes the move back, and shows a made program of 200 classes
#   examples/try.sh EXAMPLE FILE OFFSET NAME     a rename in another example (field, parameter, shop)
set -u
top=$(cd "$(dirname "${BASH_SOURCE[0]}")/.." && pwd) || exit 2
if [ $# != 0 ] && { [ $# != 4 ] || [ ! -d "$top/examples/$1" ]; }; then
  sed -n '2,4p' "${BASH_SOURCE[0]}" >&2
  exit 2
fi
example=${1:-shop}
folder=$(mktemp -d) || exit 2
trap 'rm -rf "$folder"' EXIT
cp -r "$top/examples/$example/." "$folder"

# Says what is asked for, and asks for it.
step() {
  printf '$ refactor %s %s\n' "$example" "$*"
  "$top/refactor" "$folder" "$@"
}

difference() { (cd "$folder" && diff -u -r -N -x '.refactor-*' "$top/examples/$example" .); }

if [ $# = 4 ]; then
  step rename "$2" "$3" "$4"
  status=$?
  difference
  exit "$status"
fi

# Byte 45 of shop/Item.java is in the name of its method, byte 32 in its own.
step check || exit
before=$(step run shop.Main 100000) || exit
printf '%s\n' "$before"
step rename shop/Item.java 45 cost || exit
step move shop/Item.java 32 goods || exit
difference
after=$(step run shop.Main 100000) || exit
[ "$before" = "$after" ] || { echo 'the shop runs otherwise than before'; exit 1; }
echo 'the shop prints what it printed before'
step undo || exit
step demo 200
