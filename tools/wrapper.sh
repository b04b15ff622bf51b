#!/usr/bin/env bash
# Tries the script `refactor` over a stub in place of the program, in a small repository made for it: what it builds, passes on, says
# and leaves. The status is 0 where all is as wanted. With a path it tries the program at the path as well. Not part of the gate.
#   tools/wrapper.sh [PROGRAM]
set -u
unset CDPATH
top=$(cd "$(dirname "${BASH_SOURCE[0]}")/.." && pwd) || exit 2
room=$(mktemp -d) || exit 2
trap 'rm -rf "$room"' EXIT
chmod 755 "$room"
repo=$room/repo
program=$repo/crates/refactor/out/refactor
folder=$room/src
export TMPDIR=$room/tmp STUB=$room/stub
failed=0
tried=0

# A repository of one crate, whose program is the stub. It writes what `stub` was given and ends with that status.
make_repo() {
  mkdir -p "$repo/crates/refactor/src" "$repo/docs" "$repo/tools" "$room/bin" "$TMPDIR" "$STUB"
  : >"$STUB/words"
  chmod 777 "$TMPDIR" "$STUB" "$STUB/words"
  cp "$top/refactor" "$repo"
  cp "$top/tools/hints.sh" "$repo/tools"
  cp "$top/crates/refactor/src/main.rt" "$repo/crates/refactor/src"
  cp "$top/docs/COSTS.md" "$repo/docs"
  echo 'refactor:' >"$repo/crates.txt"
  cat >"$room/program" <<'END'
#!/usr/bin/env bash
printf '%s\n' "$@" >"$STUB/words"
cd "${1:-.}" 2>/dev/null && . "$STUB/does"
cat "$STUB/answer" || exit 14
exit "$(cat "$STUB/status")"
END
  chmod 755 "$room/program"
  cat >"$room/bin/rt" <<'END'
#!/usr/bin/env bash
echo 'rt: chose --jobs 1 for refactor'
. "$STUB/builds"
END
  chmod 755 "$room/bin/rt"
  printf '%s\n' '#!/usr/bin/env bash' 'echo "unproved: reading"' '. "$STUB/compiles"' >"$room/bin/python3"
  chmod 755 "$room/bin/python3"
  put_program
}

put_program() { rm -rf "$repo/crates/refactor/out"; mkdir "$repo/crates/refactor/out"; cp "$room/program" "$program"; }

make_folder() {
  rm -rf "$folder"
  mkdir -p "$folder/shop"
  printf 'class A {\n  int \303\244\303\266 = 1; int b;\n}\n' >"$folder/A.java"
  printf 'class B {\r\n  int x;\rint y;\r\n}' >"$folder/shop/B of it.java"
  printf 'class C { }' >"$folder/C.java"
}

# What the stub answers: the status, the bytes of the answer by `printf`, and what it does in the folder.
stub() {
  echo "$1" >"$STUB/status"
  # shellcheck disable=SC2059
  printf "$2" >"$STUB/answer"
  echo "${3-}" >"$STUB/does"
}

# Calls the script, and keeps its streams and status.
call() {
  "$repo/refactor" "$@" >"$room/out" 2>"$room/err"
  status=$?
}

# The same without the rights of the superuser.
call_plainly() {
  if [ "$(id -u)" != 0 ]; then
    call "$@"
  else
    setpriv --reuid=65534 --regid=65534 --clear-groups "$repo/refactor" "$@" >"$room/out" 2>"$room/err"
    status=$?
  fi
}

same() {
  tried=$((tried + 1))
  [ "$2" = "$3" ] && return
  failed=$((failed + 1))
  printf 'not as wanted: %s\n  wanted: %s\n  came:   %s\n' "$1" "$2" "$3"
}

# The status, standard output (by `printf`) and standard error, without the script's name.
wanted() {
  same "$1: status" "$2" "$status"
  # shellcheck disable=SC2059
  same "$1: standard output" "$(printf "$3" | od -c)" "$(od -c <"$room/out")"
  same "$1: standard error" "$4" "$(sed 's/^refactor: //' "$room/err")"
  same "$1: nothing left" '' "$(ls "$TMPDIR")"
}

has() { tried=$((tried + 1)); grep -qF -- "$3" "$2" || { failed=$((failed + 1)); printf 'not as wanted: %s: nowhere: %s\n' "$1" "$3"; cat "$2"; }; }

# An answer with a place, and what is said of it.
place() {
  stub "$1" "$2\n"
  call "$folder" "${4:-rename}" A.java 1 x
  wanted "$2" "$1" "$2\n" "$3"
}

try_texts() {
  stub 9 'not to be run\n'
  call --help
  same 'help: status' 0 "$status"
  has help "$room/out" 'rename FILE OFFSET NAME'
  has help "$room/out" '--dry-run before DIR'
  same 'help: standard error' '' "$(cat "$room/err")"
  call --version
  wanted version 0 'refactor 0.1.0\n' ''
  "$repo/refactor" --help >/dev/full 2>/dev/null
  same 'help, no room: status' 14 $?
}

try_passing() {
  stub 0 'done, files changed: 1\n'
  call "$folder" rename A.java 1 x
  wanted 'a change' 0 'done, files changed: 1\n' ''
  same 'its words' "$folder rename A.java 1 x" "$(tr '\n' ' ' <"$STUB/words" | sed 's/ $//')"
  stub 0 'a\0b\n\n\377 c'
  call "$folder" run A 5
  wanted 'a run with all kinds of bytes' 0 'a\0b\n\n\377 c' ''
  stub 0 '' 'cat; exit 3'
  printf 'from the input' | "$repo/refactor" "$folder" batch >"$room/out" 2>"$room/err"
  status=$?
  wanted 'standard input' 3 'from the input' ''
  stub 0 'done, files changed: 1\n'
  "$repo/refactor" "$folder" undo >/dev/full 2>/dev/null
  same 'an output without room: status' 14 $?
  "$repo/refactor" "$folder" undo <&- >"$room/out" 2>"$room/err"
  status=$?
  wanted 'no standard input' 0 'done, files changed: 1\n' ''
  TMPDIR=$room/none call "$folder" undo
  same 'no temporary folder: status' 0 "$status"
  same 'no temporary folder: standard output' 'done, files changed: 1' "$(cat "$room/out")"
}

try_usage() {
  stub 1 'bad words\n'
  call "$folder" rename A.java x1 y
  wanted 'bad words of a command' 1 'bad words\n' 'usage: DIR rename FILE OFFSET NAME; offsets are in bytes, in digits, at most 4294967295'
  call "$folder" extract A.java 1 2
  wanted 'bad words of another' 1 'bad words\n' 'usage: DIR extract FILE FROM TO NAME; offsets are in bytes, in digits, at most 4294967295'
  call "$folder" run A 10000001
  wanted 'bad words of a run' 1 'bad words\n' 'usage: DIR run CLASS STEPS; STEPS is at most 10000000'
  call "$folder" demo 0
  wanted 'bad words of a demonstration' 1 'bad words\n' 'usage: DIR demo COUNT; COUNT is from 1 to 4000'
  call "$folder" undo now
  wanted 'bad words of an undo' 1 'bad words\n' 'usage: DIR undo'
  call
  wanted 'no words' 1 'bad words\n' 'usage: DIR COMMAND .., with one of the commands rename, move, extract, inline, pullup, delete, repackage, lift, check, undo, batch, run, refs, subtypes, callers, demo; --help says more'
}

try_places() {
  local last='shop/B of it.java'
  place 3 'not compiling: lex BadByte A.java:0' 'A.java:0 is line 1, column 1 (in characters)'
  place 3 'not compiling: parse NoTree A.java:35' 'A.java:35 is line 4, column 1 (in characters)'
  place 3 'not compiling: parse TooDeep C.java:11' 'C.java:11 is line 1, column 12 (in characters)'
  place 3 'not compiling: duplicate A.java:16' 'A.java:16 is line 2, column 7 (in characters)'
  place 3 'not compiling: cycle A.java:10' 'A.java:10 is line 2, column 1 (in characters)'
  place 3 'not compiling: unbound A.java:30' 'A.java:30 is line 2, column 19 (in characters)'
  place 3 "not compiling: rule 24 $last:15" "$last:15 is line 2, column 5 (in characters)"
  place 3 "not compiling: rule 2 $last:20" "$last:20 is line 3, column 1 (in characters)"
  place 3 "not compiling: rule 2 $last:28" "$last:28 is line 4, column 1 (in characters)"
  place 3 'not compiling: path A.java' ''
  place 3 'not compiling: rule 9 prelude' ''
  place 3 'not compiling: unbound A.java:36' ''
  place 3 'not compiling: unbound D.java:0' ''
  place 4 'no spelling: A.java:18' 'A.java:18 is line 2, column 8 (in characters)'
  place 5 "lost edge: control A.java:16 $last:15" "A.java:16 is line 2, column 7 (in characters); $last:15 is line 2, column 5 (in characters)"
  place 5 'lost edge: def-use A.java:30 A.java:16' 'A.java:30 is line 2, column 19 (in characters); A.java:16 is line 2, column 7 (in characters)'
  place 5 'lost edge: dispatch A.java:16 prelude' 'A.java:16 is line 2, column 7 (in characters)'
  place 5 'lost edge: dispatch prelude A.java:16' 'A.java:16 is line 2, column 7 (in characters)'
  place 5 'request 1: lost edge: control A.java:0 C.java:0' 'A.java:0 is line 1, column 1 (in characters); C.java:0 is line 1, column 1 (in characters)' batch
  place 4 'request 2: no spelling: A.java:16' 'A.java:16 is a place in the text that the requests before this one make, which was not written' batch
  place 6 'broken rule: 6 A.java:16' 'A.java:16 is a place in the text that was to be written'
  place 6 'request 3: broken rule: 17 A.java:16' 'A.java:16 is a place in the text that was to be written' batch
  place 13 'still used: C.java:6' 'C.java:6 is line 1, column 7 (in characters)' delete
  place 21 'differs: C.java:6' 'C.java:6 is line 1, column 7 (in characters)'
  place 2 'bad request: 6' ''
  place 12 'no undo: 3 A.java' '' undo
  place 0 'A.java:16' '' run
  stub 0 'prelude\nA.java:16\nA.java:30\nC.java:6\n-- 4\n'
  call "$folder" refs A.java 16
  wanted 'a report' 0 'prelude\nA.java:16\nA.java:30\nC.java:6\n-- 4\n' 'A.java:16 is line 2, column 7 (in characters)
A.java:30 is line 2, column 19 (in characters)
C.java:6 is line 1, column 7 (in characters)'
  head -c 900000 /dev/zero | tr '\0' 'x' >"$folder/Long.java"
  place 3 'not compiling: lex BadByte Long.java:899999' 'Long.java:899999 is line 1, column 900000 (in characters)'
  rm "$folder/Long.java"
}

# A fault of the store over a folder, and what is said of it. With `plainly` not as the superuser.
fault() {
  stub 7 "store fault: $2\n"
  "call${4-}" "$1" check
  wanted "store fault: $2, $3" 7 "store fault: $2\n" "$3"
}

try_faults() {
  fault "$room/none" reading "$room/none: there is no such folder"
  fault "$folder/A.java" recovering "$folder/A.java is no folder"
  fault '' recovering 'the name of the folder is empty'
  fault "$folder" reading "$folder: perhaps it was changed meanwhile, or its disk fails"
  ln -s A.java "$folder/.refactor-gate"
  fault "$folder" recovering "$folder: .refactor-gate is a link"
  rm "$folder/.refactor-gate"
  ln -s C.java "$folder/D.java"
  chmod -R a+w "$folder"
  fault "$folder" writing "$folder: perhaps since D.java is a link or special file" _plainly
  chmod a-w "$folder/C.java"
  fault "$folder" writing "$folder: perhaps since there is no right to write C.java" _plainly
  chmod 000 "$folder/shop"
  fault "$folder" reading "$folder: no right to read shop" _plainly
  chmod 755 "$folder/shop"
  chmod 000 "$folder/A.java"
  fault "$folder" reading "$folder: no right to read A.java" _plainly
  chmod 600 "$folder"
  fault "$folder" reading "$folder: no right to read the folder" _plainly
  chmod 755 "$folder"
  make_folder
  : >"$folder/$(printf 'a\377b')"
  stub 7 'store fault: reading\n'
  call "$folder" check
  wanted 'a name that is no UTF-8' 7 'store fault: reading\n' "$folder: a name is no UTF-8: aM-^?b"
  (cd "$room" && mkdir -p ./-n && ln -sf x ./-n/.refactor-gate && "$repo/refactor" -n check 2>"$room/err" >/dev/null)
  has 'a folder whose name begins with a dash' "$room/err" '.refactor-gate is a link'
  make_folder
}

snapshot() { (cd "$folder" && find . -type f -print0 | sort -z | xargs -0 cksum); }

try_dry_runs() {
  local before at
  before=$(snapshot)
  stub 0 'done, files changed: 3\n' 'echo "class A { }" >A.java; mkdir new; mv C.java new/C.java; echo x >.refactor-journal; : >.refactor-gate'
  call --dry-run "$folder" move C.java 6 new
  same 'a dry run: status' 0 "$status"
  same 'a dry run: first line' 'done, files changed: 3' "$(head -n 1 "$room/out")"
  same 'a dry run: the files' '--- a/A.java
+++ b/A.java
--- a/C.java
+++ b/C.java
--- a/new/C.java
+++ b/new/C.java' "$(grep -aE '^(---|\+\+\+) ' "$room/out" | sed 's/\t.*//')"
  same 'a dry run: standard error' '' "$(cat "$room/err")"
  same 'a dry run: nothing left' '' "$(ls "$TMPDIR")"
  same 'a dry run: the folder' "$before" "$(snapshot)"
  (cd "$room" && "$repo/refactor" --dry-run src move C.java 6 new) >"$room/out"
  cp -R "$folder" "$room/patched"
  (cd "$room/patched" && tail -n +2 "$room/out" | patch -s -p1)
  same 'its difference as a patch' 'class A { }|class C { }' "$(cat "$room/patched/A.java")|$(cat "$room/patched/new/C.java")"
  stub 4 'no spelling: A.java:16\n'
  call --dry-run "$folder" rename A.java 30 x
  wanted 'a dry run of a refusal' 4 'no spelling: A.java:16\n' 'A.java:16 is line 2, column 7 (in characters)'
  stub 7 'store fault: writing\n'
  ln -s A.java "$folder/L.java"
  ln -s nowhere "$folder/M.java"
  mkfifo "$folder/pipe"
  call --dry-run "$folder" rename A.java 30 x
  same 'a dry run with links: standard output' 'store fault: writing
File a/pipe is a fifo while file b/pipe is a fifo' "$(cat "$room/out")"
  has 'a dry run with links' "$room/err" 'perhaps since '
  rm "$folder/L.java" "$folder/M.java" "$folder/pipe"
  chmod 555 "$folder/shop"
  chmod 755 "$folder"
  stub 0 'done, files changed: 0\n'
  call_plainly --dry-run "$folder" rename A.java 30 x
  wanted 'a dry run with a folder that is not to be written' 0 'done, files changed: 0\n' ''
  chmod 755 "$folder/shop"
  call --dry-run "$room/none" check
  wanted 'a dry run without a folder' 66 '' "$room/none is no folder"
  call --dry-run "$folder/A.java" check
  wanted 'a dry run on a file' 66 '' "$folder/A.java is no folder"
  call --dry-run
  wanted 'a dry run of nothing' 64 '' 'usage: --dry-run DIR COMMAND ..'
  TMPDIR=$room/absent call --dry-run "$folder" check
  same 'a dry run without a temporary folder: status' 73 "$status"
  TMPDIR=$folder call --dry-run "$folder" check
  same 'a dry run into the folder itself: status' 73 "$status"
  chmod 000 "$folder/A.java"
  call_plainly --dry-run "$folder" check
  same 'a dry run of what may not be read: status' 73 "$status"
  has 'a dry run of what may not be read' "$room/err" 'no copy could be made'
  chmod 644 "$folder/A.java"
  same 'dry runs: nothing left' '' "$(ls "$TMPDIR")"
  "$repo/refactor" --dry-run "$folder" check >/dev/full 2>/dev/null
  same 'a dry run, no room for the answer: status' 14 $?
  stub 0 '' 'echo new >A.java'
  "$repo/refactor" --dry-run "$folder" check >/dev/full 2>/dev/null
  same 'a dry run, no room for the difference: status' 74 $?
  for at in TERM INT HUP QUIT; do
    interrupt "a dry run stopped by $at" "$at" --dry-run "$folder" check
    interrupt "a run stopped by $at" "$at" "$folder" check
  done
  same 'dry runs: the folder' "$before" "$(snapshot)"
}

# Starts a call whose program sleeps, sends a signal, and looks at what is left. Job control keeps the signal as it is by default.
interrupt() {
  local what=$1 signal=$2 pid
  shift 2
  rm -f "$STUB/pid"
  stub 0 'late\n' 'echo new >new.txt; rm -f new.txt; echo $$ >"$STUB/pid"; exec sleep 60'
  set -m
  "$repo/refactor" "$@" >"$room/out" 2>"$room/err" &
  pid=$!
  set +m
  while [ ! -s "$STUB/pid" ]; do sleep 0.1; done
  kill -s "$signal" "$pid"
  wait "$pid" 2>/dev/null
  status=$?
  same "$what: status" "$((128 + $(kill -l "$signal")))" "$status"
  same "$what: standard output" '' "$(cat "$room/out")"
  same "$what: nothing left" '' "$(ls "$TMPDIR")"
  same "$what: the program" 'ended' "$(kill -0 "$(cat "$STUB/pid")" 2>/dev/null || echo ended)"
}

# What a build says of its time, by docs/COSTS.md.
told_cost() { sed -n "s/^- \\($1 takes .*\\)\$/ \\1 (docs\\/COSTS.md)/p" "$top/docs/COSTS.md"; }

try_builds() {
  export PATH=$room/bin:$PATH
  stub 0 'done, files changed: 0\n'
  rm -rf "$repo/crates/refactor/out"
  # shellcheck disable=SC2016
  echo 'cp "$STUB/../program" "$3"' >"$STUB/compiles"
  call "$folder" undo
  same 'a first build: status' 0 "$status"
  same 'a first build: standard output' 'done, files changed: 0' "$(cat "$room/out")"
  has 'a first build' "$room/err" "with the checks of a run in place of the proofs that \`--prove\` or \`rt ci\` makes.$(told_cost 'The first build of the program')"
  has 'a first build' "$room/err" 'minutes'
  call "$folder" undo
  wanted 'the call after it' 0 'done, files changed: 0\n' ''
  echo '// more' >>"$repo/crates/refactor/src/main.rt"
  call "$folder" undo
  has 'a changed crate' "$room/err" 'a crate that the program stands on has changed'
  # shellcheck disable=SC2016
  echo 'mkdir -p out; cp "$STUB/../program" out/refactor' >"$STUB/builds"
  call --prove
  same 'a proof: status' 0 "$status"
  has 'a proof' "$room/err" "each crate is proved and then compiled.$(told_cost 'A program that is proved first')"
  has 'a proof' "$room/err" 'proved, and built from the sources as they are'
  echo 'exit 1' >"$STUB/compiles"
  call "$folder" undo
  wanted 'a call of the proved program' 0 'done, files changed: 0\n' ''
  call --prove
  same 'a proof that stands: standard error' 'refactor: proved, and built from the sources as they are' "$(cat "$room/err")"
  rm -rf "$repo/crates/refactor/out"
  echo 'echo no; exit 1' >"$STUB/compiles"
  call --dry-run "$folder" undo
  same 'a build that fails: status' 70 "$status"
  rm -f "$TMPDIR"/*
  # shellcheck disable=SC2016
  echo 'echo $$ >"$STUB/pid"; exec sleep 60' >"$STUB/compiles"
  rm -f "$STUB/pid"
  set -m
  "$repo/refactor" "$folder" undo >"$room/out" 2>"$room/err" &
  local pid=$!
  set +m
  while [ ! -s "$STUB/pid" ]; do sleep 0.1; done
  kill -s TERM "$pid"
  wait "$pid"
  same 'a build that is stopped: status' 143 $?
  same 'a build that is stopped: nothing left' '' "$(ls "$TMPDIR")"
  same 'a build that is stopped: rt' 'ended' "$(kill -0 "$(cat "$STUB/pid")" 2>/dev/null || echo ended)"
  put_program
}

# The program itself, on the example of README.md.
try_program() {
  cp "$1" "$program"
  rm -f "$repo/crates/refactor/out/refactor.stamp"
  rm -rf "$folder"
  cp -R "$top/examples/parameter" "$folder"
  call --dry-run "$folder" rename A.java 27 b
  same 'the program: status' 0 "$status"
  has 'the program' "$room/out" 'done, files changed: 1'
  has 'the program' "$room/out" '+class A { static int f(int b) { return b + 1; } }'
  same 'the program: files' 'A.java' "$(ls -A "$folder")"
  call "$folder" rename A.java x b
  wanted 'the program: bad words' 1 'bad words\n' 'usage: DIR rename FILE OFFSET NAME; offsets are in bytes, in digits, at most 4294967295'
  printf 'class A {\n  int x = y;\n}\n' >"$folder/A.java"
  call "$folder" check
  wanted 'the program: a check' 3 'not compiling: unbound A.java:20\n' 'A.java:20 is line 2, column 11 (in characters)'
  call "$room/none" check
  wanted 'the program: no folder' 7 'store fault: reading\n' "$room/none: there is no such folder"
}

make_repo
make_folder
try_texts
try_passing
try_usage
try_places
try_faults
try_dry_runs
try_builds
[ $# = 0 ] || try_program "$1"
echo "$tried things looked at, $failed not as wanted"
[ "$failed" = 0 ]
