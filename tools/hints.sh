# shellcheck shell=bash
# What helps to read an answer of the program, told on standard error. Read by the script `refactor`, whose functions it uses.

# The usage of the command, or of all where there is no such command.
usage() {
  text_of HELP | COMMAND=$1 awk '
    /^  [a-z]/ {
      words = $1
      for (i = 2; i <= NF && $i ~ /^[A-Z]+$/; i++) words = words " " $i
      if ($1 == ENVIRON["COMMAND"]) found = words
      all = all (all == "" ? "" : ", ") $1
    }
    END {
      if (found == "") { print "usage: DIR COMMAND .., with one of the commands " all "; --help says more"; exit }
      note = found ~ / (OFFSET|FROM)/ ? "; offsets are in bytes, in digits, at most 4294967295" : ""
      if (found ~ / STEPS/) note = "; STEPS is at most 10000000"
      if (found ~ / COUNT/) note = "; COUNT is from 1 to 4000"
      print "usage: DIR " found note
    }
  '
}

# The line and column, from 1, of each place in an answer, or in each line of a report ($3), in the files of a folder. Lines end as
# in JLS 3.4. A place in text that was not written cannot be shown.
locate() {
  FOLDER=$1 LC_ALL=C awk -v is_report="$3" '
    function open_file(name,  got) {
      if (file != "") close(path)
      file = name; path = ENVIRON["FOLDER"] "/" name
      start = 0; line = 1; text = ""
      got = (getline text < path)
      is_last = got <= 0
      is_readable = got >= 0
    }
    function next_line(  ended) {
      ended = text; sub(/\r$/, "", ended)
      line += 1 + gsub(/\r/, "", ended)
      start += length(text) + 1
      text = ""
      if ((getline text < path) <= 0) is_last = 1
    }
    function shown(place,  at, name, parts, n, before) {
      if (place !~ /\.java:[0-9]+$/) return ""
      match(place, /:[0-9]+$/)
      name = substr(place, 1, RSTART - 1); at = substr(place, RSTART + 1) + 0
      if (unwritten != "") return place " is a place in " unwritten
      if (name != file || at < start) open_file(name)
      while (!is_last && at > start + length(text)) next_line()
      if (!is_readable || at > start + length(text)) return ""
      n = split(substr(text, 1, at - start), parts, /\r/)
      before = n > 0 ? parts[n] : ""
      gsub(/[\200-\277]/, "", before)
      return place " is line " (n > 1 ? line + n - 1 : line) ", column " (length(before) + 1) " (in characters)"
    }
    function tell(said) { if (said != "") print "refactor: " said }
    is_report { tell(shown($0)); next }
    {
      if (match($0, /^request [0-9]+: /)) {
        if (substr($0, 9) + 0 > 1) unwritten = "the text that the requests before this one make, which was not written"
        $0 = substr($0, RLENGTH + 1)
      }
      if ($0 ~ /^broken rule: /) unwritten = "the text that was to be written"
      if (!sub(/^(not compiling: ((lex|parse|rule) [A-Za-z0-9]+|duplicate|cycle|unbound)|no spelling:|still used:|differs:|broken rule: [0-9]+|lost edge: [a-z-]+) /, "")) exit
      if (match($0, /\.java:[0-9]+ /)) {
        end = RSTART + RLENGTH
        first = shown(substr($0, 1, end - 2)); second = shown(substr($0, end))
        tell(first (first == "" || second == "" ? "" : "; ") second)
      } else {
        sub(/^prelude /, "")
        tell(shown($0))
      }
      exit
    }
  ' "$2" >&2
}

# The first entry below a folder that the tests of `find` tell.
first_below() {
  (cd "$1" && shift && find . "$@" -print -quit 2>/dev/null | sed 's,^\./,,')
}

# Why all of a folder cannot be read, as far as tests tell.
why_unread() {
  local found own
  found=$(first_below "$1" \( -type d \( ! -readable -o ! -executable \) -o -type f \( -name '*.java' -o -path './.refactor-*' \) ! -readable \))
  [ -n "$found" ] && { say "$2: no right to read $found"; return; }
  for own in .refactor-gate .refactor-journal; do
    [ -L "$1/$own" ] && { say "$2: $own is a link"; return; }
  done
  found=$(cd "$1" && find . 2>/dev/null | LC_ALL=C.UTF-8 grep -axv -m 1 '.*' | sed 's,^\./,,' | LC_ALL=C cat -v)
  [ -n "$found" ] && { say "$2: a name is no UTF-8: $found"; return; }
  return 1
}

# What perhaps keeps a folder from being written.
why_unwritten() {
  local found left
  found=$(first_below "$1" \( -type d -o -type f \( -name '*.java' -o -path './.refactor-*' \) \) ! -writable)
  [ -n "$found" ] && { say "$2: perhaps since there is no right to write $found"; return; }
  left=$(df -Pk "$1" 2>/dev/null | awk 'NR == 2 { print $4 }')
  [ "${left:-65536}" -lt 65536 ] && { say "$2: perhaps since its disk has no room: $left KiB are left"; return; }
  found=$(first_below "$1" ! -type d ! -type f)
  [ -n "$found" ] && { say "$2: perhaps since $found is a link or special file"; return; }
  return 1
}

# The cause of a fault of the store over a folder, by what it is called and the phase of the fault.
explain() {
  if [ -z "$1" ]; then say "the name of the folder is empty"
  elif [ ! -e "$1" ]; then say "$2: there is no such folder"
  elif [ ! -d "$1" ]; then say "$2 is no folder"
  elif [ ! -r "$1" ] || [ ! -x "$1" ]; then say "$2: no right to read the folder"
  elif [ "$3" != writing ] && why_unread "$1" "$2"; then :
  elif [ "$3" != reading ] && why_unwritten "$1" "$2"; then :
  else say "$2: perhaps it was changed meanwhile, or its disk fails"
  fi
}

# What helps to read an answer: its status, the command, the folder, what that is called, and the file with the answer.
help_with() {
  case $3 in '' | /*) ;; *) set -- "$1" "$2" "./$3" "$4" "$5" ;; esac
  case $1 in
    1) say "$(usage "$2")" ;;
    3 | 4 | 5 | 6 | 13 | 21) locate "$3" "$5" '' ;;
    7) explain "$3" "$4" "$(sed -n 's/^store fault: //p' "$5")" ;;
    0) case $2 in refs | subtypes | callers) locate "$3" "$5" 1 ;; esac ;;
  esac
}
