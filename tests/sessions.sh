#!/bin/sh
# Runs each case, a folder tests/sessions/NAME, over loopback: `serve` with `layout.toml` and the records of `stdin`, at a port
# that is free, for as many terminals as the file `terminals` has lines. They come one after the other:
#   attach KEYS STATUS TEXT [--device NAME] [--strokes]   our own `attach` presses the keys of that file, and prints this text
#   send HEX [HEX]    sends these bytes at once; what it gets up to the line's end is the second HEX, where that is there
#   bytes HEX HEX     the same byte by byte
#   close HEX HEX     sends these bytes, or none for a dash, and closes the line once it has got so many as the second HEX
#   large N           sends N megabytes of the letter A
#   second            a second `serve` at the same port, which can't have it; then our own `attach` comes with the file `keys`
# What `serve` prints of a terminal must be there before the next one comes. All that it prints is compared with `stdout`, and
# its status with `status` (0 where there is none). bash is the terminal of bytes. The last line is 'N passed, M failed'.
program=$(cd "$(dirname "$1")" && pwd)/$(basename "$1")
cases=$(cd "$(dirname "$0")/sessions" && pwd)
work=$(mktemp -d) || exit 1
trap 'rm -rf "$work"' EXIT
trap 'exit 1' HUP INT TERM
passed=0
failed=0
port=$((20000 + $$ % 20000))

cat > "$work/peer" <<'END'
# PORT send|bytes|close|large WORD HEX: a terminal of bytes, which prints in hexadecimal what it gets.
for try in {1..100}; do { exec 3<>"/dev/tcp/127.0.0.1/$1"; } 2>/dev/null && break; sleep 0.05; done
bytes_of() { printf "$(printf %s "$1" | sed 's/../\\x&/g')"; }
hex() { od -An -v -tx1 | tr -d ' \n' | tr a-f A-F; }
case $2 in
  close) [ "$3" = - ] || bytes_of "$3" >&3; head -c $((${#4} / 2)) <&3 | hex; exit ;;
  large) yes A | tr -d '\n' | head -c "${3}000000" >&3 2>/dev/null ;;
  send) bytes_of "$3" >&3 ;;
  bytes) for ((at = 0; at < ${#3}; at += 2)); do bytes_of "${3:at:2}" >&3; done ;;
esac
if [ -n "$4" ]; then cat <&3 | hex; elif [ "$2" = send ]; then cat <&3 > /dev/null; fi
END

say() { echo "session $name: $*"; is_good=no; }

# Whether a line of the terminal of this number is printed within five seconds.
is_printed() {
  for _ in 1 2 3 4 5 6 7 8 9 10 11 12 13 14 15 16 17 18 19 20 21 22 23 24 25; do
    grep -q "^terminal $1 " "$work/stdout" && return
    sleep 0.2
  done
  return 1
}

# Starts serve at the next port that is free.
start_serve() {
  for _ in 1 2 3 4 5 6 7 8 9 10; do
    port=$((port + 1))
    timeout 60 "$program" serve "$work/in/layout.toml" --port "$port" --count "$1" < "$work/in/stdin" > "$work/stdout" 2> "$work/stderr" &
    serving=$!
    sleep 0.1
    grep -q 'Address already in use' "$work/stderr" || return 0
    wait "$serving"
  done
}

# Runs attach until it reaches the host.
attach() { # KEYS, further words
  keys=$1
  shift
  for _ in 1 2 3 4 5 6 7 8 9 10 11 12 13 14 15 16 17 18 19 20 21 22 23 24 25; do
    timeout 20 "$program" attach 127.0.0.1 "$work/in/$keys" --port "$port" "$@" > "$work/report" 2> "$work/attach.err"
    ended=$?
    grep -q 'Connection refused' "$work/attach.err" || return "$ended"
    sleep 0.2
  done
  return "$ended"
}

# A second serve at a port that is listened to prints nothing, and says why.
try_second_serve() {
  "$program" serve "$work/in/layout.toml" --port "$port" --count 1 < "$work/in/stdin" > "$work/second" 2> "$work/second.err"
  ended=$?
  [ "$ended" = 3 ] || say "the second serve ended with $ended"
  [ ! -s "$work/second" ] || say "the second serve printed '$(cat "$work/second")'"
  wanted="term3270: 127.0.0.1 port $port: Address already in use (os error 98)"
  [ "$(cat "$work/second.err")" = "$wanted" ] || say "the second serve said '$(cat "$work/second.err")'"
}

come() { # NUMBER WORD FURTHER..: the terminal of this number
  number=$1
  shift
  if [ "$1" = second ]; then
    try_second_serve
    set -- attach keys 0 answers 1 passed 0 refused 0 end keys
  fi
  if [ "$1" = attach ]; then
    keys=$2 wanted=$3 text=${*#* * *}
    shift 3
    text=$*
    words=
    strokes=
    case $text in *' --strokes') strokes=--strokes text=${text% --strokes} ;; esac
    case $text in *' --device '*) words=${text##* --device }; text=${text%% --device *} ;; esac
    attach "$keys" $strokes ${words:+--device "$words"}
    ended=$?
    [ "$ended" = "$wanted" ] || say "attach ended with $ended, wanted $wanted"
    [ "$(cat "$work/report")" = "$text" ] || say "attach printed '$(cat "$work/report")', wanted '$text'"
  else
    got=$(timeout 20 bash "$work/peer" "$port" "$1" "$2" "$3" 2>/dev/null)
    [ "$got" = "$3" ] || say "terminal $number got '$got', wanted '$3'"
  fi
  is_printed "$number" || say "terminal $number: nothing is printed"
}

for folder in "$cases"/*/; do
  name=$(basename "$folder")
  is_good=yes
  rm -rf "$work/in" && cp -r "$folder" "$work/in"
  start_serve "$(grep -c . "$work/in/terminals")"
  count=0
  while IFS= read -r line; do
    count=$((count + 1))
    come "$count" $line < /dev/null
    [ $is_good = yes ] || break
  done < "$work/in/terminals"
  [ $is_good = yes ] || kill "$serving" 2>/dev/null
  wait "$serving"
  status=$?
  wanted=0
  [ -f "$work/in/status" ] && wanted=$(cat "$work/in/status")
  [ "$status" = "$wanted" ] || say "status $status, wanted $wanted"
  cmp -s "$work/in/stdout" "$work/stdout" || { say "printed"; diff "$work/in/stdout" "$work/stdout" | head -n 10; }
  if [ $is_good = yes ]; then passed=$((passed + 1)); else failed=$((failed + 1)); head -n 3 "$work/stderr"; fi
done
echo "$passed passed, $failed failed"
[ "$failed" -eq 0 ]
