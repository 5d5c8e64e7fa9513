#!/bin/sh
# Runs each case, a folder tests/cases/COMMAND/NAME: the program with the words of `args` (one a line) and
# `stdin`, in a folder with the case's other files. Standard output is compared with `stdout`, standard error
# with `stderr` where that file is there, and the exit status with `status` (0 where there is none). Where
# status 2 goes with no output, standard error must say why. What the libraries answer in place of output that the program
# has not stands in `answer`, for their tests. A script
# `make-stdin` prints an input that is too large to store, or that the program, which it knows as PROGRAM, prints itself.
program=$(cd "$(dirname "$1")" && pwd)/$(basename "$1")
cases=$(cd "$(dirname "$0")/cases" && pwd)
work=$(mktemp -d) || exit 1
trap 'rm -rf "$work"' EXIT
passed=0
failed=0
for folder in "$cases"/*/*/; do
  name=${folder#"$cases"/}
  name=${name%/}
  rm -rf "$work/in" && cp -r "$folder" "$work/in"
  if [ -f "$work/in/make-stdin" ]; then (cd "$work/in" && PROGRAM=$program sh ./make-stdin) > "$work/stdin"
  elif [ -f "$work/in/stdin" ]; then cp "$work/in/stdin" "$work/stdin"
  else : > "$work/stdin"; fi
  set --
  if [ -f "$work/in/args" ]; then
    while IFS= read -r word || [ -n "$word" ]; do set -- "$@" "$word"; done < "$work/in/args"
  fi
  wanted=0
  [ -f "$work/in/status" ] && wanted=$(cat "$work/in/status")
  (cd "$work/in" && "$program" "$@" < "$work/stdin" > "$work/stdout" 2> "$work/stderr")
  status=$?
  [ -f "$work/in/stdout" ] || : > "$work/in/stdout"
  is_said=yes
  if [ "$wanted" = 2 ] && [ ! -s "$work/in/stdout" ] && [ ! -s "$work/stderr" ]; then is_said=no; fi
  if [ -f "$work/in/stderr" ] && ! cmp -s "$work/in/stderr" "$work/stderr"; then is_said=no; fi
  if [ "$status" = "$wanted" ] && [ $is_said = yes ] && cmp -s "$work/in/stdout" "$work/stdout"; then
    passed=$((passed + 1))
  else
    failed=$((failed + 1))
    echo "case $name: status $status, wanted $wanted"
    diff "$work/in/stdout" "$work/stdout" | head -n 10
    [ $is_said = yes ] || head -n 3 "$work/stderr"
  fi
done
echo "$passed passed, $failed failed"
[ "$failed" -eq 0 ]
