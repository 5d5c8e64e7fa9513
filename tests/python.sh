#!/bin/sh
# The Python package, as users get it: python.sh [PROGRAM]. Its types, the wheel in a fresh environment without the net, its tests there by pytest, a
# test that fails and shows its screen, the golden cases of `show`, `press` and `check` through it, eight threads, and its session with `serve` of the
# program. It needs the shared library and, for python3, pytest, setuptools and wheel; what is missing is left out, and said.
[ -z "$1" ] || program=$(cd "$(dirname "$1")" && pwd)/$(basename "$1")
cd "$(dirname "$0")/.." || exit 1
PYTHON=/usr/bin/python3
passed=0
failed=0
skipped=0
room=$(mktemp -d) || exit 1
trap 'rm -rf "$room"' EXIT
said() { # NAME STATUS
  if [ "$2" -eq 0 ]; then
    passed=$((passed + 1))
    echo "$1: as wanted"
  else
    failed=$((failed + 1))
    echo "$1: FAILED"
    tail -n 30 "$room/log"
  fi
}
if ! "$PYTHON" -c 'import pytest, setuptools, venv, wheel' 2> "$room/log"; then
  echo "left out: $(tail -n 1 "$room/log")"
  echo "0 passed, 0 failed, 1 skipped"
  exit 0
fi
if command -v mypy > /dev/null; then
  mypy --strict --cache-dir "$room/types" python/src/takvorn > "$room/log" 2>&1
  said "the types" $?
else
  skipped=$((skipped + 1))
  echo "left out: the types, as there is no mypy"
fi
PYTHON=$PYTHON sh scripts/wheel > "$room/wheel" 2> "$room/log"
said "the wheel" $?
unset PYTHONPATH TAKVORN_LIBRARY
"$PYTHON" -m venv --system-site-packages "$room/env" > "$room/log" 2>&1 &&
  "$room/env/bin/pip" install -q --no-index --no-deps "$(cat "$room/wheel")" > "$room/log" 2>&1
said "it is installed without the net" $?
"$room/env/bin/python" -m pytest -q -p no:cacheprovider python/tests/test_takvorn.py examples/python > "$room/log" 2>&1
said "its tests" $?
"$room/env/bin/python" -m pytest -q -p no:cacheprovider python/tests/failing.py > "$room/told" 2>&1
[ $? -eq 1 ] && sed -n '/^2 findings$/,/^=/p' "$room/told" | sed '$d' | diff python/tests/failing.txt - > "$room/log" 2>&1
said "a test that fails shows the screen" $?
"$room/env/bin/python" tests/python_cases.py > "$room/log" 2>&1
said "golden cases: $(tail -n 1 "$room/log")" $?
# A session with a real host, which prints what it got.
if [ -x "$program" ]; then
  port=$((21000 + $$ % 20000))
  timeout 60 "$program" serve examples/signon.toml --port $port --count 1 < examples/signon.hex > "$room/served" 2> "$room/log" &
  for _ in 1 2 3 4 5 6 7 8 9 10 11 12 13 14 15 16 17 18 19 20; do
    "$room/env/bin/python" examples/python/session.py 127.0.0.1:$port 'type C1' 'type D5' tab 'type E2' enter > "$room/told" 2>> "$room/log" && break
    sleep 0.5
  done
  wait $!
  printf 'terminal 1 aid 7D\nuserid C1D5\npassword E2\n' | diff - "$room/served" > "$room/log" 2>&1 &&
    [ "$(head -n 1 "$room/told")" = 'model 2, TN3270E' ] && grep -q 'USERID   *AN$' "$room/told"
  said "a session with serve" $?
else
  skipped=$((skipped + 1))
  echo "left out: a session with serve, as the program isn't built"
fi
echo "$passed passed, $failed failed$([ $skipped -eq 0 ] || echo ", $skipped skipped")"
[ "$failed" -eq 0 ]
