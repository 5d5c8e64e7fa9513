#!/bin/sh
# Compares what the documents show with what is there: documents.sh PROGRAM. Where python3 is installed, each block of commands is run
# (documents.py). The last line is 'N passed, M failed', after which ', N skipped' tells the blocks whose tools aren't there.
program=$(cd "$(dirname "$1")" && pwd)/$(basename "$1")
cd "$(dirname "$0")/.." || exit 1
work=$(mktemp -d) || exit 1
trap 'rm -rf "$work"' EXIT
trap 'exit 1' HUP INT TERM
passed=0
failed=0
same() { # WHAT ONE OTHER: that both files are the same
  if cmp -s "$2" "$3"; then passed=$((passed + 1)); else
    failed=$((failed + 1))
    echo "$1"
  fi
}
awk '/^```toml/ { inside = 1; next } /^```/ { inside = 0 } inside' docs/LAYOUTS.md > "$work/guide"
cat examples/order.toml examples/items.toml > "$work/examples"
same "an example in docs/LAYOUTS.md differs from examples/order.toml or examples/items.toml" "$work/guide" "$work/examples"
"$program" show --format svg < examples/signon.hex > "$work/drawn"
same "docs/signon.svg differs from what the program draws of examples/signon.hex" "$work/drawn" docs/signon.svg
grep '^| `F' docs/FINDINGS.md > "$work/table"
sed -n 's/^= \(| `F\)/\1/p' crates/command_tests/stdin > "$work/rows"
same "the first table of docs/FINDINGS.md differs from the row 'table' of crates/command_tests/stdin" "$work/table" "$work/rows"
for page in crates/*/README.md; do
  name=${page%/README.md}
  name=${name#crates/}
  awk '/^```rust/ { inside = 1; next } /^```/ { inside = 0 } inside' "$page" > "$work/shown"
  [ -s "$work/shown" ] || continue
  sed 1,2d "crates/usage/src/of_$name.rt" > "$work/proved"
  same "the example of $page differs from crates/usage/src/of_$name.rt" "$work/shown" "$work/proved"
done
if command -v rt > /dev/null; then
  rt version > "$work/version"
  grep -oE '`rattle-kit-[^`]*`' docs/PROVED.md | tr -d '`' | grep -xF "$(cat "$work/version")" > "$work/told_version"
  same "docs/PROVED.md lacks the version of the toolchain that rt version prints" "$work/version" "$work/told_version"
fi
if command -v python3 > /dev/null; then
  PYTHONDONTWRITEBYTECODE=1 python3 tests/documents.py "$program" > "$work/told"
  sed '$d' "$work/told"
  # shellcheck disable=SC2046
  set -- $(tail -n 1 "$work/told")
  passed=$((passed + ${1:-0}))
  failed=$((failed + ${3:-1}))
  skipped=${5:-0}
else
  skipped=1
  echo "python3 is not installed: the commands of the documents are left out"
fi
[ "$skipped" -gt 0 ] && left=", $skipped skipped" || left=
echo "$passed passed, $failed failed$left"
[ "$failed" -eq 0 ]
