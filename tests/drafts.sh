#!/bin/sh
# Drafts a layout for each screen of the golden cases that leaves the operator fields, and for screens that are drawn, whose
# labels are much alike, and checks the screen's own records with it: the answer is yes, or what is found against every layout, a
# modified field of no cells (F13) on one line each. The names of a draft are lawful, end in no dash, and none comes twice.
# Takes the program; the last line is 'N passed, M failed'.
program=$(cd "$(dirname "$1")" && pwd)/$(basename "$1")
cases=$(cd "$(dirname "$0")/cases" && pwd)
work=$(mktemp -d) || exit 1
trap 'rm -rf "$work"' EXIT
passed=0
failed=0
drawn=150

# A record of 24 labels, each with a field after it: words of equal letters, cut off or with a number at the end.
draw() {
  awk -v seed="$1" '
    function pick(n) { return int(rand() * n) }
    function times(text, n,  out) { out = ""; while (n-- > 0) out = out text; return out }
    function label(  n) {
      n = pick(3) ? 1 + pick(3) : 28 + pick(7)
      if (pick(3) == 0) return times("C1", n) "40F" (1 + pick(4))
      if (pick(3) == 0) return times("C1", n) "60F" (1 + pick(4))
      if (pick(3) == 0) return times("C1", n) times("40", 1 + pick(40)) "C2"
      return times("C1", n)
    }
    BEGIN {
      srand(seed)
      record = "F5C2"
      for (i = 0; i < 24; i++)
        record = record (pick(9) ? "1D60" : "1D6C") label() (pick(5) ? "1D40" : "1D61") times("40", pick(4))
      print record
    }'
}

mkdir "$work/drawn"
number=0
while [ $number -lt $drawn ]; do
  number=$((number + 1))
  mkdir "$work/drawn/$number"
  draw $number > "$work/drawn/$number/stdin"
done

# The most fields of a layout, each with the same label.
mkdir "$work/drawn/most"
{ echo size 62x160; printf F5C2; yes 1D60C11D4040 | head -n 1000 | tr -d '\n'; echo; } > "$work/drawn/most/stdin"

for input in "$cases"/show/*/stdin "$cases"/check/*/stdin "$cases"/draft/*/stdin "$work"/drawn/*/stdin; do
  name=${input#"$cases"/}
  name=${name#"$work"/}
  "$program" draft < "$input" > "$work/layout.toml" 2> "$work/errors" || {
    # Records may leave no layout, but a layout is refused for the number of its fields alone (L11).
    if grep '^layout refused: ' "$work/layout.toml" | grep -qv '^layout refused: L11 '; then
      failed=$((failed + 1))
      echo "draft of $name: $(head -n 1 "$work/layout.toml")"
    fi
    continue
  }
  grep '^name = ' "$work/layout.toml" > "$work/names"
  if grep -Eqv '^name = "[a-z0-9-]{0,31}[a-z0-9]"$' "$work/names" || [ -n "$(sort "$work/names" | uniq -d)" ]; then
    failed=$((failed + 1))
    echo "draft of $name: names"
    continue
  fi
  # The sizes stand in the layout.
  grep -v '^ *size' "$input" > "$work/records"
  "$program" check "$work/layout.toml" < "$work/records" > "$work/printed" 2> "$work/errors"
  status=$?
  if [ $status = 0 ] || { [ $status = 1 ] && ! grep -qv '^F13 ' "$work/printed"; }; then
    passed=$((passed + 1))
  else
    failed=$((failed + 1))
    echo "draft of $name: status $status"
    head -n 3 "$work/printed" "$work/errors"
  fi
done
if [ $passed -lt $((drawn + 40)) ]; then
  failed=$((failed + 1))
  echo "drafts: fewer than forty screens beside those that are drawn"
fi
echo "$passed passed, $failed failed"
[ "$failed" -eq 0 ]
