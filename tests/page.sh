#!/bin/sh
# Makes the page of the checker twice and tries it: page.sh PROGRAM. The same bytes each time; its modules by TypeScript's checker;
# the golden cases and 20,000 inputs drawn at random through the WebAssembly module, beside the shared library; the page in
# Chromium and in Firefox, as a person uses it. What isn't there to try it with is said. The last line is
# 'N passed, M failed, K skipped'.
program=$(cd "$(dirname "$1")" && pwd)/$(basename "$1")
cd "$(dirname "$0")/.." || exit 1
passed=0
failed=0
skipped=0
work=$(mktemp -d) || exit 1
trap 'rm -rf "$work"' EXIT
trap 'exit 1' HUP INT TERM
good() { passed=$((passed + 1)); }
bad() { failed=$((failed + 1)); echo "$1"; }
has() { command -v "$1" > /dev/null || { echo "missing: $1: $2 left out"; skipped=$((skipped + 1)); false; }; }
done_with() { echo "$passed passed, $failed failed, $skipped skipped"; [ "$failed" -eq 0 ]; exit; }
# Takes in the last line of a log that counts.
count() { # NAME LOG
  set -- "$1" "$2" "$(grep -E '^[0-9]+ passed, [0-9]+ failed(, [0-9]+ skipped)?$' "$2" | tail -n 1)"
  grep -vE '^[0-9]+ passed, ' "$2"
  [ -n "$3" ] || { bad "$1 did not come to its end"; return; }
  # shellcheck disable=SC2086
  set -- $3
  passed=$((passed + $1))
  failed=$((failed + $3))
  skipped=$((skipped + ${5:-0}))
}

has wasm-opt "the page" && has node "the page" || done_with
sh scripts/page > "$work/log" 2>&1 || { tail -n 20 "$work/log"; bad "the page isn't made"; done_with; }
sha256sum dist/takvorn.html dist/takvorn.wasm > "$work/sums"
if sh scripts/page > "$work/log" 2>&1 && sha256sum --quiet -c "$work/sums"; then good; else bad "the page made again has other bytes"; fi

if has tsc "the check of its modules"; then
  if (cd web && tsc --noEmit --allowJs --checkJs --strict --target es2022 --module es2022 --moduleResolution node \
    --lib es2022,dom,dom.iterable page.mjs compression.d.ts); then good; else bad "its modules don't check"; fi
fi
node tests/page/cases.mjs dist/takvorn.wasm tests/cases "$program" > "$work/cases" 2>&1
count "the golden cases" "$work/cases"
python3 tests/page/mutated.py out/libtakvorn.so.1 tests/cases 3270 20000 | node tests/page/same.mjs dist/takvorn.wasm > "$work/same" 2>&1
count "the inputs drawn at random" "$work/same"
python3 tests/page/browser.py dist/takvorn.html > "$work/browser" 2>&1
count "the page in browsers" "$work/browser"
done_with
