#!/bin/sh
# Packs a built program and the C library in out/ twice, and tries what comes of it: dist.sh PROGRAM. Both times it is the same,
# byte for byte; the archive, unpacked into an empty folder, and the package, unpacked likewise, run the examples that lie in them,
# and have the documents that the manual page and the help name where the manual page says they are; where man and lintian are
# installed, the manual page is read and the package has no error. The last line is 'N passed, M failed'.
root=$(cd "$(dirname "$0")/.." && pwd)
program=$(cd "$(dirname "$1")" && pwd)/$(basename "$1")
CC=${CC:-cc}
work=$(mktemp -d) || exit 1
trap 'rm -rf "$work"' EXIT
trap 'exit 1' HUP INT TERM
passed=0
failed=0
skipped=0
good() { passed=$((passed + 1)); }
bad() { failed=$((failed + 1)); echo "$1"; }
has() { command -v "$1" > /dev/null || { skipped=$((skipped + 1)); echo "$1 is not installed: $2 left out"; return 1; }; }
same() { # WHAT: that what was printed is the file wanted
  if cmp -s "$work/printed" "$work/wanted"; then good; else bad "$1"; fi
}
done_with() {
  [ $skipped -gt 0 ] && left=", $skipped skipped" || left=
  echo "$passed passed, $failed failed$left"
  [ "$failed" -eq 0 ]
  exit
}

[ -f "$root/out/libtakvorn.so.1" ] || { skipped=1; echo "the C library isn't built: nothing is packed"; done_with; }
cd "$root" || exit 1
for folder in one two; do
  sh scripts/dist "$program" "$work/$folder" > "$work/said" 2>&1 || { bad "packing: $(cat "$work/said")"; done_with; }
done
for file in "$work"/one/*; do
  if cmp -s "$file" "$work/two/${file##*/}"; then good; else bad "${file##*/} differs the second time"; fi
done

# The first example of the README, and the C example with the flags of takvorn.pc, below an unpacked prefix.
try_tree() { # WHAT PREFIX LIBDIR
  cd "$2/share/doc/takvorn" || { bad "$1 has no documents"; return; }
  "$program" draft < "$root/examples/signon.hex" > "$work/wanted"
  "$2/bin/term3270" draft < examples/signon.hex > "$work/printed"
  same "$1: another draft of the sign-on screen"
  sed 's/1DF0E2C9/1DF1E2C9/' examples/signon.hex > "$work/flawed"
  cp "$root/tests/library/c" "$work/wanted"
  if has pkg-config "the C example of $1"; then
    flags=$(PKG_CONFIG_PATH=$2/$3/pkgconfig PKG_CONFIG_ALLOW_SYSTEM_CFLAGS=1 PKG_CONFIG_ALLOW_SYSTEM_LIBS=1 pkg-config $4 --cflags --libs takvorn)
    # shellcheck disable=SC2086
    "$CC" -o "$work/check" examples/c/check.c $flags || bad "$1: the C example with the flags $flags"
    LD_LIBRARY_PATH=$2/$3 "$work/check" examples/signon.toml "$work/flawed" > "$work/printed"
    same "$1: the C example prints something else"
  fi
  mkdir -p "$work/pair" && cp examples/signon.* "$work/pair"
  if "$2/bin/term3270" suite "$work/pair" > "$work/printed" 2>&1; then good; else
    bad "$1: suite: $(cat "$work/printed")"
  fi
  printf 'L U U N N 2 24 80 0 0 0x0 -\nok\n%.0s' 1 2 > "$work/wanted"
  printf '\nQuit\n' | "$2/libexec/takvorn/s3270" -model 3278-2 -utf8 > "$work/printed"
  same "$1: s3270 answers something else"
  page=$(ls "$2"/share/man/man1/term3270.1*)
  named=$({ zcat -f "$page"; for command in '' $("$program" --help | sed -n '/^  help/d; s/^  \([a-z]*\)  .*/\1/p'); do "$program" $command --help; done; } |
    grep -o 'docs/[A-Z]*\.md' | sort -u)
  missing=$(for name in $named; do [ -f "$name" ] || echo "$name"; done)
  if [ -n "$named" ] && [ -z "$missing" ] && zcat -f "$page" | grep -q share/doc/takvorn; then good; else
    bad "$1: documents that the manual page or the help names aren't there: $missing"
  fi
  if has man "the manual page of $1"; then
    if man -l "$2"/share/man/man1/term3270.1* 2> /dev/null | grep -q TERM3270; then good; else bad "$1: the manual page isn't read"; fi
  fi
}
mkdir "$work/tree" && tar -C "$work/tree" -xzf "$work"/one/*.tar.gz
try_tree "the archive" "$work/tree" lib
cd "$root" || exit 1
if has dpkg-deb "the package" && has dpkg-shlibdeps "the package"; then
  dpkg-deb -x "$work"/one/*.deb "$work/system"
  try_tree "the package" "$work/system/usr" lib/x86_64-linux-gnu "--define-variable=prefix=$work/system/usr"
  if has lintian "what Debian says of the package"; then
    lintian --fail-on error --allow-root "$work"/one/*.deb > "$work/said" 2>&1 && good || bad "lintian: $(cat "$work/said")"
  fi
fi
done_with
