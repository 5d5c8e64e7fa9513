#!/bin/sh
# Tries the C library in out/, which scripts/library leaves there, beside a built program: library.sh PROGRAM. That the header
# declares what the libraries export; each golden case of its commands through the shared library, with no room, with half of it
# and with more than the text needs; each request for memory refused in turn; four threads; valgrind; what is installed; and the
# examples in C, Python and Rust. What isn't there to try it with is said. The last line is 'N passed, M failed'.
root=$(cd "$(dirname "$0")/.." && pwd)
program=$(cd "$(dirname "$1")" && pwd)/$(basename "$1")
CC=${CC:-cc}
command -v "$CC" > /dev/null || { echo "the C library: left out, since there is no C compiler"; echo "0 passed, 0 failed, 1 skipped"; exit 0; }
work=$(mktemp -d) || exit 1
trap 'rm -rf "$work"' EXIT
trap 'exit 1' HUP INT TERM
passed=0
failed=0
good() { passed=$((passed + 1)); }
bad() { failed=$((failed + 1)); echo "$1"; }
done_with() { echo "$passed passed, $failed failed"; [ "$failed" -eq 0 ]; exit; }
has() { command -v "$1" > /dev/null || { echo "$1 is not installed: $2 left out"; return 1; }; }

sh "$root/scripts/library" || { bad "the C library isn't built"; done_with; }
LD_LIBRARY_PATH=$root/out
export LD_LIBRARY_PATH
warnings='-Wall -Wextra -pedantic -Werror'
build() { # OUTPUT SOURCE, then flags
  output=$1
  source=$2
  shift 2
  # shellcheck disable=SC2086
  "$CC" -std=c99 -D_GNU_SOURCE -O1 -g $warnings -I"$root/include" -o "$work/$output" "$root/$source" "$@" -L"$root/out" -ltakvorn -lpthread
}
build library tests/library.c && build refusing tests/library.c -DREFUSES -fno-builtin && build check examples/c/check.c || {
  bad "a C program isn't built"
  done_with
}

# ---- the header
grep -o 'takvorn_[a-z_]*(' "$root/include/takvorn.h" | tr -d '(' | sort > "$work/declared"
nm -D --defined-only "$root/out/libtakvorn.so" | awk '{ print $3 }' | sort > "$work/shown"
nm -g --defined-only "$root/out/libtakvorn.a" | awk '$3 ~ /^takvorn_/ { print $3 }' | sort > "$work/exported"
cat "$root"/crates/takvorn_c/src/*.rt | sed -n 's/.*extern "C" fn \(takvorn_[a-z_]*\).*/\1/p' | sort > "$work/written"
for names in shown exported written; do
  if cmp -s "$work/declared" "$work/$names"; then good; else
    bad "the header declares other functions than are $names:"
    diff "$work/declared" "$work/$names"
  fi
done
if has c++ "the header in C++"; then
  # shellcheck disable=SC2086
  printf '#include "takvorn.h"\nint main() { size_t needed; uint8_t none = 0, out = 0; return takvorn_show(&none, 0, &out, 0, &needed); }\n' > "$work/plus.cc"
  if c++ $warnings -I"$root/include" -o "$work/plus" "$work/plus.cc" "$root/out/libtakvorn.a" && "$work/plus"; then good; else bad "the header in C++"; fi
fi

# ---- the golden cases
left_out=0
for folder in "$root"/tests/cases/show "$root"/tests/cases/check "$root"/tests/cases/talk "$root"/tests/cases/press \
  "$root"/tests/cases/convert "$root"/tests/cases/convert_back "$root"/tests/cases/draft "$root"/tests/cases/bind \
  "$root"/tests/cases/records "$root"/tests/cases/map "$root"/tests/cases/map_layout "$root"/tests/cases/check_map; do
  for case in "$folder"/*/; do
    name=${case#"$root"/tests/cases/}
    rm -rf "$work/in" && cp -r "$case" "$work/in"
    if [ -f "$work/in/make-stdin" ]; then (cd "$work/in" && PROGRAM=$program sh ./make-stdin) > "$work/stdin"
    elif [ -f "$work/in/stdin" ]; then cp "$work/in/stdin" "$work/stdin"
    else : > "$work/stdin"; fi
    set --
    if [ -f "$work/in/args" ]; then
      while IFS= read -r word || [ -n "$word" ]; do set -- "$@" "$word"; done < "$work/in/args"
    fi
    # What these options ask for the program does alone.
    program_alone=no
    for word; do
      case $word in --chars | --turns | --turn | --size | --all | buffer) program_alone=yes ;; esac
    done
    wanted=0
    [ -f "$work/in/status" ] && wanted=$(cat "$work/in/status")
    [ -f "$work/in/stdout" ] || : > "$work/in/stdout"
    # The line in place of a picture, of which the program says on standard error why there is none.
    [ -f "$work/in/answer" ] && cp "$work/in/answer" "$work/in/stdout"
    (cd "$work/in" && "$work/library" answer "$@" < "$work/stdin" > "$work/stdout" 2> "$work/stderr")
    status=$?
    # A fault of the command line, or a file that is missing, is the program's alone.
    if { [ $status = 101 ] && { [ ! -s "$work/in/stdout" ] || [ $program_alone = yes ]; }; } || [ $status = 102 ]; then
      left_out=$((left_out + 1))
      continue
    fi
    if [ $status = "$wanted" ] && cmp -s "$work/in/stdout" "$work/stdout"; then good; else
      bad "case ${name%/} through the library: status $status, wanted $wanted"
      diff "$work/in/stdout" "$work/stdout" | head -n 10
      cat "$work/stderr"
    fi
  done
done

# ---- what no command prints: the screen that keys leave, which is that of the records where there is none, and orders by position
call() { (cd "$root/examples" && "$work/library" answer "$@" < signon.hex); }
: > "$work/none"
printf 'type C1\n' > "$work/one"
for form in svg json; do
  [ $form = json ] && flag=--json || flag=
  call show --format $form > "$work/shown"
  # shellcheck disable=SC2086
  call pressed "$work/none" $flag > "$work/stdout"
  if cmp -s "$work/shown" "$work/stdout"; then good; else bad "the screen without keys isn't that of show, as $form"; fi
done
# After Set Buffer Address 4, 19 stands the input at 258: A is its first character, the cursor one on, and the tag is set.
pressed=$(call pressed "$work/one" --json | grep -o '"cursor":260\|"at":258,"attribute":"01"\|USERID[.]*@A[.]')
[ "$(echo "$pressed" | wc -l)" = 3 ] && good || bad "the screen after a key: $pressed"
# The title's attribute stands at 29, written by the Start Field at byte 5 of record 0; its text begins at byte 7; the cursor's
# place 259 was written by no order.
origins=$(call origins signon.toml | sed -n '30p;31p;260p;$=' | tr '\n' ',')
[ "$origins" = '0 5,0 7,-,1920,' ] && good || bad "the orders by position: $origins"

[ $left_out = 0 ] || echo "$left_out golden cases left out, which are about the command line or a missing file"

# ---- terminals that a program holds
build terminal tests/terminal.c && build terminal_refused tests/terminal_refused.c -fno-builtin || bad "a C program that holds terminals isn't built"
each_terminal() { # PROGRAM ..: with these words before it
  if "$@" > "$work/stdout" 2> "$work/stderr"; then good; else bad "terminals: $*: $(tail -n 5 "$work/stderr")"; fi
}
each_terminal "$work/terminal" both 71 20000
each_terminal "$work/terminal" rows
each_terminal "$work/terminal" threads
each_terminal "$work/terminal" changed
each_terminal "$work/terminal_refused"
if has valgrind "terminals under valgrind"; then
  each_terminal valgrind -q --leak-check=full --error-exitcode=120 "$work/terminal" both 5 20
  each_terminal valgrind -q --leak-check=full --error-exitcode=120 "$work/terminal" changed
  each_terminal valgrind -q --leak-check=full --error-exitcode=120 "$work/terminal" rows
fi

# ---- terminals that the library holds
build held tests/held.c && build held_cases tests/held_cases.c && build held_refused tests/held_refused.c -fno-builtin || bad "a C program with handles isn't built"
each_terminal "$work/held" both 71 20000
each_terminal "$work/held" null
each_terminal "$work/held" threads
each_terminal "$work/held" session
each_terminal "$work/held_refused"
if has valgrind "handles under valgrind"; then
  each_terminal valgrind -q --leak-check=full --error-exitcode=120 "$work/held" both 5 20
  each_terminal valgrind -q --leak-check=full --error-exitcode=120 "$work/held" null
  each_terminal valgrind -q --leak-check=full --error-exitcode=120 "$work/held" session
fi
# Both once more with the address sanitizer, which sees what is read or written beside a buffer of the caller, and what leaks.
printf 'int main(void) { return 0; }\n' > "$work/nothing.c"
if clang -fsanitize=address -o "$work/nothing" "$work/nothing.c" 2> /dev/null && "$work/nothing"; then
  usual=$CC
  CC=clang
  for name in terminal held; do
    build ${name}_sanitized tests/$name.c -fsanitize=address,undefined || bad "$name.c isn't built with the address sanitizer"
  done
  CC=$usual
  each_terminal "$work/terminal_sanitized" both 9 500
  each_terminal "$work/terminal_sanitized" changed
  each_terminal "$work/terminal_sanitized" rows
  each_terminal "$work/held_sanitized" both 9 500
  each_terminal "$work/held_sanitized" null
  each_terminal "$work/held_sanitized" threads
  each_terminal "$work/held_sanitized" session
else
  echo "clang has no address sanitizer here: terminals with it left out"
fi
# Golden cases of `show` and `press` whose records a terminal takes.
tried=0
for case in "$root"/tests/cases/show/*/ "$root"/tests/cases/press/*/; do
  [ -f "$case/stdin" ] && [ -f "$case/stdout" ] && [ ! -f "$case/make-stdin" ] && [ "$(cat "$case/status" 2> /dev/null || echo 0)" = 0 ] || continue
  case $case in */press/*) kind=press keys=$case/$(tail -n 1 "$case/args") ;; *) kind=show keys= ;; esac
  # A form, a part of the screen, or what is asked beside it.
  [ $kind = press ] && { [ ! -f "$keys" ] || [ "$(wc -l < "$case/args")" != 2 ]; } && continue
  [ $kind = show ] && [ -f "$case/args" ] && [ "$(cat "$case/args")" != show ] && continue
  # shellcheck disable=SC2086
  "$work/held_cases" $kind "$case/stdin" $keys > "$work/stdout" 2> "$work/stderr"
  status=$?
  [ $status != 9 ] || continue
  tried=$((tried + 1))
  if [ $status = 0 ] && cmp -s "$work/stdout" "$case/stdout"; then good; else bad "by a handle: $case: status $status"; fi
done
[ $tried -ge 50 ] && good || bad "only $tried golden cases of show and press at a handle"

# Golden cases of `check` at a terminal of the layout's sizes whose records are all shown. The screen is checked, so only findings of its fields, F8
# and on, are those of the records.
build terminal_check tests/terminal_check.c || bad "a C program that checks a terminal isn't built"
tried=0
for case in "$root"/tests/cases/check/*/; do
  [ -f "$case/stdin" ] && [ -f "$case/layout.toml" ] && [ -f "$case/stdout" ] && [ ! -f "$case/make-stdin" ] || continue
  # The record that draws 65,025 positions is longer than `check` takes.
  case $case in */last_cell_of_16_bits/) continue ;; esac
  case $(tr '\n' ' ' < "$case/args") in
    'check layout.toml ') demos=no ;;
    'check layout.toml --demo ' | 'check --demo layout.toml ') demos=yes ;;
    *) continue ;;
  esac
  grep -qE '^(yes|F[89]|F1[0-9])' "$case/stdout" || continue
  "$work/terminal_check" "$case/stdin" "$case/layout.toml" $demos > "$work/stdout" 2> "$work/stderr"
  status=$?
  [ $status != 9 ] || continue
  tried=$((tried + 1))
  if [ $status = "$(cat "$case/status" 2> /dev/null || echo 0)" ] && cmp -s "$work/stdout" "$case/stdout"; then good; else
    bad "the check of a terminal: $case: status $status"
  fi
  "$work/held_cases" check "$case/stdin" "$case/layout.toml" $demos > "$work/stdout" 2> "$work/stderr"
  if [ $? = $status ] && cmp -s "$work/stdout" "$case/stdout"; then good; else bad "the check of a terminal by a handle: $case"; fi
done
[ $tried -ge 25 ] && good || bad "only $tried golden cases of check at a terminal"

# ---- as a system has it
if [ ! -x "$program" ]; then echo "the program isn't built: what is installed left out"
elif DESTDIR=$work/system PREFIX=/usr sh "$root/scripts/install" "$program"; then
  (cd "$work/system/usr" && find . -path ./share/doc -prune -o ! -type d -print | sort) > "$work/installed"
  if cmp -s "$root/tests/library/installed" "$work/installed"; then good; else
    bad "other files are installed:"
    diff "$root/tests/library/installed" "$work/installed"
  fi
  if diff -r -x term3270.1 "$root/docs" "$work/system/usr/share/doc/takvorn/docs"; then good; else bad "other documents are installed"; fi
  if has pkg-config "what takvorn.pc says"; then
    flags=$(PKG_CONFIG_PATH=$work/system/usr/lib/pkgconfig PKG_CONFIG_SYSROOT_DIR=$work/system PKG_CONFIG_ALLOW_SYSTEM_CFLAGS=1 \
      PKG_CONFIG_ALLOW_SYSTEM_LIBS=1 pkg-config --cflags --libs takvorn)
    # shellcheck disable=SC2086
    if "$CC" -o "$work/packaged" "$root/examples/c/check.c" $flags; then good; else bad "a program with the flags of takvorn.pc: $flags"; fi
  fi
else bad "the program and the library aren't installed"; fi

# ---- memory, threads
cd "$root/examples" || exit 1
"$work/library" answer convert < first.hex > "$work/lines"
sed 's/1DF0E2C9/1DF1E2C9/' signon.hex > "$work/flawed"
printf 'type C1\ntab\ntype E2\nenter\n' > "$work/keys"
printf '7DC5D411C4C3E4E2F111C5D3E7\n7D40\n' > "$work/answers"
echo XY > "$work/bad"
grep -v 'POS=(4,28)' signon.bms > "$work/flawed.bms"
each() { # MODE PROGRAM.., with a row for each command: its input and its words
  mode=$1
  shift
  while read -r from words; do
    # shellcheck disable=SC2086
    if "$@" $mode $words < "$from" > "$work/printed" 2> "$work/stderr"; [ $? -lt 100 ]; then
      good
      [ "$mode" != refused ] || echo "$words: $(cat "$work/printed")"
    else
      bad "$mode $words: $(tail -n 5 "$work/stderr")"
    fi
  done << END
signon.hex show
signon.hex show --format svg
signon.hex show --format html
signon.hex show --format json
signon.hex show --color always
$work/bad show
signon.hex check signon.toml
$work/flawed check signon.toml --demo
$work/flawed check signon.toml --format json
$work/bad check signon.toml --format json
signon_menu.hex talk signon.toml menu.toml
signon.hex press $work/keys
first.hex convert
$work/lines convert --back
signon.hex draft
signon.hex pressed $work/keys
signon.hex pressed $work/keys --json
signon.hex origins signon.toml
session.trc records
session.trc records --answers
$work/answers bind signon.toml
$work/answers bind signon.toml --text
$work/keys map signon.bms --map signon --freekb
$work/keys map signon.bms --layout
$work/keys check --map signon.bms
$work/keys check --map $work/flawed.bms --frset
END
}
each refused "$work/refusing"
each threads "$work/library"
if has valgrind "what reads or leaks memory"; then
  each answer valgrind -q --leak-check=full --error-exitcode=120 "$work/library"
fi

# ---- the examples
example() { # NAME, then a program with its words: prints what examples/NAME.stdout has, and ends with status 1
  name=$1
  shift
  "$@" > "$work/printed" 2> "$work/stderr"
  status=$?
  if cmp -s "$root/tests/library/$name" "$work/printed" && [ $status = 1 ]; then good; else
    bad "the example in $name: status $status"
    diff "$root/tests/library/$name" "$work/printed"
    cat "$work/stderr"
  fi
}
example c "$work/check" signon.toml "$work/flawed"
if has python3 "the example in Python"; then
  PYTHONDONTWRITEBYTECODE=1 PYTHONPATH=$root/python/src TAKVORN_LIBRARY=$root/out/libtakvorn.so example python python3 python/check.py signon.toml "$work/flawed"
fi
if has rustc "the example in Rust"; then
  if rustc --edition 2024 -o "$work/check_rs" rust/check.rs -L "$root/out" 2> "$work/stderr" ||
    rustc --edition 2021 -o "$work/check_rs" rust/check.rs -L "$root/out" 2> "$work/stderr"; then
    example rust "$work/check_rs" signon.toml "$work/flawed"
  else
    bad "the example in Rust isn't built: $(head -n 3 "$work/stderr")"
  fi
fi
done_with
