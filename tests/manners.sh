#!/bin/sh
# Compares the commands and long options that --help prints with those of the manual page and the completions, and
# tries what a stream that fails prints. Where python3 is installed, the completions are tried in bash and zsh at a terminal, the
# golden logs of SARIF are looked at, and findings of records drawn at random.
# The last line is 'N passed, M failed'.
program=$(cd "$(dirname "$1")" && pwd)/$(basename "$1")
root=$(cd "$(dirname "$0")/.." && pwd)
passed=0
failed=0

# The first words of a help's block, as 'Commands:'.
commands_of_help() { "$program" --help | awk '/^[A-Z].*:$/ { inside = $0 == "Commands:" } inside && /^  [a-z]/ { print $1 }' | sort; }

# The long options of a help; with a command, of its help.
options_of_help() { "$program" "$@" --help | awk '/^[A-Z].*:$/ { inside = $0 == "Options:" } inside' | grep -oE -e '--[a-z]+(-[a-z]+)*' | sort -u; }

compare() {
  if [ "$(echo $2)" = "$(echo $3)" ]; then
    passed=$((passed + 1))
  else
    failed=$((failed + 1))
    echo "$1: wanted '$(echo $2)', found '$(echo $3)'"
  fi
}

# What bash offers after these words, the last of them begun.
offered_by_bash() {
  bash -c '. "$0/completions/term3270.bash"; COMP_WORDS=("$@"); COMP_CWORD=$(($# - 1)); _term3270; printf "%s\n" "${COMPREPLY[@]}"' \
    "$root" term3270 "$@" | sort -u
}

# The tagged lines of a section of the manual page.
tags_of_page() { awk -v name="$1" '/^\.SH/ { inside = $0 == ".SH " name } inside && tag; { tag = $0 == ".TP" }' "$root/docs/term3270.1"; }

# A line of the zsh completion's case, and its commands.
line_of_zsh() { grep -E "^    $1\) " "$root/completions/_term3270"; }
commands_of_zsh() { sed -n "s/^    '\([a-z]*\):.*/\1/p" "$root/completions/_term3270" | sort; }
options_in() { grep -oE -e '--[a-z]+(-[a-z]+)*' | sort -u; }

commands=$(commands_of_help)
compare 'the manual page, commands' "$commands" "$(tags_of_page COMMANDS | sed 's/^\.B //' | sort)"
compare 'zsh, commands' "$commands" "$(commands_of_zsh)"
compare 'bash, commands' "$commands" "$(offered_by_bash '' | grep -v '^-')"
compare 'bash, options' "$(options_of_help)" "$(offered_by_bash -)"
compare 'zsh, options' "$(options_of_help)" "$(grep -A 1 "_describe 'command' commands$" "$root/completions/_term3270" | sed -n 2p | options_in)"
all=$(options_of_help)
for command in $commands; do
  [ "$command" != help ] || continue
  options=$(options_of_help "$command")
  all="$all
$options"
  compare "bash, options of $command" "$options" "$(offered_by_bash "$command" -)"
  compare "zsh, options of $command" "$options" "$(line_of_zsh "$command" | options_in)"
done
compare 'bash, help of a command' "$(echo "$commands" | grep -v '^help$')" "$(offered_by_bash help '')"
compare 'the manual page, options' "$(echo "$all" | sort -u)" "$(tags_of_page OPTIONS | tr -d '\\' | options_in)"
compare 'a write that fails' 'term3270: standard output: No space left on device (os error 28) 3' \
  "$("$program" 2>&1 < "$root/examples/first.hex" > /dev/full; echo " $?")"
compare 'a read that fails' 'term3270: standard input: Is a directory (os error 21) 3' "$("$program" 2>&1 < /; echo " $?")"
compare 'a word that is not UTF-8' 'term3270: \xFF a.hex: not UTF-8 3' "$("$program" check "$(printf '\377 a.hex')" 2>&1; echo " $?")"
compare 'help that is not written' 'term3270: No space left on device (os error 28) 3' \
  "$("$program" --help 2>&1 > /dev/full; echo " $?")"
# Long texts are written in pieces: of 100 records of 24x80 as lines, and of these lines as records.
records() {
  awk 'BEGIN {
    for (r = 0; r < 100; r++) {
      printf "F5C2"
      for (f = 0; f < 120; f++) { printf "1D%02X", f % 2 ? 64 : 96; for (i = 0; i < 15; i++) printf "%02X", 193 + (i + f + r) % 9 }
      print ""
    }
  }'
}
compare 'long texts as lines, and the lines as records' "$(records | cksum)" "$(records | "$program" convert | "$program" convert --back | cksum)"
compare 'the lines of a long text' 24200 "$(records | "$program" convert | wc -l)"
compare 'a long text that is not written' 'term3270: standard output: No space left on device (os error 28) 3' \
  "$(records | { "$program" convert 2>&1 > /dev/full; echo " $?"; })"
# Of a pipe that is closed nothing is said.
closed=$(mktemp)
records | { "$program" convert 2> "$closed"; echo "$?" >> "$closed"; } | head -c 1 > /dev/null
compare 'a pipe that is closed' 3 "$(cat "$closed")"
rm "$closed"
# A file for each turn, as `draft --turns` prints it; a file that is there already is left as it is.
drafts=$(mktemp -d)
dialogue=$root/examples/signon_menu.hex
compare 'drafts in files' 0 "$("$program" draft --turns --out "$drafts" < "$dialogue" 2>&1; echo $?)"
compare 'the files of drafts' "$("$program" draft --turns < "$dialogue")" \
  "$(for turn in 0 1; do echo "# turn $turn"; cat "$drafts/turn-$turn.toml"; done)"
echo mine > "$drafts/turn-1.toml" && rm "$drafts/turn-0.toml"
compare 'a file of a draft that is there' "term3270: $drafts/turn-1.toml: File exists (os error 17) 3 mine" \
  "$("$program" draft --turns --out "$drafts" < "$dialogue" 2>&1; echo "$? $(cat "$drafts/turn-1.toml")")"
rm -r "$drafts"
compare 'an address in brackets' 'term3270: ::1 port 1:' \
  "$("$program" attach '[::1]' /dev/null --port 1 2>&1 | sed 's/\( port 1:\) .*/\1/')"
compare 'a file of records behind a layout' "tip: records come on standard input, or from the file after '--records'" \
  "$("$program" check a.toml a.hex 2>&1 | grep '^tip: records')"
compare 'a file of records where none is wanted' 'tip: records come on standard input' \
  "$("$program" show a.hex 2>&1 | grep '^tip: records')"
# The golden logs of SARIF have what services ask for, and the version that the program prints. Findings come from where
# a reading of their records by another program says. The golden cases of a form have in common what each of the form has.
# What bash and zsh offer for an option's value is what --help says.
if command -v python3 > /dev/null; then
  told=$(PYTHONDONTWRITEBYTECODE=1 python3 "$root/tests/completions.py" "$program")
  echo "$told" | sed '$d'
  compare 'the completions at a terminal' '0 failed' "$(echo "$told" | tail -n 1 | sed 's/.*, //')"
  compare 'the logs of SARIF' '0 failed' "$(PYTHONDONTWRITEBYTECODE=1 python3 "$root/tests/sarif.py" "$program" | tail -n 1 | sed 's/.*, //')"
  compare 'the reports of JUnit' '0 failed' "$(PYTHONDONTWRITEBYTECODE=1 python3 "$root/tests/junit.py" | tail -n 1 | sed 's/.*, //')"
  compare 'maps drawn at random' '1020 passed, 0 failed' "$(PYTHONDONTWRITEBYTECODE=1 python3 "$root/tests/maps.py" "$program" | tail -n 1)"
  compare 'what a help says of a map ends its finding' '0 failed' "$(PYTHONDONTWRITEBYTECODE=1 python3 "$root/tests/mends.py" "$program" | tail -n 1 | sed 's/.*, //')"
  compare 'map sources cut at every byte' '0 failed' "$(PYTHONDONTWRITEBYTECODE=1 python3 "$root/tests/cuts.py" "$program" | tail -n 1 | sed 's/.*, //')"
  compare 'where findings come from' '300 passed, 0 failed' "$(PYTHONDONTWRITEBYTECODE=1 python3 "$root/tests/origins.py" "$program" | tail -n 1)"
  compare 'what a help says ends its finding' '300 passed, 0 failed' "$(PYTHONDONTWRITEBYTECODE=1 python3 "$root/tests/helps.py" "$program" | tail -n 1)"
  compare 'characters are read again' '0 failed' "$(PYTHONDONTWRITEBYTECODE=1 python3 "$root/tests/characters.py" "$program" | tail -n 1 | sed 's/.*, //')"
  compare 'what is said at a terminal' '0 failed' "$(PYTHONDONTWRITEBYTECODE=1 python3 "$root/tests/terminal.py" "$program" | tail -n 1 | sed 's/.*, //')"
  compare 'why lines are refused' '0 failed' "$(PYTHONDONTWRITEBYTECODE=1 python3 "$root/tests/reasons.py" "$program" | tail -n 1 | sed 's/.*, //')"
  compare 'what is told to be added ends its finding' '0 failed' "$(PYTHONDONTWRITEBYTECODE=1 python3 "$root/tests/explained.py" "$program" | tail -n 1 | sed 's/.*, //')"
  compare 'what the golden cases have in common' '0 failed' "$(PYTHONDONTWRITEBYTECODE=1 python3 "$root/tests/forms.py" "$program" | tail -n 1 | sed 's/.*, //')"
fi
echo "$passed passed, $failed failed"
[ "$failed" -eq 0 ]
