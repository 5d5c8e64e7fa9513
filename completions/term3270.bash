# Completions of term3270 for bash: source this file, or put it into bash-completion's folder under the name term3270.

# Adds what compgen offers with these words to COMPREPLY, a line each, so that names keep their spaces.
_term3270_offer() {
  local line
  while IFS= read -r line; do COMPREPLY+=("$line"); done < <(compgen "$@" -- "$word")
}

# Offers the files whose names match PATTERN, and folders; where there are none all files.
_term3270_files() { # [PATTERN]
  compopt -o filenames 2> /dev/null
  word=${word#[\'\"]}
  word=${word//\\/}
  if [ -n "$1" ]; then _term3270_offer -f -X "!$1"; fi
  if [ ${#COMPREPLY[@]} -eq 0 ]; then _term3270_offer -f; else _term3270_offer -d; fi
}

# Offers the values of OPTION of the command; fails where it takes none.
_term3270_values() { # OPTION
  local device devices=
  case $command$1 in
    show--format) _term3270_offer -W 'text svg html json screen' ;;
    show--color) _term3270_offer -W 'auto always never' ;;
    check--format | talk--format) _term3270_offer -W 'text json sarif' ;;
    suite--format) _term3270_offer -W 'text json junit sarif' ;;
    script--code-page) _term3270_offer -W 'bracket 037' ;;
    script--report-format) _term3270_offer -W 'text json junit' ;;
    script--layouts | tap--layouts | tap--out) compopt -o filenames 2> /dev/null; _term3270_offer -d ;;
    script--report) _term3270_files ;;
    records--from) _term3270_offer -W 'trace stream buffer' ;;
    attach--device | script--device)
      for device in IBM-327{8,9}-{2,3,4,5}{,-E}; do devices="$devices $device"; done
      _term3270_offer -W "$devices"
      ;;
    show--layout) _term3270_files '*.toml' ;;
    check--records | serve--records) _term3270_files '*.hex' ;;
    serve--turns) _term3270_files '*.toml' ;;
    show--map | check--map | draft--map) _term3270_files '*.bms' ;;
    serve--listen | tap--listen) _term3270_offer -A hostname ;;
    map--map | *--map-name | *--only | *--port | *--listen-port | *--count | *--at-once | serve--answers | *--idle | *--per-second | *--expect | *--timeout) ;;
    *) return 1 ;;
  esac
}

# Offers what stands at the command's place N, counted from 0, and after < what it reads.
_term3270_place() { # N, or <
  case $command$1 in
    check0 | talk* | bind* | serve0) _term3270_files '*.toml' ;;
    suite0) _term3270_files '*.toml' ;;
    map0) _term3270_files '*.bms' ;;
    press0 | attach1) _term3270_files ;;
    attach0 | script0 | tap0) _term3270_offer -A hostname ;;
    help0) _term3270_offer -W 'show check talk suite press convert draft bind records serve attach script tap map' ;;
    *) return 1 ;;
  esac
}

_term3270_options() {
  local options=
  case $command in
    show) options='--format --color --layout --map --map-name --freekb --frset' ;;
    check) options='--demo --pen --explain --records --format --map --map-name --freekb --frset' ;;
    talk) options='--explain --format' ;;
    suite) options='--format --only' ;;
    press) options='--strokes' ;;
    convert) options='--back --chars' ;;
    draft) options='--turns --out --map --map-name --freekb --frset' ;;
    bind) options='--text --turns' ;;
    records) options='--from --answers --turns --turn --size --all' ;;
    serve) options='--turns --any --records --raw --port --count --at-once --answers --idle --per-second --listen' ;;
    attach) options='--strokes --port --device --tolerant --expect --timeout' ;;
    script) options='--device --code-page --layouts --report --report-format' ;;
    tap) options='--port --listen-port --listen --count --layouts --out' ;;
    map) options='--map --layout --freekb --frset' ;;
    help) return ;;
  esac
  _term3270_offer -W "$options --help"
}

_term3270() {
  local word=${COMP_WORDS[COMP_CWORD]} before=${COMP_WORDS[COMP_CWORD - 1]} command=${COMP_WORDS[1]} index place=0
  COMPREPLY=()
  # Bash parts --format=json in three words.
  if [ "$word" = = ]; then word=; elif [ "$before" = = ]; then before=${COMP_WORDS[COMP_CWORD - 2]}; fi
  case $before in
    '<')
      case $command in convert | bind | records) _term3270_files ;; *) _term3270_files '*.hex' ;; esac
      return
      ;;
    '>' | '>>' | '2>') _term3270_files; return ;;
  esac
  if [ "$COMP_CWORD" -eq 1 ]; then
    _term3270_offer -W 'show check talk suite press convert draft bind records serve attach script tap map help --help --version'
    return
  fi
  case $before in --*) if _term3270_values "$before"; then return; fi ;; esac
  for ((index = 2; index < COMP_CWORD; index++)); do
    case ${COMP_WORDS[index]} in
      = | '<' | '>') index=$((index + 1)) ;;
      --format | --color | --from | --device | --records | --layout | --only | --map | --map-name | --port | --listen-port | --count | --at-once | --answers | --idle | --per-second | --listen | --expect | --timeout | --code-page | --layouts | --report | --report-format)
        # A value comes after =, or as the next word.
        case $command${COMP_WORDS[index]} in map--layout | records--answers) continue ;; esac
        [ "${COMP_WORDS[index + 1]}" = = ] || index=$((index + 1))
        ;;
      -*) ;;
      *) place=$((place + 1)) ;;
    esac
  done
  case $word in -*) ;; *) if _term3270_place "$place"; then return; fi ;; esac
  _term3270_options
}
complete -F _term3270 term3270
