# Bash completion for beamer (the form, the trace, the capture, the script), beamer-connections (the capture, the script, the options,
# or --of and whose story is wanted; or --lifetime and a script) and beamer-plan (captures, options, and the files that these name).
#
# usage: source tools/completion.bash

# Completes a word with folders, and with files that have one of these endings.
_beamer_files() {
  compopt -o filenames 2>/dev/null
  local restore
  restore=$(shopt -p extglob)
  shopt -s extglob
  mapfile -t COMPREPLY < <(compgen -d -- "$1"; compgen -f -X "!*.$2" -- "$1")
  eval "$restore"
}

_beamer() {
  local word=${COMP_WORDS[COMP_CWORD]} form=${COMP_WORDS[1]-}
  COMPREPLY=()
  case $COMP_CWORD-$form in
    1-*) mapfile -t COMPREPLY < <(compgen -W "replay run load check streams" -- "$word") ;;
    2-check) compopt -o filenames 2>/dev/null; mapfile -t COMPREPLY < <(compgen -f -- "$word") ;;
    2-replay | 2-run | 2-streams | 3-check) _beamer_files "$word" '@(pcap|pcapng|cap)' ;;
    3-replay | 3-run | 3-streams | 4-check) _beamer_files "$word" toml ;;
  esac
}
complete -F _beamer beamer ./beamer

_beamer_lifetime() {
  case $COMP_CWORD in
    2) _beamer_files "$1" toml ;;
    3) mapfile -t COMPREPLY < <(compgen -W "--for" -- "$1") ;;
  esac
}

# Completes the options of a story after its client. Bash takes an address and its port for three words.
_beamer_story() {
  [ "$COMP_CWORD" = 4 ] || mapfile -t COMPREPLY < <(compgen -W "$(_beamer_unsaid --clock --fail)" -- "$1")
}

# Those of these options that no word before this one is.
_beamer_unsaid() {
  local option
  for option; do
    case " ${COMP_WORDS[*]:3:COMP_CWORD-3} " in
      *" $option "*) ;;
      *) echo "$option" ;;
    esac
  done
}

# Completes a format, `--clock` or `--fail`, each once and one format; after `--svg` also the file of the drawing.
_beamer_options() {
  local formats="--csv --json --svg" others
  others=$(_beamer_unsaid --clock --fail)
  case " ${COMP_WORDS[*]:3:COMP_CWORD-3} " in
    *" --csv "* | *" --json "* | *" --svg "*) formats= ;;
  esac
  mapfile -t COMPREPLY < <(compgen -W "$formats $others" -- "$1")
  [ "${COMP_WORDS[COMP_CWORD - 1]}" != --svg ] || mapfile -t COMPREPLY < <(compgen -f -W "$others" -- "$1")
}

_beamer_connections() {
  local word=${COMP_WORDS[COMP_CWORD]}
  COMPREPLY=()
  if [ "$COMP_CWORD" -gt 1 ] && [ "${COMP_WORDS[1]}" = --lifetime ]; then
    _beamer_lifetime "$word"
    return
  fi
  if [ "$COMP_CWORD" -gt 3 ] && [ "${COMP_WORDS[3]}" = --of ]; then
    _beamer_story "$word"
    return
  fi
  if [ "$COMP_CWORD" = 1 ] && [ "${word#-}" != "$word" ]; then
    mapfile -t COMPREPLY < <(compgen -W "--help --lifetime --version" -- "$word")
    return
  fi
  case $COMP_CWORD in
    1) _beamer_files "$word" '@(pcap|pcapng|cap)' ;;
    2) _beamer_files "$word" toml ;;
    3) mapfile -t COMPREPLY < <(compgen -W "--csv --json --svg --clock --fail --of" -- "$word") ;;
    *) _beamer_options "$word" ;;
  esac
}
complete -F _beamer_connections beamer-connections ./beamer-connections

_beamer_plan() {
  local word=${COMP_WORDS[COMP_CWORD]} options
  COMPREPLY=()
  case ${COMP_WORDS[COMP_CWORD - 1]} in
    --fleet | --script | --check) _beamer_files "$word" toml; return ;;
    --keep-script | --hosts | --ssh-config | --html)
      compopt -o filenames 2>/dev/null
      mapfile -t COMPREPLY < <(compgen -f -- "$word")
      return ;;
    --drain | --add | --weight | --timeout | --vip | --sample | --schedules | --story) return ;;
    --drains-at | --drain-all-with-waits | --slow-start | --tries) return ;;
  esac
  if [ "${word#-}" = "$word" ]; then
    _beamer_files "$word" '@(pcap|pcapng|cap|gz|xz|bz2|zst)'
    return
  fi
  options="--fleet --script --check --drain --add --weight --timeout --vip --no-copies --no-open --keep-script --sample --hosts"
  options+=" --ssh-config --schedules --json --html --story --help --what-if --drains-at --drain-all-with-waits --slow-start --search --tries"
  mapfile -t COMPREPLY < <(compgen -W "$options" -- "$word")
}
complete -F _beamer_plan beamer-plan ./beamer-plan
