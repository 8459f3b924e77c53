# Completion for bash of guard, the program, and of ./guard, which has words of its own beside it.

# _guard_files ENDING: the files of this ending and the folders; where there is no such file, all files.
_guard_files() {
  local found
  compopt -o filenames 2>/dev/null
  mapfile -t found < <(compgen -f -X "!*.$1" -- "$current")
  if [ ${#found[@]} -gt 0 ]; then
    mapfile -t -O "${#found[@]}" found < <(compgen -d -- "$current")
  else
    mapfile -t found < <(compgen -f -- "$current")
  fi
  COMPREPLY=("${found[@]}")
}

# _guard_words WORD..: those that begin as the current word does.
_guard_words() {
  mapfile -t COMPREPLY < <(compgen -W "$*" -- "$current")
}

# How many words that are no option, nor the value of one, stand before the current one and behind the command.
_guard_count() {
  local word count=0 is_number=
  for word in "${COMP_WORDS[@]:2:COMP_CWORD-2}"; do
    case $word in
      --max-terms | --max-triples | --block | --log) is_number=yes ;;
      --max-terms=* | --max-triples=* | --block=* | --log=* | =) ;;
      *)
        [ "$is_number" ] || count=$((count + 1))
        is_number=
        ;;
    esac
  done
  echo "$count"
}

_guard() {
  local current=${COMP_WORDS[COMP_CWORD]} before=${COMP_WORDS[COMP_CWORD - 1]} own=
  COMPREPLY=()
  if [ "$COMP_CWORD" -eq 1 ]; then
    # The wrapper is called by its place, beside the list of its crates.
    if [[ $1 == */* && -e ${1%/*}/crates.txt ]]; then own="help check build install"; fi
    _guard_words run create-log replay validate explain verify generate follow $own
    return
  fi
  case ${COMP_WORDS[1]} in
    run | replay)
      case $before in
        --max-terms | --max-triples | =) return ;;
        --block)
          _guard_words all violation
          return
          ;;
        --log)
          _guard_files log
          return
          ;;
      esac
      if [[ $current == -* && ${COMP_WORDS[1]} == run ]]; then
        _guard_words --max-terms --max-triples --block --log
      elif [[ $current == -* ]]; then
        _guard_words --max-terms --max-triples --block
      elif [ "${COMP_WORDS[1]}" = replay ] && [ "$(_guard_count)" -eq 0 ]; then
        _guard_files history
      else
        _guard_files session
      fi
      ;;
    create-log) [ "$COMP_CWORD" -gt 2 ] || _guard_files log ;;
    follow) [ "$COMP_CWORD" -gt 3 ] || _guard_files ;;
    validate | explain) [ "$COMP_CWORD" -gt 3 ] || _guard_files ttl ;;
    verify)
      case $COMP_CWORD in
        2 | 3) _guard_files ttl ;;
        4) _guard_files evidence ;;
      esac
      ;;
    install)
      compopt -o filenames 2>/dev/null
      [ "$COMP_CWORD" -gt 2 ] || mapfile -t COMPREPLY < <(compgen -d -- "$current")
      ;;
  esac
}

complete -F _guard guard ./guard
