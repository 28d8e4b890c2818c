# Completions of applystream for bash.
_applystream() {
  local word=${COMP_WORDS[COMP_CWORD]} before=${COMP_WORDS[COMP_CWORD - 1]}
  if [ "${COMP_WORDS[1]}" = check ] && [ "$COMP_CWORD" -gt 1 ]; then
    case $before in
      --write) return ;;
      --run) return ;;
    esac
    COMPREPLY=($(compgen -W "--json --find --write --plan --run --help" -- "$word") $(compgen -f -- "$word"))
    return
  fi
  if [ "${COMP_WORDS[1]}" = watch ] && [ "$COMP_CWORD" -gt 1 ]; then
    case $before in
      --width) return ;;
      --color) COMPREPLY=($(compgen -W "auto always never" -- "$word")); return ;;
      --panel) COMPREPLY=($(compgen -W "auto always never" -- "$word")); return ;;
    esac
    COMPREPLY=($(compgen -W "--find --plan --width --color --panel --help" -- "$word") $(compgen -f -- "$word"))
    return
  fi
  if [ "${COMP_WORDS[1]}" = view ] && [ "$COMP_CWORD" -gt 1 ]; then
    case $before in
      --rows) return ;;
      --sort) COMPREPLY=($(compgen -W "begin length" -- "$word")); return ;;
      --width) return ;;
      --color) COMPREPLY=($(compgen -W "auto always never" -- "$word")); return ;;
      --run) return ;;
    esac
    COMPREPLY=($(compgen -W "--svg --json --markdown --rows --all --sort --width --color --find --run --help" -- "$word") $(compgen -f -- "$word"))
    return
  fi
  if [ "${COMP_WORDS[1]}" = play ] && [ "$COMP_CWORD" -gt 1 ]; then
    case $before in
      --speed) return ;;
      --run) return ;;
    esac
    COMPREPLY=($(compgen -W "--speed --find --run --help" -- "$word") $(compgen -f -- "$word"))
    return
  fi
  if [ "${COMP_WORDS[1]}" = record ] && [ "$COMP_CWORD" -gt 1 ]; then
    case $before in
      --plan) COMPREPLY=($(compgen -f -- "$word")); return ;;
      --graph) COMPREPLY=($(compgen -f -- "$word")); return ;;
      --parallelism) return ;;
      --run) return ;;
    esac
    COMPREPLY=($(compgen -W "--plan --graph --begins --parallelism --only-plan --find --run --help" -- "$word") $(compgen -f -- "$word"))
    return
  fi
  if [ "${COMP_WORDS[1]}" = validate ] && [ "$COMP_CWORD" -gt 1 ]; then
    case $before in
      --script) COMPREPLY=($(compgen -f -- "$word")); return ;;
      --parallelism) return ;;
      --form) COMPREPLY=($(compgen -W "applystream terraform" -- "$word")); return ;;
      --command) COMPREPLY=($(compgen -W "saved plan apply destroy" -- "$word")); return ;;
      --refresh) COMPREPLY=($(compgen -W "true false" -- "$word")); return ;;
    esac
    COMPREPLY=($(compgen -W "--script --parallelism --form --command --refresh --help" -- "$word"))
    return
  fi
  case $before in
    --at) return ;;
    --script) COMPREPLY=($(compgen -f -- "$word")); return ;;
    --workers) return ;;
    --queue) return ;;
    --halt-before) COMPREPLY=($(compgen -W "create update delete read" -- "$word")); return ;;
    --halt-in) return ;;
    --parallelism) return ;;
    --form) COMPREPLY=($(compgen -W "applystream terraform" -- "$word")); return ;;
    --command) COMPREPLY=($(compgen -W "saved plan apply destroy" -- "$word")); return ;;
    --refresh) COMPREPLY=($(compgen -W "true false" -- "$word")); return ;;
  esac
  local words="--at --script --workers --queue --destroy --halt-before --halt-in --parallelism --form --command --refresh --help --version"
  [ "$COMP_CWORD" != 1 ] || words+=" check watch view play record validate"
  COMPREPLY=($(compgen -W "$words" -- "$word"))
}
complete -o filenames -F _applystream applystream
