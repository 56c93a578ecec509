# Completions of boxglue for bash. Source the file, or put it as `boxglue` into a folder of bash-completion.
_boxglue() {
  local word=${COMP_WORDS[COMP_CWORD]} before=${COMP_WORDS[COMP_CWORD - 1]} use=${COMP_WORDS[1]} words=--help
  COMPREPLY=()
  if ((COMP_CWORD == 1)); then
    mapfile -t COMPREPLY < <(compgen -W 'typeset session list fonts paint --help --version' -- "$word")
    return
  fi
  case $use in
  paint) words='--page --dpi --width --height --help' ;;
  typeset | session | list | fonts) ;;
  *) return ;;
  esac
  # Bash treats a `=` as a word of its own. After `--page=` comes a number, after `NAME=` a path.
  [[ $word == = ]] && word=
  [[ $before == = ]] && before=${COMP_WORDS[COMP_CWORD - 2]}
  case $before in
  --page | --dpi | --width | --height) return ;;
  esac
  if [[ $word == -* ]]; then
    mapfile -t COMPREPLY < <(compgen -W "$words" -- "$word")
  else
    compopt -o filenames 2>/dev/null
    mapfile -t COMPREPLY < <(compgen -f -- "$word")
  fi
}
complete -F _boxglue boxglue
