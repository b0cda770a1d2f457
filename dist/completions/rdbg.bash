# Completion of rdbg for bash.
_rdbg() {
  local current=${COMP_WORDS[COMP_CWORD]} before=${COMP_WORDS[COMP_CWORD - 1]}
  local word=${COMP_WORDS[1]-} choices=
  # (bash makes words of their own of `--as`, `=` and what follows)
  if [ "$current" = = ]; then current=; elif [ "$before" = = ]; then before=${COMP_WORDS[COMP_CWORD - 2]}; fi
  COMPREPLY=()
  if [ "$COMP_CWORD" -eq 1 ]; then
    choices='talk expand run check crew test replay draw find help --help --version'
  elif [ "$word" = help ]; then
    choices='talk expand run check crew test replay draw help'
  elif [ "$before" = --as ]; then
    choices='text svg html shiviz mermaid'
  elif [ "$before" = --color ]; then
    choices='auto always never'
  elif [ "$before" = --theme ]; then
    choices='auto light dark'
  elif [ "$before" = --engine ]; then
    choices='auto spin sample'
  elif [ "$before" = --strategy ]; then
    choices='random priorities swarm stall stall-swarm'
  elif [ "$before" = --turns ] || [ "$before" = --at ] || [ "$before" = --width ] || [ "$before" = --last ] || [ "$before" = --only ]; then
    return
  elif [[ $current == -* ]]; then
    case $word in
      check) choices='--explain --help' ;;
      crew) choices='--turns --help' ;;
      expand) choices='--names --help' ;;
      find)
        choices='--break --stuck --unless --from-start --engine --seconds --shortest --jobs --channel --memory --strategy --seed'
        choices+=' --schedules --length --weight --at-most --test --compare --help'
        ;;
      talk) choices='--color --log --no-rlwrap --help' ;;
      test) choices='--fill --tap --help' ;;
      draw) choices='--as --at --at-halt --whole --last --only --width --theme --help' ;;
      *) choices='--help' ;;
    esac
  fi
  local found
  if [ -n "$choices" ]; then
    while IFS= read -r found; do COMPREPLY+=("$found"); done < <(compgen -W "$choices" -- "$current")
  else
    compopt -o filenames 2>/dev/null
    while IFS= read -r found; do
      if [ -d "$found" ] || [[ $found == *.rdbg ]]; then COMPREPLY+=("$found"); fi
    done < <(compgen -f -- "$current")
  fi
}
complete -F _rdbg rdbg
