# Completions of cutlab for bash: source this file, or put it where bash-completion looks. Made by docs/completions/make.

_cutlab() {
  local current=${COMP_WORDS[COMP_CWORD]} before=${COMP_WORDS[COMP_CWORD-1]}
  local command=${COMP_WORDS[1]}
  if [ "$COMP_CWORD" -eq 1 ]; then
    mapfile -t COMPREPLY < <(compgen -W "run check explain canonical status serve ask migrate share join help --help --version" -- "$current")
    return
  fi
  case $before in
    --checkpoint | --plan) mapfile -t COMPREPLY < <(compgen -f -- "$current"); return ;;
    --dir) mapfile -t COMPREPLY < <(compgen -d -- "$current"); return ;;
    --piece | --workers | --sessions | --studies) return ;;
  esac
  case $command in
    run) mapfile -t COMPREPLY < <(compgen -f -W "--piece --workers --checkpoint --progress --help" -- "$current") ;;
    check) mapfile -t COMPREPLY < <(compgen -f -W "--help" -- "$current") ;;
    explain) mapfile -t COMPREPLY < <(compgen -f -W "--help" -- "$current") ;;
    canonical) mapfile -t COMPREPLY < <(compgen -f -W "--help" -- "$current") ;;
    status) mapfile -t COMPREPLY < <(compgen -f -W "--help" -- "$current") ;;
    serve) mapfile -t COMPREPLY < <(compgen -f -W "--workers --sessions --studies --dir --help" -- "$current") ;;
    ask) mapfile -t COMPREPLY < <(compgen -f -W "--plan --help" -- "$current") ;;
    migrate) mapfile -t COMPREPLY < <(compgen -f -W "--plan --help" -- "$current") ;;
    share) mapfile -t COMPREPLY < <(compgen -f -W "--piece --workers --progress --plan --help" -- "$current") ;;
    join) mapfile -t COMPREPLY < <(compgen -f -W "--which --plan --help" -- "$current") ;;
    help) mapfile -t COMPREPLY < <(compgen -W "run check explain canonical status serve ask migrate share join" -- "$current") ;;
  esac
}

complete -o filenames -F _cutlab cutlab
