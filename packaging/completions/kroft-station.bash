# Completions of kroft-station for bash: written by scripts/make_completions.
_kroft_station() {
  local word=${COMP_WORDS[COMP_CWORD]} before=${COMP_WORDS[COMP_CWORD - 1]} command= k
  COMPREPLY=()
  for ((k = 1; k < COMP_CWORD; k++)); do
    case ${COMP_WORDS[k]} in
    soak|rates) command=${COMP_WORDS[k]} ;;
    esac
  done
  case $command:$before in
    *:--ports) COMPREPLY=($(compgen -W '' -- "$word")); return ;;
    *:--asks) COMPREPLY=($(compgen -W '' -- "$word")); return ;;
    *:--seed) COMPREPLY=($(compgen -W '' -- "$word")); return ;;
    *:--threads) COMPREPLY=($(compgen -W '' -- "$word")); return ;;
    *:--journal) mapfile -t COMPREPLY < <(compgen -f -- "$word"); compopt -o filenames 2>/dev/null; return ;;
    *:--stations) COMPREPLY=($(compgen -W '' -- "$word")); return ;;
  esac
  case $command in
    soak) k='--stations --seed -h --help' ;;
    rates) k='--asks --seed --core-once --hand-once -h --help' ;;
    *) k='soak rates --ports --asks --seed --threads --journal -h --help -V --version' ;;
  esac
  COMPREPLY=($(compgen -W "$k" -- "$word"))
}
complete -F _kroft_station kroft-station
