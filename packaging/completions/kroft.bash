# Completions of kroft for bash: written by scripts/make_completions.
_kroft() {
  local word=${COMP_WORDS[COMP_CWORD]} before=${COMP_WORDS[COMP_CWORD - 1]} command= k
  COMPREPLY=()
  for ((k = 1; k < COMP_CWORD; k++)); do
    case ${COMP_WORDS[k]} in
    run|check|sweep|explain|grade|drive|requests|show|history) command=${COMP_WORDS[k]} ;;
    esac
  done
  case $command:$before in
    *:--shape) mapfile -t COMPREPLY < <(compgen -f -- "$word"); compopt -o filenames 2>/dev/null; return ;;
    *:--machine) mapfile -t COMPREPLY < <(compgen -f -- "$word"); compopt -o filenames 2>/dev/null; return ;;
    *:--image) mapfile -t COMPREPLY < <(compgen -f -- "$word"); compopt -o filenames 2>/dev/null; return ;;
    check:--format|explain:--format|history:--format) COMPREPLY=($(compgen -W 'text json' -- "$word")); return ;;
    sweep:--format|grade:--format|drive:--format) COMPREPLY=($(compgen -W 'text csv json' -- "$word")); return ;;
    *:--latency) COMPREPLY=($(compgen -W '' -- "$word")); return ;;
    *:--busy) COMPREPLY=($(compgen -W '' -- "$word")); return ;;
    *:--registers) COMPREPLY=($(compgen -W '' -- "$word")); return ;;
    *:--sheet) mapfile -t COMPREPLY < <(compgen -f -- "$word"); compopt -o filenames 2>/dev/null; return ;;
    *:--log) COMPREPLY=($(compgen -W 'lackey din' -- "$word")); return ;;
    *:--beside) mapfile -t COMPREPLY < <(compgen -f -- "$word"); compopt -o filenames 2>/dev/null; return ;;
    *:--from) COMPREPLY=($(compgen -W 'lackey din' -- "$word")); return ;;
    *:--words) COMPREPLY=($(compgen -W '' -- "$word")); return ;;
    *:--law) COMPREPLY=($(compgen -W 'flat atomic regular' -- "$word")); return ;;
    *:--unit) COMPREPLY=($(compgen -W '1 2 4 8' -- "$word")); return ;;
    *:--shrink) mapfile -t COMPREPLY < <(compgen -f -- "$word"); compopt -o filenames 2>/dev/null; return ;;
  esac
  case $command in
    run) k='--shape --machine --image -h --help' ;;
    check) k='--shape --machine --image --all-answered --format -h --help' ;;
    sweep) k='--shape --machine --latency --busy --format --svg --log --registers -h --help' ;;
    explain) k='--shape --machine --image --format -h --help' ;;
    grade) k='--shape --machine --image --sheet --strict --solve --format -h --help' ;;
    drive) k='--shape --machine --image --log --latency --busy --summary --all --format --svg --timeline --beside -h --help' ;;
    requests) k='--from --words -h --help' ;;
    show) k='--shape --machine --image --text --vcd --svg -h --help' ;;
    history) k='--law --unit --image --unknown --all-answered --values --shrink --format -h --help' ;;
    *) k='run check sweep explain grade drive requests show history --shape -h --help -V --version' ;;
  esac
  COMPREPLY=($(compgen -W "$k" -- "$word"))
}
complete -F _kroft kroft
