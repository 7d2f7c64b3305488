# Completion of the words of ./telmukhai in bash: `source launcher/completion.bash`, or a line of that kind in ~/.bashrc.
#
# Commands first, then the options of the command and files. Exit statuses are told by `./telmukhai help` and by the manual page docs/telmukhai.1.

_telmukhai() {
  local word=${COMP_WORDS[COMP_CWORD]} before=${COMP_WORDS[COMP_CWORD - 1]} options of_prove="--workers= --inferences= --tptp= --select= --split= --tolerance= --depth="
  COMPREPLY=()
  # Bash splits `--select=none` at its sign, so the value is a word of its own, or the sign itself.
  if [ "$word" = "=" ]; then
    word=""
  elif [ "$before" = "=" ]; then
    before=${COMP_WORDS[COMP_CWORD - 2]}
  fi
  if [ "$COMP_CWORD" -eq 1 ]; then
    mapfile -t COMPREPLY < <(compgen -W "prove check model ground decide bench try build batch draw explain help" -- "$word")
    return
  fi
  case "${COMP_WORDS[1]}" in
    prove | try) options=$of_prove ;;
    check | ground | decide) options="--tptp=" ;;
    bench) return ;;
    model) options="--size= --tptp=" ;;
    batch) options="--timeout= --memory= --jobs= --results= --proofs= --hosts= --resume --help $of_prove" ;;
    draw) options="--format= --every-line --help" ;;
    explain) options="--every-line --tptp= --help" ;;
    help)
      mapfile -t COMPREPLY < <(compgen -W "batch draw explain" -- "$word")
      return
      ;;
    *) return ;;
  esac
  case "$before" in
    --select) mapfile -t COMPREPLY < <(compgen -W "none negative" -- "$word") ;;
    --split) mapfile -t COMPREPLY < <(compgen -W "on off" -- "$word") ;;
    --format) mapfile -t COMPREPLY < <(compgen -W "svg dot" -- "$word") ;;
    --tptp | --proofs) compopt -o filenames && mapfile -t COMPREPLY < <(compgen -d -- "$word") ;;
    --results | --hosts) compopt -o filenames && mapfile -t COMPREPLY < <(compgen -f -- "$word") ;;
    --workers | --inferences | --tolerance | --depth | --size | --timeout | --memory | --jobs) ;;
    *)
      case "$word" in
        -*)
          mapfile -t COMPREPLY < <(compgen -W "$options" -- "$word")
          # After a sign the value follows at once.
          case "${COMPREPLY[0]-}" in *=) compopt -o nospace ;; esac
          ;;
        *) compopt -o filenames && mapfile -t COMPREPLY < <(compgen -f -- "$word") ;;
      esac
      ;;
  esac
}

complete -F _telmukhai telmukhai ./telmukhai
