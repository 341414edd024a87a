# Completion of cqmmc's words for bash: the command, then files.
_cqmmc() {
  if [ "$COMP_CWORD" -eq 1 ]; then
    mapfile -t COMPREPLY < <(compgen -W 'new run extcsd raw' -- "$2")
  else
    mapfile -t COMPREPLY < <(compgen -f -- "$2")
  fi
}
complete -o filenames -F _cqmmc cqmmc
