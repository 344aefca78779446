# Completion of topos and its tools for bash: words and options of their usage, files, and hosts of the description that
# is named.
_topos() {
  mapfile -t COMPREPLY < <(@LIB@/topos-complete "$COMP_CWORD" "${COMP_WORDS[@]}" 2>/dev/null)
  if [ "${COMPREPLY[0]:-}" = @files ]; then
    compopt -o filenames 2>/dev/null
    COMPREPLY=("${COMPREPLY[@]:1}")
    mapfile -t -O "${#COMPREPLY[@]}" COMPREPLY < <(compgen -f -- "${COMP_WORDS[COMP_CWORD]}")
  fi
}
complete -F _topos topos topos-query topos-load topos-where topos-why topos-gaps topos-rest topos-report topos-flows \
  topos-import topos-diff topos-cuts
