#compdef topos topos-query topos-load topos-where topos-why topos-gaps topos-rest topos-report topos-flows topos-import topos-diff topos-cuts
# Completion of topos and its tools for zsh: words and options of their usage, files, and hosts of the description that
# is named.
local -a found
found=(${(f)"$(@LIB@/topos-complete $((CURRENT - 1)) "${(@)words}" 2>/dev/null)"})
if [[ ${found[1]} == @files ]]; then
  shift found
  _files
fi
if (( $#found )); then compadd -a found; fi
