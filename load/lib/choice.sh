# shellcheck shell=bash disable=SC2034,SC2154
# Where rules are loaded if no option says it: into a table of nftables, or into iptables. Writes option[backend]; reads option[..].

# Selects a table where nftables works and iptables has no rules of topos, unless an option or the text is of iptables.
choose_form() {
  if [ -z "${option[backend]}${option[iptables]}" ] && ! is_of_iptables && is_for_table; then
    option[backend]=table
    fit_table_options
  fi
  if [ "${option[backend]}" != table ] && [ -n "${option[log_group]}${option[log_rate]}" ]; then
    wrong_words '--log-group, --log-rate: only valid for a table'
  fi
  select_form
}

# Whether only iptables can do what the command line asks for.
is_of_iptables() {
  case ${option[action]} in load | check | remove) ;; *) return 0 ;; esac
  [ -n "${option[machine]}${option[replace]}${option[open]}${option[list]}" ] ||
    { [ "${option[action]}" = remove ] && [ -n "${option[file]}" ]; }
}

# Whether the text is that of a table or, without one, a table is loaded or is to be loaded.
is_for_table() {
  local first='' each
  if [ "${option[from]}" = text ] && [ -f "${option[file]}" ] && read -r first 2>/dev/null <"${option[file]}"; then
    case $first in 'table ip topos {') return 0 ;; '*filter') return 1 ;; esac
  fi
  if is_table || is_table_pending; then return 0; fi
  for each in nft legacy; do
    if is_waiting "$each" || has_our_rules "$each"; then return 1; fi
  done
  command -v nft >/dev/null && nft list tables >/dev/null 2>&1
}

# Finds the back end with a load that waits, else the table, else a back end with rules of topos.
find_place() {
  local each
  need flock
  for each in $(places); do
    if is_waiting "$each" && is_held "$(folder_of "$each")"; then option[backend]=$each; return; fi
  done
  if [ -z "${option[iptables]}" ] && is_table; then option[backend]=table; return; fi
  for each in nft legacy; do
    if has_our_rules "$each" || is_waiting "$each"; then option[backend]=$each; return; fi
  done
}

part=choice # a truncated file lacks this line
