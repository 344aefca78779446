# shellcheck shell=bash disable=SC2034,SC2154
# --check of a table, and what surrounds it. Writes run[folder]; reads `table`, `active` and `chains` of run[..], and option[..].

# Notes everything that is not in the table.
note_around_table() {
  note_forwarding
  note_senders
  note_tables
  note_nft
  note_networks "${run[state]}/rules"
  note_flows
  if [ -z "${option[dry_run]}" ]; then others_that_drop >"${run[state]}/listed"; fi
}

# Prints the differences, and a verdict as the last line; nothing if the table is that of the text. The status is 2 if nobody
# has confirmed it.
check_table() {
  local found around='' pending=''
  run[folder]=$(mktemp -d 2>/dev/null) || run[folder]=$(mktemp -d -p /run) || refuse cannot-write 'cannot create a directory for the comparison'
  write_rules "${run[folder]}/rules"
  read_table || [ -n "${run[table]}" ] || refuse unreadable "nft cannot list ${form[changed]}: nothing is compared"
  if tell_pending_table; then pending=yes; fi
  if tell_others; then around=yes; fi
  found=$(foreign_line)
  if [ "${run[active]}" = none ] || [ "${run[active]}" = unknown ]; then : >"${run[folder]}/now"
  else text_of "${run[active]%%-*}" >"${run[folder]}/now"
  fi
  if [ -n "${run[table]}" ] && [ -z "$found" ] && cmp -s "${run[folder]}/now" "${run[folder]}/rules"; then
    if [ -n "${option[verbose]}$around$pending" ]; then say 'the firewall has these rules'; fi
    if [[ ${run[active]} == *-pending ]]; then run[code]=waiting; exit 2; fi
    run[code]=described
    return
  fi
  tell_table "$found"
  run[code]=different
  exit 1
}

# Prints that nobody has confirmed a load yet, or what a load left. Whether there is such a load.
tell_pending_table() {
  if ! is_table_pending; then return 1; fi
  if ! is_held "${run[state]}"; then say 'a load was interrupted before its confirmation: topos-load --back ends it'
  elif ! [ -e "${run[state]}/asked" ]; then say 'a load is in progress: topos-load --back ends it'
  else say 'a load is awaiting confirmation (--confirm, --back)'
  fi
}

# Prints what else may drop packets, except what the last load listed. Whether there is any.
tell_others() {
  local listed=${run[state]}/listed found
  if [ -n "${option[verbose]}" ] || ! [ -e "$listed" ]; then listed=/dev/null; fi
  found=$(others_that_drop | grep -vxF -f "$listed")
  if [ -z "$found" ]; then return 1; fi
  say "these also process ${form[packets]} packets and may drop them:"
  some_lines <<<"$found" >&2
}

# Prints what differs, and a verdict. The argument is the first line that no load writes, if there is one.
tell_table() {
  local folder=${run[folder]} number
  run[verdict]=differs
  if [ -z "${run[table]}" ] || [ "${run[active]}:$1" = none: ]; then
    say 'no rules of topos are in force: topos filters nothing (nft flush ruleset removes its table)'
    say 'verdict: differs'
    return
  fi
  if [ -n "$1" ]; then
    say "${form[changed]} has a line that topos-load does not write (line ${1%%:*}: ${1#*:})"
    say 'verdict: differs; equivalence is checked only for a table in the form of topos'
    return
  fi
  line_changes <(elements "$folder/rules") <(elements "$folder/now") >"$folder/lines"
  number=$(wc -l <"$folder/lines")
  if [ "${option[from]}${option[verbose]}" = description ] && [ "$number" -gt 20 ]; then
    echo "$number rules and elements differ (--verbose lists them)"
  else
    some_lines <"$folder/lines" |
      sed 's/^-/missing on the firewall:/; s/^+/only on the firewall:   /; s/^~/moved on the firewall:  /'
  fi
  say 'the firewall has other rules'
  if [ "${option[from]}" = description ]; then compare_rules "$folder/now"
  else say 'verdict: differs; equivalence is checked only for a description'
  fi
}

# Writes a text that is compared into another file.
write_compared_table() { cat "$1" >"$2"; }

# Prints a text by elements of maps and rules, each behind its chain.
elements() {
  awk '
    /^\tchain / { chain = substr($0, 8, length($0) - 9); print "chain " chain; next }
    /^\t\tip [sd]addr vmap / {
      words = substr($0, 3, 13)
      count = split(substr($0, 18, length($0) - 19), element, ", ")
      for (each = 1; each <= count; each++) print chain ": " words " " element[each]
      next
    }
    /^\t\t/ { print chain ": " substr($0, 3) }' "$1"
}

part=table_check # a truncated file lacks this line
