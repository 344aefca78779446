# shellcheck shell=bash disable=SC2034,SC2154
# A load of a table, its end, and a removal. `topos-step` decides what they change. Writes `was`, `loaded`, `kept` and `end_told`
# of run[..]; reads these, the state of the table, `state` and `restore` of run[..], and option[..].

# Loads the rules of a description, or of a text, as the table.
load_table() {
  take_lock
  write_rules "${run[state]}/rules"
  read_ours
  text_of "${run[active]%%-*}" | cat >"${run[state]}/before" || refuse cannot-write "cannot write ${run[state]}: nothing is changed"
  if [ -n "${option[if_changed]}" ] && is_kept_table; then tell_unchanged; return; fi
  note_around_table
  if [ -n "${option[unproved]}" ]; then record 'the programs of this load are not proved (--unproved)'; fi
  if [ -n "${option[dry_run]}" ]; then tell_dry_run
  elif [ "${option[seconds]}" = 0 ]; then load_now
  else carry_out again
  fi
}

# Whether the text is that of the table, kept, and no old connections remain that a load would judge.
is_kept_table() {
  [[ ${run[active]}:${run[chains]} == [ab]-kept:? ]] && cmp -s "${run[state]}"/{before,rules} && [ ! -e "${run[stayed]}" ] &&
    [ "$(log_of_table)" = "$(log_wanted)" ]
}

# Reads the table, and refuses one that has something else than loads write.
read_ours() {
  local found
  if ! read_table && [ "${run[active]}" != unknown ]; then refuse unreadable "nft cannot list ${form[changed]}: nothing is changed"; fi
  if [ -z "${run[table]}" ]; then return; fi
  found=$(foreign_line)
  if [ -n "$found" ]; then
    refuse foreign "${form[changed]} has a line that topos-load does not write (line ${found%%:*}: ${found#*:}): nothing is changed." \
      'Remove it, or the table, which opens the firewall: nft delete table ip topos'
  fi
}

# Whether the text is a complete table in the form of topos, whose names have at most 126 letters: topos reads 128, with the
# suffix. The kernel checks the rest when it is loaded.
is_written_table() {
  if [ -n "$(tail -c 1 "$1")" ] || grep -Evq -e "${form[line]}" -e "^${form[hook]}\$" "$1"; then return 1; fi
  awk -v hook="${form[hook]}" '
    NR == 1 && $0 != "table ip topos {" || length($0) > 135 && /^\tchain / { bad = 1 }
    ended || base && /^\tchain / { bad = 1 }
    $0 == hook && !(last == "\tchain forward {") { bad = 1 }
    last == "\tchain forward {" && $0 != hook { bad = 1 }
    $0 == "\tchain forward {" { base = 1 }
    $0 == "}" { ended = 1 }
    { last = $0 }
    END { exit bad || !base || !ended }' "$1"
}

# Whether nft accepts the text, as a generation of a name that no load uses.
takes_table() { printf '%s\n' "${run[loaded]}" | generation c | nft -c -f -; }

# Loads the text without a question. If an order fails, or this process is killed, the text before stays or comes back.
load_now() {
  trap '' HUP INT TERM PIPE TSTP TTIN TTOU
  run[was]=$(cat "${run[state]}/before") run[loaded]=$(cat "${run[state]}/rules") ||
    refuse cannot-write "cannot read ${run[state]}: nothing is changed"
  takes_table || refuse rejected 'nft rejects the rules: nothing is changed'
  name_load
  if run_orders now; then
    record loaded
    drop_connections "${run[loaded]}"
    end_kept kept
  else go_back_table
  fi
  tell_result
  exit "$(result_status)"
}

# Runs the orders of a load with a question. `switch` compares before what the kernel lists with the text.
put_in_place_table() {
  if run_orders load; then return; fi
  decide failed
  return 1
}

# Ends a load that was kept.
settle_table() {
  if run_orders confirm && read_table; then
    if [ "$(text_of "${run[active]%%-*}")" = "${run[loaded]}" ]; then end_kept kept
    else end_kept "kept, but another tool has changed ${form[changed]} since the load"
    fi
  else go_back_table
  fi
}

# Writes the end of a load that was kept. Rules of topos in iptables are not needed any more: a packet passed both until now.
end_kept() {
  local digests words=$1
  digests=$(digests_now)
  words+=$(remove_iptables)
  if [ -e "${run[state]}/staying" ]; then mv "${run[state]}/staying" "${run[stayed]}"; else rm -f "${run[stayed]}"; fi
  finish 0 "$words" "$digests"
}

# Removes the rules of topos from iptables, where FORWARD accepted everything before them, and prints what it has removed.
# Elsewhere a user decides.
remove_iptables() {
  local each first
  for each in nft legacy; do
    if ! prints '^-A FORWARD( -s [0-9./]+)? -j H[0-9]+$' table_of "$each" filter; then continue; fi
    first=$(folder_of "$each")/first
    if grep -qs '^:FORWARD ACCEPT' "$first" && ! grep -q '^-A FORWARD ' "$first" &&
      "$self" --backend "$each" --wait 0 --keep-connections --remove 5<&- 6<&- 7<&- 8>&- 9>&- </dev/null >&2; then
      echo "; the rules of topos are removed from iptables-$each"
    else echo "; the rules of topos in iptables-$each remain, and a packet must pass both: topos-load --backend $each --remove"
    fi
  done
}

# Goes back to what was confirmed before, and does not give up: the guard tries again every ten seconds.
go_back_table() {
  local tries=0
  await_changes
  until goes_back; do
    tries=$((tries + 1))
    if [ "$tries" = 6 ]; then finish 71 "cannot roll back yet: see nft list table ip topos"; fi
    if [ "$tries" -ge 6 ] && [ "${option[action]}" != guard ]; then return; fi
    if [ "$tries" -ge 6 ]; then sleep 9; fi
    sleep 1
  done
  tell_back
}

# Runs the orders of the way back. If another tool has removed the table meanwhile, loads what was confirmed before.
goes_back() {
  run_orders back && read_table || return 1
  if [ -n "${run[was]}" ] && [ "${run[active]}" = none ]; then
    run[loaded]=${run[was]}
    run_orders now && read_table
  fi
}

# Writes the end of a load that went back, by what is in force.
tell_back() {
  local now told=${form[as_before]}
  now=$(text_of "${run[active]%%-*}")
  if [ "${run[active]}" = none ]; then finish 75 'no table is loaded, as before the load: topos filters nothing'; return; fi
  if [ "$now" = "${run[loaded]}" ] && [ "$now" != "${run[was]}" ]; then end_kept kept; return; fi # before it went back
  if [ "$now" != "${run[was]:-$now}" ]; then told='the previous rules are in force, as another tool has changed them'; fi
  drop_begun "$now" "$(older_of "${run[state]}/before")" 'the new rules'
  finish 75 "$told; ${run[reason]}"
}

# Ends a load whose processes are gone: as it was decided, or with what was confirmed before.
end_broken_table() {
  local orders
  await_changes
  read_table || read_ours
  orders=$("${run[step]}" back "${run[active]}" "${run[chains]}") || refuse failed 'topos-step cannot decide: nothing is changed'
  if [ -z "$orders" ]; then return; fi
  if [ -n "${option[dry_run]}" ]; then refuse interrupted 'a load was interrupted before its confirmation: topos-load --back ends it'; fi
  run[was]=$(cat "${run[state]}/before" 2>/dev/null) run[loaded]=$(cat "${run[state]}/rules" 2>/dev/null)
  run[cause]=interrupted
  if [ "$(decision)" = kept ] && [[ ${run[active]} == *-pending ]]; then settle_table
  else
    say 'a load was interrupted before its confirmation: rolling back'
    go_back_table
  fi
  tell_result
  if [ "$(result_status)" = 71 ]; then exit 71; fi
}

# Removes the table, after a question: there is no way back, since its rules go with it.
remove_table() {
  local word=''
  take_lock
  read_table || refuse unreadable "nft cannot list ${form[changed]}: nothing is changed"
  if [ -z "${run[table]}" ]; then refuse not-loaded "there is no table ip topos: nothing is changed"; fi
  note "without ${form[changed]} this firewall forwards what other tables accept: everything, if there are none"
  if [ "${option[seconds]}" != 0 ]; then
    set_limit
    say "Type yes within ${option[seconds]} seconds to remove it."
    read -r -t "${option[seconds]}" word 2>/dev/null
    if [ "$word" != yes ]; then refuse not-confirmed 'nothing is changed'; fi
  fi
  run_orders remove || refuse failed "${form[changed]} cannot be removed: nothing is changed"
  forget_text
  clear_state
  ln -sfn "$(date +%s) 0 removed - - the table is removed" "${run[state]}/ended" 2>/dev/null
  run[code]=removed
  record 'the table is removed'
  say "${form[changed]} is removed"
}

# The file of the text that was confirmed last, which a boot loads; none in a network namespace other than that of init.
kept_file() {
  local first
  if ! first=$(stat -Lc %i /proc/1/ns/net 2>/dev/null); then # without CAP_SYS_PTRACE
    note 'cannot determine the network namespace of process 1: the text for the next boot is unchanged'
  elif [ "$first" = "${run[namespace]}" ]; then echo /var/lib/topos/table.nft
  fi
}

# Saves a text in a file for the next boot, or none. A load goes on without it.
remember_text() {
  local file=$1
  if [ -z "$file" ]; then return; fi
  if [ -z "$2" ]; then rm -f "$file"; return; fi
  if mkdir -p "${file%/*}" && printf '%s\n' "$2" | cat >"$file.new" && sync "$file.new" && mv "$file.new" "$file"; then return; fi
  note "cannot write $file: the next boot loads an earlier text"
}

# Removes that file, after a removal.
forget_text() {
  local file
  file=$(kept_file)
  if [ -n "$file" ]; then rm -f "$file"; fi
}

# Writes a text as rules that topos trace reads. All connections of a firewall meet its base chain.
as_forward_table() { printf '%s\n' "$2" >"${run[judging]}/text" && cat "${run[judging]}/text"; }

# Whether all connections began under the rules that are loaded again. This counts only if they cannot be judged.
is_nothing_old_table() { [ "${run[was]}" = "${run[loaded]}" ] && [ ! -e "${run[stayed]}" ]; }

# Prints the prefixes of a text and their hosts, a line `10.0.1.10 web` each, and one `rest inet` for the rest host.
owners_table() {
  sed -n '/^\tchain forward {$/,$p' "$1" | sed 's/^\t\tip saddr vmap {\(.*\) }$/\1/; s/, /\n/g' |
    sed -nE 's/^ ?([0-9./]+) : goto from_([^ ]+)$/\1 \2/p; s/^\t\tgoto from_(.*)$/rest \1/p'
}

part=table_load # a truncated file lacks this line
