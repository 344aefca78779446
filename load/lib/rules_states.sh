# shellcheck shell=bash disable=SC2034,SC2154
# Saved states of iptables: the rules before the first load, and the end of a load that was kept or interrupted. Writes `was`,
# `loaded`, `kept_as`, `older_saved` and `cause` of run[..]; reads `state`, `first`, `last`, `stayed` and `save` of it, the words of
# form[..] and the options of a removal.

# Ends a load whose processes are gone, as it was decided. If its rules are not there, as in a namespace that has the number
# of an earlier one, nothing is changed, and what was before it is saved.
end_broken_rules() {
  local now
  if ! is_pending "${run[state]}"; then return; fi
  if [ -n "${option[dry_run]}" ] || [ "${option[action]}" = clean ]; then # neither changes a verdict
    refuse interrupted 'a load was interrupted before its confirmation: topos-load --back ends it'
  fi
  if [ "$(cat "${run[state]}/local" 2>/dev/null)" != "${option[machine]}" ]; then
    refuse interrupted "a load ${option[machine]:+without --local }was interrupted: topos-load --back ends it"
  fi
  run[was]=$(cat "${run[state]}/before") run[loaded]=$(cat "${run[state]}/rules")
  await_changes
  now=$(filter_now) || refuse unreadable "${run[save]} cannot read the table filter: nothing is changed"
  if [ -z "${run[was]}" ]; then
    say 'a load was interrupted, and the rules from before it are not known: no rollback'
    rm -f "${run[state]}/armed"
  elif ! has_all "$now" "${run[loaded]}"; then
    keep_old "${run[state]}/before"
    say "a load was interrupted, and its rules are no longer present:" \
      "the rules from before it are saved as ${run[kept_as]}"
    rm -f "${run[state]}/armed"
  else
    if [ "$(decision)" != kept ]; then say 'a load was interrupted before its confirmation: rolling back'; fi
    run[cause]=interrupted
    end_as_decided
    tell_result
    if [ "$(result_status)" = 71 ]; then exit 71; fi
  fi
}

# Whether the state before the first load is known for the rules in a file.
is_known() { [ -e "${run[first]}" ] && is_last "$1"; }

# Whether the rules in a file are those of the last load.
is_last() { [ -e "${run[last]}" ] && [ "$(written "$1")" = "$(written "${run[last]}")" ]; }

# Renames a saved state, and the file with the numbers of its connections.
rename_state() {
  rm -f "$(older_of "$2")"
  mv -n "$1" "$2" || return 1
  if [ -e "$(older_of "$1")" ]; then mv "$(older_of "$1")" "$(older_of "$2")"; fi
}

# Saves a file under the next free name: no load overwrites what was before an earlier one.
keep_old() {
  local number=1
  if [ ! -s "$1" ]; then return; fi
  while [ -e "${run[first]}.old.$number" ]; do number=$((number + 1)); done
  rename_state "$1" "${run[first]}.old.$number" && run[kept_as]=${run[first]}.old.$number
}

# Saves what a change leaves, once it is kept.
settle_rules() {
  local digests now words=kept
  digests=$(digests_now)
  if [ -e "${run[state]}/asked" ] && ! { now=$(filter_now) && is_same_text "$now" "${run[loaded]}"; }; then
    words="kept, but another tool has changed ${form[changed]} since the load"
  fi
  if [ -e "${run[state]}/staying" ]; then mv "${run[state]}/staying" "${run[stayed]}"; else rm -f "${run[stayed]}"; fi
  case $(cat "${run[state]}/settle") in
    first) keep_old "${run[first]}"; rename_state "${run[state]}/before" "${run[first]}" && mv "${run[state]}/rules" "${run[last]}" ;;
    again) mv "${run[state]}/rules" "${run[last]}" ;;
    unknown) keep_old "${run[first]}"; mv "${run[state]}/rules" "${run[last]}" ;;
    nothing) rm -f "${run[first]}" "$(older_of "${run[first]}")" "${run[last]}" "${run[stayed]}" ;;
  esac
  finish 0 "$words" "$digests"
}

# Lists the saved states: the time, the size in bytes and the name of each file.
list_remembered() {
  local each
  for each in "${run[first]}" "${run[first]}".old.*; do
    if [ -e "$each" ]; then stat -c '%.19y %8s %n' "$each" | sed "s|${run[state]}/||"; fi
  done
}

# Prints the same, and adds their names to the object of --json.
tell_remembered() {
  local list
  list=$(list_remembered)
  put_list states "$(awk '{ print $NF }' <<<"$list")"
  if [ -n "$list" ]; then printf '%s\n' "$list"; fi
}

# Prints where the saved states are listed, if there are any.
says_old() {
  local each
  for each in "${run[first]}" "${run[first]}".old.*; do
    if [ -e "$each" ]; then echo " (topos-load ${option[machine]:+--local }--remove --list lists saved states)"; return; fi
  done
}

# Writes the text to go back to: the saved state that is named, or that before the first load, or no rules. run[older_saved]
# is the file with the numbers of its connections.
write_remembered() {
  local file=${option[file]}
  local source=${run[state]}/$file
  run[older_saved]=''
  if [ -z "$file" ]; then source=${run[first]}; fi
  if [ -n "$file" ] && { [[ $file != "${form[remembered]}"first* || $file == */* ]] || ! [ -e "$source" ]; }; then
    refuse no-state "$file: no saved state has this name (--remove --list)"
  fi
  if [ -n "$file" ] || is_known "${run[state]}/before"; then
    note "${form[changed]} will be restored from $source"
    cat "$source" >"${run[state]}/rules" || refuse cannot-write "cannot copy $source: nothing is changed"
    run[older_saved]=$(older_of "$source")
  else
    write_empty >"${run[state]}/rules" || refuse cannot-write "cannot write ${run[state]}: nothing is changed"
  fi
}

# Writes a text without rules, for a state that is not known. An open firewall can be unwanted, and one that drops everything
# as well, so a firewall is opened only on request. A machine that dropped everything could not be reached any more.
write_empty() {
  local unknown="the state of ${form[changed]} before the first load is unknown"
  unknown+=$(says_old)
  if [ -z "${option[machine]}${option[open]}" ]; then
    refuse unknown-state "$unknown: nothing is changed; --remove --open removes all rules and accepts everything"
  fi
  note "$unknown: all rules are removed, and everything is accepted"
  write_open
}

part=rules_states # a truncated file lacks this line
