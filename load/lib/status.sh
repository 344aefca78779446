# shellcheck shell=bash disable=SC2034,SC2154
# --status: what is in force, what waits for a confirmation, and how the last load ended. Declares and writes status[..]; writes
# `state` of run[..], and the options `backend` and `machine`; reads these, `table`, `active` and `chains` of run[..] and form[..].

# The state: none, loading, pending, interrupted, kept, or unknown. The SHA-256 of what is in force and of what was before, the
# name of a load that waits and the seconds until it goes back, and how the last one ended.
declare -gA status=([state]='' [digest]='' [before]='' [transaction]='' [seconds]='' [end]='' [last]='')

# Prints the state of the table or of a back end: of what is named, else of what find_place finds.
tell_status() {
  local each
  if [ -z "${option[backend]}" ]; then find_place; fi
  find_machine
  select_form
  run[state]=$(folder_of "${option[backend]}")
  find_end
  "find_status_${form[kind]}"
  for each in state digest before transaction; do put_text "$each" "${status[$each]}"; done
  put_value local "$(if [ -n "${option[machine]}" ]; then echo true; else echo false; fi)"
  put_value seconds "${status[seconds]}"
  put_value last "${status[last]}"
  run[code]=${status[state]}
  print_status
}

# Finds whether the rules are those of a host: by the last load or, without one, by themselves.
find_machine() {
  local file
  file=$(folder_of "${option[backend]}")/local
  if [ -e "$file" ]; then option[machine]=$(cat "$file")
  elif [[ ${option[backend]} == @(nft|legacy) ]] && prints '^-A INPUT -d [0-9./]+ -j IN$' table_of "${option[backend]}" filter; then
    option[machine]=yes
  fi
}

# Finds how far a load is that has not ended.
find_waiting() {
  local deadline
  status[transaction]=$(readlink "${run[state]}/name")
  if ! is_held "${run[state]}"; then status[state]=interrupted; return; fi
  if ! [ -e "${run[state]}/asked" ]; then status[state]=loading; return; fi
  status[state]=pending
  deadline=$(readlink "${run[state]}/deadline") || return
  status[seconds]=$(((deadline - $(uptime_now) + 99) / 100))
  if [ "${status[seconds]}" -lt 0 ]; then status[seconds]=0; fi
}

# Finds how the last load ended, as `finish` writes it. What was before it, if it was kept, has its digest there.
find_end() {
  local time ended code name before words IFS=' '
  local -a reply=()
  read -r time ended code name before words < <(readlink "${run[state]}/ended") || return
  time=$(date -u -d "@$time" +%Y-%m-%dT%H:%M:%SZ)
  if [ "$ended:$before" != "0:-" ] && [ "$ended" = 0 ]; then status[before]=$before; fi
  status[end]="$code at $time ($words)"
  put_text code "$code"
  put_value status "$ended"
  put_text time "$time"
  put_text transaction "${name#-}"
  put_text words "$words"
  IFS=,
  status[last]="{${reply[*]}}"
}

# Finds the state of the table, which its comment and its chains have.
find_status_table() {
  local other=b
  need nft awk sha256sum
  if ! read_table || [ -n "$(foreign_line)" ]; then status[state]=unknown; return; fi
  status[state]=kept
  case ${run[active]}:${run[chains]} in
    *-pending:* | *:ab | none:[ab]) find_waiting ;;
    none:*) status[state]=none ;;
  esac
  if [[ ${run[active]} == none ]]; then return; fi
  status[digest]=$(text_of "${run[active]%%-*}" | digest_of_table)
  if [[ ${run[active]} == b-* ]]; then other=a; fi
  if [[ ${run[active]} != *-pending ]]; then return; fi
  status[before]=''
  if [ "${run[chains]}" = ab ]; then status[before]=$(text_of "$other" | digest_of_table); fi
}

# Finds the state of a back end of iptables.
find_status_rules() {
  local now
  status[state]=none
  if [ -z "${option[backend]}" ]; then return; fi
  find_tools_rules
  if ! now=$(filter_now 2>/dev/null) || [ -n "$(out_of_force)" ]; then status[state]=unknown; return; fi
  if grep -qE "${form[jump]}" <<<"$now"; then
    status[state]=kept
    status[digest]=$(digest_of_rules <<<"$now")
  fi
  if ! is_pending "${run[state]}"; then return; fi
  find_waiting
  status[before]=$(digest_of_rules <"${run[state]}/before")
}

# Prints the state, a line for each part that is known.
print_status() {
  echo "state: ${status[state]}"
  echo "back end: ${option[backend]:-none}${option[machine]:+ (--local)}"
  if [ -n "${status[digest]}" ]; then echo "in force: ${status[digest]}"; fi
  if [ -n "${status[before]}" ]; then echo "before: ${status[before]}"; fi
  if [ -n "${status[transaction]}" ]; then echo "transaction: ${status[transaction]}"; fi
  if [ -n "${status[seconds]}" ]; then echo "seconds left: ${status[seconds]}"; fi
  if [ -n "${status[end]}" ]; then echo "last load: ${status[end]}"; fi
}

part=status # a truncated file lacks this line
