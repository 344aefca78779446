# shellcheck shell=bash disable=SC2034,SC2154
# --confirm and --back: the decision about a load that has not ended. Writes run[state], option[backend] and option[machine],
# which are those of this load.

# Decides how the load ends, waits for its end, and prints it. Before a load has asked, it can be rolled back, but not
# confirmed.
answer_pending() {
  local digests
  find_pending
  refuse_other_name "$1"
  if [ "$1" = kept ]; then refuse_unasked; fi
  if [ "$1" = kept ] && [ -e "${run[state]}/connections" ]; then
    need ss find
    refuse_old_login
  fi
  digests=$(digests_now)
  if decide "$1"; then record "--${option[action]}" "$digests"; fi
  exec 9>"${run[state]}/lock"
  tell_end
}

# Finds the load that has not ended in this namespace, in a back end or the table unless one is named. One whose processes are
# gone counts only if there is no other.
find_pending() {
  local each held='' broken=''
  need flock
  for each in $(places); do
    if ! is_waiting "$each"; then continue; fi
    if is_held "$(folder_of "$each")"; then held+=" $each"; else broken+=" $each"; fi
  done
  case ${held:-$broken} in
    '') refuse not-pending 'no load is awaiting confirmation in this network namespace' ;;
    ' '*' '*) refuse ambiguous 'a load is awaiting confirmation in each back end: select one with --backend or --table' ;;
    *) option[backend]=${held:-$broken} ;;
  esac
  option[backend]=${option[backend]# }
  run[state]=$(folder_of "${option[backend]}")
  mkdir -p "${run[state]}" || refuse cannot-write "cannot create ${run[state]}: nothing is changed" # a table is pending also without it
}

# Prints where a load may be waiting: in what is named, or everywhere.
places() {
  if [ -n "${option[backend]}" ]; then echo "${option[backend]}"
  elif [ -n "${option[iptables]}" ]; then echo 'nft legacy'
  else echo 'nft legacy table'
  fi
}

# Whether a load has not ended in the table or a back end.
is_waiting() { is_pending "$(folder_of "$1")" || { [ "$1" = table ] && is_table_pending; }; }

# Refuses to decide about a load of another name, and to keep one without its name.
refuse_other_name() {
  local name
  name=$(readlink "${run[state]}/name")
  if [ "$name" = "${option[transaction]}" ] || [ "$1:${option[transaction]}" = back: ]; then return; fi
  if [ -n "$name" ]; then name="the name $name"; fi
  refuse other-transaction "the load that is waiting has ${name:-no name}: nothing is decided (--transaction)"
}

# Refuses to confirm a load that has not asked.
refuse_unasked() {
  if [ -e "${run[state]}/asked" ]; then return; fi
  if is_held "${run[state]}"; then refuse not-asked 'the load in progress has not asked for confirmation yet: nothing is decided'; fi
  refuse not-asked 'the load was interrupted before it asked for confirmation: topos-load --back ends it'
}

# Ends the load in its back end, on a firewall or on the machine of a host. This process has the lock.
end_in_place() {
  if [ -L "${run[state]}/result" ]; then return; fi # ended before the lock was free
  option[machine]=$(cat "${run[state]}/local" 2>/dev/null)
  select_form
  "find_tools_${form[kind]}"
  open_changing || refuse cannot-write "cannot write ${run[state]}: nothing is changed"
  "end_broken_${form[kind]}"
  if ! [ -L "${run[state]}/result" ]; then refuse failed 'nothing is changed'; fi
  exit "$(result_status)"
}

# Prints the established connections over IPv4 with other machines: a line each, with its ends and the inode of its socket.
connections() {
  ss -Htne state established | awk '
    { gsub(/\[::ffff:|\]/, "") }
    $4 ~ /^(127\.|\[|[^.]*:.*:)/ { next }
    match($0, / ino:[0-9]+/) { print $3, $4, substr($0, RSTART + 5, RLENGTH - 5) }'
}

# Prints those of them that this process and its ancestors hold.
connections_held() {
  local process=$$ sockets='' ends
  while [ "${process:-0}" -gt 0 ]; do
    sockets+=$(find "/proc/$process/fd" -lname 'socket:*' -printf ' %l' 2>/dev/null)
    process=$(sed -n 's/^PPid:[[:space:]]*//p' "/proc/$process/status" 2>/dev/null)
  done
  connections | while read -r ends; do
    if [[ $sockets == *"socket:[${ends##* }]"* ]]; then printf '%s\n' "$ends"; fi
  done
}

# Refuses unless this login has a connection that began after the load, and none that is older.
refuse_old_login() {
  local held old
  held=$(connections_held)
  old=$(grep -Fxf "${run[state]}/connections" <<<"$held")
  if [ -n "$old" ]; then refuse old-login "this login has a connection that predates the rules (${old% *}): log in again"; fi
  if [ -z "$held" ]; then
    refuse old-login 'this login has no IPv4 connection from another machine: log in from another machine to test the rules'
  fi
}

part=answer # a truncated file lacks this line
