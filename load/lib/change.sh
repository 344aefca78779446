# shellcheck shell=bash disable=SC2034,SC2154
# A change with a question, and its end. Writes `was`, `loaded`, `changing`, `guard`, `leaving`, `end_told`, `code` and `status` of
# run[..]; reads these, `state` and `restore`, option[..] and form[..].

# Says that there is nothing to load, and ends.
tell_unchanged() {
  run[code]=unchanged
  say 'these rules are loaded: nothing is changed'
  clear_state
}

# Changes what is in `before` to the text in the file `rules`, asks, and ends as it is decided. A process of its own makes
# the change, and this one only waits: bash 5.2 fails if it handles a signal while it parses a command substitution.
carry_out() {
  run[was]=$(cat "${run[state]}/before") run[loaded]=$(cat "${run[state]}/rules") ||
    refuse cannot-write "cannot read ${run[state]}: nothing is changed"
  { echo "$1" | cat >"${run[state]}/settle" && echo "${option[machine]}" | cat >"${run[state]}/local"; } ||
    refuse cannot-write "cannot write ${run[state]}: nothing is changed"
  name_load
  "takes_${form[kind]}" || refuse rejected "${run[restore]} rejects the rules: nothing is changed"
  remember_connections
  run[end_told]=''
  trap '' PIPE TSTP TTIN TTOU # a stopped process would hold the locks that the way back and the next load need
  trap 'decide interrupted' INT TERM
  start_guard
  trap 'run[end_told]=yes; exit 129' HUP
  run[leaving]=yes
  make_change &
  await_change $!
  if is_decided; then :
  elif [ "${option[seconds]}" = 0 ]; then decide kept
  else
    ask
    if [ -n "${option[detach]}" ] && ! is_decided; then leave_waiting; fi
    wait_for_decision
  fi
  tell_end
}

# Saves the name of the load.
name_load() {
  if [ -z "${option[transaction]}" ]; then return; fi
  ln -sfn "${option[transaction]}" "${run[state]}/name" || refuse cannot-write "cannot write ${run[state]}: nothing is changed"
}

# Ends this process once the rollback process has begun to count. That goes on, and has the lock.
leave_waiting() {
  until [ -L "${run[state]}/deadline" ]; do
    if is_decided || ! kill -0 "${run[guard]}" 2>/dev/null; then return; fi
    sleep 0.1
  done
  run[end_told]=yes run[code]=pending
  put_value seconds "${option[seconds]}"
  exit 0
}

# Makes the change, and deletes old connections. `made` says that it came to its end.
make_change() {
  trap '' HUP INT TERM
  run[changing]=yes
  open_changing
  if "put_in_place_${form[kind]}"; then
    record loaded
    if [ "${option[action]}" = remove ]; then drop_after_removal; else drop_connections "${run[loaded]}"; fi
  fi
  ln -sfn yes "${run[state]}/made"
}

# Waits for the process that makes the change, which signals do not end. If it was killed, the load goes back.
await_change() {
  while kill -0 "$1" 2>/dev/null; do wait "$1"; done
  if ! [ -L "${run[state]}/made" ]; then decide failed; fi
}

# Asks for the confirmation. The time limit begins here.
ask() {
  local loaded=loaded keep='the rules' confirm="$self --confirm${option[transaction]:+ --transaction ${option[transaction]}}"
  set_limit
  if [ "${option[action]}" = remove ]; then loaded='the rules of topos are removed' keep='this state'; fi
  if [ -n "${option[machine]}" ] && ! connections >"${run[state]}/connections"; then decide failed; return; fi
  if ! : >"${run[state]}/asked"; then say "cannot write ${run[state]}"; decide failed; return; fi
  if [ -n "${option[machine]}" ]; then
    say "$loaded. To keep $keep, log in again within ${option[seconds]} seconds and run there: $confirm"
    if [ -z "${option[detach]}" ]; then say 'Any input here, or none in time, rolls back.'; fi
  elif [ -n "${option[detach]}" ]; then say "$loaded. To keep $keep, run within ${option[seconds]} seconds: $confirm"
  else
    say "$loaded. Type yes within ${option[seconds]} seconds to keep $keep, or run in another terminal: $confirm"
    say 'Any other input, or none in time, rolls back.'
  fi
}

# Reads what is typed until there is a decision. Without a terminal a user decides elsewhere, or the time limit.
wait_for_decision() {
  local word line='' status open=yes
  while ! is_decided; do
    if ! kill -0 "${run[guard]}" 2>/dev/null; then decide failed; return; fi # nobody else would go back
    if [ -z "$open" ]; then sleep 0.5; continue; fi
    word='' status=0
    read -r -t 1 word 2>/dev/null || status=$?
    line+=$word # a line can come in parts
    if [ "$status" -gt 128 ]; then continue; fi
    case $status:$line:${option[machine]} in
      0:yes:) decide kept ;;
      0:yes:*) say "this login may predate the rules: log in again, and run there: $self --confirm" ;;
      0:*) decide back ;;
      *) if [ -t 0 ]; then sleep 0.5; else open=''; fi ;; # in the background of a terminal it may come back
    esac
    line=''
  done
}

# Prints how the load ended, and exits with its status.
tell_end() {
  hear_end
  exit "${run[status]}"
}

# Prints how the load ended, and writes its status into run[status].
hear_end() {
  trap '' HUP INT TERM
  run[end_told]=yes
  if ! is_told; then
    run[code]=unknown-end run[status]=71
    say 'cannot determine whether the rules were rolled back: see iptables-save'
    return
  fi
  run[status]=$(result_status)
  if [ "${run[status]}" = 71 ]; then cat "${run[state]}/log" >&2 2>/dev/null; fi # of the rollback process
  tell_result
}

# Waits until the load has ended: ten minutes, or one if its folder is gone. This process ends the load if its guard is
# gone, or, with --confirm and --back, if the lock is free: then all processes of the load are gone, and the tools that they
# started.
is_told() {
  local tries=0
  until [ -L "${run[state]}/result" ]; do
    tries=$((tries + 1))
    if [ "$tries" -gt 6000 ] || { [ "$tries" -gt 600 ] && ! [ -d "${run[state]}" ]; }; then return 1; fi
    case ${option[action]} in
      confirm | back) if flock -n 9; then end_in_place; fi ;;
      *) if [ -n "${run[guard]}" ] && ! kill -0 "${run[guard]}" 2>/dev/null; then end_unguarded; fi ;;
    esac
    sleep 0.1
  done
}

# Ends the load in place of its guard.
end_unguarded() {
  run[guard]=''
  if ! [ -L "${run[state]}/result" ]; then end_as_decided; fi
}

part=change # a truncated file lacks this line
