# shellcheck shell=bash disable=SC2034,SC2154
# The way back: a process in a session of its own that restores the previous rules unless somebody confirms in time. Writes
# `guard`, and in that process `was` and `loaded`, of run[..]; reads these and `state`, the options that the process gets, and
# form[..].

# Opens the file of this lock.
open_changing() { exec 8>"${run[state]}/changing"; }

# Waits for a change that is under way: its restore holds the lock also if its script was killed.
await_changes() { flock 8 && flock -u 8; }

# Starts the process that goes back, and waits until it is ready.
start_guard() {
  local tries=0
  local -a words=(--guard ${option[keep]:+--keep-connections}
    ${option[machine]:+--local} ${option[program]:+--program "${option[program]}"} ${option[unproved]:+"${option[unproved]}"})
  if [ -n "${option[until]}" ]; then words+=(--until "@${option[until]}"); else words+=(--wait "${option[seconds]}"); fi
  if [ "${form[kind]}" = table ]; then words+=(--table); else words+=(--backend "${option[backend]}"); fi
  TOPOS_LOAD=$$ setsid "$self" "${words[@]}" </dev/null >>"${run[state]}/log" 2>&1 4>&- &
  run[guard]=$!
  disown "${run[guard]}" # no message of bash where it is killed
  until [ -e "${run[state]}/armed" ]; do
    tries=$((tries + 1))
    if [ "$tries" -gt 100 ] || ! kill -0 "${run[guard]}" 2>/dev/null; then
      kill -9 "${run[guard]}" 2>/dev/null
      rm -f "${run[state]}/armed"
      refuse failed 'cannot start the rollback process: nothing is changed'
    fi
    sleep 0.1
  done
}

# Waits for a decision, and goes back when the time is up. The time begins with the question, or when the load is gone; until
# then the load has ten minutes. All texts are in memory, so neither a full disk nor a folder that a user removes prevents
# the rollback.
guard() {
  trap '' HUP INT TERM PIPE
  local left=6000 half end parent=${TOPOS_LOAD:-0}
  if [ "$(readlink "/proc/$$/fd/9")" != "${run[state]}/lock" ]; then wrong_words '--guard: unknown option'; fi
  open_changing && run[was]=$(cat "${run[state]}/before") && run[loaded]=$(cat "${run[state]}/rules") || exit 1
  echo -500 2>/dev/null >/proc/$$/oom_score_adj
  : >"${run[state]}/armed" || exit 1
  until [ -e "${run[state]}/asked" ] || ! [ -d "${run[state]}" ] || is_decided || [ "$left" -le 0 ] || is_orphan "$parent"; do
    left=$((left - 1))
    sleep 0.1
  done
  set_limit
  half=$((option[seconds] * 5))
  end=$((option[seconds] * 100 + $(uptime_now)))
  ln -sfn "$end" "${run[state]}/deadline" 2>/dev/null # for --status
  while ! is_decided && [ "$half" -gt 0 ] && ! is_past "$end"; do
    half=$((half - 1))
    sleep 0.2
  done
  if [ -e "${run[state]}/asked" ]; then decide expired; else decide interrupted; fi
  end_as_decided
}

# Prints the hundredths of seconds since the boot: the clock may be set, and on a busy machine a sleep takes longer.
uptime_now() {
  local now
  read -r now _ </proc/uptime
  echo "$((10#${now/./}))"
}

# Whether this time is over.
is_past() { [ "$(uptime_now)" -ge "$1" ]; }

# Whether the process that began this one is gone.
is_orphan() {
  local parent
  read -r _ _ _ parent _ <"/proc/$$/stat"
  [ "$parent" != "$1" ]
}

# Ends the load as it was decided.
end_as_decided() {
  case $(decision) in
    kept) "settle_${form[kind]}" ;;
    nothing) finish 69 "another tool changed ${form[changed]} during the load: nothing is changed" ;;
    *) "go_back_${form[kind]}" ;;
  esac
}

part=back # a truncated file lacks this line
