# shellcheck shell=bash disable=SC2034,SC2154
# A load of rules of iptables, a removal, and the cleaning of chains. Writes `save`, `restore`, and the files of saved states, of
# run[..], and option[backend]; reads these, option[..] and form[..].

# Finds the tools of the back end, and the files of its saved states.
find_tools_rules() {
  local middle=${option[backend]:+-${option[backend]}} saved
  run[save]=iptables$middle-save run[restore]=iptables$middle-restore
  need awk flock setsid "${run[save]}" "${run[restore]}"
  if [ -n "${option[machine]}" ]; then need ip ss; fi
  if [ -z "${option[backend]}" ]; then
    case $("${run[restore]}" --version) in
      *nf_tables*) option[backend]=nft ;;
      *) option[backend]=legacy ;;
    esac
  fi
  run[state]=$(folder_of "${option[backend]}")
  saved=${run[state]}/${form[remembered]}
  run[first]=${saved}first run[last]=${saved}last run[stayed]=${saved}stayed
}

# Whether a program, the second argument, may be run: it exists, and is proved. run[..] of the first argument is what runs it.
may_run_rules() {
  run[$1]=$2 run[reason]="cannot find $2"
  command -v "$2" >/dev/null || return 1
  run[reason]="no proof found for $2"
  [ -n "${option[unproved]}" ] || is_proved "$2" "$3"
}

# Whether the list beside a program, which ./topos writes, has its digest, as the kind of the second argument.
is_proved() {
  local found digest
  found=$(readlink -f "$(command -v "$1")")
  digest=$(digest_of "$found") || return 1
  grep -qsxF "$digest  $2" "${found%/*}/topos.proved"
}

# Loads the rules of a description, or of a rules file.
load_rules() {
  local settled=again
  take_lock
  write_rules "${run[state]}/rules"
  save_filter "${run[state]}/before"
  refuse_foreign "${run[state]}/before"
  refuse_out_of_force
  note_surroundings
  if [ -n "${option[unproved]}" ] && [ "${option[from]}" = description ]; then
    record 'the program that wrote these rules is not proved (--unproved)'
  fi
  if [ -n "${option[log]}" ]; then
    if ! { with_logs "${run[state]}/rules" >"${run[state]}/logging" &&
      mv "${run[state]}/logging" "${run[state]}/rules"; }; then
      refuse cannot-write "cannot write ${run[state]}: nothing is changed"
    fi
  fi
  if [ -n "${option[if_changed]}" ] && is_kept_rules; then tell_unchanged; return; fi
  if [ -n "${option[dry_run]}" ]; then tell_dry_run; return; fi
  if ! is_loaded "${run[state]}/before"; then settled=first
  elif ! is_known "${run[state]}/before"; then
    settled=unknown
    if ! is_last "${run[state]}/before"; then note 'the present rules of topos are not those of the last load'; fi
    note "the state of ${form[changed]} before the first load is unknown$(says_old)"
  fi
  carry_out "$settled"
}

# Whether the rules are those of the last load, kept, and no old connections remain that a load would judge.
is_kept_rules() {
  is_same "${run[state]}"/{before,rules} && is_last "${run[state]}/before" && [ ! -e "${run[stayed]}" ]
}

# Restores the state before the first load, or a saved one.
remove_rules() {
  if [ -n "${option[list]}" ]; then tell_remembered; return; fi
  take_lock
  save_filter "${run[state]}/before"
  if ! is_loaded "${run[state]}/before"; then refuse not-loaded "${form[changed]}: no rules of topos are loaded: nothing is changed"; fi
  refuse_foreign "${run[state]}/before"
  write_remembered
  if ! grep -qE "^-A (${form[entries]}) " "${run[state]}/rules" && grep -q '^:FORWARD DROP' "${run[state]}/rules"; then
    note 'FORWARD will have no rules and drop everything, as before the first load (iptables -P FORWARD ACCEPT changes this)'
  fi
  carry_out nothing
}

# Removes the unused chains of topos. No packet reaches them, so no verdict changes.
clean_chains() {
  local found others
  take_lock
  save_filter "${run[state]}/before"
  found=$(idle_chains "${run[state]}/before")
  others=$(unused_chains '' "${run[state]}/before" | grep -vxF -e "${found:- }")
  if [ -z "$found" ]; then say 'no chain of topos is unused: nothing is changed'
  elif write_removal "$found" | "${run[restore]}" --noflush --wait 10; then
    say "$(wc -l <<<"$found") unused chains of topos are removed: $(paste -s -d ' ' <<<"$found")"
    put_list removed "$found"
    record 'unused chains are removed'
  else refuse failed "${run[restore]} does not remove the unused chains: nothing is changed"
  fi
  if [ -n "$others" ]; then
    tell 'these unused chains remain, since another tool created, changed or uses them:'
    some_lines <<<"$others" >&2
  fi
  clear_state
}

# Whether iptables accepts the change.
takes_rules() { takes_change 2>/dev/null || takes_change flush; }

# Whether iptables accepts the change, made in the way that the arguments name.
takes_change() { change "${run[was]}" "${run[loaded]}" "$@" | "${run[restore]}" --noflush --wait 10 --test; }

# Changes the table, unless another tool has changed it since it was read, and compares it with what was written.
put_in_place_rules() {
  local now
  if ! { now=$(filter_now) && is_same_text "$now" "${run[was]}"; }; then decide nothing; return 1; fi
  load_change "${run[was]}" "${run[loaded]}" 2>/dev/null || load_change "${run[was]}" "${run[loaded]}" flush
  if is_decided; then return 1; fi # meanwhile
  if now=$(filter_now) && is_same_text "$now" "${run[loaded]}"; then return; fi
  say 'the loaded rules differ from the written ones'
  decide failed
  return 1
}

# Writes what a packet meets in a built-in chain of a text, as rules of FORWARD, which topos trace reads.
as_forward_rules() {
  local judging=${run[judging]}
  printf '%s\n' "$2" | grep -Ev "${form[log]}" | awk -v chain="$1" '
    ($1 == ":FORWARD" || $2 == "FORWARD") && chain != "FORWARD" { next }
    $1 == ":" chain || $1 == "-A" && $2 == chain { sub(chain, "FORWARD") }
    { print }' >"$judging/filter" || return 1
  forwarding_rules "$judging/filter"
}

# Whether all connections began under the rules that are loaded again. This counts only if they cannot be judged.
is_nothing_old_rules() {
  is_alike "${run[state]}/before" "${run[state]}/rules" && is_known "${run[state]}/before" && [ ! -e "${run[stayed]}" ]
}

# Deletes, after a removal, the connections that began under the rules of topos and that the restored rules do not let begin.
drop_after_removal() {
  drop_begun "${run[loaded]}" "${run[older_saved]}" 'the rules of topos'
  if ! is_undone; then say "${run[reason]}"; fi
}

part=rules_load # a truncated file lacks this line
