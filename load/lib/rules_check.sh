# shellcheck shell=bash disable=SC2034,SC2154
# --check of rules of iptables. Writes run[folder]; reads `state` and `save` of run[..], option[..] and form[..].

# Prints the differences, and a verdict as the last line; nothing if these rules are loaded. The status is 2 if they are
# loaded and nobody has confirmed them.
check_rules() {
  local found around='' pending=''
  run[folder]=$(mktemp -d 2>/dev/null) || run[folder]=$(mktemp -d -p /run) || refuse cannot-write 'cannot create a directory for the comparison'
  write_rules "${run[folder]}/rules"
  save_filter "${run[folder]}/saved"
  without_logs "${run[folder]}/saved" >"${run[folder]}/now"
  if ! [ -s "${run[folder]}/now" ]; then refuse cannot-write "cannot write ${run[folder]}: nothing is compared"; fi
  if tell_pending; then pending=yes; fi
  found=$(out_of_force)
  if tell_surroundings; then around=yes; fi
  if is_same "${run[folder]}/now" "${run[folder]}/rules" && [ -z "$found" ]; then
    if [ -n "${option[verbose]}$around$pending" ]; then say "the ${form[wall]} has these rules"; fi
    if [ -n "$pending" ]; then run[code]=waiting; exit 2; fi
    run[code]=described
    return
  fi
  if [ -n "$found" ]; then say "$found"; fi
  tell_differences | sed "
    s/^-/missing on the ${form[wall]}:/
    s/^+/only on the ${form[wall]}:   /
    s/^~/moved on the ${form[wall]}:  /"
  tell_verdict "$found"
  run[code]=different
  exit 1
}

# Prints that nobody has confirmed a load yet, and why. Whether there is such a load.
tell_pending() {
  if ! is_pending "${run[state]}"; then return 1; fi
  if ! is_held "${run[state]}"; then say 'a load was interrupted before its confirmation: topos-load --back ends it'
  elif ! [ -e "${run[state]}/asked" ]; then say 'a load is in progress: topos-load --back ends it'
  else say 'a load is awaiting confirmation (--confirm, --back)'
  fi
}

# Prints the unused chains, and what else may drop packets, except what the last load listed. Whether there is any.
tell_surroundings() {
  local listed=${run[state]}/${form[remembered]}listed found around=''
  if [ -n "${option[verbose]}" ] || ! [ -e "$listed" ]; then listed=/dev/null; fi
  found=$(unused_chains '' "${run[folder]}/saved" | grep -vxF -f "$listed")
  if [ -n "$found" ]; then
    around=yes
    say "these chains are unused (topos-load ${option[machine]:+--local }--clean removes those of topos):"
    some_lines <<<"$found" >&2
  fi
  found=$(others_that_drop | grep -vxF -f "$listed")
  if [ -n "$found" ]; then
    around=yes
    say "these also process ${form[packets]} packets and may drop them:"
    some_lines <<<"$found" >&2
  fi
  [ -n "$around" ]
}

# Prints the lines that differ, or their number if they are many and a comparison follows. If all rules are missing, prints
# one line for each entry instead.
tell_differences() {
  local folder=${run[folder]} number
  if tell_none; then return; fi
  line_changes <(essence "$folder/rules") <(essence "$folder/now") >"$folder/lines"
  number=$(wc -l <"$folder/lines")
  if [ "${option[from]}:${option[machine]}${option[verbose]}" = description: ] && [ "$number" -gt 20 ]; then
    echo "$number rules and chains differ (--verbose lists them)"
  else some_lines <"$folder/lines"
  fi
}

# Prints that the entries have none of their rules, if no rule leads to a chain of topos, and the rules that they have.
tell_none() {
  local folder=${run[folder]} each number policy
  if grep -qE "${form[jump]}" "$folder/now"; then return 1; fi
  for each in ${form[entries]//|/ }; do
    number=$(grep -cE "^-A ($each|${form[chains]}) " "$folder/rules")
    policy=$(sed -n "s/^:$each \([A-Z]*\).*/\1/p" "$folder/now")
    if grep -q "^-A $each " "$folder/now"; then policy=others; fi
    case $policy in
      DROP) policy='drops everything' ;;
      ACCEPT) policy='accepts everything' ;;
      *) policy='has rules of another tool' ;;
    esac
    if grep -qE "^-A $each " "$folder/rules" || [ "$each" = FORWARD ]; then
      echo "$each has none of its $number rules, and $policy"
    fi
  done
  sed -nE "s/^-A (${form[entries]}) /+ &/p" "$folder/now" | some_lines
}

# Prints the last line, which is a verdict.
tell_verdict() {
  say "the ${form[wall]} has other rules"
  run[verdict]=differs
  if [ -n "$1" ]; then say 'verdict: differs, since the rules have no effect'
  elif [ "${option[from]}:${option[machine]}" = description: ]; then compare_rules "${run[folder]}/now"
  else say "verdict: differs; equivalence is checked only for a firewall with a description"
  fi
}

# Writes the rules of a file that are compared into another one. Fails if they may be other rules.
write_compared_rules() {
  forwarding_rules "$1" >"$2"
  if [ -z "$(misread_rules "$(chains_of "$2")")" ]; then return; fi
  say "verdict: cannot determine whether these rules implement ${option[file]}:" \
    "${run[save]} prints some nft rules as different rules"
  return 1
}

# Prints the pattern of the chains that have rules in a file.
chains_of() { sed -n 's/^-A \([^ ]*\) .*/\1/p' "$1" | sort -u | sed 's/[^A-Za-z0-9_-]/[&]/g' | paste -s -d '|'; }

part=rules_check # a truncated file lacks this line
