# shellcheck shell=bash disable=SC2034,SC2154
# The way back to rules of iptables, rule by rule if the kernel rejects some. Writes `refused` of run[..]; reads `was`, `loaded`,
# `state`, `restore` and `reason` of it, option[..] and form[..].

# One change at a time: a process that goes back waits for a load that is under way, also if its script is gone. The lock is
# of a file that each process opens for itself (open_changing), and the restore holds it too, but not the lock of the load.
# Under the lock a load changes nothing once it is decided: the way back may have read the table already.
load_change() {
  local status=0
  flock 8
  if [[ " ${*:3} " != *' back '* ]] && is_decided; then status=1
  else change "$@" | "${run[restore]}" --noflush --wait 10 9>&- || status=1
  fi
  flock -u 8
  return "$status"
}

# Goes back to the text run[was], and does not give up. From the third try on, rules that the kernel rejects are left out, and
# if iptables cannot read the table, which has nft rules by then, the rules of the load are taken for it. At the sixth one a
# machine that may be locked out is opened. On a firewall the guard goes on, and says that it could not yet.
go_back_rules() {
  local tries=0 now target='' changed_back='' told=${form[as_before]}
  local -a refused way=(back)
  run[refused]=''
  await_changes
  while :; do
    if now=$(filter_now); then
      if [ -z "${run[refused]}" ] && ! target=$(with_added "$now"); then target=${run[was]}; fi
      if is_same_text "$now" "$target"; then break; fi
      if [ "$tries" -ge 2 ]; then way=(back flush); fi
      if [ "$tries" -ge 3 ]; then
        find_refused "$now" "$target"
        target=$(without_refused "$target")
      fi
      if load_change "$now" "$target" "${way[@]}"; then changed_back=yes; fi
    elif [ "$tries" -ge 3 ] && load_change "${run[loaded]}" "${run[was]}" back flush; then changed_back=yes; break
    fi
    tries=$((tries + 1))
    if [ "$tries" -ge 6 ] && cannot_go_back "$tries"; then return; fi
    if [ -n "$changed_back" ]; then sleep 0.1; else sleep 1; fi
  done
  if [ -n "$changed_back" ]; then
    drop_begun "${run[was]}" "$(older_of "${run[state]}/before")" 'the new rules'
    told+="; ${run[reason]}"
  fi
  if [ -n "${run[refused]}" ]; then
    mapfile -t refused <<<"${run[refused]%$'\n'}"
    printf '%s\n' "${refused[@]}" >&2
    finish 71 "${form[changed]}: ${#refused[@]} rules are missing, which the kernel rejects (${refused[0]})"
  else finish 75 "$told"
  fi
}

# Whether nothing is left to try. The guard of a firewall tries again every ten seconds.
cannot_go_back() {
  if [ -n "${option[machine]}" ] && write_open | "${run[restore]}" --noflush --wait 10; then
    finish 71 "cannot roll back: ${form[changed]} have no rules and accept everything"
    return 0
  fi
  if [ "$1" = 6 ]; then finish 71 "cannot roll back yet: the previous rules are in ${run[state]}/before"; fi
  if [ "${option[action]}" != guard ]; then return 0; fi
  sleep 9
  return 1
}

# Prints the text run[was] with the rules that another tool added since: those at the head of a chain before the others, the
# rest behind them. A rule counts as added unless it is of topos, in run[was], or in run[loaded].
with_added() {
  awk -v entries="^(${form[entries]})$" -v entry="${form[entry]}" -v logs="${form[log]}" '
    FNR == 1 { input++ }
    input == 1 { text[++lines] = $0; known[$0]; next }
    input == 2 { known[$0]; next }
    $1 != "-A" || $2 !~ entries { next }
    $0 ~ entry || $0 ~ logs || $0 in known { met[$2]; next }
    $2 in met { behind[++after] = $0; next }
    { head[++before] = $0 }
    END {
      for (each = 1; each <= lines; each++) {
        if (text[each] == "COMMIT") continue
        if (text[each] ~ /^-A / && !begun++) for (one = 1; one <= before; one++) print head[one]
        print text[each]
      }
      if (!begun) for (one = 1; one <= before; one++) print head[one]
      for (one = 1; one <= after; one++) print behind[one]
      print "COMMIT"
    }' <(printf '%s\n' "${run[was]}") <(printf '%s\n' "${run[loaded]}") <(printf '%s\n' "$1")
}

# Finds the rules of the second text that the kernel, whose table is the first text, rejects: run[refused] has their lines.
find_refused() {
  local -a rules=()
  mapfile -t rules < <(our_rules "$2")
  run[refused]=''
  sift "$1" "$2" ${rules[@]+"${rules[@]}"}
  drop_trial
}

# Prints a text without these rules.
without_refused() {
  if [ -z "${run[refused]}" ]; then printf '%s\n' "$1"
  else printf '%s\n' "$1" | grep -vxF -e "${run[refused]%$'\n'}"
  fi
}

# Halves a list of rules, which begins with the third argument, until those that the kernel rejects are alone: adds them to
# run[refused]. The first two arguments are those of `takes`.
sift() {
  local half=$((($# - 2) / 2))
  if [ $# = 2 ] || takes "$@"; then return; fi
  if [ $# = 3 ]; then run[refused]+=$3$'\n'; return; fi
  sift "$1" "$2" "${@:3:half}"
  sift "$1" "$2" "${@:half+3}"
}

# Whether the kernel accepts the rules from the third argument on, tried in a chain that no packet reaches. Chains that come
# with the change from the first text to the second one do not exist yet.
takes() {
  local now=$1 target=$2 each
  shift 2
  {
    printf '*filter\n:topos-try - [0:0]\n'
    for each; do
      each=${each#-A * }
      if [[ $each =~ ^(.*)-[jg]\ ([^ ]+)$ ]] && is_coming "${BASH_REMATCH[2]}" "$now" "$target"; then
        each="${BASH_REMATCH[1]}-j RETURN"
      fi
      printf -- '-A topos-try %s\n' "$each"
    done
    echo COMMIT
  } | "${run[restore]}" --noflush --wait 10 2>/dev/null
}

# Whether a target is a chain of the third argument, a text, that the second one, the text of the table, does not have.
is_coming() { [[ $'\n'$2 != *$'\n':"$1 -"* && $'\n'$3 == *$'\n':"$1 -"* ]]; }

# Removes the chain in which rules are tried.
drop_trial() {
  printf '*filter\n:topos-try - [0:0]\n-X topos-try\nCOMMIT\n' | "${run[restore]}" --noflush --wait 10 2>/dev/null
}

part=rules_back # a truncated file lacks this line
