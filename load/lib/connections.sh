# shellcheck shell=bash disable=SC2034,SC2154
# Old connections. A connection stays if the rules let its first packet pass as that of a new one: it could have begun under
# these rules, and is treated as if they had been there from the beginning. All others are deleted. The rules are in force
# before: a deleted connection does not begin again, since its first packet is dropped. What was under way meanwhile is
# found by judging until nothing is left to delete.
#
# Writes `judging`, `older`, `count` and `reason` of run[..]; reads these, `changing`, `loaded`, `older_saved`, `state`,
# `stayed` and `wanted` of it, the options `keep`, `program`, `dry_run` and `verbose`, and `wall`, `log` and `ranges` of
# form[..].

# Prints the tracked connections over IPv4, a line each: the chain that decides about it; sender, receiver, protocol and
# ports of the first packet as FORWARD sees it, with the receiver translated and the sender not yet; the number that the
# kernel gives it; and the words by which conntrack knows it. No chain decides about those of a firewall itself, `own`. It
# is `unknown` what a translated one of a machine meets.
tracked() {
  conntrack -L -f ipv4 -o id 2>/dev/null | awk -v wall="${form[wall]}" "${form[ranges]}"'
    function is_own(address, number, each) {
      if (address in owned) return owned[address]
      number = lowest(address)
      for (each = 1; each <= count; each++) if (from[each] <= number && number <= to[each]) return owned[address] = 1
      return owned[address] = address == "255.255.255.255"
    }
    FILENAME == ARGV[1] {
      if ($1 ~ /^(local|broadcast)$/) { from[++count] = lowest($2); to[count] = highest($2) }
      next
    }
    {
      id = sub(/^id=/, "", $NF) ? $NF : "-"; $NF = ""
      split("", part); split("", seen); zone = ""
      for (word = 3; word <= NF; word++) if (split($word, pair, "=") == 2) {
        part[pair[1] (++seen[pair[1]])] = pair[2]
        if (pair[1] == "zone") zone = zone " -w " pair[2]
        else if (pair[1] ~ /^zone-/) zone = zone " --" substr(pair[1], 6) "-zone " pair[2]
      }
      ends = part["src1"] " " part["src2"] " " $2 " " part["sport1"] + 0 " " part["sport2"] + 0
      translated = part["src1"] != part["dst2"] || part["dst1"] != part["src2"] ||
        part["sport1"] != part["dport2"] || part["dport1"] != part["sport2"]
      sent = is_own(part["src1"]); received = is_own(part["src2"])
      if (wall == "firewall") decides = sent || received ? "own" : "FORWARD"
      else decides = translated ? "unknown" : sent ? "OUTPUT" : received ? "INPUT" : "FORWARD"
      words = "-s " part["src1"] " -d " part["dst1"] " -r " part["src2"] " -q " part["dst2"] " -p " $2 zone
      if (part["id1"] != "")
        words = words " --icmp-type " part["type1"] " --icmp-code " part["code1"] " --icmp-id " part["id1"]
      else if (part["sport1"] != "") words = words " --sport " part["sport1"] " --dport " part["dport1"]
      print decides, ends, id, words
    }' <(own_addresses) -
}

# Prints the addresses of the firewall itself, without a tool that it may lack. In a table of another number, such as that of
# a transparent proxy, only a single address is its own, such as that of an interface of a VRF.
own_addresses() {
  awk '
    /^[A-Z]/ { other = $1 == "Id" }
    $1 == "|--" { address = $2 }
    $3 ~ /^(LOCAL|BROADCAST)$/ && !(other && $1 != "/32") { print tolower($3), address $1 }' /proc/net/fib_trie
}

# Prints the tracked connections that the rules of a text do not let begin, and with `unknown` those of which that is not
# known, without those in the file of numbers run[older].
revoked() {
  local judging=${run[judging]} chain status
  rm -f "$judging/asked"
  tracked >"$judging/all" || return 1
  awk 'FILENAME == ARGV[1] { older[$1]; next } !($7 in older)' "${run[older]}" "$judging/all" >"$judging/asked" || return 1
  if [ "$2" = unknown ]; then sed -n '/^unknown /p' "$judging/asked" || return 1; fi
  for chain in FORWARD INPUT OUTPUT; do
    status=0
    grep "^$chain " "$judging/asked" >"$judging/those" || status=$?
    case $status in 0) ;; 1) continue ;; *) return 1 ;; esac
    "as_forward_${form[kind]}" "$chain" "$1" >"$judging/rules" || return 1
    split -l 20000 "$judging/those" "$judging/part." || return 1
    judge_parts || return 1
  done
}

# Prints the connections in parts whose first packet is dropped. Each packet is traced alone: what it begins is forgotten
# before the next one. Fails unless there is one verdict for each.
judge_parts() {
  local judging=${run[judging]} each
  for each in "$judging"/part.*; do
    awk '{ ends = $2 " " $3 " " $4 " " $5 " " $6; print "packet " ends "\nforget " ends }' "$each" \
      >"$judging/events" || return 1
    "${run[program]}" trace "${form[dialect]}" "$judging/rules" "$judging/events" 2>/dev/null |
      sed -n '/forgotten/!p' >"$judging/verdicts" || return 1
    if [ "$(wc -l <"$judging/verdicts")" != "$(wc -l <"$each")" ]; then return 1; fi
    cut -d ' ' -f 2 "$judging/verdicts" | paste -d ' ' - "$each" | sed -n 's/^drop //p' || return 1
    rm -f "$each"
  done
}

# Prints the words for conntrack that delete the connections of the second file, a line each: for each of them or, if they
# are many, for all to a port of a receiver and all of a sender, if none of those in the first file stays.
deletions() {
  awk '
    function of_port() { return $6 > 0 ? "-r " $3 " -p " $4 " --reply-port-src " $6 : "" }
    FNR == 1 { pass++ }
    pass == 1 { all[of_port()]++; all["-s " $2]++; next }
    pass == 2 { lost[of_port()]++; lost["-s " $2]++; count++; next }
    {
      words = $8
      for (word = 9; word <= NF; word++) words = words " " $word
      if (count > 100 && lost["-s " $2] == all["-s " $2]) words = "-s " $2
      if (count > 100 && of_port() != "" && lost[of_port()] == all[of_port()]) words = of_port()
      if (!told[words]++) print words
    }' "$1" "$2" "$2"
}

# Deletes the connections that the rules of a text do not let begin. run[count] is their number, and the file `dropped` has
# them. If that is impossible, run[reason] says why. Those of the firewall itself, and those in run[older], stay.
drop_revoked() {
  local judging=${run[judging]} left=5 too=$2
  local -a words
  run[count]=0
  while [ "$left" -gt 0 ]; do
    left=$((left - 1))
    run[reason]='cannot determine which of them the rules accept'
    revoked "$1" "$too" >"$judging/revoked" || return 1
    too='' # what comes now came about under these rules
    if [ ! -s "$judging/revoked" ]; then return 0; fi
    run[count]=$((run[count] + $(wc -l <"$judging/revoked")))
    cat "$judging/revoked" >>"$judging/dropped" || return 1
    if [ -n "${option[dry_run]}" ]; then return 0; fi
    deletions "$judging/all" "$judging/revoked" >"$judging/words" || return 1
    run[reason]='too many deletions are needed'
    if [ "$(wc -l <"$judging/words")" -gt 2000 ]; then return 1; fi
    run[reason]='the rules are rolled back'
    while read -ra words; do
      if is_undone; then return 1; fi
      conntrack -D -f ipv4 "${words[@]}" >/dev/null 2>&1
    done <"$judging/words"
  done
  run[reason]='some deleted connections reappear'
  return 1
}

# Whether this process makes a change that is rolled back meanwhile: then it deletes no more connections.
is_undone() { [ -n "${run[changing]}" ] && is_decided; }

# Creates a folder for judging, for this process alone. It is not in /run, where other daemons need the space. The name of the
# link to it has the number of the process, so that clear_state can remove the folder of a killed process.
begin_judging() {
  if run[judging]=$(mktemp -d -p /var/tmp topos-load.XXXXXX 2>/dev/null); then
    ln -sfn "${run[judging]}" "${run[state]}/judging.$$" || true # judging does not need the link
  else run[judging]=$(mktemp -d -p "${run[state]}" "judging.$$.XXXXXX")
  fi
}

# Removes this folder.
end_judging() { rm -rf "${run[judging]}" "${run[state]}/judging.$$"; }

# Prints the connections of a list by flows, the most frequent first: a line `SENDER -> RECEIVER SERVICE: NUMBER` each.
by_flows() {
  awk '{ print $2, $3, ($4 == 6 ? "tcp" : $4 == 17 ? "udp" : $4 == 1 ? "icmp" : "protocol " $4) ($6 > 0 ? "/" $6 : "") }' |
    if [ -s "${run[wanted]:-/dev/null}" ] && { [ "${form[kind]}" = table ] || [ -s "${run[wanted]}.policy" ]; }; then named
    else cat
    fi |
    awk '
      { flow = $1 " -> " $2; for (word = 3; word <= NF; word++) flow = flow " " $word; number[flow]++ }
      END { for (each in number) print number[each], each }' | sort -k1,1nr -k2 |
    awk '{ number = $1; sub(/^[0-9]+ /, ""); print "  " $0 ": " number (number == 1 ? " connection" : " connections") }'
}

# Prints the same, without ports if there are more than 20 flows with them.
by_flows_briefly() {
  local list flows
  list=$(cat)
  if [ -z "$list" ]; then return; fi
  flows=$(by_flows <<<"$list")
  if [ "$(wc -l <<<"$flows")" -gt 20 ] && [ -z "${option[verbose]}" ]; then
    flows=$(awk '{ $6 = 0; print }' <<<"$list" | by_flows)
  fi
  printf '%s\n' "$flows"
}

# Deletes, after a load, the connections that the rules of a text do not let begin, or all if these are not known.
drop_connections() {
  local stay='old connections remain, and their answers are accepted until they end'
  begin_connections /dev/null
  if ! : >"${run[state]}/staying"; then note "cannot write ${run[state]}: the remaining connections are not recorded"; fi
  if [ -n "${option[keep]}" ]; then note "$stay"
  elif ! command -v conntrack >/dev/null; then note "$stay: conntrack is not installed (apt install conntrack)"
  elif is_program_there && run[reason]='cannot create a directory' && begin_judging && drop_revoked "$1" unknown; then
    tell_dropped
    rm -f "${run[state]}/staying"
  elif is_undone; then :
  elif "is_nothing_old_${form[kind]}"; then
    say "these rules were loaded before: no connection is deleted (${run[reason]})"
    rm -f "${run[state]}/staying"
  elif conntrack -F >/dev/null 2>&1; then
    say "all old connections are deleted: ${run[reason]}"
    rm -f "${run[state]}/staying"
  else note "$stay: conntrack -F failed"
  fi
  if [ -n "${run[judging]}" ]; then end_judging; fi
}

# Begins a question about connections, of which those in a file of numbers stay.
begin_connections() { run[older]=$1 run[judging]='' run[count]=0; }

# Prints which connections are deleted.
tell_dropped() {
  if [ "${run[count]}" = 0 ]; then
    say 'no old connection is deleted: the rules accept the first packet of each'
    return
  fi
  say "${run[count]} old connections are deleted, whose first packet the rules drop:"
  by_flows_briefly <"${run[judging]}/dropped" | some_lines >&2
}

# Saves the numbers of the connections before the change: a rollback deletes none of them, and neither does a removal.
remember_connections() {
  local older
  older=$(older_of "${run[state]}/before")
  rm -f "$older"
  if command -v conntrack >/dev/null; then
    conntrack -L -f ipv4 -o id 2>/dev/null | sed -n 's/.* id=\([0-9]*\)$/\1/p' >"$older" || rm -f "$older"
  fi
}

# Deletes, after a rollback or a removal, the connections that began since the load and that the restored rules, the first
# argument, do not let begin, if both are known. Those in the second argument, a file of numbers, are older than the load.
# run[reason] becomes a sentence with numbers, in which the third argument names the rules of the load.
drop_begun() {
  local under=$3 stay='all connections remain'
  begin_connections "$2"
  if [ -n "${option[keep]}" ] || ! command -v conntrack >/dev/null; then run[reason]=$stay
  elif ! [ -e "${run[older]}" ]; then run[reason]="$stay, since those from before the load are unknown"
  elif ! is_program_there; then run[reason]="$stay: ${run[reason]}"
  elif ! begin_judging; then run[reason]="$stay: cannot create a directory"
  elif drop_revoked "$1" ''; then
    run[reason]="$(number_of_older) connections from before the load remain, ${run[count]} that began under $under are deleted"
  elif [ -e "${run[judging]}/asked" ]; then
    run[reason]="that began under $under: $(why_unjudged)"
    run[reason]="and so do $(wc -l <"${run[judging]}/asked") ${run[reason]}"
    run[reason]="$(number_of_older) connections from before the load remain, ${run[reason]}"
  else run[reason]="$stay: conntrack cannot list them"
  fi
  if [ -n "${run[judging]}" ]; then end_judging; fi
}

# Prints how many of the tracked connections are in run[older].
number_of_older() {
  awk 'FILENAME == ARGV[1] { older[$1]; next } $7 in older { count++ } END { print count + 0 }' \
    "${run[older]}" "${run[judging]}/all"
}

# Prints why connections are not judged: run[reason], or the first of the rules that topos trace cannot read.
why_unjudged() {
  local judging=${run[judging]}
  if "${run[program]}" trace "${form[dialect]}" "$judging/rules" /dev/null >/dev/null 2>"$judging/refused"; then echo "${run[reason]}"
  else echo "topos trace cannot read the restored rules, such as $(refused_line "$judging/refused" "$judging/rules")"
  fi
}

# Prints the connections that a load would delete.
tell_dry_run() {
  need conntrack
  begin_connections /dev/null
  if ! is_program_there; then refuse unknown-connections "${run[reason]}: cannot determine which connections a load would delete"; fi
  if begin_judging && drop_revoked "$(cat "${run[state]}/rules")" unknown; then
    put_value deleted "${run[count]}"
    put_value remaining "$(($(wc -l <"${run[judging]}/all") - run[count]))"
    say "a load would delete ${run[count]} connections; $(($(wc -l <"${run[judging]}/all") - run[count])) remain"
    if [ -s "${run[judging]}/dropped" ]; then by_flows_briefly <"${run[judging]}/dropped" | sed 's/^ */would be deleted: /'; fi
    end_judging
  else
    end_judging
    refuse unknown-connections "cannot determine which connections a load would delete"
  fi
  clear_state
}

part=connections # a truncated file lacks this line
