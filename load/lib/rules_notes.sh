# shellcheck shell=bash disable=SC2034,SC2154
# What surrounds rules of iptables: its other tables, back ends and chains, and whether they have effect. A load of a table notes
# the other tables and back ends too. Reads option[..], form[..] and run[state]; writes none of them.

# Prints the notes on everything that is not in the rules.
note_surroundings() {
  if [ -n "${option[machine]}" ]; then note_machine; else note_host_rules; note_forwarding; fi
  note_senders
  note_unused
  note_tables
  note_nft
  if [ -z "${option[machine]}" ]; then note_networks "${run[state]}/rules"; fi
  note_flows
  if [ -z "${option[dry_run]}" ]; then
    { unused_others "${run[state]}/before"; others_that_drop; } >"${run[state]}/${form[remembered]}listed"
  fi
}

# Notes rules of a host.
note_host_rules() {
  if ! grep -qE '^-A INPUT -d [0-9./]+ -j IN$' "${run[state]}/before"; then return; fi
  note 'INPUT and OUTPUT have the rules of a host, which are unchanged; --local is refused while FORWARD has rules of a firewall'
}

# Notes what the rules of a host do not cover on this machine.
note_machine() {
  local found
  if [ "$(cat /proc/sys/net/ipv4/ip_forward)" = 1 ]; then
    note 'IPv4 forwarding is on (net.ipv4.ip_forward = 1), and FORWARD will drop all packets'
  fi
  found=$(ip -6 -o address show 2>/dev/null | grep -v ' ::1/128 ')
  if [ -n "$found" ]; then
    note 'this machine has IPv6 addresses, and topos has no rules for IPv6'
  fi
}

# Notes the chains of other tools that are unused after the load.
note_unused() {
  local found
  found=$(unused_others "${run[state]}/before")
  if [ -z "$found" ]; then return; fi
  note_lines 'after the load these chains of other tools are unused (iptables -F and -X remove them):' \
    'chains of other tools are unused' "$found"
}

# Prints a table of a back end. Reading does not create it.
table_of() {
  if [ "$1" = legacy ] && ! grep -qx "$2" /proc/net/ip_tables_names 2>/dev/null; then return; fi
  if command -v "iptables-$1-save" >/dev/null; then "iptables-$1-save" -t "$2" 2>/dev/null; fi
}

# Whether a back end has rules of topos: of a firewall, or of a host.
has_our_rules() {
  prints '^-A (FORWARD( -s [0-9./]+)? -j H[0-9]+|INPUT -d [0-9./]+ -j IN|OUTPUT -s [0-9./]+ -j OUT)$' table_of "$1" filter
}

# Prints the tables of the back end legacy that no tool can read.
unread_tables() {
  if ! command -v iptables-legacy-save >/dev/null; then paste -s -d ' ' /proc/net/ip_tables_names 2>/dev/null; fi
}

# Prints the other tables of iptables that have a line which matches: `the table TABLE (BACK END)` each.
tables_with() {
  local each
  for each in {nft,legacy}:{nat,mangle,raw,security}; do
    if prints "$1" table_of "${each%:*}" "${each#*:}"; then echo "the table ${each#*:} (${each%:*})"; fi
  done
}

# Prints the back ends of iptables that are not loaded.
other_back_ends() {
  case ${option[backend]} in legacy) echo nft ;; nft) echo legacy ;; *) echo 'nft legacy' ;; esac
}

# Notes the rules and policies of other back ends, and other tables of iptables.
note_tables() {
  local each found both='a packet must pass both'
  for each in $(other_back_ends); do note_back_end "$each"; done
  found=$(unread_tables)
  if [ -n "$found" ]; then note "the back end legacy has tables, and iptables-legacy-save is not installed: $both ($found)"; fi
  while read -r each; do
    note "$each has rules: the proof does not cover packets that it rewrites or drops"
  done < <(tables_with '^-A ')
}

# Notes the rules and policies of another back end.
note_back_end() {
  local other=$1 each found both='a packet must pass both'
  found=$(table_of "$other" filter)
  if grep -qE "^-A (${form[entries]}) " <<<"$found"; then
    note "${form[changed]}: rules exist in the back end $other too: $both"
  fi
  for each in ${form[entries]//|/ }; do
    if ! grep -q "^:$each DROP " <<<"$found"; then continue; fi
    note "the policy of $each in the back end $other is DROP: $both (iptables-$other -P $each ACCEPT changes it)"
  done
  if grep -q '^# Table .filter. is incompatible' <<<"$found"; then
    note "the table filter has rules in the back end $other that iptables cannot read: $both"
  fi
}

# Whether a chain of nft is one of iptables, and iptables can read its table.
is_shown() {
  local chain='^ip (filter|mangle|raw|nat|security) (INPUT|FORWARD|OUTPUT|PREROUTING|POSTROUTING)$' saved
  if ! [[ $1 =~ $chain ]]; then return 1; fi
  if [ "${option[backend]} ${BASH_REMATCH[1]}" = 'nft filter' ]; then return; fi # save_filter has read it
  saved=$(table_of nft "${BASH_REMATCH[1]}") && [[ $saved == *$'\n'COMMIT* && $saved != *'# Table '* ]]
}

# Prints why the rules of the table `filter` have no effect, or not where those of iptables have; else nothing.
out_of_force() {
  local each chains_of_nft
  if [ "${option[backend]}" = legacy ] || ! command -v nft >/dev/null; then return; fi
  if { prints '"name": "filter", "handle": [0-9]*, "flags"' nft -j list tables ip || ! nft -j list tables ip >/dev/null 2>&1; } &&
    prints '^[[:space:]]*flags .*dormant' nft -t list table ip filter; then
    echo 'the table filter is dormant, so its rules have no effect (nft add table ip filter activates it)'
    return
  fi
  chains_of_nft=$(nft list chains ip 2>/dev/null | awk '
    $1 == "table" { table = $3 }
    $1 == "chain" { chain = $2 }
    table == "filter" && $1 == "type" { print chain, $2, $4, $6, $7 }')
  for each in ${form[entries]//|/ }; do
    if grep -q "^$each " <<<"$chains_of_nft" &&
      ! grep -qE "^$each filter ${each,,} (filter|0);" <<<"$chains_of_nft"; then
      echo "the chain $each of the table filter has a hook or priority other than that of iptables"
    fi
  done
}

# Refuses if the rules of iptables have no effect.
refuse_out_of_force() {
  local found
  found=$(out_of_force)
  if [ -n "$found" ]; then refuse no-effect "$found: nothing is changed"; fi
}

part=rules_notes # a truncated file lacks this line
