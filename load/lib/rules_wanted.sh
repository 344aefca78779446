# shellcheck shell=bash disable=SC2034,SC2154
# Of the rules of iptables that are asked for: whose addresses they name, those of this machine, and rules of others where they are
# loaded. Reads option[..], form[..] and `save` and `wanted` of run[..].

# Prints the prefixes of a rules file and their hosts, or their chains if no description has names: a line
# `10.0.1.10/32 web` each, and one `rest inet` for the rest host.
owners_rules() {
  awk '
    function host(chain) { return chain in called ? called[chain] : chain }
    FILENAME == ARGV[1] { called[$1] = $2; next }
    /^-A FORWARD -j H/ { print "rest", host($4) }
    /^-A FORWARD -s .* -j H/ { print $4, host($6) }' <(host_names) "$1"
}

# Prints the chains and their hosts, a line `H0 web` each; only a description has names.
host_names() { awk '!seen[$1]++ { print "H" count++, $1 }' "${run[wanted]}.policy"; }

# Prints whose the addresses of this machine are: a line `WHO ADDRESS (INTERFACE)` for each except those of the loopback.
# WHO is `own` by the first file, the rules of a host; by the second one, the rules of a firewall for the same network,
# `other` or, if the rest host has the address, `rest`; else `nobody`.
place_addresses() {
  ip -4 -o address show | awk "${form[ranges]}"'
    function is_among(from, to, count, address, each) {
      for (each = 1; each <= count; each++) if (from[each] <= address && address <= to[each]) return 1
      return 0
    }
    /^-A INPUT -d / { own_from[++owned] = lowest($4); own_to[owned] = highest($4) }
    /^-A FORWARD -s / { from[++count] = lowest($4); to[count] = highest($4) }
    /^-A FORWARD -j / { rest = 1 }
    $3 == "inet" && $4 !~ /^127\./ {
      sub("/.*", "", $4)
      address = lowest($4)
      if (is_among(own_from, own_to, owned, address)) who = "own"
      else if (is_among(from, to, count, address)) who = "other"
      else who = rest ? "rest" : "nobody"
      print who, $4, "(" $2 ")"
    }' "$1" "$2" -
}

# Refuses if no address of this machine is the host's, or if one is another host's.
look_at_addresses() {
  local placed found others=/dev/null
  if [ "${option[from]}" = description ]; then
    others=$1.others
    "${run[program]}" repair iptables "$1.description" >"$others" ||
      refuse topos-failed 'cannot determine the addresses of the other hosts: nothing is changed'
  fi
  placed=$(place_addresses "$1" "$others")
  if ! grep -q '^own ' <<<"$placed"; then
    say "this machine has no address of ${option[host]:-the host of these rules}: nothing is changed"
    exit 72
  fi
  found=$(those_of 'other|rest' "$placed")
  if [ -n "$found" ]; then refuse foreign-address "these addresses of this machine belong to another host:$found: nothing is changed"; fi
  found=$(those_of nobody "$placed")
  if [ -z "$found" ]; then :
  elif [ "${option[from]}" = text ]; then
    note "packets from and to these addresses are dropped; they belong to another host or to none:$found"
  else note "packets from and to these addresses, which belong to no host, are dropped:$found"
  fi
}

# Prints the addresses of an owner, after a space each.
those_of() { sed -nE "s/^($1) (.*)/ \2/p" <<<"$2" | tr -d '\n'; }

# Refuses if the chains that are changed, or chains with the names of topos, are those of another tool.
refuse_foreign() {
  local others
  others=$(
    grep -E "^-A (${form[chains]}) " "$1" | grep -Ev -e "${form[rule]}" -e "${form[log]}"
    grep -E "^-A .* -[jg] (${form[chains]})( |$)" "$1" | grep -Ev "${form[entry]}"
  )
  if [ -n "$others" ]; then
    say "${form[named]} have rules, or jumps to them, that topos does not write: nothing is changed." \
      'These commands remove the rules:'
    printf '%s\n' "$others" | sed "s/^-A /${run[save]%-save} -D /" >&2
    if grep -q ' -j LOG' <<<"$others"; then tell 'use --log to log dropped packets'; fi
    run[code]=foreign
    exit 69
  fi
  others=$(grep -E "^-A (${form[entries]}) " "$1" | grep -Ev -e "${form[entry]}" -e "${form[log]}")
  if [ -n "$others" ] && [ -z "${option[replace]}" ]; then
    some_lines <<<"$others" >&2
    if [ -n "${option[machine]}" ] && grep -qE '^-A FORWARD .*-j H[0-9]+$' <<<"$others"; then
      say 'these are the rules of a firewall: topos-load --remove removes them'
    fi
    say "these rules of ${form[changed]} are not rules ${form[whose]}, so the proof does not cover this ${form[wall]}:"
    refuse foreign "nothing is changed; ${form[replacing]} removes them"
  fi
}

part=rules_wanted # a truncated file lacks this line
