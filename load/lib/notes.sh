# shellcheck shell=bash disable=SC2034,SC2154
# What surrounds the rules: forwarding, interfaces, routes, other tables and chains, flows without answers. Reads option[..],
# form[..], and `state`, `wanted` and `query` of run[..]; writes none of them.

# Notes what is off or open for a firewall.
note_forwarding() {
  local root=/proc/sys/net found
  if [ "$(cat $root/ipv4/ip_forward)" = 0 ]; then
    found=$(interfaces_with 1 "$root"/ipv4/conf/*/forwarding)
    if [ -n "$found" ]; then note "IPv4 is forwarded only from the interfaces:$found (net.ipv4.conf.*.forwarding = 1)"
    else note 'IPv4 forwarding is off (net.ipv4.ip_forward = 0)'
    fi
  fi
  if [ "$(cat $root/ipv6/conf/all/forwarding 2>/dev/null)" = 1 ]; then
    note 'IPv6 is forwarded, and topos has no rules for it (net.ipv6.conf.all.forwarding = 1)'
  fi
  found=$(interfaces_with 1 "$root"/ipv6/conf/*/force_forwarding)
  if [ -n "$found" ]; then note "IPv6 forwarding is forced, and topos has no rules for it:$found (force_forwarding = 1)"; fi
  note_bridges
}

# Prints the interfaces whose file has a value, after a space each.
interfaces_with() {
  local value=$1 each
  shift
  for each; do
    if [ -r "$each" ] && [ "$(cat "$each")" = "$value" ]; then
      each=${each%/*}
      case ${each##*/} in all | default) ;; *) printf ' %s' "${each##*/}" ;; esac
    fi
  done
}

# Notes bridges, whose ports are on one segment.
note_bridges() {
  local found
  found=$(ip -o link show type bridge 2>/dev/null | sed -n 's/^[0-9]*: \([^:@]*\).*/ \1/p' | tr -d '\n')
  if [ -n "$found" ]; then
    note "packets that a bridge forwards between its ports bypass FORWARD unless bridge-nf-call-iptables is 1:$found"
  fi
}

# Notes the interfaces that accept forged sources.
note_senders() {
  local root=/proc/sys/net interface value all open=''
  all=$(cat $root/ipv4/conf/all/rp_filter)
  for interface in "$root"/ipv4/conf/*; do
    interface=${interface##*/}
    case $interface in all | default | lo) continue ;; esac
    value=$(cat "$root/ipv4/conf/$interface/rp_filter")
    if [ "$all" -gt "$value" ]; then value=$all; fi
    if [ "$value" != 1 ]; then open+=" $interface ($value)"; fi
  done
  if [ -n "$open" ]; then note "forged sources are accepted by interfaces whose rp_filter is not 1:$open"; fi
}

# Prints the chains of nft that iptables does not show and that process packets of ours, a line each.
nft_chains() {
  local family table chain
  if ! command -v nft >/dev/null; then return; fi
  nft list chains 2>/dev/null | awk -v own="${form[own]:-}" -v hook="hook (${form[hooks]}|prerouting|postrouting|ingress|egress) " '
    $1 == "table" { table = $2 " " $3 }
    $1 == "chain" { chain = $2 }
    $0 ~ hook && table !~ /^(ip6|arp) / && table != own { print table, chain }' |
    while read -r family table chain; do
      if is_shown "$family $table $chain"; then continue; fi
      echo "$family $table $chain$(nft list table "$family" "$table" 2>/dev/null | drops_in "$chain")"
    done
}

# Notes flow tables and chains of nft.
note_nft() {
  local found
  if [ -z "${option[machine]}" ] && prints flowtable nft list flowtables; then
    note 'a flow table exists: packets that it forwards bypass FORWARD'
  fi
  found=$(nft_chains | sed 's/^/ /; s/$/;/' | tr -d '\n')
  if [ -n "$found" ]; then note "other nft chains process ${form[packets]} packets and may drop them:${found%;}"; fi
}

# Prints whether a chain of a table of nft drops packets: it, or a chain, map or set that it leads to.
drops_in() {
  awk -v chain="$1" "${form[closure]}"'
    $1 ~ /^(chain|map|set)$/ { here = ($1 == "chain" ? "" : "@") $2; next }
    {
      text[here] = text[here] " " $0
      count = split($0, word, "[ \t;,{}]+")
      for (at = 1; at <= count; at++)
        if (word[at] ~ /^@/) leads(here, word[at])
        else if (word[at] ~ /^(jump|goto)$/) leads(here, word[at + 1])
    }
    /hook / && /policy drop/ && here == chain { policy = 1 }
    END {
      reached[chain]
      reach()
      for (each in reached) if (text[each] ~ /(^|[ \t:])(drop|reject|notrack)([ \t,;}]|$)/) rules = 1
      if (policy) print " (policy drop)"
      else if (rules) print " (has rules that drop)"
    }'
}

# Prints what may drop packets besides the loaded rules: chains of nft, the other back end, other tables. A line each.
others_that_drop() {
  local other each found
  nft_chains | grep ')$'
  for other in $(other_back_ends); do
    found=$(table_of "$other" filter)
    for each in ${form[entries]//|/ }; do
      if grep -q "^:$each DROP " <<<"$found"; then echo "$each in the back end $other (policy drop)"
      elif grep -q "^-A $each " <<<"$found"; then echo "$each in the back end $other (has rules)"; fi
    done
  done
  unread_tables | sed 's/^/the back end legacy (iptables-legacy-save is not installed): /'
  tables_with '^:[A-Z]+ DROP |^-A .*-j (DROP|REJECT|NOTRACK|CT --notrack)' | sed 's/$/ (has rules that drop)/'
}

# Prints the routes to networks, except that to everybody, with addresses of no specific host: up to three ranges each.
unlisted_networks() {
  ip -4 route show table all | awk "${form[ranges]}"'
    function dotted(number) {
      return int(number / 16777216) "." int(number / 65536) % 256 "." int(number / 256) % 256 "." number % 256
    }
    # Where the first range at `address` or behind it ends, up to `last`: in `missing` the first address of no host.
    function next_range(address, last, each, again) {
      do {
        again = 0
        for (each = 1; each <= count; each++)
          if (from[each] <= address && address <= to[each]) { address = to[each] + 1; again = 1 }
      } while (again && address <= last)
      missing = address
      for (each = 1; each <= count; each++) if (from[each] > address && from[each] <= last) last = from[each] - 1
      return last
    }
    function told(first, last, way, address, end, told_ranges, number, words) {
      for (address = first; address <= last; address = end + 1) {
        end = next_range(address, last)
        if (missing > last) break
        number += end - missing + 1
        if (++told_ranges <= 3) words = words ", " dotted(missing) (end > missing ? "-" dotted(end) : "")
        else if (told_ranges == 4) words = words ", .."
      }
      if (number == last - first + 1) print "  " way ": no address belongs to a specific host"
      else if (number > 0) print "  " way ": " number " of " last - first + 1 " addresses belong to no specific host: " substr(words, 3)
    }
    FILENAME == ARGV[1] {
      if ($1 != "rest") { from[++count] = lowest($1); to[count] = highest($1) }
      next
    }
    $1 ~ /^[0-9.]+(\/[0-9]+)?$/ && !seen[$1]++ {
      way = ""
      for (word = 2; word < NF; word++) if ($word == "via" || $word == "dev") way = way ", " $word " " $(word + 1)
      told(lowest($1), highest($1), $1 (way == "" ? "" : " (" substr(way, 3) ")"))
    }' <("owners_${form[kind]}" "$1") -
}

# Notes these networks.
note_networks() {
  local found whose='packets with these addresses are dropped'
  if [ "${option[from]}" != description ] || ! command -v ip >/dev/null; then return; fi
  if prints '^rest ' "owners_${form[kind]}" "$1"; then whose="the rest host has them"; fi
  found=$(unlisted_networks "$1")
  if [ -z "$found" ]; then return; fi
  note_lines "these routes lead to addresses of no specific host, and $whose:" \
    'routes lead to addresses of no specific host' "$found"
}

# Prints the flows without answers, first those that TCP could use, with their services of TCP. topos-query knows them.
silent_flows() {
  "${run[query]}" network "${run[wanted]}.description" | sed 's/},{/}\n{/g' | sed -nE '
    s/.*\{"flow":\["([^"]*)","([^"]*)"\],"asked":[a-z]*,"permitted":true,"answered":false,"services":\[([^]]*)\].*/\1 \2 \3/p' |
    tr -d '"' | awk -v host="${option[host]}" '
      host != "" && $1 != host && $2 != host { next }
      {
        count = split($3, service, ","); words = count ? "" : " everything"
        for (each = 1; each <= count; each++) if (service[each] ~ /^tcp/) words = words " " service[each]
        print words == "" ? 2 : 1, $1 " -> " $2 " allowed" (words == "" ? "" : ":" words)
      }' | sort -s -k1,1 | cut -d ' ' -f 2-
}

# Notes the flows without answers.
note_silent() {
  local silent found
  if ! find_query; then
    note "$(grep -c ' allowed$' "${run[wanted]}.policy") flows allow no answers; cannot find topos-query, which has their services"
    return
  fi
  silent=$(silent_flows)
  found=$(grep ' allowed:' <<<"$silent")
  if [ -n "$found" ]; then
    note_lines 'these flows include TCP but allow no answers, so TCP connections fail:' \
      'flows include TCP but allow no answers' "$found"
  fi
  found=$(grep ' allowed$' <<<"$silent")
  if [ -n "$found" ]; then
    note_lines 'these flows allow no answers and do not include TCP:' 'flows allow no answers and do not include TCP' "$found"
  fi
}

# Notes the flows without answers, and with --repair those that are omitted.
note_flows() {
  local found
  if [ "${option[from]}" != description ]; then return; fi
  if grep -q ' allowed$' "${run[wanted]}.policy"; then note_silent; fi
  found=$(grep ' denied by ' "${run[wanted]}.policy")
  if [ -n "${option[repair]}" ] && [ -n "$found" ]; then
    note_lines "these flows are omitted (all of them: topos policy ${option[file]} | grep ' denied by '):" \
      'flows are omitted' "$found"
  fi
}

part=notes # a truncated file lacks this line
