# shellcheck shell=bash disable=SC2034,SC2154
# Texts of rules, as iptables-save prints them and iptables-restore reads them: their form, and changes from one to another.
# Writes form[..]; reads option[backend] and run[save]. topos-import reads this file alone.

# The form of the rules that topos writes: an address (`prefix`), what a rule that passes has behind it (`passes`), and what
# --log puts before a rule that drops (`limited` and `label`): it names the host, and logs at most ten packets a minute.
# change_box and change_machine add the others.
declare -gA form
form+=(
  [prefix]='[0-9./]+'
  [limited]='-m limit --limit 10/min -j LOG --log-prefix'
  [label]='"topos [A-Za-z0-9_-]+: "'
)

# Prints the pattern of a service: a protocol, or ports of one, which are destinations in flows (dport), and sources in
# answers (sport).
service() {
  local ports='[0-9]+(:[0-9]+)?'
  echo "( -p (icmp|tcp( -m tcp --$1 $ports)?|udp( -m udp --$1 $ports)?))?"
}
form[passes]="($(service dport)|$(service sport) -m conntrack --ctstate ESTABLISHED) -j ACCEPT"

# Selects what is changed on a firewall: the built-in chains `entries`, and the chains of topos, `chains`. `entry` is a
# rule of the first and `rule` one of the second; a `jump` exists where rules of topos are loaded; --log adds a `log`.
change_box() {
  local prefix=${form[prefix]}
  form+=(
    [kind]=rules [dialect]=iptables [wall]=firewall [remembered]='' [hooks]=forward [packets]=forwarded
    [entries]=FORWARD [chains]='H[0-9]+' [named]='the chains H0, H1 ..'
    [changed]=FORWARD [as_before]='FORWARD is restored' [whose]='of topos' [replacing]=--replace-forward
    [jump]="^-A FORWARD( -s $prefix)? -j H[0-9]+$"
    [entry]="^-A FORWARD( -s $prefix)? -j H[0-9]+$"
    [rule]="^-A H[0-9]+( -d $prefix)?(${form[passes]}| -j DROP)$"
    [log]="^-A (FORWARD|H[0-9]+( -d $prefix)?) ${form[limited]} ${form[label]}$"
  )
}

# Selects the same on the machine of a host.
change_machine() {
  local prefix=${form[prefix]} own='127[.]0[.]0[.]0/8'
  local jump="^-A (INPUT -d $prefix -j IN|OUTPUT -s $prefix -j OUT)$"
  form+=(
    [kind]=rules [dialect]=iptables [wall]=machine [remembered]=local- [hooks]='(input|forward|output)'
    [packets]="this machine's"
    [entries]='INPUT|FORWARD|OUTPUT' [chains]='IN|OUT' [named]='the chains IN and OUT'
    [changed]='INPUT, FORWARD and OUTPUT' [as_before]='INPUT, FORWARD and OUTPUT are restored'
    [whose]='of a host' [replacing]=--replace-rules
    [jump]=$jump
    [entry]="$jump|^-A (INPUT|OUTPUT) -s $own -d $own -j ACCEPT$"
    [rule]="^-A (IN( -s $prefix)?|OUT( -d $prefix)?)(${form[passes]}| -j DROP)$"
    [log]="^-A (IN( -s $prefix)?|OUT( -d $prefix)?) ${form[limited]} ${form[label]}$"
  )
}

# Prints the table `filter`. Fails unless the text is whole: with a truncated one the rules of other tools would be
# overlooked. The back end nft has no chain until somebody uses it, and warns of tables of the other back end, which
# note_tables reports.
filter_now() {
  local saved each
  saved=$("${run[save]}" -t filter 2> >(grep -v '^# Warning: iptables-legacy tables present' >&2)) || return 1
  if [ "$(printf '%s\n' "$saved" | grep '^[^#]' | tail -n 1)" != COMMIT ]; then return 1; fi
  printf '%s\n' "$saved" || return 1
  for each in INPUT FORWARD OUTPUT; do
    if [[ $saved != *$'\n':$each\ * ]]; then echo ":$each ACCEPT [0:0]" || return 1; fi
  done
}

# Writes the table `filter` into a file. Fails on a full disk, by the status of `cat`.
read_filter() { filter_now | cat >"$1"; }

# Writes the table `filter` into a file, and refuses if iptables cannot read it.
save_filter() {
  local found
  read_filter "$1" || refuse unreadable "${run[save]} cannot read the table filter, or not all nft rules in it: nothing is changed"
  found=$(misread_rules "${form[entries]}|${form[chains]}")
  if [ -z "$found" ]; then return; fi
  say "${run[save]} prints some nft rules as different rules: nothing is changed. These commands remove them:"
  printf '%s\n' "$found" >&2
  run[code]=misread
  exit 69
}

# Prints a command for each nft rule in some chains that iptables may print as a different rule.
misread_rules() {
  if [ "${option[backend]}" = legacy ] || ! command -v nft >/dev/null; then return; fi
  nft -t --debug=netlink list table ip filter 2>/dev/null | misread_in "$1"
}

# Prints such a command for each rule of the table, as `nft --debug=netlink` prints it, in the chains of a pattern.
# iptables omits sets and fields that it does not know, and prints a range of addresses or protocols as its last one, and only
# the last of two matches on a field. So a rule is read if it has what iptables itself writes: each field once, and with
# operators that it prints. topos-import calls this function too.
misread_in() { awk -v ours="^($1)$" "${form[expressions]}" | sort -V; }

# The expressions of rules, for awk. `field` is what the last expression loads, and `mask` and `compared` what is done with it.
# shellcheck disable=SC2016
form[expressions]='
  function field_of(line) {
    if (line ~ / payload load [1-4]b @ network header [+] 1[26] /) return "address " $9
    if (line ~ / payload load 1b @ network header [+] 9 | meta load l4proto /) return "protocol"
    if (line ~ / payload load 2b @ network header [+] 6 /) return "fragment"
    if (line ~ / payload load 1b @ network header [+] 8 /) return "ttl"
    if (line ~ / payload load 4b @ transport header [+] 0 / && protocol ~ /^0x000000(06|11)$/) return "both ports"
    if (line ~ / payload load 2b @ transport header [+] [02] / && protocol ~ /^0x000000(06|11)$/) return "port " $9
    if (line ~ / payload load 1b @ transport header [+] 13 / && protocol == "0x00000006") return "flags"
    if (line ~ / payload load [12]b @ transport header [+] 0 / && protocol == "0x00000001") return "type"
    if (line ~ / meta load [io]if(name)? /) return substr($4, 1, 1) "if"
    if (line ~ / meta load (mark|pkttype) /) return $4
    return ""
  }
  function digit(text, place) { return index("0123456789abcdef", substr(text, place, 1)) - 1 }
  function is_within(value, mask, place, bit) {
    for (place = 3; place <= length(value); place++)
      for (bit = 1; bit < 16; bit *= 2)
        if (int(digit(value, place) / bit) % 2 > int(digit(mask, place) / bit) % 2) return 0
    return 1
  }
  function is_compared(operator, value) {
    if (operator !~ /^n?eq$/) return field == "ttl" && operator ~ /^[lg]t$/ && !compared ||
      field ~ /^port/ && operator ~ /^[lg]te?$/ && (!compared || last operator == "gtelte")
    if (compared || field == "protocol" && value ~ /^0x0+$/ || field == "both ports" && operator != "eq") return 0
    if (field == "fragment") return mask == "0x0000ff1f" && value ~ /^0x0+$/
    return field !~ /^address/ || mask == "" || is_within(value, mask)
  }
  /^ip filter / {
    rule = $3 ~ ours ? $3 " handle " $4 : ""
    field = protocol = ""
    split("", loaded)
    next
  }
  rule == "" || !/^  [[] / || / (match|target) name | counter pkts | limit rate .* flags 0x0 | log group / { next }
  / immediate reg 0 [a-z]| immediate reg 9 0x00000001 | meta set nftrace with reg 9 / { next }
  / load .* => reg 1 / {
    field = field_of($0)
    mask = last = ""
    compared = 0
    if (field == "" || loaded[field]++ && field != "mark") wrong[rule]
    next
  }
  / bitwise reg 1 = [(] reg 1 & 0x[0-9a-f]+ [)] \^ 0x0+ / && field ~ /^(address|fragment|flags|mark)/ { mask = $10; next }
  / cmp [a-z]+ reg 1 / && is_compared($3, $6) {
    if (field == "protocol" && $3 == "eq") protocol = $6
    last = $3
    compared++
    next
  }
  / range n?eq reg 1 / && field ~ /^port/ && !compared++ { next }
  { wrong[rule] }
  END { for (rule in wrong) print "nft delete rule ip filter " rule }'

# Prints the chains of topos in a text.
our_chains() { printf '%s\n' "$1" | sed -nE "s/^:(${form[chains]}) .*/\1/p" | sort; }

# Prints the rules of a text that a load replaces.
our_rules() { printf '%s\n' "$1" | sed -nE "/^-A (${form[entries]}|${form[chains]}) /p"; }

# Prints what a load replaces in a text: the policies, the rules chain by chain, and the chains of topos.
essence() {
  awk -v entries="^:(${form[entries]})$" -v chains="^:(${form[chains]})$" -v ours="^(${form[entries]}|${form[chains]})$" '
    $1 ~ entries { print 1, $1, "policy of " substr($1, 2) ": " $2 }
    $1 == "-A" && $2 ~ ours { print 2, $2, $0 }
    $1 ~ chains { print 3, $1, "chain " substr($1, 2) }' "${1:--}" | sort -s -k1,2 | cut -d ' ' -f 3-
}

# Prints the digest of what a load replaces in a text.
digest_of_rules() { essence | sha256sum | cut -d ' ' -f 1; }

# Whether two texts agree in what a load replaces.
is_same_text() { [ "$(printf '%s\n' "$1" | essence)" = "$(printf '%s\n' "$2" | essence)" ]; }

# Whether two files agree in what a load replaces.
is_same() { [ "$(essence "$1")" = "$(essence "$2")" ]; }

# Whether two files agree in what a load replaces, apart from what --log adds.
is_alike() { [ "$(without_logs "$1" | essence)" = "$(without_logs "$2" | essence)" ]; }

# Prints a file without what --log adds.
without_logs() { grep -Ev "${form[log]}" "$1"; }

# Whether a text has all policies, rules and chains of a second one, in this order. Other tools may have added rules.
has_all() {
  awk 'FNR == NR { wanted[++count] = $0; next } $0 == wanted[found + 1] { found++ } END { exit found != count }' \
    <(printf '%s\n' "$2" | essence) <(printf '%s\n' "$1" | essence)
}

# Prints the rules of a file that topos writes, without those of other tools in the same chains.
written() { grep -E -e "${form[entry]}" -e "${form[rule]}" "$1" | sort -s -k2,2; }

# Whether a file has rules that lead to a chain of topos.
is_loaded() { grep -qE "${form[jump]}" "$1"; }

# Whether a file is a complete rules file in the form of topos.
is_written_rules() {
  awk -v entries="${form[entries]}" -v chains="${form[chains]}" -v entry="${form[entry]}" -v rule="${form[rule]}" '
    $0 == "*filter" && NR == 1 { next }
    ended { bad = 1 }
    $0 ~ "^:(" entries ") DROP \\[0:0\\]$" { closed[$1]; next }
    /^:(INPUT|OUTPUT) ACCEPT \[0:0\]$/ && entries == "FORWARD" { next }
    $0 ~ "^:(" chains ") - \\[0:0\\]$" || $0 ~ entry || $0 ~ rule { next }
    $0 == "COMMIT" { ended = 1; next }
    { bad = 1 }
    END {
      for (each in closed) count++
      exit bad || !ended || count != split(entries, _, "|")
    }' "$1"
}

# Prints a file with a logging rule before each rule that drops, and one at the end of FORWARD if packets reach it. A name
# that is too long for the kernel is replaced by the chain.
with_logs() {
  awk -v limited="${form[limited]}" -v wall="${form[wall]}" '
    function logged(line, label) {
      if (label == "" || length(label) > 21) label = chain
      return line limited " \"topos " label ": \""
    }
    FILENAME == ARGV[1] { name[$1] = $2; next }
    { chain = $2 }
    /^-A FORWARD -j / { closed = 1 }
    $0 == "COMMIT" && wall == "firewall" && !closed { chain = "FORWARD"; print logged("-A FORWARD ") }
    /^-A .* -j DROP$/ { line = $0; sub(/-j DROP$/, "", line); print logged(line, name[chain]) }
    { print }' <(host_names) "$1"
}

# Prints the text that changes the entries and the chains of topos from those of the first text, which the table has, to
# those of the second one. The other arguments name the way: with `back` chains of other tools that are gone are created
# empty; `flush` is that of `removals`. If a step fails, COMMIT is missing, and nothing is loaded.
change() {
  local stale each way=" ${*:3} "
  stale=$(comm -23 <(our_chains "$1") <(our_chains "$2")) || return 1
  echo '*filter'
  printf '%s\n' "$2" | sed -nE "s/^:((${form[entries]}) [A-Z]+).*/:\1 [0:0]/p; s/^:(${form[chains]}) .*/:\1 - [0:0]/p" || return 1
  if [[ $way == *' back '* ]]; then gone_chains "$1" "$2" | sed 's/.*/:& - [0:0]/'; fi
  removals "$1" "$way" || return 1
  for each in $stale; do echo "-F $each"; done
  for each in $stale; do echo "-X $each"; done
  our_rules "$2" && echo COMMIT
}

# Prints what removes the rules of a text from the entries: each alone, so that a rule that another tool adds meanwhile stays.
# iptables finds some rules of other tools only with `flush` in the second argument, which removes all.
removals() {
  local each
  if [[ $2 != *' flush '* ]]; then printf '%s\n' "$1" | sed -nE "s/^-A ((${form[entries]}) )/-D \1/p"
  else for each in ${form[entries]//|/ }; do echo "-F $each"; done
  fi
}

# Prints the chains of other tools that rules of the second text lead to, and that the first text does not have.
gone_chains() {
  local each
  our_rules "$2" | sed -nE 's/.* -[jg] ([^ ]+)( .*)?$/\1/p' | sort -u | while read -r each; do
    if [[ $each =~ ^(${form[chains]})$ ]] || [[ $'\n'$1 == *$'\n':"$each "* ]]; then continue; fi
    if [[ $'\n'$2 == *$'\n':"$each -"* ]]; then echo "$each"; fi
  done
}

# Prints the text that removes the rules from the entries and accepts everything.
write_open() {
  local each
  echo '*filter'
  for each in ${form[entries]//|/ }; do printf ':%s ACCEPT [0:0]\n-F %s\n' "$each" "$each"; done
  echo COMMIT
}

# Prints the chains and rules that forwarded packets can meet, as a text: FORWARD and the chains that it leads to.
forwarding_rules() {
  echo '*filter'
  grep '^:' "$1"
  awk "${form[closure]}"'
    /^-A / { rule[++count] = $0; chain[count] = $2; take_jumps() }
    END {
      reached["FORWARD"]
      reach()
      for (each = 1; each <= count; each++) if (chain[each] in reached) print rule[each]
    }' "$1"
  echo COMMIT
}

# Prints the user chains of a file that no rule leads to from the built-in chains, except those in the first argument.
unused_chains() {
  awk -v replaced="^($1)$" "${form[closure]}"'
    /^:/ && $2 == "-" { name[++chains] = substr($1, 2); next }
    /^:/ { if (substr($1, 2) !~ replaced) reached[substr($1, 2)]; next }
    $1 == "-A" { take_jumps() }
    END {
      reach()
      for (each = 1; each <= chains; each++) if (!(name[each] in reached)) print name[each]
    }' "$2" | sort
}

# Prints the chains of other tools that no rule leads to after a load.
unused_others() { unused_chains "${form[entries]}" "$1" | grep -Evx -e "${form[chains]}"; }

# Prints the chains of topos that no rule leads to and that have only rules in the form of topos, and the chain in which
# rules are tried.
idle_chains() {
  awk -v ours="^(${form[chains]}|topos-try)$" -v rule="${form[rule]}" -v logs="${form[log]}" '
    /^:/ && $2 == "-" && substr($1, 2) ~ ours { chain[substr($1, 2)]; next }
    $1 == "-A" && $2 != "topos-try" {
      if ($2 in chain && $0 !~ rule && $0 !~ logs) delete chain[$2]
      for (word = 3; word < NF; word++) if ($word ~ /^-[jg]$/) delete chain[$(word + 1)]
    }
    END { for (each in chain) print each }' "$1" | sort -V
}

# Prints the text that removes chains. The kernel rejects it as a whole if a rule leads to one of them by then.
write_removal() {
  echo '*filter'
  printf '%s\n' "$1" | sed 's/^/-F /'
  printf '%s\n' "$1" | sed 's/^/-X /'
  echo COMMIT
}

part=rules # a truncated file lacks this line
