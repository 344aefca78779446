# shellcheck shell=bash disable=SC2034,SC2154
# The table `ip topos` of nftables: its form, what the kernel lists of it, and the orders that change it.
#
# With --log the rules of the base chain are in `top_a`, and `rules_a` jumps there and continues in `log_a`, which logs and
# drops; what the text drops continues in `log_a` too.
#
# Its chains are there in up to two generations, named `.._a` and `.._b`: those of the text, and `rules_a` or `rules_b` with
# the rules of its base chain. The base chain `forward` has one rule, which continues in one of these, and whose comment says
# whether a user has confirmed it, and the SHA-256 of the text. That is all the state there is. `topos-step` decides by it
# what is to be done about an event, in orders. Each order is one transaction of nft.
#
# Writes `table`, `active`, `chains` and `step` of run[..] and form[..]; reads option[..] and `loaded` and `state` of run[..].

# The lines of the base chain.
form[hook]=$'\t\ttype filter hook forward priority filter; policy drop;'
form[mark]=$'\t\tgoto rules_[ab] comment "(kept|pending) [0-9a-f]+"'

# What logs: at most so many packets in a time, by the kernel or a group of nflog.
form[logged]=$'\t\tlimit rate [0-9]+/(second|minute|hour|day)( burst [0-9]+ packets)? log prefix "topos: "( group [0-9]+)?'

# Selects what is changed: a table of its own. `line` is the pattern of a line of a text, and `listed` of one of the kernel.
change_table() {
  form+=(
    [kind]=table [dialect]=nft [own]='ip topos' [wall]=firewall [remembered]='' [hooks]=forward [packets]=forwarded
    [entries]=FORWARD [changed]='the table ip topos' [as_before]='the previous rules are in force'
    [jump]=$'^\t\t(ip saddr vmap [{] .*|goto from_.*)$' [line]=$(line_of '') [listed]=$(line_of '_[ab]')
  )
  run[save]=nft run[restore]=nft
}

# Prints the pattern of a line, whose chains have names with this suffix. A name has a `_`, so that none is `rules`.
line_of() {
  local name="[A-Za-z][A-Za-z0-9-]*_[A-Za-z0-9_-]*$1" service='((tcp|udp) [ds]port [0-9]+(-[0-9]+)?|meta l4proto (icmp|tcp|udp)) '
  local verdict="(accept|drop|goto (${1:+log$1|}$name))" logs=${1:+"|jump top$1|${form[logged]#$'\t\t'}"}
  local element="[0-9.]+([/-][0-9.]+)? : $verdict"
  local rule="ip [sd]addr vmap [{] $element(, $element)* [}]|(ct state established )?($service)?$verdict"
  printf '%s' $'^(|table ip topos [{]|[}]|\t'"(chain (forward|${1:+(rules|top|log)$1|}$name) [{]|[}])|"$'\t\t'"($rule$logs))\$"
}

# Finds the tools and programs for a table, and the folder of a load.
find_tools_table() {
  need awk flock setsid nft sha256sum
  run[state]=$(folder_of table) run[stayed]=${run[state]}/stayed
  find_step
  is_program_there || true # it is opened before anything is changed, also for the way back
}

# Finds `topos-step`: that of TOPOS_STEP, else the one beside the program, else where it is built or installed.
find_step() {
  local each beside
  find_name
  beside=$(readlink -f "$(command -v "${option[program]}")")
  for each in ${TOPOS_STEP:+"$TOPOS_STEP"} ${beside:+"${beside%/*}/topos-step"} "${self%/*/*}"/{out,lib/topos}/topos-step; do
    if ! [ -x "$each" ]; then continue; fi
    may_run_table step "$each" step || refuse "$(code_of_reason)" "${run[reason]}: nothing is changed"
    return
  done
  refuse no-program 'cannot find topos-step: nothing is changed'
}

# Whether a program, the second argument, may be run: nobody but root can change it, and it is proved. run[..] of the first
# argument is what runs it: the file that was opened here, whatever becomes of its name.
may_run_table() {
  local found list number
  declare -A numbers=([program]=7 [query]=6 [step]=5)
  run[$1]='' run[reason]="cannot find $2" number=${numbers[$1]}
  found=$(readlink -f "$(command -v "$2")") && [ -f "$found" ] || return 1
  eval "exec $number<\"\$found\"" || return 1
  if [ -z "${option[unproved]}" ]; then
    list=${found%/*}/topos.proved
    run[reason]=$(writers_of "$found" "$list" | head -n 1)
    if [ -n "${run[reason]}" ]; then return 1; fi
    run[reason]="no proof found for $2"
    grep -qsxF "$(digest_of "/proc/self/fd/$number")  $3" "$list" || return 1
  fi
  run[$1]=/proc/self/fd/$number
}

# Reads the table into run[table], which is empty if there is none, and its state into run[active] and run[chains]. Fails if
# nft cannot list it, or if its base chain is not that of topos.
read_table() {
  local tables active chains
  run[table]='' run[active]='' run[chains]=''
  tables=$(nft list tables ip) || return 1
  if grep -qx 'table ip topos' <<<"$tables"; then
    run[table]=$(nft list table ip topos) && [[ ${run[table]} == *$'\n}' ]] || return 1
  fi
  read -r active chains < <(printf '%s\n' "${run[table]}" | state_of)
  run[active]=$active run[chains]=$chains
  [ "$active" != unknown ]
}

# Whether there is a table of topos.
is_table() { command -v nft >/dev/null && prints '^table ip topos$' nft list tables ip; }

# Whether the table of the kernel waits for a confirmation, or a load has left half of one.
is_table_pending() {
  local active chains
  if ! command -v nft >/dev/null; then return 1; fi
  read -r active chains < <(nft list table ip topos 2>/dev/null | state_of)
  case $active:$chains in *-pending:* | *:ab | none:[ab]) return 0 ;; *) return 1 ;; esac
}

# Prints the state of a table: where the base chain continues, and which generations of chains there are.
state_of() {
  awk -v mark="^${form[mark]}\$" '
    /^\tchain / { here = $0; if (/_[ab] [{]$/) has[substr($0, length($0) - 2, 1)]; else if (/ forward [{]$/) base = "unknown" }
    here == "\tchain forward {" && $0 ~ mark { base = substr($0, 14, 1) "-" (/ "kept / ? "kept" : "pending") }
    END {
      chains = ("a" in has ? "a" : "") ("b" in has ? "b" : "")
      print base == "" ? "none" : base, chains == "" ? "none" : chains
    }'
}

# Prints the first line of run[table] that no load writes, with its number; nothing if all are of loads.
foreign_line() {
  {
    printf '%s\n' "${run[table]}" | grep -Evn -m 1 -e "${form[listed]}" -e "^${form[hook]}\$" -e "^${form[mark]}\$"
    printf '%s\n' "${run[table]}" | awk -v hook="${form[hook]}" -v mark="^${form[mark]}\$" -v logged="^${form[logged]}\$" '
      /^\tchain / { here = /^\tchain forward / ? "forward" : substr($0, length($0) - 2, 1); chain = $2; lines = 0; next }
      chain ~ /^log_[ab]$/ && /^\t\t/ { if (++lines == 1 ? $0 !~ logged : lines > 2 || $0 != "\t\tdrop") { print NR ":" $0; exit } next }
      $0 ~ logged || /^\t\tjump / && chain !~ /^rules_/ { print NR ":" $0; exit }
      /^\t}$/ { if (here == "forward" && lines != 2) { print NR ":the chain forward without its rule"; exit } here = ""; next }
      here == "forward" { if (++lines == 1 ? $0 != hook : lines > 2 || $0 !~ mark) { print NR ":" $0; exit } next }
      here != "" && ($0 == hook || $0 ~ mark || $0 ~ ("_" (here == "a" ? "b" : "a") "( [}]|,|$)")) { print NR ":" $0; exit }'
  } | sort -n | head -n 1 | tr -d '\t'
}

# Prints a generation of run[table] as the text that was loaded, without what logs; nothing if that is not as it was written.
text_of() {
  local base=rules
  if [[ ${run[table]} != *$'\n\t'"chain rules_$1 {"* ]]; then return; fi
  if [[ ${run[table]} == *$'\n\t'"chain top_$1 {"* ]]; then base=top; fi
  printf '%s\n' "${run[table]}" | awk -v own="_$1" -v base="$base" -v hook="${form[hook]}" -v logged="^${form[logged]}\$" '
    function is_log(line) {
      if (chain == "log" own) return lines == 1 ? line ~ logged : lines == 2 && line == "\t\tdrop"
      return line == (lines == 1 ? "\t\tjump top" own : lines == 2 ? "\t\tgoto log" own : "")
    }
    /^\tchain / {
      chain = $2; lines = 0; logs = chain == "log" own || chain == "rules" own && base == "top"
      here = substr(chain, length(chain) - 1) == own && !logs
      if (here) text = text (begun++ ? "\n" : "table ip topos {\n")
      if (here && chain == base own) { text = text "\tchain forward {\n" hook "\n"; next }
    }
    logs && /^\t\t/ { lines++; if (is_log($0)) good++; else good = -9 }
    here { text = text $0 "\n" }
    /^\t}$/ { here = logs = 0 }
    END { if (good == (base == "top" ? 4 : 0)) printf "%s}\n", text }' |
    sed -E "s/goto log_$1( |,|\$)/drop\1/g; s/goto ([A-Za-z0-9_-]+)_$1/goto \1/g; s/^(\tchain [^ ]+)_$1 [{]\$/\1 {/"
}

# Prints what logs in run[table], and what is to log.
log_of_table() { printf '%s\n' "${run[table]}" | sed -nE "\\#^${form[logged]}\$#{s/ burst [0-9]+ packets//; s/^\t\t//; p}"; }
log_wanted() {
  if [ -z "${option[log]}" ]; then return; fi
  echo "limit rate ${option[log_rate]:-10/minute} log prefix \"topos: \"${option[log_group]:+ group ${option[log_group]}}"
}

# Prints a generation with what logs.
with_log() {
  sed -E "s/ : drop/ : goto log_$1/g; s/^(\t\t.*)drop\$/\1goto log_$1/; s/^\tchain rules_$1 [{]\$/\tchain top_$1 {/; /^[}]\$/d"
  printf '\n\tchain log_%s {\n\t\t%s\n\t\tdrop\n\t}\n' "$1" "$(log_wanted)"
  printf '\n\tchain rules_%s {\n\t\tjump top_%s\n\t\tgoto log_%s\n\t}\n}\n' "$1" "$1" "$1"
}

# Prints a text as a generation: with the suffix at each chain, and the rules of the base chain in a chain of their own.
generation() {
  sed -E "s/goto [A-Za-z0-9_-]+/&_$1/g
    s/^\tchain forward [{]\$/\tchain rules_$1 {/; t
    s/^(\tchain [^ ]+) [{]\$/\1_$1 {/
    /^${form[hook]}\$/d" | if [ -n "${option[log]}" ]; then with_log "$1"; else cat; fi
}

# Prints the digest of a text, as sha256sum does of its file.
digest_of_table() { sha256sum | cut -d ' ' -f 1; }

# Prints an order as a transaction of nft.
transaction() {
  local digest
  case $1 in
    write) printf '%s\n' "${run[loaded]}" | generation "$2" ;;
    switch | keep)
      digest=$(text_of "$2" | digest_of_table)
      if [ "$1" = switch ] && [ "$digest" != "$(printf '%s\n' "${run[loaded]}" | digest_of_table)" ]; then
        say 'the loaded rules differ from the written ones'
        return 1
      fi
      if [[ ${run[table]} != *$'\n\tchain forward {'* ]]; then
        printf 'table ip topos {\n\tchain forward {\n%s\n\t}\n}\n' "${form[hook]}"
      fi
      if [ "$1" = switch ]; then digest="pending $digest"; else digest="kept $digest"; fi
      printf 'flush chain ip topos forward\nadd rule ip topos forward goto rules_%s comment "%s"\n' "$2" "$digest" ;;
    erase) erasure "$2" ;;
    remove) echo 'delete table ip topos' ;;
    *) return 1 ;;
  esac
}

# Prints what removes the chains of a generation: all are emptied first, since they lead to each other.
erasure() {
  local each
  for each in flush delete; do
    printf '%s\n' "${run[table]}" | sed -nE "s/^\tchain ([^ ]+_$1) [{]\$/$each chain ip topos \1/p"
  done
}

# Runs the orders of `topos-step` about an event. The status is 69 if it refuses the event, 1 if an order fails, or if a load
# is decided meanwhile.
run_orders() {
  local orders each status=0
  local -a list
  read_table || return 1
  orders=$("${run[step]}" "$1" "${run[active]}" "${run[chains]}" 2>/dev/null) || return
  mapfile -t list < <(printf '%s' "$orders")
  for each in ${list[@]+"${list[@]}"}; do
    flock 8
    # shellcheck disable=SC2086 # an order, and its generation
    if [ "$1" = load ] && is_decided; then status=1; else run_order "$1" $each || status=1; fi
    flock -u 8
    if [ "$status" != 0 ]; then return 1; fi
  done
}

# Runs an order about an event.
run_order() {
  local text
  read_table && text=$(transaction "$2" "${3:-}") || return 1
  if [ "$2" = keep ] && [ "$1" != back ]; then keep_generation "$3" "$text"
  else printf '%s\n' "$text" | nft -f - 9>&-
  fi
}

# Keeps a generation by a transaction. Its text is saved before, for the next boot, and the one before again if that fails.
keep_generation() {
  local file before
  file=$(kept_file)
  before=$(cat "${file:-/dev/null}" 2>/dev/null)
  remember_text "$file" "$(text_of "$1")"
  if printf '%s\n' "$2" | nft -f - 9>&- || { read_table && [ "${run[active]}" = "$1-kept" ]; }; then return; fi
  remember_text "$file" "$before"
  return 1
}

part=table # a truncated file lacks this line
