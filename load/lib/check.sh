# shellcheck shell=bash disable=SC2034,SC2154
# --check: what other rules do than those that are asked for. This is a question for topos-query. Writes run[verdict]; reads
# `folder` and `query` of run[..], option[..] and form[..].

# Prints whether other rules implement the description all the same, and the pairs of hosts for which they do not.
compare_rules() {
  local folder=${run[folder]} status=0
  run[verdict]=unknown
  if ! find_query; then
    say "verdict: cannot determine whether these rules implement ${option[file]}: cannot find topos-query"
    return
  fi
  "write_compared_${form[kind]}" "$1" "$folder/compared" || return
  "${run[query]}" compare "${form[dialect]}" "$folder/rules.description" "$folder/compared" >"$folder/found" 2>"$folder/refused" ||
    status=$?
  case $status in
    0)
      run[verdict]=implemented
      say "verdict: these rules differ from those of topos, but implement ${option[file]}" ;;
    2)
      run[verdict]=not-implemented
      differences_of "$folder/found" >"$folder/pairs"
      some_lines <"$folder/pairs"
      say "verdict: these rules do not implement ${option[file]}: $(number_of_pairs "$folder/pairs")" ;;
    *)
      tell_refused "$folder/refused" "$folder/compared"
      say "verdict: cannot determine whether these rules implement ${option[file]}" ;;
  esac
}

# Prints how many pairs of hosts a list has.
number_of_pairs() {
  local number
  number=$(cut -d: -f1 "$1" | sort -u | wc -l)
  if [ "$number" = 1 ]; then echo '1 pair of hosts differs'; else echo "$number pairs of hosts differ"; fi
}

# Prints the differences of an answer of `topos-query compare`: a line for each pair of hosts and direction, about the first
# list of events that shows it. No string of an answer has an escape.
differences_of() {
  sed 's/.*"differences":\[//; s/},{/}\n{/g' "$1" | sed -nE '
    s/^\{?"from":("([^"]*)"|null),"to":("([^"]*)"|null),"list":"([a-z]*)","rules":"([a-z]*)","events":\[(.*)\]\}.*/\2\t\4\t\5 \6\t\7/p' |
    awk -F '\t' -v file="${option[file]}" '
      BEGIN {
        says["new forward"] = "new packets pass that " file " denies"
        says["new drop"] = "new packets are dropped that " file " permits"
        says["answer forward"] = "answers pass that " file " denies"
        says["answer drop"] = "answers are dropped that " file " permits"
        says["later forward"] = "packets of connections pass that " file " denies"
        says["later drop"] = "packets of connections are dropped that " file " permits"
      }
      {
        direction = $3; sub(/.* /, "", direction)
        if (listed[$1, $2, direction]++) next
        packet = $4; sub(/.*"packet /, "", packet); sub(/"$/, "", packet)
        print ($1 ? $1 : "no host") " -> " ($2 ? $2 : "no host") ": " says[$3] ", such as " packet
      }'
}

# Prints the rule of the second file that topos-query rejects, with the reason, as the first file says; else the first file.
tell_refused() {
  local rule
  rule=$(refused_line "$1" "$2")
  if [ -z "$rule" ]; then cat "$1"; return; fi
  echo "topos-query does not read this rule of ${run[save]} ($(sed -n 's/^topos: rules: line [0-9]*: //p' "$1")): $rule"
}

# Prints the line of the second file that topos rejects, as the first one says.
refused_line() {
  local line
  line=$(sed -n 's/^topos: rules: line \([0-9]*\): .*/\1/p' "$1")
  if [ -n "$line" ]; then sed -n "${line}p" "$2"; fi
}

part=check # a truncated file lacks this line
