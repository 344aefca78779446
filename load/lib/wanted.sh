# shellcheck shell=bash disable=SC2034,SC2154
# The rules that are asked for: those of a description, or a rules file. Writes run[wanted]; reads option[..], form[..] and
# run[save].

# Writes the rules into a file, which run[wanted] names. Of a description the policy and a copy are beside it.
write_rules() {
  run[wanted]=$1
  write_text "$1"
  if ! is_loaded "$1"; then refuse no-host 'these rules name no host: nothing is changed'; fi
  if [ -n "${option[machine]}" ]; then look_at_addresses "$1"; fi
}

# Copies a rules file, or lets topos write the rules of a description.
write_text() {
  if [ "${option[from]}" = text ]; then
    cat -- "${option[file]}" >"$1" || refuse unreadable-file "cannot read ${option[file]}: nothing is changed"
    if ! "is_written_${form[kind]}" "$1"; then refuse not-rules "${option[file]} is not a complete rules file written by topos: nothing is changed"; fi
    : >"$1.policy" || refuse cannot-write "cannot write $1.policy: nothing is changed"
    return
  fi
  find_program
  copy_description "$1.description"
  if [ -z "${option[every_flow]}" ] && ! grep -qE "^[[:space:]]*[\"']?flow[\"']?[[:space:]]*=" "$1.description"; then
    refuse no-flow "${option[file]} has no key flow, which requests every flow: add flow = [..], or use --every-flow"
  fi
  if [ -n "${option[machine]}" ]; then run_program "$1" local "$1.description" "${option[host]}"
  elif [ -n "${option[repair]}" ]; then run_program "$1" repair "${form[dialect]}" "$1.description"
  else run_program "$1" rules "${form[dialect]}" "$1.description"
  fi
  if ! "is_written_${form[kind]}" "$1"; then refuse not-rules "${option[program]} did not write valid rules: nothing is changed"; fi
  "${run[program]}" policy "$1.description" >"$1.policy" || refuse topos-failed 'cannot determine the policy: nothing is changed'
}

# Runs the program with its output in a file, the first argument. If it fails, ends with its status.
run_program() {
  local status=0
  "${run[program]}" "${@:2}" >"$1" || status=$?
  if [ "$status" = 0 ]; then return; fi
  run[code]=topos-failed
  say 'topos wrote no rules: nothing is changed'
  if [ "${option[action]}" = check ]; then exit 69; fi # 2 has another meaning there
  exit "$status"
}

# Copies the description once, so that the rules, the policy and the notes are of one text, even if the file changes.
copy_description() {
  local file=${option[file]}
  if [ -e "$file" ] && [ ! -f "$file" ]; then refuse unreadable-file "$file is not a regular file: nothing is changed"; fi
  if [ ! -r "$file" ]; then run_program /dev/stdout check "$file"; fi
  head -c 1048577 -- "$file" >"$1" || refuse unreadable-file "cannot copy $file to $1: nothing is changed" # topos refuses more than 1048576
  note_writers "$file" "$(command -v "${option[program]}")"
}

# Notes each of the files, and each folder on the way to one, that a user other than root may change.
note_writers() {
  local each
  while IFS= read -r each; do note "$each, who can change the loaded rules"; done < <(writers_of "$@")
}

# Prints by whom these files, and the folders on the way to them, can be changed, except by root: a line each.
writers_of() {
  local each file mode owner
  local -a paths=()
  mapfile -d '' -t paths < <(
    for file; do path_to "$(realpath -ms -- "$file")"; path_to "$(readlink -f -- "$file")"; done | sort -zu)
  while IFS=' ' read -rd '' mode owner each; do
    if [[ $mode == l* ]]; then continue; fi # what the link leads to is another path
    each=${each//[[:cntrl:]]/?}
    if [ "$owner" != 0 ]; then echo "$each is owned by a user other than root"
    elif [[ $mode == ?????w???[^tT] || $mode == ????????w[^tT] ]]; then echo "$each is writable by users other than root"
    fi
  done < <(stat --printf '%A %u %n\0' -- "${paths[@]}" 2>/dev/null)
}

# Prints a path and the folders that lead to it.
path_to() {
  local path=$1
  until [ -z "${path%/}" ]; do
    printf '%s\0' "$path"
    path=${path%/*}
  done
}

# Prints the file with the rules of a firewall for the description, also on the machine of a host.
of_box() { if [ -n "${option[machine]}" ]; then echo "${run[wanted]}.others"; else echo "${run[wanted]}"; fi; }

# Replaces the first two words of each line, which are addresses, by the names of their hosts.
named() {
  awk "${form[ranges]}"'
    BEGIN { rest = "everybody-else" }
    FILENAME == ARGV[1] {
      if ($1 == "rest") rest = $2
      else { from[++count] = lowest($1); to[count] = highest($1); whose[count] = $2 }
      next
    }
    function owner(address, number, each) {
      if (address in name) return name[address]
      number = lowest(address)
      for (each = 1; each <= count; each++)
        if (from[each] <= number && number <= to[each]) return name[address] = whose[each]
      return name[address] = rest
    }
    { $1 = owner($1); $2 = owner($2); print }' <("owners_${form[kind]}" "$(of_box)") -
}

part=wanted # a truncated file lacks this line
