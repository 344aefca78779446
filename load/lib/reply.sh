# shellcheck shell=bash disable=SC2034,SC2154
# The end of a run, and the object that it prints with --json. Declares and writes reply[..]; reads option[..], and `code`, `words`,
# `folder`, `leaving` and `end_told` of run[..].

declare -ga reply=() # the members of the object, as JSON

# Lets --json of the command line have the standard output for itself: all else is written to the error stream.
begin_reply() {
  local each
  for each; do
    case $each in
      --) return ;;
      --json) option[json]=yes; exec 4>&1 1>&2; return ;;
    esac
  done
}

# Prints a text as a string of JSON.
json_string() {
  local text=${1//\\/\\\\} code hexadecimal character
  text=${text//\"/\\\"}
  if [[ $text == *[[:cntrl:]]* ]]; then
    for code in {1..31} 127; do
      printf -v hexadecimal %02x "$code"
      printf -v character %b "\\x$hexadecimal"
      text=${text//"$character"/\\u00$hexadecimal}
    done
  fi
  if [[ $text == *[![:cntrl:]\ -~]* ]]; then text=$(iconv -c -f UTF-8 -t UTF-8 <<<"$text"); fi
  printf '"%s"' "$text"
}

# Adds a member: a text, or null if it is empty.
put_text() { if [ -n "$2" ]; then reply+=("\"$1\":$(json_string "$2")"); else reply+=("\"$1\":null"); fi; }

# Adds a member: a number or a word of JSON, or null if it is empty.
put_value() { reply+=("\"$1\":${2:-null}"); }

# Adds a member: a list of the lines of a text.
put_list() {
  local each list=''
  while IFS= read -r each; do
    if [ -n "$each" ]; then list+=,$(json_string "$each"); fi
  done <<<"$2"
  reply+=("\"$1\":[${list#,}]")
}

# Prints the object of a run with this status.
print_reply() {
  local IFS=, ended
  local -a members=(${reply[@]+"${reply[@]}"})
  reply=()
  put_text command "${option[action]}"
  put_value status "$1"
  put_text code "${run[code]:-$(code_of "$1")}"
  put_text words "${run[words]}"
  put_text backend "${option[backend]}"
  if [ "${option[action]}" = check ]; then put_text verdict "${run[verdict]}"; fi
  if [ -n "${run[loaded]}" ]; then put_text digest "$(printf '%s\n' "${run[loaded]}" | "digest_of_${form[kind]}")"; fi
  printf '{%s}\n' "${reply[*]}${members[*]+,${members[*]}}"
}

# Prints the code of a status without a reason.
code_of() {
  case $1 in
    0) echo 'done' ;;
    64) echo usage ;;
    72) echo no-address ;;
    *) echo failed ;;
  esac
}

# Ends a run: removes its folder, rolls back a load that nobody has decided, and prints the object.
# shellcheck disable=SC2317 # the action of a trap
end_run() {
  local status=$?
  if [ -n "${run[folder]}" ]; then rm -rf "${run[folder]}"; fi
  if [ -n "${run[leaving]}" ] && [ -z "${run[end_told]}" ]; then
    decide interrupted
    hear_end
    status=${run[status]}
  fi
  if [ -n "${option[json]}" ]; then print_reply "$status" >&4; fi
  if [ -n "${run[leaving]}" ]; then exit "$status"; fi
}

part=reply # a truncated file lacks this line
