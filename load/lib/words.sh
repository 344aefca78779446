# shellcheck shell=bash disable=SC2034,SC2154
# The command line of topos-load, and what it prints. Declares and writes option[..]; reads run[state].

# What the command line gives; `words` is the whole. find_pending and find_tools set the back end, is_program_there the
# program, and end_in_place `machine` to that of the load that it ends.
declare -gA option=(
  [action]=load [from]=description [file]='' [host]='' [machine]='' [words]=''
  [seconds]=60 [backend]='' [iptables]='' [program]='' [unproved]='' [repair]='' [every_flow]='' [replace]='' [keep]='' [open]=''
  [log]='' [dry_run]='' [verbose]='' [list]='' [json]=''
  [until]='' [limit]='' [log_group]='' [log_rate]='' [detach]='' [transaction]='' [if_changed]=''
)

# Prints how topos-load is called.
usage() {
  cat <<'END'
usage: topos-load [OPTION].. DESCRIPTION      load the rules of a description
       topos-load [OPTION].. --text RULES     load a rules file that topos wrote
       topos-load [OPTION].. --check DESCRIPTION
       topos-load [OPTION].. --check --text RULES
                                              print differences from these rules, or nothing
       topos-load [OPTION].. --dry-run DESCRIPTION
                                              list the connections that a load would delete; change nothing
       topos-load [OPTION].. --remove         restore FORWARD as before the first load
       topos-load [OPTION].. --remove NAME    restore FORWARD from this saved state
       topos-load [OPTION].. --remove --list  list saved states: time, size and name of each file
       topos-load [OPTION].. --clean          remove the unused chains of topos
       topos-load [OPTION].. --local DESCRIPTION HOST
       topos-load [OPTION].. --local --text RULES
                                              load the rules of a host on this machine
       topos-load [OPTION].. --local --check ..
       topos-load [OPTION].. --local --remove
       topos-load [OPTION].. --local --clean  the same for INPUT, FORWARD and OUTPUT
       topos-load --confirm                   keep the loaded rules; with --local only over a new connection
       topos-load --back                      roll back now
       topos-load [OPTION].. --status         print what is in force, what is waiting, and how the last load ended
options
  --repair             load the flows that violate no invariant (topos repair), and list the omitted flows
  --every-flow         accept a description without the key `flow`, which requests every flow
  --log                log dropped packets, at most ten a minute: 'topos: ' and the packet; of iptables ten for each
                       rule, with 'topos HOST: '
  --log-group N        the same for a table, by the group N of nflog
  --log-rate N/minute  the same for a table, at most so many packets; also in a second, an hour or a day
  --version            print the version of topos
  --json               print one object of JSON, and everything else as an error message
  --verbose            print every note in full, also if an earlier load printed it
  --wait SECONDS       time limit for the confirmation: 60 by default, 0 to load without a confirmation
  --until TIME         time limit by the clock: 14:30, 2026-12-02T14:30, 2026-12-02T14:30Z, or @1796221800
  --detach             end after the question: the rules wait for --confirm without this process
  --transaction NAME   name of the load; --confirm requires it, and --back with another name is refused
  --if-changed         load nothing if these rules are loaded and kept
  --table              load the rules as a table of nftables, ip topos; this is the default where nftables works and
                       iptables has no rules of topos
  --iptables           load them into FORWARD of iptables
  --backend nft|legacy the same, in this back end of iptables; by default it is that of iptables-restore
  --replace-forward    remove the rules of other tools from FORWARD
  --replace-rules      with --local: remove the rules of other tools from INPUT, FORWARD and OUTPUT
  --open               with --remove: if no state is saved, remove all rules from FORWARD and accept everything
  --keep-connections   do not delete old connections that the rules do not accept
  --program TOPOS      the program topos
  --unproved           run the program without a proof of it; the journal records this
  --                   end of the options
exit status
  0 done, 64 usage error, 69 refused: nothing was changed, 71 the previous rules could not be restored,
  72 refused: this machine has no address of the host yet, 75 rolled back;
  of --check 0 if these rules are loaded, 1 if others are, 2 if these are without a confirmation yet, 69 if it is not
  known; otherwise that of topos, which prints the reason
END
}

# Prints the version: of the file that `packaging/install` writes, else that of the clone.
print_version() {
  local file=${self%/*/*}/lib/topos/version version=unknown
  if [ -e "${self%/*}/lib/words.sh" ]; then
    version=$("${self%/*/*}/packaging/version") || version=unknown
  elif [ -r "$file" ]; then
    version=$(<"$file")
  fi
  put_text version "$version"
  echo "topos-load of topos $version"
}

# Prints a line, without control characters: a file name may have codes for a terminal.
tell() { printf 'topos-load: %s\n' "${*//[[:cntrl:]]/?}" >&2; }

# Prints a message, of which --json has the last one.
say() { run[words]=$*; tell "$*"; }

# Prints why nothing is done, and ends. The first argument is the code of the reason.
refuse() { run[code]=$1; say "${*:2}"; exit 69; }

# Prints a fault of the command line, and ends.
wrong_words() { run[code]=usage; say "$1"; usage >&2; exit 64; }

# Prints a note, except for --check, which prints nothing if it finds nothing.
note() { if [ "${option[action]}" != check ]; then tell "note: $*"; fi; }

# Prints a note, the first argument, with the lines in the third one. If an earlier load printed the same lines, prints
# their number and the second argument instead.
note_lines() {
  local digest
  digest=$(printf '%s\n' "$1" "$3" | sha256sum)
  if [ -z "${option[verbose]}" ] && grep -qsxF "$digest" "${run[state]}/noted"; then
    note "$(wc -l <<<"$3") $2, as in an earlier load (--verbose lists them)"
    return
  fi
  note "$1"
  some_lines <<<"$3" >&2
  if [ -n "${option[dry_run]}" ] || grep -qsxF "$digest" "${run[state]}/noted"; then return; fi
  printf '%s\n' "$digest" >>"${run[state]}/noted" || true # it is only printed again
}

# Prints at most 20 lines and the number of the others; with --verbose all lines.
some_lines() {
  awk -v all="${option[verbose]}" 'NR <= 20 || all { print } END { if (NR > 20 && !all) print "and " NR - 20 " more" }'
}

# Takes an action from the command line: there is only one.
only_action() {
  if [ "${option[action]}" != load ]; then wrong_words "$1: only one action is allowed"; fi
  option[action]=${1#--}
}

# Reads the command line.
read_words() {
  local -a words=()
  option[words]=$*
  while [ $# -gt 0 ]; do
    case $1 in
      --help) usage; exit 0 ;;
      --version) print_version; exit 0 ;;
      --local) option[machine]=yes ;;
      --table) read_backend --table table ;;
      --iptables) read_backend --iptables '' ;;
      --text) option[from]=text ;;
      --check | --remove | --clean | --confirm | --back | --status | --guard) only_action "$1" ;;
      --repair) option[repair]=yes ;;
      --every-flow) option[every_flow]=yes ;;
      --replace-forward | --replace-rules) option[replace]=$1 ;;
      --keep-connections) option[keep]=yes ;;
      --log) option[log]=yes ;;
      --dry-run) option[dry_run]=yes ;;
      --detach) option[detach]=yes ;;
      --if-changed) option[if_changed]=yes ;;
      --verbose) option[verbose]=yes ;;
      --json) ;; # begin_reply has read it
      --unproved) option[unproved]=--unproved ;;
      --list) option[list]=yes ;;
      --open) option[open]=yes ;;
      --wait | --until | --transaction | --log-group | --log-rate | --backend | --program)
        if [ $# -lt 2 ]; then wrong_words "$1: requires a value"; fi
        read_value "$1" "$2"
        shift ;;
      --) shift; words+=("$@"); break ;;
      -*) wrong_words "$1: unknown option" ;;
      *) words+=("$1") ;;
    esac
    shift
  done
  name_words ${words[@]+"${words[@]}"}
  fit_options
}

# Takes the arguments that are no options: a file, and with --local a host.
name_words() {
  local wanted=0 spare
  case ${option[action]} in load | check) wanted=1 ;; esac
  if [ "$wanted:${option[from]}:${option[machine]}" = 1:description:yes ]; then wanted=2; fi
  if [ $# -lt "$wanted" ]; then
    if [ $# = 1 ]; then wrong_words 'missing argument: host'; else wrong_words 'missing argument: file'; fi
  fi
  if [ "${option[action]}" = remove ]; then wanted=1; fi
  spare=$((wanted + 1))
  if [ $# -gt "$wanted" ]; then wrong_words "${!spare}: unexpected argument"; fi
  option[file]=${1:-} option[host]=${2:-}
}

# Refuses options that do not go together.
fit_options() {
  if [ "${option[action]}" != load ]; then
    if [ -n "${option[log]}" ]; then wrong_words '--log: only valid for a load'; fi
    if [ -n "${option[dry_run]}" ]; then wrong_words '--dry-run: only valid for a load'; fi
    if [ -n "${option[detach]}" ]; then wrong_words '--detach: only valid for a load'; fi
    if [ -n "${option[if_changed]}" ]; then wrong_words '--if-changed: only valid for a load'; fi
  fi
  fit_limit
  if [ -n "${option[open]}" ] && [ "${option[action]}" != remove ]; then wrong_words '--open: only valid with --remove'; fi
  if [ -n "${option[list]}" ] && [ "${option[action]}:${option[open]}${option[file]}" != remove: ]; then
    wrong_words '--list: only valid with --remove'
  fi
  if [ "${option[backend]}" = table ]; then fit_table_options
  elif [ -n "${option[machine]}" ]; then
    if [ -n "${option[repair]}" ]; then wrong_words '--repair: not valid with --local'; fi
    if [ "${option[replace]}" = --replace-forward ]; then
      wrong_words '--replace-forward: not valid with --local, use --replace-rules'
    fi
  elif [ "${option[replace]}" = --replace-rules ]; then wrong_words '--replace-rules: only valid with --local'
  fi
}

# Refuses a limit and a name where there is no question.
fit_limit() {
  case ${option[action]}:${option[transaction]} in
    load:* | confirm:* | back:* | *:) ;;
    *) wrong_words '--transaction: only valid for a load, with --confirm and with --back' ;;
  esac
  if [ "${option[detach]}:${option[seconds]}" = yes:0 ]; then wrong_words '--detach: not valid with --wait 0'; fi
}

# Refuses options that a table has no use for.
fit_table_options() {
  if [ -n "${option[machine]}" ]; then wrong_words '--table: not valid with --local'; fi
  if [ -n "${option[replace]}${option[open]}${option[list]}" ]; then
    wrong_words "${option[replace]:-${option[list]:+--list}${option[open]:+--open}}: not valid with --table"
  fi
  case ${option[action]}:${option[file]} in
    clean:*) wrong_words '--clean: not valid with --table' ;;
    remove:?*) wrong_words "${option[file]}: unexpected argument" ;;
  esac
}

# Selects what is changed: a table, or FORWARD, or what the machine of a host has.
select_form() {
  if [ "${option[backend]}" = table ]; then change_table
  elif [ -n "${option[machine]}" ]; then change_machine
  else change_box
  fi
}

# Takes what the rules are loaded into: a table, or iptables and a back end of it. There is only one.
read_backend() {
  if [ "$2" != table ]; then option[iptables]=yes; fi
  if [ "${option[iptables]}" = yes ] && [[ table == "$2" || ${option[backend]} == table ]]; then
    wrong_words "$1: --table is not valid with --iptables and --backend"
  fi
  option[backend]=${2:-${option[backend]}}
}

# Takes an option with its value.
read_value() {
  case $1:$2 in
    --wait:*[!0-9]* | --wait: | --wait:??????*) wrong_words '--wait: expected a number of seconds, at most 99999' ;;
    --wait:*) read_limit --wait; option[seconds]=$((10#$2)) ;; # not octal
    --until:*) read_limit --until; read_time "$2" ;;
    --transaction:[A-Za-z0-9]*)
      if [[ $2 == *[!A-Za-z0-9._-]* || ${#2} -gt 64 ]]; then wrong_words '--transaction: expected at most 64 letters, digits, ., _ or -'; fi
      option[transaction]=$2 ;;
    --transaction:*) wrong_words '--transaction: expected a name that begins with a letter or a digit' ;;
    --log-group:*)
      if ! [[ $2 =~ ^[0-9]{1,5}$ ]] || [ "$((10#$2))" -gt 65535 ]; then wrong_words '--log-group: expected a number, at most 65535'; fi
      option[log]=yes option[log_group]=$((10#$2)) ;;
    --log-rate:*)
      if ! [[ $2 =~ ^[1-9][0-9]{0,5}/(second|minute|hour|day)$ ]]; then
        wrong_words '--log-rate: expected a rate, such as 10/minute, in a second, minute, hour or day'
      fi
      option[log]=yes option[log_rate]=$2 ;;
    --backend:nft | --backend:legacy) read_backend --backend "$2" ;;
    --backend:*) wrong_words '--backend: expected nft or legacy' ;;
    --program:*) option[program]=$2 ;;
  esac
}

# Takes the option of a time limit. There is only one.
read_limit() {
  if [ "${option[limit]:-$1}" != "$1" ]; then wrong_words "$1: --wait and --until are not valid together"; fi
  option[limit]=$1
}

# Takes a time of the clock. An hour that is over is one of tomorrow.
read_time() {
  local clock='[0-9]{2}:[0-9]{2}(:[0-9]{2})?' now end
  now=$(date +%s)
  if ! [[ $1 =~ ^($clock|[0-9]{4}-[0-9]{2}-[0-9]{2}T$clock(Z|[+-][0-9]{2}:?[0-9]{2})?|@[0-9]{1,12})$ ]] ||
    ! end=$(date -d "$1" +%s 2>/dev/null); then
    wrong_words '--until: expected a time, such as 14:30, 2026-12-02T14:30, 2026-12-02T14:30Z or @1796221800'
  fi
  if [[ $1 != *[T@]* ]] && [ "$end" -le "$now" ]; then end=$(date -d "tomorrow $1" +%s); fi
  option[until]=$end
  if [ "${option[action]}" = guard ]; then return; fi
  if [ "$end" -le "$now" ]; then wrong_words '--until: this time is over'; fi
  if [ $((end - now)) -gt 99999 ]; then wrong_words '--until: expected a time at most 99999 seconds from now'; fi
}

# Sets the seconds of a limit by the clock, from now on.
set_limit() {
  if [ -z "${option[until]}" ]; then return; fi
  option[seconds]=$((option[until] - $(date +%s)))
  if [ "${option[seconds]}" -lt 1 ]; then option[seconds]=1; fi
}

part=words # a truncated file lacks this line
