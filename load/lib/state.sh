# shellcheck shell=bash disable=SC2034,SC2154
# The load that is waiting, and its end. The first `decision` counts; it is made atomically. It and the result are symbolic
# links, for which a full disk has space.
#
# Declares run[..], and writes `code` of it; reads its folder (`state`), option[..] and form[..].

# What a run has found, read and begun, and no option gives. find_namespace, find_tools, find_pending and find_query write
# the first two lines; the others name the file that writes them.
declare -gA run=(
  [namespace]='' [save]='' [restore]='' [program]='' [query]=''  # an inode, and tools
  [state]='' [first]='' [last]='' [stayed]=''       # the folder of the saved states, and files in it
  [was]='' [loaded]='' [changing]=''                # change.sh: the text before and that of the load; this process makes it
  [guard]='' [refused]='' [end_told]='' [leaving]='' # back.sh: its process, and rules that the kernel rejects; change.sh
  [wanted]='' [folder]=''                           # wanted.sh: the rules file; check.sh: a folder for the comparison
  [kept_as]='' [older_saved]=''                     # a saved state, and the connections that are older than a restored one
  [judging]='' [older]='' [count]=0 [reason]=''     # connections.sh: folder, older ones, number; why not, also tools.sh
  [table]='' [active]='' [chains]='' [step]=''      # table.sh: what the kernel lists, its state, and the program for orders
  [code]='' [words]='' [status]='' [verdict]=''     # reply.sh: why this run ends so, its last message, and its status; check.sh
  [cause]=''                                        # why a load goes back, if no decision says it
)

# Decides how the load ends, unless somebody has decided before: `kept`, `nothing` if nothing was changed, or why it goes back
# (`back`, which a user asks for, `expired`, `interrupted`, `failed`).
decide() { ln -s "$1" "${run[state]}/decision" 2>/dev/null; }

# Whether it is decided how the load ends.
is_decided() { [ -L "${run[state]}/decision" ]; }

# Prints how the load ends.
decision() { readlink "${run[state]}/decision"; }

# Takes the lock of a load, and ends one that was interrupted.
take_lock() {
  mkdir -p "${run[state]}" || refuse cannot-write "cannot create ${run[state]}: nothing is changed"
  exec 9>"${run[state]}/lock" || refuse cannot-write "cannot write ${run[state]}: nothing is changed"
  if ! flock -n 9; then
    if [ -e "${run[state]}/asked" ]; then refuse waiting 'another load is awaiting confirmation (--confirm, --back)'; fi
    refuse busy 'another load is in progress: nothing is changed'
  fi
  open_changing || refuse cannot-write "cannot write ${run[state]}: nothing is changed"
  "end_broken_${form[kind]}"
  if [ "${form[kind]}" = rules ] && [ -e "${run[state]}/armed" ]; then keep_old "${run[state]}/before"; fi # could not go back
  clear_state
}

# Removes what a load leaves, except saved states.
clear_state() {
  clear_judging
  rm -f "${run[state]}"/{decision,armed,asked,made,connections,result,before,rules,rules.others,rules.policy,rules.description}
  rm -f "${run[state]}"/{log,settle,staying,older.before,logging,loaded,local,deadline,name}
}

# Removes the folders for judging of processes that are gone. Another process of this load may be judging.
clear_judging() {
  local each process
  for each in "${run[state]}"/judging.*; do
    process=${each##*/judging.}
    if [ -e "/proc/${process%%.*}" ]; then continue; fi
    if [ -L "$each" ]; then rm -rf "$(readlink "$each")"; fi
    rm -rf "$each"
  done
}

# Whether a load can change the table, or has changed it, and has not ended.
is_pending() { [ -e "$1/armed" ] && [ -e "$1/before" ] && ! [ -L "$1/result" ]; }

# Whether a process of a load has the lock, or a tool that one started: it can run on after the process was killed.
is_held() { [ -e "$1/lock" ] && ! flock -n "$1/lock" true; }

# Prints the name of the file with the numbers of the connections that are older than the load over a saved state.
older_of() { echo "${run[state]}/older.${1##*/}"; }

# Writes the status, the code and the words with which a load ends, also into the journal, with the digests in the third
# argument.
finish() {
  local code name before=-
  name=$(readlink "${run[state]}/name") || name=-
  code=$(end_code "$1")
  if [ -s "${run[state]}/before" ]; then before=$("digest_of_${form[kind]}" <"${run[state]}/before"); fi
  record "$2" "${3:-}"
  rm -f "${run[state]}"/{rules.others,rules.policy,rules.description,loaded,settle,asked,made,connections,staying}
  ln -sfn "$1 $code $2" "${run[state]}/result" 2>/dev/null || ln -sfn "$1 $code -" "${run[state]}/result"
  ln -sfn "$(date +%s) $1 $code $name ${before:--} $2" "${run[state]}/ended" 2>/dev/null # for --status
  if [ "$1" != 71 ]; then rm -f "${run[state]}"/{armed,before,older.before,rules,log,deadline,name}; fi
}

# Prints the code of the end of a load with this status: by what it was kept, or why it went back.
end_code() {
  case $1:$(decision) in
    0:*) if [ -e "${run[state]}/asked" ]; then echo confirmed; else echo loaded; fi ;;
    69:*) echo changed-meanwhile ;;
    71:*) echo not-restored ;;
    *:expired | *:interrupted | *:failed) decision ;;
    *:back) echo rolled-back ;;
    *) echo "${run[cause]:-failed}" ;;
  esac
}

# Prints the words with which the load ended.
result_words() { readlink "${run[state]}/result" | sed 's/^[0-9]* [a-z-]* //'; }

# Prints the code with which the load ended.
result_code() { readlink "${run[state]}/result" | sed 's/^[0-9]* //; s/ .*//'; }

# Prints the status with which the load ended.
result_status() { readlink "${run[state]}/result" | sed 's/ .*//'; }

# Says how the load ended.
tell_result() {
  run[code]=$(result_code)
  say "$(result_words)"
}

# Writes a line into the journal: what happened, who asked for it, and the digests of the texts and of the description, which
# are those of now unless the second argument has them.
record() {
  local who=${SUDO_USER:-$(id -un)} line
  if ! command -v logger >/dev/null; then return; fi
  line="$1 (by $who, loginuid $(login_of); ${option[backend]}${2:-$(digests_now)}; ${option[words]})"
  timeout 5 logger -t topos-load -- "${line//[[:cntrl:]]/?}" 2>/dev/null
}

# Prints the digests of the table before, of the rules and of the description.
digests_now() {
  local each
  for each in before rules rules.description; do
    if [ -s "${run[state]}/$each" ]; then printf ' %s=%s' "${each#rules.}" "$(digest_of "${run[state]}/$each")"; fi
  done
}

# Prints the number of the login.
login_of() { cat /proc/self/loginuid 2>/dev/null || echo -; }

part=state # a truncated file lacks this line
