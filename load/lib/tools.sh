# shellcheck shell=bash disable=SC2034,SC2154
# The tools and programs that topos-load runs. Reads `machine` and `unproved`, and reads and writes `backend` and `program`, of
# option[..]; writes `namespace`, `save`, `restore`, `query`, `reason`, and the folder and files of saved states of run[..].

# Refuses if a tool is missing, and names its package.
need() {
  local tool
  for tool; do
    if command -v "$tool" >/dev/null; then continue; fi
    refuse no-tool "$tool is not installed (on Debian: apt install $(package "$tool"))"
  done
}

# Prints the package of Debian that has a tool.
package() {
  case $1 in
    iptables*) echo iptables ;;
    awk) echo mawk ;;
    ip | ss) echo iproute2 ;;
    *) echo util-linux ;;
  esac
}

# Refuses for other users than root.
need_root() { if [ "$(id -u)" != 0 ]; then refuse not-root 'must be run as root'; fi; }

# Refuses if a process may open too few files.
need_descriptors() {
  if [ "$(ulimit -n)" = unlimited ] || [ "$(ulimit -n)" -ge 32 ]; then return; fi
  refuse system "at least 32 open files are needed, and the limit is $(ulimit -n) (ulimit -n): nothing is changed"
}

# Finds the network namespace, by its inode.
find_namespace() {
  run[namespace]=$(stat -Lc %i /proc/self/ns/net) || refuse system 'cannot determine the network namespace: is /proc mounted?'
}

# Prints the folder of the saved states for a back end.
folder_of() { echo "/run/topos-load/$1-${run[namespace]}"; }

# Whether the program may be run: it exists, and a list beside it says that it was proved. If not, run[reason] says why.
is_program_there() {
  find_name
  "may_run_${form[kind]}" program "${option[program]}" program
}

# Finds the name of the program.
find_name() {
  local built=${self%/*/*}/out/topos beside=${self%/*}/topos
  if [ -n "${option[program]}" ]; then :
  elif [ -x "$built" ]; then option[program]=$built
  elif [ -n "${TOPOS:-}" ]; then option[program]=$TOPOS
  elif [ -f "$beside" ] && [ -x "$beside" ]; then option[program]=$beside # cron does not search /usr/local/bin
  else option[program]=topos; fi
}

# Prints the SHA-256 of a file.
digest_of() {
  local digest
  digest=$(sha256sum <"$1") || return 1
  echo "${digest%% *}"
}

# Refuses if the program may not be run.
find_program() {
  if is_program_there; then return; fi
  case ${run[reason]} in
    'no proof'*) refuse unproved "${run[reason]} (topos.proved): nothing is changed; ./topos prove creates it, --unproved skips this check" ;;
    'cannot find'*) refuse no-program "${run[reason]}: specify the program with --program, or a rules file with --text" ;;
    *) refuse writable "${run[reason]}, who can change the loaded rules: nothing is changed; --unproved skips this check" ;;
  esac
}

# Prints the code of run[reason], why a program may not be run.
code_of_reason() {
  case ${run[reason]} in 'no proof'*) echo unproved ;; 'cannot find'*) echo no-program ;; *) echo writable ;; esac
}

# Finds `topos-query`: that of TOPOS_QUERY, else the one beside the program, else that of the path. Fails unless it may be
# run.
find_query() {
  local found
  found=$(dirname "$(readlink -f "$(command -v "${option[program]}")")")/topos-query
  if ! [ -x "$found" ]; then found=topos-query; fi
  "may_run_${form[kind]}" query "${TOPOS_QUERY:-$found}" query
}

# Whether a command prints a line that matches. The output is read whole first: a command that writes more after `grep -q`
# has ended gets a signal, and with pipefail the line would count as missing.
prints() {
  local text
  text=$("${@:2}" 2>/dev/null)
  grep -qE -e "$1" <<<"$text"
}

part=tools # a truncated file lacks this line
