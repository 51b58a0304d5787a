#!/bin/sh
# Does one action of the plan in this folder, and marks it as done. The Makefile calls it, and so does ninja.
#
#   ./run [-q] [-c | -a] KEY RULE NUMBER HOST VERB INSTANCE TYPE [WORD ..]
#
# What is done has a file done/KEY. What a step printed is in log/KEY, and what was run is log/KEY.sh: `sh log/KEY.sh` repeats
# it by hand, on its host. What happens is a line of JSON in the file events. RULE is 0 for an action without a command, which is
# only marked. With -c it does nothing, and asks by the check of the rule whether what was done still stands. With -a it does a step
# again of which the mark says so, and then makes a file again/KEY. It wants flock of util-linux; timeout, date, tail, tr and sync of
# coreutils; and sed.
#
# A text of others (a name, a source, a word of `via`, a path) is written by `printf '%s\n'` alone and stands in quotes: `echo` of some
# shells makes a quote of \0047.
set -eu
CDPATH='' cd -- "${0%/*}"
# Where others may write, anybody could have put these commands here.
modes=$(stat -c '0%a |' . run)
if [ ! -O . ] || [ ! -O run ] || [ $((($modes 0) & 022)) -ne 0 ]; then
  printf '%s\n' "$PWD: it, or run in it, belongs to somebody else or may be written by others" >&2
  exit 77
fi
quiet='' is_check='' is_again=''
while :; do
  case $1 in
  -q) quiet=yes ;;
  -c) is_check=yes ;;
  -a) is_again=yes ;;
  *) break ;;
  esac
  shift
done
key=$1 rule=$2 number=$3 host=$4 verb=$5 instance=$6 type=$7
shift 7
from='' to='' port='' provider='' provider_type='' provider_host=:
case $verb in
new) what="make $type#$instance" line="new $instance $type" ;;
delete) what="delete $type#$instance" line="delete $instance" from=${1#:}; shift ;;
move) what="$type#$instance: $1 -> $2" line="move $instance $1 $2" from=${1%@old[1-9]*} to=${2%@old[1-9]*}; shift 2 ;;
bind) what="$type#$instance takes $1 from $3#$2" ;;
unbind) what="$type#$instance lets $1 of $3#$2 go" ;;
esac
case $verb in
bind | unbind) line="$verb $1 $instance $2" port=$1 provider=$2 provider_type=$3 provider_host=$4; shift 4 ;;
esac

not_now() {
  printf '%s\n' "$what: $1" >&2
  exit 75
}
# Takes a lock that the shell has open. Status 75 of flock is that somebody else holds it; another one that there are no locks.
hold() { # NUMBER WHY [-s]
  held=0
  flock ${3-} -n -E 75 "$1" || held=$?
  case $held in
  0) ;;
  75) not_now "$2" ;;
  *) not_now "this file system has no locks (flock ended with $held)" ;;
  esac
}

# What differs from rule to rule, and from host to host.
case $rule in
0) ;;
@RULES@
*) not_now "the folder has no step $rule; call make again" ;;
esac
via=''
case $host in
@HOSTS@
esac
far_shell=@SHELLWORD@
find_address() { # of a host, into `address`
  case $1 in
@ADDRESSES@
  :) address='' ;;
  *) address=$1 ;;
  esac
}
find_source() { # of a type, into `source`: what it is called where an importer read of it
  case $1 in
@SOURCES@
  *) source=$1 ;;
  esac
}
find_sum() { # of a type, into `sum_of_type`: what tells its thing from an earlier form of it
  case $1 in
@SUMS@
  *) sum_of_type='' ;;
  esac
}
find_name() { # of an instance, into `name`: one that a file, a container or a unit may have
  case $2 in
@NAMES@
  esac
  name=$1-$2
  case $name in *[/@]*) name=$(printf %s "$name" | tr /@ __) ;; esac
  case $name in [!A-Za-z0-9]*) name=x$name ;; esac
}
say() { if [ -z "$quiet" ]; then printf '%s\n' "$what$1"; fi; }
# What happens, for whoever follows it. No name has a character that JSON would have to escape.
event() { # EVENT [MORE]
  printf '{"time":"%s","event":"%s","action":%s,"key":"%s","instance":"%s","what":"%s"%s}\n' \
    "$(date -u +%Y-%m-%dT%H:%M:%S.%3NZ)" "$1" "$number" "$key" "$type#$instance" "$what" "${2-}" >>events || :
}
progress() { # how much is done; of many actions it is not counted at each
  if [ @ACTIONS@ -le 2000 ]; then set -- done/*; echo " ($# of @ACTIONS@)"; fi
}
uptime() { # hundredths of a second, into `now`, by a clock that nobody sets
  read -r now _ </proc/uptime
  now=$((${now%.*} * 100 + 1${now#*.} - 100))
}
# The mark is there as a whole or not at all, also after a loss of power. It says what was done, when and where.
mark() { # BEGUN ENDED
  find_address "$host"
  printf '%s\n%s %s\non %s %s\nby %s\n' "$line" "$1" "$2" "$host" "${address:-:}" "${sum-:}" >"log/$key.mark" &&
    { sync "log/$key.mark" 2>/dev/null || :; } && mv "log/$key.mark" "done/$key" && { sync done 2>/dev/null || :; }
}
could_not_mark() {
  printf '%s\n' "$what: done, but done/$key could not be written, so it will be done again" >&2
  exit 74
}

# Whoever writes the folder anew needs it for itself. A Makefile that was read before that has other numbers for the rules.
exec 7>>lock/.folder
hold 7 "somebody writes the folder anew" -s
if [ "${METIS_EXPORT-@EXPORT@}" != @EXPORT@ ]; then not_now "the folder was written anew; call make again"; fi
# Where the folder went over to another list, what was read before has other keys.
there=
if [ -e export ]; then read -r there <export || :; fi
if [ "$there" != @EXPORT@ ]; then not_now "the folder was written anew, or not to its end; call metis up again"; fi
# What is to be done again is in use meanwhile: before it is done, nothing goes on which it stands.
if [ -z "$is_check" ]; then
  case $verb in
  delete | unbind)
    for each in @AGAIN@; do
      if [ ! -e "again/$each" ]; then not_now "a step is to be done again before; call make"; fi
    done
    ;;
  esac
fi
# A step that calls make for a purpose of its own gets none of this make's flags.
unset METIS_EXPORT MAKEFLAGS MFLAGS MAKELEVEL MAKEOVERRIDES

# What is done is not done again, unless its mark says so.
is_done() {
  if [ ! -e "done/$key" ]; then return 1; fi
  if [ -z "$is_again" ]; then return 0; fi
  if grep -qx 'by -' "done/$key"; then return 1; fi
  note_again
}
note_again() { if [ -n "$is_again" ]; then : >"again/$key"; fi; }
log=log/$key
if [ "$rule" = 0 ]; then
  if [ -n "$is_check" ] || is_done; then exit 0; fi
  now=$(date +%s.%3N)
  mark "$now" "$now" || could_not_mark
  note_again
  event marked
  exit 0
fi
if [ -n "$is_check" ]; then
  # What is asked leaves no trace in the log, and does not wait for a step that is under way.
  log=lock/check.$key limit=@CHECK@ step=$check again=''
  if [ -z "$check" ]; then exit 0; fi
  exec 9>"$log"
else
  exec 9>>"$log"
fi
hold 9 "somebody else is doing it"
if [ -z "$is_check" ]; then
  if is_done; then exit 0; fi
  again=$is_again
  if [ -s "$log" ]; then again=yes; fi
fi
# A playbook is run here, and reaches its host by itself.
if [ -n "${here-}" ]; then via=''; fi

# What the shell of a step inherits and what it starts must not keep: by these this script and `timeout` hold their locks.
without_locks='exec 7>&- 8>&- 9>&-'
# Where the folder is now, also if it was copied or moved, for a shell's single quotes. The dot keeps a line feed at its end.
folder=$(pwd -P | LC_ALL=C sed "s/'/'\\\\''/g"; echo .)
folder=${folder%?.}
case $folder in *@EXPORT@.*) not_now "the path of the folder has a word that ends a script" ;; esac
step_script() { # what the shell of the step reads
  find_name "$type" "$instance"
  find_source "$type"
  find_sum "$type"
  find_address "$host"
  printf '%s\n' "# $what"
  printf '%s\n' "$without_locks"
  printf '%s\n' "unset METIS_PORT METIS_PROVIDER METIS_PROVIDER_TYPE METIS_PROVIDER_NAME METIS_PROVIDER_HOST METIS_PROVIDER_ADDRESS"
  printf '%s\n' "export METIS_ACTION='$number' METIS_VERB='$verb' METIS_AGAIN='$again' METIS_TEARDOWN='@TEARDOWN@' METIS_BOUND='$*'"
  printf '%s\n' "export METIS_INSTANCE='$instance' METIS_TYPE='$type' METIS_SOURCE='$source' METIS_SUM='$sum_of_type' METIS_NAME='$name' METIS_FROM='$from' METIS_TO='$to'"
  printf '%s\n' "export METIS_FOLDER='$folder'"
  printf '%s\n' "export METIS_HOST='${host#:}' METIS_ADDRESS='$address'"
  if [ -n "$port" ]; then
    find_name "$provider_type" "$provider"
    find_address "$provider_host"
    printf '%s\n' "export METIS_PORT='$port' METIS_PROVIDER='$provider' METIS_PROVIDER_TYPE='$provider_type'"
    printf '%s\n' "export METIS_PROVIDER_NAME='$name' METIS_PROVIDER_HOST='${provider_host#:}' METIS_PROVIDER_ADDRESS='$address'"
  fi
  more=
  case $type#$instance in
@INSTANCES@
  esac
  cat steps/environment ${more:+"$more"} "steps/$step"
}
# What is left in the process group of a command that failed: its shell may have ended before what it had started.
ending='end_group() {
  tenths=0
  while kill -0 "-$1" 2>/dev/null; do
    if [ "$tenths" -eq 100 ]; then kill -KILL "-$1" 2>/dev/null || :; fi
    if [ "$tenths" -eq 0 ]; then kill -TERM "-$1" 2>/dev/null || :; fi
    if [ "$tenths" -eq 120 ]; then break; fi
    sleep 0.1
    tenths=$((tenths + 1))
  done
}'
eval "$ending"
# For a host: a shell there gets all of it on its input, so that no word has to get through two shells. It holds a lock there, by
# which a step whose connection was lost is not done a second time beside itself; a check needs none.
far_script() {
  printf '%s\n' "# $what, on ${host#:}"
  printf '%s\n' "exec $via sh <<'@EXPORT@.far'"
  printf '%s\n' "is_check=$is_check name=@FOLDER@.$key"
  printf '%s\n' "$ending"
  cat <<'END'
set -u
lock='' step='' status=0
if [ -z "$is_check" ] && command -v flock >/dev/null; then
  kept=/tmp/metis-$(id -u)
  mkdir -m 700 "$kept" 2>/dev/null || :
  [ -O "$kept" ] && [ ! -L "$kept" ] || { echo "$kept is somebody else's" >&2; exit 73; }
  lock=$kept/$name
  while :; do
    exec 9>>"$lock"
    flock -n 9 || { echo 'an earlier try of this step still goes on here' >&2; exit 75; }
    # Whoever held it may have taken the file away after it was opened here, and then this lock keeps nobody out.
    if [ ! -e /proc/self/fd/9 ] || [ "$lock" -ef /proc/self/fd/9 ]; then break; fi
  done
fi
leave() { # STATUS; the file of the lock goes, by whoever holds it and nobody else
  if [ -n "$lock" ] && [ "$lock" -ef /proc/self/fd/9 ]; then rm -f "$lock"; fi
  exit "$1"
}
# Over a way that stays on this machine (chroot), a signal that ends the step here gets there as well.
stop() {
  trap '' INT TERM HUP PIPE
  if [ -n "$step" ]; then
    kill -TERM "$step" 2>/dev/null || :
    wait "$step" || :
    end_group "$step"
  fi
  leave 143
}
trap stop INT TERM HUP
END
  printf '%s\n' "timeout -k 10 $limit $far_shell <<'@EXPORT@.step' &"
  step_script "$@"
  printf '%s\n' "@EXPORT@.step"
  cat <<'END'
step=$!
trap '' PIPE
wait "$step" || status=$?
[ "$status" -eq 0 ] || end_group "$step"
if [ -n "$is_check" ] && [ "$status" -lt 124 ]; then
  printf '\n== said %s\n' "$status"
  exit 0
fi
leave "$status"
END
  printf '%s\n' "@EXPORT@.far"
}
write_script() { if [ -n "$via" ]; then far_script "$@"; else step_script "$@"; fi >"$log.sh"; }

# Where all that watches over a step is killed, the step may live on, and no lock says so. So the number of its process group is
# in log/KEY.group while it is under way. That a number is still of that group is known by the boot, the PID namespace and the
# folder, which is another one for a copy, and: its first process began at that moment, or one of the group writes to log/KEY.
where_is() { cat /proc/sys/kernel/random/boot_id && stat -Lc %d:%i /proc/self/ns/pid .; }
look_at() { # PROCESS: its group, into `of`, and when it began, into `since`; nothing for one that has ended
  of='' since=''
  { read -r stat <"/proc/$1/stat"; } 2>/dev/null || return 0
  set -- ${stat##*) }
  case ${1-Z} in [ZX]) ;; *) of=${3-} since=${20-} ;; esac
}
note_group() { # in the process that becomes `timeout`, of which $$ knows nothing
  read -r own _ </proc/self/stat
  look_at "$own"
  printf '%s %s %s %s %s\n' $(where_is) "$own" "$since" >"$log.group"
}
find_group() { # that an earlier try has left, into `group`
  group=''
  [ -s "$log.group" ] || return 0
  read -r boot space place number_of_group began <"$log.group" || return 0
  set -- $(where_is)
  [ "$boot $space $place" = "$*" ] || return 0
  look_at "$number_of_group"
  if [ "$since" = "$began" ]; then group=$number_of_group; fi
  for each in /proc/[0-9]*; do
    look_at "${each#/proc/}"
    if [ "$of" = "$number_of_group" ] && { [ "$each/fd/1" -ef "$log" ] || [ "$each/fd/2" -ef "$log" ]; }; then group=$of; fi
  done
}
forget_group() { kill -0 "-$!" 2>/dev/null || rm -f "$log.group"; } # not where nothing ends it, as on a disk that hangs
end_earlier() {
  find_group
  if [ -n "$group" ]; then
    end_group "$group"
    find_group
    if [ -n "$group" ]; then not_now "an earlier try still goes on, as the process group $group"; fi
  fi
  rm -f "$log.group"
}

# A command in the background, so that a signal is heard at once and handed on to it, and by timeout to all that it started.
# It keeps the locks while it runs, also where this script is killed; what a step starts does not, or a server would keep them.
# Of what was killed the shell says a word at `wait`: where nobody reads it, SIGPIPE must not end this script before the group.
is_busy='' is_begun=''
attend() {
  is_busy=yes
  "$@" &
  trap '' PIPE
  status=0
  wait "$!" || status=$?
  if [ "$status" -ne 0 ]; then end_group "$!"; fi
  trap - PIPE
  is_busy=
}
stop() {
  trap '' INT TERM HUP PIPE
  set +u
  if [ -n "$is_busy" ] && [ -n "$!" ]; then
    kill -TERM "$!" 2>/dev/null || :
    wait "$!" || :
    end_group "$!"
    forget_group
  fi
  if [ -n "$is_begun" ]; then
    echo "== stopped by a signal" >&9 || :
    event stopped
  fi
  exit 143
}
trap stop INT TERM HUP
step() {
  # What a check prints or writes has a bound, or it would fill the disk.
  if [ -n "$is_check" ]; then ulimit -f 8192 2>/dev/null || :; else note_group 2>>"$log" || exit 74; fi
  if [ -n "$via" ]; then
    # More than the ten seconds that the other end has for what it ends.
    exec timeout -k 15 $((limit ? limit + @GRACE@ : 0)) sh "$log.sh" </dev/null >>"$log" 2>&1
  fi
  exec timeout -k 10 "$limit" @SHELL@ <"$log.sh" >>"$log" 2>&1
}

if [ -n "$is_check" ]; then
  write_script "$@"
  attend step
  end=$(tail -c 2000 "$log" | sed '/^$/d' | tail -n 3) last=''
  if [ -n "$end" ]; then last=$(printf '%s\n' "$end" | tail -n 1); fi
  is_written=yes
  printf '\n' 2>/dev/null >>"$log" || is_written=''
  rm -f "$log" "$log.sh"
  # Whoever asks has to know what the check said from what kept it from being asked: a limit, a kill, a shell that is not there (all
  # of these from 124 on), a full disk, a way that is down. Over a way the far end says it, after the check has ended there: no
  # status of the way itself (ssh 255, chroot 125, docker 1) tells.
  if [ "$status" -eq 124 ]; then not_now "no answer after $limit s"; fi
  if [ -n "$via" ]; then
    case $status:$last in
    0:'== said '*) printf '%s\n' "$end" && exit 0 ;;
    esac
    not_now "host ${host#:} did not say${last:+: $last}"
  fi
  if [ "$status" -gt 124 ]; then not_now "its check ended with status $status${last:+: $last}"; fi
  if [ "$status" -ne 0 ] && [ -z "$is_written" ]; then not_now "what it said could not be written"; fi
  printf '%s\n== said %s\n' "$end" "$status"
  exit 0
fi
end_earlier
if [ -n "$lock" ]; then
  # One lock for all folders of this user, since two of them may have steps for one machine.
  locks=${METIS_LOCKS:-/tmp}/metis-$(id -u)
  mkdir -m 700 -- "$locks" 2>/dev/null || :
  if [ ! -O "$locks" ] || [ -L "$locks" ]; then not_now "$locks is somebody else's"; fi
  find_address "$host"
  exec 8>>"$locks/lock.$(printf %s "$lock:${host#:}:$address" | tr / +)"
  attend flock 8
fi
say " .."
begun=$(date +%s%3N) try=0 status=1
uptime
start=$now
while [ "$try" -le "$retries" ]; do
  if [ "$try" -gt 0 ]; then
    attend sleep "$pause"
    again=yes
  fi
  write_script "$@"
  try=$((try + 1)) is_begun=yes
  echo "== $(date -u +%Y-%m-%dT%H:%M:%SZ) $what, try $try of $((retries + 1))" >&9
  event begun ",\"try\":$try,\"host\":\"${host#:}\""
  attend step
  if [ "$status" -eq 0 ]; then rm -f "$log.group"; break; fi
  echo "== status $status" >&9 || :
  forget_group
  if [ -e "$log.group" ]; then break; fi
done
uptime
took=$(((now - start + 50) / 100)) ended=$((begun + (now - start) * 10))
begun=${begun%???}.${begun#"${begun%???}"} ended=${ended%???}.${ended#"${ended%???}"}

if [ "$status" -ne 0 ]; then
  event failed ",\"status\":$status,\"seconds\":$took"
  reason=
  if [ "$status" -eq 124 ]; then reason=" (it took more than its $limit s)"; fi
  # What a step printed may be anything, and much: a terminal gets the end of it, and no character that it would obey.
  printf '%s: failed with status %s after %s s%s; the end of %s:\n%s\n' "$what" "$status" "$took" "$reason" "$log" \
    "$(tail -c 20000 "$log" | tail -n 12 | sed -n -e '/^== .* try /{x;s/.*//;x;d;}' -e 's/^/  | /' -e H -e '${x;s/^\n//;p;}' |
      LC_ALL=C sed 's/\xc2[\x80-\x9f]/?/g' | LC_ALL=C tr '\000-\010\013-\037\177' '?')" >&2
  exit "$status"
fi
mark "$begun" "$ended" || could_not_mark
note_again
echo "== status 0" >&9 || :
event done ",\"seconds\":$took"
say ": done in $took s$(progress)"
