# What ./replay, ./list and ./play share: a command that gives a tape to a proved program and tells by its status what came of
# it. The command has set, before it reads this file: root, the folder it stands in; name, its own, with which each of its
# sentences begins; crate, its program's; first_time, how long the first build takes; and the function usage.
# ./replay and ./list then call take_words, open_tape, build and run_program, in this order.

give_up() {
  printf '%s: %s\n' "$name" "$*" >&2
  exit 2
}

# What is closed must not be taken by the next file that is opened.
[ -e /dev/fd/2 ] || exec 2> /dev/null
[ -e /dev/fd/1 ] || give_up "standard output could not be written"
if [ -e /dev/fd/0 ]; then has_input=yes; else has_input=no; exec 0< /dev/null; fi

program=$root/crates/$crate/out/$crate
log=$root/target/$name-build.log

# Prints the usage that was asked for.
give_usage() {
  usage 2> /dev/null || give_up "standard output could not be written"
  exit 0
}

# Takes the words of the command line, and puts the tape's name into tape.
take_words() {
  case $#:${1-} in
    1:-h | 1:--help) give_usage ;;
    0:) tape=$root/examples/session.tape ;;
    1:-) tape=- ;;
    1:-*) usage >&2; exit 2 ;;
    1:*) tape=$1 ;;
    *) usage >&2; exit 2 ;;
  esac
}

# The tape must be there, and no folder.
find_tape() {
  [ -e "$tape" ] || give_up "there is no file '$tape'"
  [ ! -d "$tape" ] || give_up "'$tape' is a folder, not a tape"
}

# Puts the tape at descriptor 3, before anything is built for it.
open_tape() {
  if [ "$tape" = - ]; then
    [ "$has_input" = yes ] && [ ! -d /dev/fd/0 ] || give_up "standard input could not be read"
    exec 3<&0
    return
  fi
  find_tape
  { exec 3< "$tape"; } 2> /dev/null || give_up "'$tape' cannot be read"
}

# Waits ten seconds for the end of its input, and says where it has not come.
say_where_long() {
  read -r -t 10
  [ $? -le 128 ] || echo "$name: building and proving the program; the first time this takes $first_time" >&2
}

# The program is built and proved each time, so that it is never older than its sources; what is unchanged is not proved again.
# rt then runs it once, on no input and with no words, and what it prints on that goes to the log, as all that the build
# printed. Where this takes longer than ten seconds one line on standard error says so, and nothing does where it is quicker.
build() {
  command -v rt > /dev/null || give_up "rt is not on the PATH: install the Rattle toolchain, and put the folder of its rt on the PATH"
  { mkdir -p "$root/target" && : > "$log"; } 2> /dev/null || give_up "'$log' cannot be written"
  exec 5> >(say_where_long)
  local watch=$! status
  (cd "$root/crates/$crate" && exec rt run) < /dev/null > "$log" 2>&1 3<&- 5>&-
  status=$?
  exec 5>&-
  wait "$watch"
  if [ "$status" -ne 0 ]; then
    tail -n 5 "$log" >&2
    give_up "the program could not be built; '$log' has all that was said"
  fi
  [ -x "$program" ] || give_up "there is no program at '$program', though rt has proved it: remove '$root/crates/$crate/out' and try again"
}

# Runs the program, and prints what the words given, a command, leave of its output. All of its output goes to descriptor 4.
# The status is that of tee, 1 where it could not write, or else the program's. Where the reader of the output goes away tee is
# ended by that, and the program, which is not, says that it could not write: so what it says is passed on only at its end.
play() {
  local said=$root/target/$name-said.$$ ended
  "$program" <&3 4>&- 2> "$said" | tee >("$@"; cat > /dev/null) >&4 2> /dev/null
  ended=("${PIPESTATUS[@]}")
  [ "${ended[1]}" -eq 141 ] || cat "$said" >&2
  rm -f "$said"
  [ "${ended[1]}" -eq 0 ] || return "${ended[1]}"
  return "${ended[0]}"
}

# Runs the program on the tape, and puts the part of its output that the words given leave into part, without the newline at
# its end. It comes back only where all was written. Where the reader of the output goes away it ends with 141 and nothing
# said, as other commands do.
run_program() {
  exec 4>&1
  part=$(play "$@")
  local status=$?
  case $status in
    0) ;;
    1) give_up "standard output could not be written" ;;
    141) exit 141 ;;
    *) give_up "the program ended with status $status" ;;
  esac
}
