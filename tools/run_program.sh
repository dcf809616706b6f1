# How a launcher runs the program xp, and stops it by a signal. The launchers read this: ./xp, and /usr/bin/xp of the package.

# Whether the words of serve name a file. Where they do not, the program says what is wanted, or its help, and ends.
names_a_file() {
  while [ $# != 0 ]; do
    case $1 in
      --) [ $# -gt 1 ]; return ;;
      --cdr | --cdr-dir | --console | --live | --name | --records | --threads | --trace | --trace-lines | --turns) shift ;;
      -?*) ;;
      *) return 0 ;;
    esac
    shift
  done
  return 1
}

# Serves with its own pipe as the program's standard input. The program is started with the signals ignored: of the first one the pipe
# tells, and it is closed, which stops the program cleanly; the second kills it. SIGUSR1 has the program read its subscription file
# again: a line in the pipe asks for that. The launcher's own word stands behind the others, so that the program
# does not show it where it refuses one of these.
serve_until_signal() {
  local program=$1 child status words=()
  shift
  while [ $# != 0 ] && [ "$1" != -- ]; do
    words+=("$1")
    shift
  done
  words+=(--until-eof "$@")
  exec {pipe}> >(trap '' INT TERM HUP USR1 && exec "$program" serve "${words[@]}")
  child=$!
  trap 'stop_serving INT' INT
  trap 'stop_serving TERM' TERM
  trap 'stop_serving HUP' HUP
  trap ask_to_reload USR1
  # The program may have ended by then.
  trap '' PIPE
  signalled=yes
  # A signal ends the wait, mostly before the program has ended. Then its status is still to come.
  while [ -n "$signalled" ]; do
    signalled=
    wait "$child"
    status=$?
  done
  exit "$status"
}

stop_serving() {
  signalled=yes
  if [ -n "${pipe-}" ]; then
    echo "$1" >&"$pipe" 2> /dev/null
    exec {pipe}>&-
    pipe=
  else
    kill -KILL "$child"
  fi
}

ask_to_reload() {
  signalled=yes
  [ -z "${pipe-}" ] || echo reload >&"$pipe" 2> /dev/null
}

run() {
  local program=$1
  shift
  if [ "${1-}" = serve ] && [[ " $* " != *" --until-eof "* ]] && names_a_file "${@:2}"; then
    shift
    serve_until_signal "$program" "$@"
  fi
  exec "$program" "$@"
}
