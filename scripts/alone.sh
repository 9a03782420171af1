#!/bin/bash
# Runs one command of the Makefile: alone.sh NAME TOOL.. -- COMMAND..
# What is missing is said in one line before anything begins. While another command works in this tree, this one waits. Ctrl-C
# ends all that the command has started: `rt` proves in the background, where a plain Ctrl-C does not reach.
set -uo pipefail
cd "$(dirname "$0")/.."

say() {
    echo "$name: $1" >&2
}

name=$1
shift
while [[ $1 != -- ]]; do
    if ! command -v "$1" > /dev/null; then
        case $1 in
            rt) say "rt is missing: put the Rattle kit's bin folder (/opt/rattle/bin, say) on the PATH" ;;
            cargo) say "cargo is missing: Rust's, or Debian's package cargo" ;;
            *) say "$1 is missing: Debian has it (apt-get install gcc g++ binutils python3)" ;;
        esac
        exit 1
    fi
    [[ $1 != rt || $(rt version) == "$(< kit.txt)" ]] || say "the kit is $(rt version); this tree was proved with $(< kit.txt)"
    shift
done
shift

mkdir -p build 2> /dev/null && [[ -w build && -w . ]] || { say "cannot write to $PWD: copy the tree to a folder of your own"; exit 1; }
# A command that was started by another one of this tree works for that one.
if [[ -z ${GEMZULEG_ALONE:-} ]]; then
    exec 9> build/lock
    flock -n 9 || { say "another command works in this tree; waiting for it"; flock 9; }
    export GEMZULEG_ALONE=$name
fi

# stop STATUS: all that was started gets time to clean up, and then none.
stop() {
    trap '' INT TERM HUP
    kill -TERM -- "-$group" 2> /dev/null
    for _ in {1..50}; do
        kill -0 -- "-$group" 2> /dev/null || break
        sleep 0.1
    done
    kill -KILL -- "-$group" 2> /dev/null
    say "stopped"
    exit "$1"
}

# Where there is no standard input, an empty one: a job in the background is handed what is there.
{ true <&0; } 2> /dev/null || exec 0< /dev/null
setsid "$@" <&0 9>&- &
group=$!
trap 'stop 130' INT
trap 'stop 143' TERM HUP
wait "$group"
