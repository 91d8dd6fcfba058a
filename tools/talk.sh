# shellcheck shell=bash
# What the scripts of tools and bench share: their usage, what they need, and that they say how far they are. It is read with `.`, and not run.

say() { echo "${0##*/}: $*" >&2; }

# the comment at the head of the script
usage() { sed -n '2,/^[^#]/s/^#\( \|$\)//p' "$0"; }

# ends where the words are none that it knows
misused() {
    usage | grep '^    ' >&2
    exit 2
}

# ends with the usage where that is asked for: helps WORD..
helps() {
    case "${1-}" in -h | --help) usage && exit ;; esac
}

# ends where a command is not there: need COMMAND WHAT
need() {
    command -v "$1" > /dev/null || { say "this needs $2: its command $1 is looked for on the PATH, ${PATH-}" && exit 1; }
}

# where a program is, from anywhere; false where none is there: found PROGRAM
found() {
    if [ -f "$1" ] && [ -x "$1" ]; then
        realpath "$1"
    else
        say "there is no program $1"
        return 1
    fi
}

beating=''

# Says what is done now, and that it still is before ten seconds are over, until the next stage or `rest`. What the file says that is named behind
# stands there too. On a terminal it is one line, which is written over: stage WHAT [FILE]
stage() {
    rest
    show_stage "$1${2:+$(cat "$2")}"
    (
        trap - EXIT INT TERM HUP
        began=$SECONDS
        # a pipe into which nothing is written, to wait at with no process that might be left behind
        exec 7<> <(:) || exit
        while ! read -rt 9 -u 7 && kill -0 $$; do show_stage "$1${2:+$(cat "$2")}, $((SECONDS - began)) s"; done
    ) 2>&2 8>&- &
    beating=$!
}

show_stage() {
    if [ -t 2 ]; then
        printf '\r\033[K%s: %s' "${0##*/}" "$1" >&2
    else
        say "$1"
    fi
}

# ends the stage
rest() {
    [ -n "$beating" ] || return 0
    kill "$beating" 2> /dev/null || true
    wait "$beating" 2> /dev/null || true
    beating=''
    [ ! -t 2 ] || printf '\r\033[K' >&2
}
