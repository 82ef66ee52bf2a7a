# How a wait is shown on a terminal: from the third second on a line on standard error tells the seconds, and the memory of
# what is waited for where that is wanted. It is gone before the answer is printed.

# Whether somebody looks at standard error, on a terminal that can take a line away.
is_watched() { [ -t 2 ] && [ "${TERM:-dumb}" != dumb ]; }

clear_line() { printf '\r\e[K' >&2; }

# The child of this script that is no part of it; none: nothing.
child=
find_child() {
    local children each
    child=
    read -ra children <"/proc/$$/task/$$/children" || true
    for each in "${children[@]}"; do
        [ "$each" = "$BASHPID" ] || child=$each
    done
}

resident() { awk '/^VmRSS/ { print int($2 / 1024) }' "/proc/$1/status" 2>/dev/null; }

# Rewrites the line each second until it is ended from outside.
show_clock() {
    local passed=2 never memory=
    exec {never}<> <(:)
    read -rt 2 -u "$never" || true
    while true; do
        if [ "$1" = memory ]; then
            find_child
            memory=$(resident "$child") || memory=
        fi
        printf '\r\e[Kmonastr: %d s%s' "$passed" "${memory:+, $memory MiB}" >&2
        read -rt 1 -u "$never" || true
        passed=$((passed + 1))
    done
}

# Runs a command beside that line, and sets `status` to its status. Where its answer would show in the same place, the answer
# is held back until the line is gone. `scratch` is a folder that is removed at the end, however that comes.
status=0 clock= began=0 scratch=
run_with_clock() {
    local shown=$1 holds_back=
    shift
    status=0
    trap end_clock EXIT
    trap 'exit 130' INT
    trap 'exit 143' TERM
    trap 'exit 129' HUP
    [ -n "$scratch" ] || scratch=$(mktemp -d)
    if is_watched; then
        [ ! -t 1 ] || holds_back=yes
        began=$EPOCHSECONDS
        show_clock "$shown" &
        clock=$!
    fi
    if [ -n "$holds_back" ]; then
        "$@" >"$scratch/answer" || status=$?
        stop_clock
        cat "$scratch/answer"
    else
        "$@" || status=$?
        stop_clock
    fi
}

stop_clock() {
    [ -n "$clock" ] || return 0
    kill "$clock" 2>/dev/null || true
    wait "$clock" 2>/dev/null || true
    clock=
    [ $((EPOCHSECONDS - began)) -lt 2 ] || clear_line
}

end_clock() {
    stop_clock
    rm -rf "$scratch"
}
