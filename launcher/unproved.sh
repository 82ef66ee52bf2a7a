# Answers of an unproved build: the kit's `rt try` makes it anew for each call, in about a minute, and runs it with checks, in a
# new folder that holds the files which the request reads.

# What `rt try` keeps for itself in that folder.
kept_by_kit() { case "${1%%/*}" in program | stdin | stdout | stderr) ;; *) return 1 ;; esac }

# Whether a request can be answered so: it writes no file, and each file that it reads can be handed over under its name. Sets
# `handed` to the words that hand them over.
handed=()
may_be_tried() {
    local word name names
    handed=()
    [ "$1" != certify ] || return 1
    for word in "$@"; do
        case "$word" in --out* | *$'\n'*) return 1 ;; esac
        [ ! -f "$top/crates/monastr/$word" ] || [ -f "$word" ] || return 1
    done
    names=$("$top/launcher/files_read" "$@") || return 1
    while IFS= read -r name; do
        case "/$name/" in
            // | //*) ;;
            */../* | *=*) return 1 ;;
            *)
                ! kept_by_kit "$name" || return 1
                handed+=(--data "$name=$PWD/$name")
                ;;
        esac
    done <<<"$names"
}

# How long the proof takes on this machine, from nothing.
proof_takes() {
    read_crates
    put_in_order monastr
    count_seconds
    echo "$(minutes_left) minutes on $(nproc) processors"
}

# Answers a request where there is no proved program, or proves that. What begins with no command is answered as the program
# does, which needs no build.
answer_unbuilt() {
    case "${1-}" in
        decide | same | gen | ltl | presburger | check | certify) need_kit ;;
        *) echo "usage: the words are not a command of monastr" && exit 1 ;;
    esac
    if may_be_tried "$@"; then answer_unproved "$@"; fi
    say "this request writes a file, or reads one that no unproved build can be handed, so it waits for the proof"
    prove_program
    find_program
}

answer_unproved() {
    say "the program is not proved yet: an unproved build answers, in a minute or two"
    scratch=$(mktemp -d)
    run_with_clock seconds try_request "$scratch/log" "$@"
    if ! grep -q '^run=ended ' "$scratch/log"; then
        cat "$scratch/log" >&2
        say "the unproved build gave no answer; ./monastr prove proves the program"
        exit "$stopped"
    fi
    say "this answer is of an unproved build, which is made anew for each call"
    say "./monastr prove proves the program, once, in about $(proof_takes); from then on an answer takes milliseconds"
    exit "$status"
}

try_request() {
    local log=$1
    shift
    (cd "$top/crates/monastr" && exec rt try --seconds 86400 "${handed[@]}" -- "$@") 2>"$log" </dev/null
}

# The programs that try the product.
tries=(try_rows try_signs try_sources try_built try_diagrams try_outside)

# How many are tried at once: one for each processor, and one for each three gigabytes at most.
count_tries() {
    slots=$(awk '/MemAvailable/ { print int($2 / 3000000) }' /proc/meminfo)
    [ "$slots" -le "$(nproc)" ] || slots=$(nproc)
    [ "$slots" -ge 1 ] || slots=1
}

# Tries these programs, or all, by unproved builds, side by side: what each prints, and its status, are compared with what its
# folder says. Sets the status of this script to 1 where one differs.
test_unproved() {
    local name failed=0
    local -A trying=()
    [ $# -eq 0 ] || tries=("$@")
    for name in "${tries[@]}"; do
        [ -f "$top/crates/$name/src/main.rt" ] || { say "$name is no program of crates/" && exit 1; }
    done
    scratch=$(mktemp -d)
    trap 'kill "${trying[@]}" 2>/dev/null || true; rm -rf "$scratch"' EXIT
    trap 'exit 130' INT
    trap 'exit 143' TERM
    count_tries
    SECONDS=0
    say "trying ${#tries[@]} programs by unproved builds, $slots at a time, a minute or two for each"
    for name in "${tries[@]}"; do
        while [ "$(jobs -rp | wc -l)" -ge "$slots" ]; do sleep 0.2; done
        try_program "$name" &
        trying[$name]=$!
    done
    for name in "${tries[@]}"; do wait "${trying[$name]}" || failed=1; done
    [ "$failed" -eq 0 ] || say "not all is as it must be"
    exit "$failed"
}

# Tries one program and says what it found. The kit's interpreter, which would take minutes over what the compiled program does at
# once, gets a single step.
try_program() {
    local folder="$top/crates/$1" at="$scratch/$1" status=0 wanted=0 file words=() data=() try
    for file in "$folder"/data/*; do [ ! -f "$file" ] || data+=(--data "${file##*/}=$file"); done
    [ ! -f "$folder/args" ] || mapfile -t words <"$folder/args"
    [ ! -f "$folder/status" ] || wanted=$(<"$folder/status")
    (cd "$folder" && exec rt try --steps 1 --seconds 3600 "${data[@]}" -- "${words[@]}") >"$at.stdout" 2>"$at.log" </dev/null &
    try=$!
    trap 'kill "$try" 2>/dev/null' EXIT
    trap 'exit 143' TERM
    wait "$try" || status=$?
    trap - EXIT TERM
    if grep -q '^run=ended ' "$at.log" && [ "$status" -eq "$wanted" ] && cmp -s "$at.stdout" "$folder/stdout"; then
        echo "$1: as it must be, after $SECONDS s: $(tail -n 1 "$at.stdout")"
    else
        echo "$1: not as it must be, after $SECONDS s: it ended with status $status"
        diff "$folder/stdout" "$at.stdout" | head -n 20
        tail -n 5 "$at.log"
        return 1
    fi
}
