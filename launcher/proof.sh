# The proof of the program and of the crates that it is made of. Each crate is proved by `rt` in a folder of its own; what was
# proved and has not changed since takes no time, so a proof that was cut off goes on where it was.

logs="$work/logs"

# What each crate stands on, from crates.txt; a library of the kit has no line there. And the processor seconds that each
# took where that was measured.
declare -A below seconds
read_crates() {
    local name rest
    while IFS=: read -r name rest; do
        case "$name" in '' | '#'*) ;; *) below[${name%% *}]=$rest ;; esac
    done <"$top/crates.txt"
    while read -r name rest; do
        case "$name" in '' | '#'*) ;; *) seconds[$name]=$rest ;; esac
    done <"$top/bench/seconds"
}

# The crates that the program is made of, each behind what it stands on; and for each those below it, however far.
order=()
declare -A reached
put_in_order() {
    local library each
    [ -n "${below[$1]+known}" ] && [ -z "${reached[$1]+met}" ] || return 0
    reached[$1]=
    for library in ${below[$1]}; do
        put_in_order "$library"
        [ -n "${below[$library]+known}" ] || continue
        for each in ${reached[$library]} "$library"; do
            case " ${reached[$1]} " in *" $each "*) ;; *) reached[$1]+=" $each" ;; esac
        done
    done
    order+=("$1")
}

# The folder in which a crate is proved: its files, and beside it the crates below as they were built. Each crate has one of
# its own, since rt lets only one command at a time work in a folder.
lay_out() {
    local folder="$work/$1" part library
    mkdir -p "$folder/crates/$1"
    for part in src specs proofs; do
        rm -rf "$folder/crates/$1/$part"
        [ ! -d "$top/crates/$1/$part" ] || cp -r "$top/crates/$1/$part" "$folder/crates/$1/"
    done
    for library in ${reached[$1]}; do
        rm -rf "$folder/crates/$library"
        mkdir -p "$folder/crates/$library/out"
        for part in src specs proofs out/rlib; do
            [ ! -d "$work/$library/crates/$library/$part" ] ||
                cp -al "$work/$library/crates/$library/$part" "$folder/crates/$library/$part"
        done
    done
    for library in ${reached[$1]} "$1"; do echo "$library:${below[$library]}"; done >"$folder/crates.txt"
    cp "$top/HANDLES" "$folder/"
}

# How many jobs there are at once, which the crates that are proved side by side share: two for each processor, since jobs
# wait for one another at times, and one for each two gigabytes at most.
slots=1
count_slots() {
    local gigabytes
    gigabytes=$(awk '/MemAvailable/ { print int($2 / 1000000) }' /proc/meminfo)
    slots=$(($(nproc) * 2))
    [ "$slots" -le $((gigabytes / 2)) ] || slots=$((gigabytes / 2))
    [ "$slots" -ge 1 ] || slots=1
}

# How many jobs a crate gets: more where it takes longer, and no more than there are.
share=1
count_share() {
    share=4
    [ "${seconds[$1]:-30}" -ge 150 ] || share=2
    [ "${seconds[$1]:-30}" -ge 60 ] || share=1
    [ "$share" -le "$slots" ] || share=$slots
}

# The processor seconds of all crates, and of those that are not proved yet.
whole=0
open=0
count_seconds() {
    local name
    for name in "${order[@]}"; do whole=$((whole + ${seconds[$name]:-30})); done
    open=$whole
}

# About how many minutes are left: the open part at the pace so far. At first it is taken that half of the time of a
# processor goes by while it waits or reads what is below.
minutes_left() {
    local done=$((whole - open))
    if [ "$done" -lt 300 ]; then
        echo $((open * 2 / $(nproc) / 60 + 1))
    else
        echo $((open * SECONDS / done / 60 + 1))
    fi
}

so_far() { echo "$((SECONDS / 60)) min $((SECONDS % 60)) s"; }

# The seconds from the start of each crate to the end of the program, if no crate waited for a processor.
declare -A chain
measure_chains() {
    local at name library
    for ((at = ${#order[@]} - 1; at >= 0; at--)); do
        name=${order[at]}
        chain[$name]=$((${chain[$name]:-0} + ${seconds[$name]:-30}))
        for library in ${reached[$name]}; do
            [ "${chain[$library]:-0}" -ge "${chain[$name]}" ] || chain[$library]=${chain[$name]}
        done
    done
}

# Of the crates that are not begun and stand on proved crates alone, the one with the longest chain; none: nothing.
declare -A state process jobs
chosen=
choose() {
    local name library most=-1
    chosen=
    for name in "${order[@]}"; do
        [ -z "${state[$name]-}" ] || continue
        for library in ${reached[$name]}; do
            [ "${state[$library]-}" = proved ] || continue 2
        done
        if [ "${chain[$name]}" -gt "$most" ]; then
            most=${chain[$name]}
            chosen=$name
        fi
    done
}

# Proves a crate and builds it for those above it. For the program it also runs it once, without words; what it prints then
# is not shown.
begun=0
busy=0
start() {
    local verb=lib
    jobs[$1]=$share
    busy=$((busy + share))
    [ "$1" != monastr ] || verb=run
    lay_out "$1"
    begun=$((begun + 1))
    say "proving $1, crate $begun of ${#order[@]}: $(so_far) so far, about $(minutes_left) min left"
    (cd "$work/$1/crates/$1" && exec rt "$verb" --jobs "$share") >"$logs/$1" 2>&1 </dev/null 9>&- &
    process[$1]=$!
    state[$1]=running
}

# Takes note of a crate that has ended. One that is not proved ends all.
take() {
    local status=0
    wait "${process[$1]}" || status=$?
    if [ "$1" = monastr ]; then
        [ -x "$work/monastr/crates/monastr/out/monastr" ] && status=0 || status=1
    fi
    if [ "$status" -ne 0 ]; then
        say "$1 is not proved or was not built; see $logs/$1"
        exit "$stopped"
    fi
    state[$1]=proved
    busy=$((busy - ${jobs[$1]}))
    open=$((open - ${seconds[$1]:-30}))
}

stop_all() {
    local name
    for name in "${!process[@]}"; do
        [ "${state[$name]}" != running ] || kill "${process[$name]}" 2>/dev/null || true
    done
}

# Proves all crates. Where this call is cut off, what it started ends with it.
prove_crates() {
    local name
    trap stop_all EXIT
    while [ "${state[monastr]-}" != proved ]; do
        choose
        [ -z "$chosen" ] || count_share "$chosen"
        if [ -n "$chosen" ] && [ $((busy + share)) -le "$slots" ]; then
            start "$chosen"
            continue
        fi
        sleep 0.2
        for name in "${order[@]}"; do
            [ "${state[$name]-}" = running ] || continue
            kill -0 "${process[$name]}" 2>/dev/null && continue
            take "$name"
        done
    done
    trap - EXIT
}

# Proves and builds the program; where another call does so already, waits for that one.
prove_program() {
    local stamp="$logs/started" built="$work/monastr/crates/monastr/out/monastr"
    mkdir -p "$logs"
    : >"$work/MODULE.bazel"
    exec 9>"$work/lock"
    if ! flock -n 9; then
        say "another call proves the program already; waiting for it"
        flock 9
        find_program
        [ -z "$program" ] || return 0
    fi
    touch "$stamp"
    rm -f "$proved_here" "$built"
    read_crates
    put_in_order monastr
    SECONDS=0
    count_slots
    count_seconds
    measure_chains
    prove_crates
    cp "$built" "$proved_here.new"
    touch -r "$stamp" "$proved_here.new"
    mv "$proved_here.new" "$proved_here"
    exec 9>&-
    say "proved and built in $(so_far)"
}
