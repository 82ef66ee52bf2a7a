# The proved program: where it lies, whether it is of the sources as they stand, and how it is run.

# The proof's work lies among git's own files, so that it goes with the clone: elsewhere `rt ci` refuses its crates.txt files.
# It is a repository of its own, which an empty MODULE.bazel tells rt, so that no command at the top takes its crates.
if [ -d "$top/.git" ]; then
    work="$top/.git/monastr"
else
    work="$( (git -C "$top" rev-parse --absolute-git-dir || echo "$top/out") 2>/dev/null)/monastr"
fi
proved_here="$work/program"
proved_by_gate="$top/crates/monastr/out/monastr"

# A file that the program is made of and that is newer than a program.
newer_source() {
    find "$top/crates.txt" "$top/crates" -name out -prune -o \
        -type f \( -name '*.rt' -o -name '*.antt' -o -name crates.txt \) -newer "$1" -print -quit
}

# The program that the gate has left, or else the one that `./monastr prove` made; where neither is fresh: nothing.
find_program() {
    for program in "$proved_by_gate" "$proved_here"; do
        [ ! -x "$program" ] || [ -n "$(newer_source "$program")" ] || return 0
    done
    program=
}

# Large automata wait for the page table. Where the kernel gives huge pages to those who ask for them, the C library is told to ask,
# unless the caller tells it something himself.
ask_for_huge_pages() {
    local modes=
    [ -z "${GLIBC_TUNABLES+told}" ] || return 0
    read -r modes 2>/dev/null </sys/kernel/mm/transparent_hugepage/enabled || return 0
    case "$modes" in *'[madvise]'*) export GLIBC_TUNABLES=glibc.malloc.hugetlb=1 ;; esac
}

# Runs the program in the place of this process, or, where somebody looks, beside a line that shows how long it goes on.
run_program() {
    ask_for_huge_pages
    is_watched || exec "$program" "$@"
    run_with_clock memory "$program" "$@"
    [ "$status" -ne 1 ] || [ $# -eq 0 ] || hint
    exit "$status"
}
