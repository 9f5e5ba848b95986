# What tests/split and tests/csplit share beside the harness. Each sets `tool` and `here`, and reads this file.
. "$here/harness.sh"
made cutters
program=$here/../crates/cutters/out/cutters
: >printed

found() {
    echo "status $status, said: $(head -n 2 err); $(head -n 3 differs 2>/dev/null)"
}

# is_left WANTED-STATUS WANTED-MESSAGES: whether the command just run left this in `status` and `err`, in `out` what is in
# `printed`, and in the folder `made` what is in the folder `wanted`.
is_left() {
    [ "$status" = "$1" ] && [ "$(cat err)" = "$2" ] && cmp -s out printed && diff -r wanted made >differs
}

# leaves NAME WANTED-STATUS WANTED-MESSAGES: checks what the command just run left.
leaves() {
    count "$1" is_left "$2" "$3"
}

# fresh: empties both folders. Nothing is to be printed.
fresh() {
    rm -rf wanted made
    mkdir wanted made
    : >differs
    : >printed
}

# want NAME TEXT: puts a file into the folder `wanted`.
want() {
    printf "$2" >"wanted/$1"
}

# cut_up WORD..: runs the tool with these words in the folder `made`.
cut_up() {
    (cd made && "$program" "$tool" "$@") >out 2>err; status=$?
}

# try NAME WANTED-STATUS WANTED-MESSAGES WORD..: runs it, and checks what it left.
try() {
    local name=$1 wanted=$2 messages=$3
    shift 3
    cut_up "$@"
    leaves "$name" "$wanted" "$messages"
}

# same WORD..: the program must do what the system's tool does for these words.
same() {
    fresh
    (cd wanted && LC_ALL=C "$tool" "$@") >printed
    try "$*, as the system's" 0 '' "$@"
}

# spares INPUT WORD..: with each call of each kind disturbed in turn (faults.c), the file INPUT in the folder `made`, which is
# also an output's name, stays as the file `input` is, and the status is 1.
spares() {
    local name=$1 kind at
    shift
    for kind in memory open look read write length remove once cut; do
        at=1
        while [ "$at" -lt 100 ]; do
            rm -rf made met; mkdir made; cp input "made/$name"
            LD_PRELOAD=$work/faults.so FAULT=$kind FAULT_AT=$at FAULT_MET=$work/met cut_up "$@"
            [ -e met ] || break
            count "$kind $at of $*: status $status, the input" test "$status" = 1
            count "$kind $at of $*: the input" cmp -s input "made/$name"
            at=$((at + 1))
        done
        count "$kind of $*, no call left to disturb: the input" cmp -s input "made/$name"
    done
    for kind in interrupt short; do
        rm -rf made; mkdir made; cp input "made/$name"
        LD_PRELOAD=$work/faults.so FAULT=$kind cut_up "$@"
        count "$kind of $*: the input" cmp -s input "made/$name"
    done
}

# begins: whether each file that was made is a beginning of the wanted one with its name, and so is what was printed.
begins() {
    local name
    head -c "$(wc -c <out)" printed | cmp -s - out || return 1
    for name in made/*; do
        [ -e "$name" ] || continue
        [ -e "wanted/${name#made/}" ] && head -c "$(wc -c <"$name")" "wanted/${name#made/}" | cmp -s - "$name" || return 1
    done
}

# is_sound MESSAGES LEAVES: whether the run ended with status 1, a line that MESSAGES (an extended pattern) matches, and the
# files that the command LEAVES finds right; or nothing is lost.
is_sound() {
    { [ "$status" = 1 ] && grep -qxE "$1" err && "$2"; } || is_left 0 ''
}

# disturbs KIND MESSAGES LEAVES WORD..: refuses each growth of memory in turn, or fails, interrupts or cuts short each call of
# a kind in turn (faults.c). Each run is sound, and the last one meets no disturbed call.
disturbs() {
    local kind=$1 messages=$2 leaves=$3 at=1
    shift 3
    while [ "$at" -lt 400 ]; do
        rm -rf made met; mkdir made
        LD_PRELOAD=$work/faults.so FAULT=$kind FAULT_AT=$at FAULT_MET=$work/met cut_up "$@"
        [ -e met ] || break
        count "$kind $at of $*" is_sound "$messages" "$leaves"
        at=$((at + 1))
    done
    leaves "$kind of $*, no call left to disturb" 0 ''
}
