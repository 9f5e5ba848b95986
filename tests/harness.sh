# What the scripts of this folder share. Each sets `here` and reads this file. Then it stands in a folder of its own, which is
# removed again, and `faults.so`, which makes calls fail, is there, as a C compiler makes it of faults.c.
set -u
work=$(mktemp -d)
trap 'kill $(jobs -p) 2>/dev/null; rm -rf "$work"' EXIT
cd "$work" || exit 1
passed=0
failed=0

# give_up WHY: nothing can be tested, which is a failure.
give_up() {
    echo "failed: $1"
    echo '0 passed, 1 failed'
    exit 1
}

# made CRATE [tests]: the crate's program, or that of its tests, is built.
made() {
    "$here/../build" "$@" || give_up "$* is not built"
}

# count NAME TEST..: counts whether the test holds, and says so where not, with what `found` tells of the last command.
count() {
    local name=$1
    shift
    if "$@"; then
        passed=$((passed + 1))
    else
        failed=$((failed + 1))
        echo "failed: $name: $(found)"
    fi
}

found() {
    echo "status ${status-}, said: $(head -n 2 err 2>/dev/null)"
}

# row NAME WANTED-STATUS WANTED-OUTPUT-FILE WANTED-MESSAGES: what the command just run left in `status`, `out` and `err`.
row() {
    count "$1" is_run "$2" "$3" "$4"
}

is_run() {
    [ "$status" = "$1" ] && cmp -s out "$2" && [ "$(cat err)" = "$3" ]
}

# until_so COMMAND..: waits until this command holds, a minute at the most, and says whether it does. Once that was waited for in vain,
# it is five seconds for those that follow.
patience=60
until_so() {
    local end=$((SECONDS + patience))
    until "$@"; do
        [ "$SECONDS" -lt "$end" ] || { patience=5; return 1; }
        sleep 0.05
    done
}

# unread: waits until nobody reads standard output any more, which is a pipe, a minute at the most.
unread() {
    python3 -c 'import select; ends = select.poll(); ends.register(1, 0); ends.poll(60000)'
}

# taken: waits until all that was written to standard output, a pipe, has been read, a minute at the most.
taken() {
    python3 -c '
import fcntl, termios, time
end = time.monotonic() + 60
while any(fcntl.ioctl(1, termios.FIONREAD, bytes(4))) and time.monotonic() < end:
    time.sleep(0.005)'
}

# pipes FOLDER NAME..: makes named pipes in this folder, each with a reader that puts into the folder `read` what it gets.
pipes() {
    local folder=$1 name
    shift
    rm -rf read; mkdir read
    readers=
    for name in "$@"; do
        mkfifo "$folder/$name"
        timeout 60 cat "$folder/$name" >"read/$name" &
        readers="$readers $!"
    done
}

# unpiped FOLDER: lets readers go whose pipe nobody opened, waits for all, and puts what they got in the place of the pipes.
unpiped() {
    until_so are_let_go "$1"
    wait $readers
    mv -f read/* "$1"
}

# are_let_go FOLDER: opens each pipe, and says whether all readers have gone: one that hasn't opened its pipe yet is let go later.
are_let_go() {
    local file
    for file in read/*; do
        : <>"$1/${file#read/}"
    done
    ! kill -0 $readers 2>/dev/null
}

# end: the last line, and the status.
end() {
    echo "$passed passed, $failed failed"
    [ "$failed" = 0 ]
}

command -v cc >/dev/null || give_up 'there is no C compiler (cc), which the tests of calls that fail need'
cc -shared -fPIC -O1 -o faults.so "$here/faults.c" -ldl 2>cc.log || give_up "$(cat cc.log)"
