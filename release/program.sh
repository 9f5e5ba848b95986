# Which program serves: read by ../cutters, ../install, ../dist and make, which set `here` to the checkout.
#
# `serve` sets `program` to the first of these: the one that was built here, if it is as new as the sources; release/cutters, if the
# sources are those that it was made of; one that it builds. For the first two it needs neither the toolchain nor Python.
built=$here/crates/cutters/out/cutters
released=$here/release/cutters
# Made where release/cutters was found to be that of the sources; it has the time at which they were read.
seen=$here/out/release.seen

# is_since RECORD PATH..: code, definitions and these files are as they were when the record was made. Other proofs of the same code
# make no other program.
is_since() {
    record=$1
    shift
    set -- "$here/crates.txt" "$here"/crates/*_core/src "$here"/crates/*_core/specs "$here/crates/cutters/src" "$@"
    [ -f "$record" ] && [ -z "$(find -H "$@" -cnewer "$record" -print -quit 2>&1)" ]
}

# is_built: the program that was built here is as new as the sources and the toolchain.
is_built() {
    { read -r _ && read -r _ && read -r was _; } 2>/dev/null <"$built.made" || return
    rt=$(command -v rt) && [ "$rt" != "$was" ] && return 1
    is_since "$built.made" ${rt:+"$rt"}
}

# noted WORD: what MADE has after that word.
noted() {
    sed -n "s/^$1 //p" "$here/release/MADE" 2>/dev/null
}

# sum: the SHA-256 of what it reads.
sum() {
    sha256sum | cut -d ' ' -f 1
}

# crates_below: the crates that the program stands on, and its own.
crates_below() {
    awk '
        { sub(/#.*/, ""); split($0, side, ":"); sub(/ .*/, "", side[1]); below[side[1]] = side[2] }
        END {
            count = split("cutters", crates)
            for (at = 1; at <= count; at++) {
                print crates[at]
                split(below[crates[at]], names, " ")
                for (it in names) if (names[it] in below && !(names[it] in is_there)) {
                    is_there[names[it]]
                    crates[++count] = names[it]
                }
            }
        }' crates.txt
}

# sum_of_sources: a sum of crates.txt and of the code, definitions and proofs that the program is made of.
sum_of_sources() (
    CDPATH='' cd "$here" || exit
    set -- $(crates_below | sed 's,^,crates/,')
    find crates.txt "$@" -name out -prune -o -type f \( -name '*.rt' -o -name '*.antt' -o -name crates.txt \) -print 2>/dev/null |
        LC_ALL=C sort | xargs sha256sum | sum
)

# is_of_sources: release/cutters is the program of these sources.
is_of_sources() {
    [ -r "$released" ] && [ "$(sum <"$released")" = "$(noted program)" ] && [ "$(sum_of_sources)" = "$(noted sources)" ]
}

# library PROGRAM: the oldest C library that has all that the program calls, as objdump (of binutils) tells it.
library() {
    objdump -T "$1" | sed -n 's/.*GLIBC_\([0-9.]*\).*/\1/p' | sort -V | tail -n 1
}

# refuse WHY
refuse() {
    echo "cutters: $1" >&2
    return 1
}

# runs_here: release/cutters runs on this machine.
runs_here() {
    why=$("$released" head -n 0 </dev/null 2>&1) ||
        refuse "release/cutters needs Linux on x86-64 with $(noted needs) or later, and here ($(uname -sm)): $why"
}

# serve_released: release/cutters serves, where it runs here. That it is of these sources is noted, with the time before they were
# read; where that can't be written, they are read again the next time.
serve_released() {
    program=$released
    if runs_here; then
        mv -f "$seen.$$" "$seen" 2>/dev/null || true
    else
        rm -f "$seen.$$"
        return 1
    fi
}

serve() {
    program=$released
    if [ ! "$built.made" -nt "$seen" ] && is_since "$seen" "$released" "$here/release/MADE"; then return; fi
    program=$built
    if is_built; then return; fi
    { mkdir -p "$here/out" && true >"$seen.$$"; } 2>/dev/null
    if is_of_sources; then
        serve_released
        return
    fi
    rm -f "$seen.$$"
    command -v rt >/dev/null && command -v python3 >/dev/null ||
        refuse "the sources aren't those of release/cutters, and to build it rt and python3 have to be on the path" || return
    "$here/build" cutters
}
