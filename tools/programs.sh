# What the scripts `homa` and `homa-simulate` share: they find the program that runs, build it, and say what it is. Each sets
# here     the folder of the checkout, or of the release
# name     its own name
# crate    the crate of the program
# option   what tools/build-unproved and tools/prove-program are told to take that program
# takes    how long a proof from nothing takes
proved=$here/crates/$crate/out/$crate
copy=$here/out/proved/$crate # a gate removes the other, and an interrupted one doesn't give it back

say() { echo "$name: $*" >&2; }

# A release has a program and no sources.
is_release() { [ ! -e "$here/crates.txt" ] && [ -x "$proved" ]; }

# Whether the file is missing, or older than a source, a definition or the list of crates. A folder is newer if a file
# was added or removed.
is_stale() {
    [ -e "$1" ] && command -v find > /dev/null || return 0
    newer=$(find "$here/crates.txt" "$here"/crates/*/src "$here"/crates/*/specs -newer "$1" -print -quit 2> /dev/null)
    [ -n "$newer" ]
}

copy_proved() {
    [ -w "$here" ] && ! cmp -s "$proved" "$copy" || return 0
    mkdir -p "${copy%/*}" && cp -p "$proved" "$copy.$$" && mv "$copy.$$" "$copy"
}

# Sets `program` to the proved and fresh program. The file VERSION of a release says whether its program is proved.
find_proved() {
    program=$proved
    if is_release; then
        grep -q '(proved;' "$here/VERSION" 2> /dev/null
        return
    fi
    if [ -x "$proved" ] && ! is_stale "$proved"; then
        copy_proved 2> /dev/null
        return 0
    fi
    program=$copy
    [ -x "$copy" ] && ! is_stale "$copy"
}

# Sets `program` to the fresh program without proofs: in the checkout, or in the user's cache if the checkout is
# read-only.
find_unproved() {
    program=$here/out/unproved/$name
    [ -x "$program" ] && ! is_stale "$program.sum" && return
    checkout=$(cd "$here" && pwd -P | tr -d '\n' | sha256sum | cut -c 1-12)
    program=${XDG_CACHE_HOME:-${HOME-}/.cache}/polvathur/$checkout/$name
    [ -x "$program" ] && ! is_stale "$program.sum"
} 2> /dev/null

# Sets `program` to the one that runs, and builds it first if there is none.
find_program() {
    find_proved || is_release || find_unproved && return
    for needed in python3 rt; do
        command -v "$needed" > /dev/null && continue
        say "no program is built, or a source is newer. Building one needs python3 and Rattle's kit:" \
            "there is no $needed on the PATH"
        exit 127
    done
    program=$("$here/tools/build-unproved" $option) && return
    status=$?
    [ "$status" -lt 128 ] || exit "$status"
    say "no program could be built without proofs. \`./$name --prove\` builds the proved one, in $takes;" \
        "\`cd crates/$crate && rt try -- WORDS\` runs one once, and keeps nothing"
    exit 126
}

print_options() {
    is_release || echo "--prove         proves and builds the program: $takes the first time; what is done is kept"
    echo "--proved WORDS  runs the proved program, or none"
    echo "--which         prints the path of the program that runs, and builds it first if there is none"
    echo "--version       prints the version, the commit, and whether the program is proved"
}

print_version() {
    echo "$name $(cat "$here/VERSION" 2> /dev/null || echo 'of no version')"
    ! is_release || return 0 # its VERSION says the rest
    git -C "$here" log -1 --format='commit %h of %cs' 2> /dev/null || echo 'of no known commit'
    if find_proved; then
        echo "proved: $program"
    elif find_unproved; then
        tail -n 1 "$program.sum"
    else
        echo 'not built from these sources'
    fi
}

prove() {
    [ $# -eq 1 ] || { say "\`--prove\` takes no further word; afterwards: $name WORDS"; exit 1; }
    find_proved && { say "the proved program is there, and no source is newer: $program"; exit 0; }
    ! is_release || { say "this is a release without proofs; a checkout of the sources can be proved"; exit 126; }
    command -v python3 > /dev/null || { say "proving needs python3, and there is none on the PATH"; exit 127; }
    exec "$here/tools/prove-program" $option
}

refuse_unproved() {
    if is_release; then
        say "this is a release without proofs"
    else
        say "there is no proved program, or a source is newer: \`./$name --prove\` builds it"
    fi
    exit 126
}

# Sets `only_proved` if the first word says so, and does what the other options say.
take_option() {
    only_proved=
    case ${1-} in
    -h | --help | help) print_help; exit 0 ;;
    --version | -V) print_version; exit 0 ;;
    --which) find_program; echo "$program"; exit 0 ;;
    --prove) prove "$@" ;;
    --proved) only_proved=1 ;;
    esac
}

# Sets `program` to the one that runs: the proved one if only that may run.
choose_program() {
    if [ -n "$only_proved" ]; then
        find_proved || refuse_unproved
    else
        find_program
    fi
}

tell_terminal() { [ ! -t 0 ] || say "reading from the terminal; Ctrl-D ends the input"; }
