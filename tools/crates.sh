# Functions of run, build and tests/run, which set `top` to the repository's folder: what a crate is made of, and whether what was built of it is older.
# shellcheck shell=bash

# A crate and those of the repository below it, each behind those that it names: the order in which rt proves them.
crates_of() { # CRATE
    awk -v crate="$1" '
        function visit(name,    names, k, count) {
            if (name in seen) return
            seen[name] = 1
            count = split(needs[name], names, " ")
            for (k = 1; k <= count; k++) if (names[k] in needs) visit(names[k])
            print name
        }
        { sub(/#.*/, "") }
        /:/ { split($0, sides, ":"); split(sides[1], words, " "); needs[words[1]] = sides[2] }
        END { if (crate in needs) visit(crate) }' "$top/crates.txt"
}

# Whether a file is not there, or older than a file that one of these crates is proved from.
is_older() { # FILE CRATE..
    local file=$1 crate part places=("$top/crates.txt")
    shift
    [ -e "$file" ] || return 0
    for crate; do
        for part in src specs proofs; do
            [ ! -d "$top/crates/$crate/$part" ] || places+=("$top/crates/$crate/$part")
        done
    done
    [ -n "$(find "${places[@]}" -type f -newer "$file" -print -quit)" ]
}

program_file() { # PROGRAM
    printf '%s/crates/%s/out/%s\n' "$top" "$1" "$1"
}

is_stale() { # PROGRAM
    local crates
    mapfile -t crates < <(crates_of "$1")
    is_older "$(program_file "$1")" "${crates[@]}"
}

# Builds a program, and prints what rt says. rt builds of proved crates alone, and proves only what has changed since it last did; where nothing has, the
# program stays, and is from now on no older than its sources. `rt run` starts it too, here on nothing; its status is then the program's, so that a line of
# rt's tells whether it was built.
build_program() { # PROGRAM
    local room status=1
    room=$(mktemp -d)
    : >"$room/began"
    { (cd "$top/crates/$1" && rt run) </dev/null 2>&1 >/dev/null || :; } | tee "$room/said"
    if grep -q "^rt: running out/$1;" "$room/said" && [ -x "$(program_file "$1")" ]; then
        touch -r "$room/began" "$(program_file "$1")" && status=0
    fi
    rm -rf "$room"
    return "$status"
}
