# For a script to read in.
# shellcheck shell=sh

# Whether this is no older than any source of the crates as they stand.
is_younger() { # REPOSITORY FILE
    [ -e "$2" ] || return
    [ -z "$(find "$1"/crates/*/src "$1"/crates/*/specs "$1"/crates/*/proofs "$1/crates.txt" -newer "$2" 2>/dev/null | head -n 1)" ]
}

# Whether what a run of rt built of a crate is of the sources of all crates as they stand: the mark out/proved is as old as the
# start of that run. .ci/run makes it for each crate, ./run for a program.
is_fresh() { # REPOSITORY CRATE
    is_younger "$1" "$1/crates/$2/out/proved"
}
