# The LLVM module that the toolchain makes of a proved crate, for a script to read in after tools/kit.sh and tools/fresh.sh.
#
# `rattle build` compiles for x86-64 alone, but hands its compiler the whole crate as one LLVM module. So it gets a view of the
# toolchain's folder, links all through, whose compiler is a script that keeps the module and then calls the real one.
# The proof covers the module's source and none of the compilers.
# shellcheck shell=sh disable=SC2154

links() { # FROM TO: links each entry that TO has not
    for entry in "$1"/*; do [ -e "$2/${entry##*/}" ] || ln -s "$entry" "$2/"; done
}

# Whether the library that stands in a crate's out/ is the one that `rt ci` built of the sources as they stand. Those of other
# commands have a stamp, by which rt knows them; what a run of `rt ci` found it puts back behind it. A run that kept a crate's
# proof, from another run on this machine, leaves the library that was there, so that it may be an older one.
is_of_ci() { # REPOSITORY CRATE
    rlib=$1/crates/$2/out/rlib
    [ -d "$rlib/$2.rlib" ] && [ ! -f "$rlib/stamp" ] && is_fresh "$1" "$2" && is_younger "$1" "$rlib/$2.rlib"
}

# Proves the crate as a static library and writes FOLDER/module.bc, FOLDER/x86_64/libCRATE.a and FOLDER/proof.log; on failure
# says why. The libraries that it stands on are those that `rt ci` left, where they are of the sources as they stand, and else
# rt proves and builds them first.
keep_module() { # REPOSITORY CRATE FOLDER
    view=$3/toolchain
    rm -rf "$view"
    mkdir -p "$view/kept" "$view/bin" "$3/x86_64"
    cat >"$view/bin/clang" <<'END'
#!/bin/sh
kept=$(dirname "$0")/../kept
for word in "$@"; do case $word in *.bc) cp "$word" "$kept/module.bc" ;; esac; done
exec "$kept/clang" "$@"
END
    chmod +x "$view/bin/clang"
    ln -s "$tools/bin/clang" "$view/kept/clang"
    links "$tools/bin" "$view/bin"
    links "$tools" "$view"

    below=$(sed -n "s/^$2:\(.*\)/\1/p" "$1/crates.txt")
    fresh=true
    for dep in $below; do
        [ ! -d "$1/crates/$dep" ] || is_of_ci "$1" "$dep" || fresh=false
    done
    if [ "$fresh" = false ] && ! (cd "$1/crates/$2" && rt check) >"$3/proof.log" 2>&1; then
        cut -c1-1500 "$3/proof.log" >&2
        printf '%s: rt check did not prove the crate %s\n' "$0" "$2" >&2
        return 1
    fi
    set -- "$1" "$2" "$3" --extern "std=$kit/rlibs/std.rlib" -L "dependency=$kit/rlibs"
    for dep in $below; do
        if [ -d "$1/crates/$dep" ]; then
            set -- "$@" --extern "$dep=$1/crates/$dep/out/rlib/$dep.rlib" -L "dependency=$1/crates/$dep/out/rlib"
        else
            set -- "$@" --extern "$dep=$kit/rlibs/$dep.rlib"
        fi
    done
    repository=$1 crate=$2 into=$3
    shift 3
    if ! (cd "$repository/crates/$crate" && "$kit/bin/rattle" build --crate-name "$crate" src/lib.rt --crate-type staticlib "$@" \
        --antt-project "$kit/rattle/logic/antt-project.json" --logic-built "$kit/logic_built" --jobs 2 --links "$crate=" \
        --toolchain "$view" -o "$into/x86_64/lib$crate.a") >"$into/proof.log" 2>&1; then
        cut -c1-1500 "$into/proof.log" >&2
        printf '%s: rattle build did not prove and build the crate %s\n' "$0" "$crate" >&2
        return 1
    fi
    [ -s "$view/kept/module.bc" ] || { printf '%s: rattle build called no compiler with a module: its way of compiling has changed\n' "$0" >&2; return 1; }
    mv "$view/kept/module.bc" "$into/module.bc"
    rm -rf "$view"
}
# The compiler's words for the reader's processor, a CH32V.
# shellcheck disable=SC2034
riscv='--target=riscv32-unknown-none-elf -march=rv32imac -mabi=ilp32'

# Runs the toolchain's compiler. It remarks that the module names another processor, and such things: shown only where it fails.
compiler() { # WORDS...
    said=$("$tools/bin/clang" --no-default-config "$@" 2>&1) && return
    printf '%s\n%s: the module does not compile with %s\n' "$said" "$0" "$*" >&2
    return 1
}

# Compiles the kept module into FOLDER/PROCESSOR/libCRATE.a.
compile_module() { # CRATE FOLDER PROCESSOR WORDS...
    crate=$1 module=$2/module.bc into=$2/$3
    shift 3
    mkdir -p "$into"
    compiler "$@" -ffunction-sections -fdata-sections -x ir "$module" -c -o "$into/$crate.o" && pack_module
}

# The same by way of CRATE.s beside the archive: whoever looks through that text has seen each of its instructions. It serves a
# crate whose functions all end up in those that it exports: the RISC-V assembler takes no call of a name with colons in it.
assemble_module() { # CRATE FOLDER PROCESSOR WORDS...
    crate=$1 module=$2/module.bc into=$2/$3
    shift 3
    mkdir -p "$into"
    compiler "$@" -ffunction-sections -fdata-sections -x ir "$module" -S -o "$into/$crate.s" &&
        compiler "$@" -x assembler "$into/$crate.s" -c -o "$into/$crate.o" && pack_module
}

pack_module() {
    rm -f "$into/lib$crate.a"
    "$tools/bin/llvm-ar" rcs "$into/lib$crate.a" "$into/$crate.o" && rm -f "$into/$crate.o"
}
