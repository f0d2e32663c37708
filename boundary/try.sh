# What boundary/run, boundary/riscv and boundary/count share, for them to read in behind tools/kit.sh and tools/module.sh: `here`
# is the repository, `work` a folder of their own.
# shellcheck shell=sh disable=SC2154

me=boundary/${0##*/}
die() { printf '%s: %s\n' "$me" "$*" >&2; exit 1; }

# Sets `built` to the folder with the archives, which are made here where it is not given.
find_built() { # PROCESSOR [BUILT [...]]
    built=${2:-$work/built}
    [ $# -ge 2 ] || "$here/boundary/build" "$built"
    [ -s "$built/$1/libboundary.a" ] || die "$built: no $1/libboundary.a is there, which boundary/build makes"
}

strict='-std=c99 -O2 -Wall -Wextra -Wpedantic -Werror'

# Compiles C for a processor whose C library's headers are not here, and need not be: those of the compiler are enough.
freestanding() { # WORDS...
    # shellcheck disable=SC2086
    "$tools/bin/clang" --no-default-config $strict -ffreestanding -nostdinc \
        -isystem "$("${CC:-cc}" -print-file-name=include)" -I "$here/include" "$@"
}

# Runs all that there is to run of one copy of boundary/test.c.
try() { # WHAT ROUNDS COMMAND...
    what=$1 rounds=$2
    shift 2
    began=$(date +%s)
    "$@" "$rounds" "${SEED:-1}" >"$work/report" || { cat "$work/report"; die "$what: failed"; }
    "$@" lines <"$here/boundary/cases.txt" >"$work/cases" || { cat "$work/cases"; die "$what: boundary/cases.txt: failed"; }
    # a test that cannot fail is no test: a wrong result must be told, and so must a refusal without its field, with another
    # one, or with it in another byte
    for wrong in '0x32 25000001' '0x34 0x0d00000000000000' '0x34 0x0d00000000000004' '0x34 0x0d00000000000300'; do
        missed="$what: a wrong result was not told: rate $wrong"
        ! echo "rate $wrong" | "$@" lines >"$work/wrong" || die "$missed"
        grep -q "^MISMATCH: rate ${wrong% *}" "$work/wrong" || { cat "$work/wrong"; die "$missed"; }
    done
    sed -e '$d' -e 's/^/    /' "$work/report"
    printf '%s: %s: %s; cases.txt: %s (%s s)\n' "$me" "$what" "$(tail -n 1 "$work/report")" \
        "$(tail -n 1 "$work/cases")" "$(($(date +%s) - began))"
}

# ---- the reader's processor, emulated

# Ends with 77, which no failure has, where nothing can be run.
need_emulator() {
    command -v qemu-riscv32 >/dev/null && return
    printf '%s: qemu-riscv32 is not on the PATH (Debian has it in the package qemu-user), so nothing was run\n' "$me"
    exit 77
}

# Becomes the emulator. Its sifive-e31 has rv32imac and no instruction more, so code that strays beyond that stops here too;
# no setting of it comes from outside.
emulate() { # [OPTION...] PROGRAM [ARGS]
    emulator=$(command -v qemu-riscv32)
    exec env -i "$emulator" -cpu sifive-e31 "$@"
}

# Compiles boundary/NAME.c and boundary/bare.c and links them as $work/NAME, with no C library. bare.c comes last, so that
# what is linked stands in front of its division.
bare() { # NAME CLANG'S-WORDS LINKED...
    name=$1 words=$2
    shift 2
    for source in bare "$name"; do
        # shellcheck disable=SC2086
        freestanding $riscv -ffunction-sections $words -c -o "$work/$source.o" "$here/boundary/$source.c" ||
            die "boundary/$source.c does not compile for riscv32"
    done
    "$tools/bin/ld.lld" -m elf32lriscv --gc-sections -o "$work/$name" "$work/$name.o" "$@" "$work/bare.o" ||
        die "boundary/$name.c does not link for riscv32"
}
