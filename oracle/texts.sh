# What the comparisons do with texts, for a script to read in.
# shellcheck shell=sh

# The Rust has no fields. Takes the field off the lines of calls that have exactly the form which answer 13 has: a field at
# another answer, and one that is no number from 1 to 8, stays where it is and shows.
fieldless() {
    LC_ALL=C sed -E 's/^([0-9]+ answer 13) field [1-8]( words [0-9]+ rows [0-9]+)$/\1\2/'
}

# The same for lines of the plain functions, whose result at 13 is 13 x 2^56 and the field: 1 or 2 of a count, 3 to 5 of a rate.
fieldless_leaves() {
    LC_ALL=C sed -E -e '/^count /s/ 936748722493063(169|170)$/ 936748722493063168/' \
        -e '/^rate /s/ 936748722493063(171|172|173)$/ 936748722493063168/'
}

# Tells where two texts first differ: the book and the call that the line belongs to, and the line in both.
first_difference() { # DUE FOUND
    awk -v found="$2" '
        function tell(due, theirs) {
            if (book != "") print book
            if (call != "" && call != due) print "  " call
            print "- " due "\n+ " theirs
            told = 1
            exit
        }
        /^book / { book = $0; call = "" }
        / answer / { call = $0 }
        { if ((getline theirs <found) <= 0) theirs = "(the end)" }
        $0 != theirs { tell($0, theirs) }
        END { if (!told && (getline theirs <found) > 0) tell("(the end)", theirs) }' "$1"
}
