# Comparisons for test scripts, which source this file: each is counted, and the first that fails is shown and ends the test.
# $work is the script's temporary folder. A script ends with `compared NUMBER`, so that one that left some out fails.

comparisons=0
same() { # WHAT FILE FILE: as it is, as it should be
    comparisons=$((comparisons + 1))
    diff "$2" "$3" >"$work/difference" || {
        echo "$0: $1: < as it is, > as it should be"
        cat "$work/difference"
        exit 1
    }
}

same_text() { # WHAT TEXT TEXT: as it is, as it should be
    printf '%s\n' "$2" >"$work/is"
    printf '%s\n' "$3" >"$work/should"
    same "$1" "$work/is" "$work/should"
}

compared() { # NUMBER
    [ "$comparisons" -eq "$1" ] || { echo "$0: $comparisons comparisons, not $1"; exit 1; }
    echo "$0: $1 comparisons"
}
