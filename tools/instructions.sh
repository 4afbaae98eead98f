#!/bin/sh
# instructions.sh BENCH: instructions of a call, ours / reference = ratio, as a table in markdown; counted by callgrind as the difference
# between eleven calls of each of a set's files and one.
bench=$1

# SIDE OP WIDTH ROUNDS SET TIMES
collected() {
    valgrind --tool=callgrind --callgrind-out-file=/dev/null "$bench" count "$@" 2>&1 | sed -n 's/.*Collected : //p'
}

# SIDE OP WIDTH ROUNDS SET: ten calls more of four files
of_call() {
    echo $((($(collected "$@" 11) - $(collected "$@" 1)) / 40))
}

echo "| Operation | Width | Rounds | dense, m 8 | dense, m 2 | tight, m 8 | tight, m 2 | ceiling, m 8 | ceiling, m 2 |"
echo "|---|---|---|---|---|---|---|---|---|"
while read -r call; do
    printf '| %s | %s | %s |' $call
    for set in 0 1 2 3 4 5; do
        ours=$(of_call archive $call $set)
        theirs=$(of_call reference $call $set)
        printf ' %s / %s = %s |' "$ours" "$theirs" "$(awk "BEGIN { printf \"%.2f\", $ours / $theirs }")"
    done
    echo
done <<END
needs 16 0
judge 16 0
relaxed 1 8
relaxed 4 8
relaxed 16 0
relaxed 16 8
restricted 1 0
restricted 4 0
restricted 16 0
page 16 8
END
