#!/bin/sh
# A table of what a call costs, the judge beside the independent implementation, on the records of a folder that `gen` wrote:
# operation, record, instructions of the judge, of the other, nanoseconds of the judge, of the other.
#   measure.sh FOLDER
# Instructions are the difference between two runs under callgrind, of 20 calls and of 10, by 10. Build first: cargo build --release
set -e
here=$(dirname "$0")
run="$here/target/release/measure"

counted() {
    valgrind --tool=callgrind --callgrind-out-file=/dev/null "$run" "$@" 2>&1 >/dev/null |
        sed -n 's/.*Collected : \([0-9]*\).*/\1/p'
}

instructions() {
    echo $((($(counted "$1" "$2" "$3" 20) - $(counted "$1" "$2" "$3" 10)) / 10))
}

nanoseconds() {
    "$run" "$1" "$2" "$3" 20000 | cut -d' ' -f2
}

for file in "$1"/*.bin; do
    for operation in check replay read-off order-table view open entries; do
        echo "$operation $(basename "$file" .bin)" \
            "$(instructions judge $operation "$file") $(instructions plain $operation "$file")" \
            "$(nanoseconds judge $operation "$file") $(nanoseconds plain $operation "$file")"
    done
done
