# shellcheck shell=sh
# Read by the scripts of tests that make a page or a picture of docs/, and look at what it is made from.
passed=0
failed=0

# made PAGE MADE WRITE SCRIPT: PAGE is as it was MADE just now, or where WRITE is --write it becomes so, and the script ends
made() {
    if [ "$3" = --write ]; then
        cp "$2" "$1"
        exit
    fi
    if cmp -s "$2" "$1"; then
        passed=$((passed + 1))
    else
        failed=$((failed + 1))
        echo "failed: $1 is not what it would be made from the files as they are: sh $4 --write"
    fi
}

# held WHAT WANT FOUND: what a look found is what it must find
held() {
    if [ "$3" = "$2" ]; then
        passed=$((passed + 1))
    else
        failed=$((failed + 1))
        printf 'failed: of %s it must find: %s; it finds:\n%s\n' "$1" "${2:-nothing}" "$3"
    fi
}

# counted: the last line, and the status
counted() {
    echo "$passed passed, $failed failed"
    [ "$failed" -eq 0 ]
}
