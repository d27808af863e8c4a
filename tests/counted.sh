# Sourced by the parts of the tests: `same` and `holds` count what passes and what fails, `counted` prints the last line.
passed=0
failed=0

# holds NAME COMMAND..: the command succeeds
holds() {
    local name=$1
    shift
    if "$@"; then
        passed=$((passed + 1))
    else
        failed=$((failed + 1))
        echo "FAILED: $name"
    fi
}

# same NAME EXPECTED FOUND: two files have the same bytes
same() {
    holds "$1" diff -u "$2" "$3"
}

counted() {
    echo "$passed passed, $failed failed"
    [ "$failed" -eq 0 ]
}
