# How a check counts what it tries. Read by scripts that have a folder $out for what commands print.

passed=0
failed=0

# count STATUS TEXT [FILE..]: counts what was tried, by its status. If it failed, prints the text, and the ends of these files.
count() {
    if [ "$1" -eq 0 ]; then
        passed=$((passed + 1))
        return
    fi
    failed=$((failed + 1))
    echo "$2"
    shift 2
    [ $# -eq 0 ] || tail -q -n 30 "$@"
}

# holds NAME FUNCTION..: counts a function of the script, or a command, with its words.
holds() {
    name=$1
    shift
    "$@" > "$out/said" 2>&1
    count $? "fails: $name" "$out/said"
}

# wanted NAME COMMAND..: the same for a command that may take five minutes, or $CHECK_SECONDS if it builds nothing. With $CHECK_ONLY it
# runs only what is built, and what has these words in its name.
wanted() {
    case $1 in
    'building '*) seconds=300 ;;
    *"${CHECK_ONLY:-}"*) seconds=${CHECK_SECONDS:-300} ;;
    *) return ;;
    esac
    name=$1
    shift
    holds "$name" timeout "$seconds" "$@"
}

# Prints the last line of a check. Its status is that of the check.
say_counts() {
    echo "$passed passed, $failed failed"
    [ "$failed" -eq 0 ]
}
