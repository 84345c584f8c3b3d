# Functions that write large inputs of the program, for scripts that read this file in.

# A list of this many elements, each as the awk expression of `i` says.
list() {
    awk -v n="$1" "BEGIN { printf \"[\"; for (i = 0; i < n; i++) printf \"%s%s\", (i ? \",\" : \"\"), $2; printf \"]\" }"
}

# A list of this many copies of a text, which may be too long for an awk program.
copies() {
    separator=
    i=0
    printf '['
    while [ "$i" -lt "$1" ]; do
        printf '%s%s' "$separator" "$2"
        separator=,
        i=$((i + 1))
    done
    printf ']'
}

# A script: slots, births, quantum, semaphores, files, programs, start.
script() {
    printf '{"version":2,"slots":%s,"births":%s,"quantum":%s,"semaphores":%s,"files":%s,"programs":%s,"start":%s}' "$@"
}
