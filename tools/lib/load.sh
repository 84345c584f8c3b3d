# How busy the machine is while a script measures; read by scripts of bench/ that have a folder $out.

# The seconds that all processors together were busy since the machine started, or were taken by its host.
busy_seconds() {
    awk -v hertz="$(getconf CLK_TCK)" '/^cpu / { print ($2 + $3 + $4 + $7 + $8 + $9) / hertz }' /proc/stat
}

# The seconds that this script and the programs that it ran took, by what `times` has printed: 0m1.250s for each of user and system. A
# subshell would print its own.
own_seconds() {
    awk '{ for (i = 1; i <= 2; i++) { split($i, part, /[ms]/); sum += 60 * part[1] + part[2] } } END { print sum }' "$out/times"
}

# Prints the number of processors and the load average.
begin_load() {
    printf '%s processors; load average at the start: %s\n' "$(getconf _NPROCESSORS_ONLN)" "$(cut -d ' ' -f 1-3 /proc/loadavg)"
    load_begun=$(date +%s.%N)
    load_busy=$(busy_seconds)
    times > "$out/times"
    load_own=$(own_seconds)
}

# Prints the share of the processors that other programs took since, and the load average again.
end_load() {
    times > "$out/times"
    printf '%s %s %s %s %s %s\n' "$load_begun" "$(date +%s.%N)" "$load_busy" "$(busy_seconds)" "$load_own" "$(own_seconds)" \
        | awk -v processors="$(getconf _NPROCESSORS_ONLN)" '{
            share = 100 * (($4 - $3) - ($6 - $5)) / (($2 - $1) * processors)
            if (share < 0) share = 0
            if (share > 100) share = 100
            printf "other programs took %.0f %% of the processors; ", share
        }'
    printf 'load average at the end: %s\n' "$(cut -d ' ' -f 1-3 /proc/loadavg)"
}
