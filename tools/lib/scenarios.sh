# Runs the program on scenarios; read by checks that have read tools/lib/count.sh, with a folder $out and the repository's in $root.

# runs_scenario FOLDER COMMAND..: whether the command, followed by the words of this scenario, writes and ends as it says.
runs_scenario() {
    scenario=$1
    shift
    [ -s "$scenario/args" ] && [ -f "$scenario/input.json" ] || return
    # The words of a scenario have no spaces in them.
    "$@" $(cat "$scenario/args") < "$scenario/input.json" > "$out/stdout" 2> "$out/stderr"
    echo $? > "$out/status"
    : > "$out/none"
    echo 0 > "$out/zero"
    for part in stdout stderr status; do
        wanted="$scenario/$part"
        [ -f "$wanted" ] || wanted="$out/none"
        [ "$part" = status ] && [ "$wanted" = "$out/none" ] && wanted="$out/zero"
        cmp -s "$out/$part" "$wanted" || return
    done
}

# check_scenarios COMMAND..: counts each scenario.
check_scenarios() {
    for scenario in "$root"/crates/fak/scenarios/*/; do
        runs_scenario "$scenario" "$@"
        count $? "differs: $(basename "$scenario")"
    done
}
