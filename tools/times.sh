#!/usr/bin/env bash
# What the gate's time is spent on: runs it, and says of each crate the processor seconds of its proof with its tests, of its must-fail edits and of
# its run, the dearest first, and the sums.
#
#   tools/times.sh [COMMAND..]     `.ci/run`, or another command that proves, as `rt ci --anew` or `rt must-fail xml_names`
#
# What an earlier run on this machine passed is not proved again and takes no time; `rt ci --anew` proves all. Each process is looked at twice a
# second, so a little of each is missed. Ends with the status of the command.
set -u

cd "$(dirname "${BASH_SOURCE[0]}")/.." || exit 2
[ $# -gt 0 ] || set -- .ci/run
seen=$(mktemp) || exit 2
trap 'rm -f "$seen"' EXIT

# A line for each process below this script that proves or runs a crate: its number, the crate, what it does, and its ticks so far.
look() {
    local stat place line number parent crate what at
    local -a words numbers parents
    for stat in /proc/[0-9]*/stat; do
        { read -r line <"$stat"; } 2>/dev/null || continue
        number=${stat//[!0-9]/}
        line=${line##*) }
        read -r -a words <<<"$line"
        parents[number]=${words[1]}
        numbers[number]=$((words[11] + words[12]))
    done
    for number in "${!numbers[@]}"; do
        parent=$number
        while [ "${parent:-0}" -gt 1 ] && [ "$parent" != $$ ]; do parent=${parents[parent]:-0}; done
        [ "${parent:-0}" = $$ ] || continue
        mapfile -d '' -t words 2>/dev/null <"/proc/$number/cmdline" || continue
        place=$(readlink "/proc/$number/cwd") || continue
        case ${words[0]:-} in
            */bin/rattle)
                crate=
                for ((at = 1; at < ${#words[@]}; at++)); do
                    [ "${words[at - 1]}" != --crate-name ] || crate=${words[at]}
                done
                what=proof
                case $place in */rt-edit-*) what=edits ;; esac
                ;;
            */rt-run-*/bin/*)
                crate=${words[0]##*/}
                crate=${crate%_tests}
                what=run
                ;;
            *) continue ;;
        esac
        [ -z "$crate" ] || echo "$number $crate $what ${numbers[number]}"
    done
}

"$@" &
gate=$!
SECONDS=0
while kill -0 $gate 2>/dev/null; do
    look >>"$seen" 2>/dev/null
    sleep 0.5
done
wait $gate
status=$?

awk -v ticks="$(getconf CLK_TCK)" -v clock="$SECONDS" '
    { key = $1 " " $2 " " $3; if ($4 > most[key]) most[key] = $4 }
    END {
        for (key in most) {
            split(key, part, " ")
            spent[part[2] " " part[3]] += most[key] / ticks
            whole[part[2]] += most[key] / ticks
        }
        for (name in whole) names[++count] = name
        # a short list: sorted by exchanging
        for (i = 1; i <= count; i++)
            for (j = i + 1; j <= count; j++)
                if (whole[names[j]] > whole[names[i]]) {
                    name = names[i]
                    names[i] = names[j]
                    names[j] = name
                }
        printf "%-24s %7s %7s %7s\n", "crate", "proof", "edits", "run"
        for (i = 1; i <= count; i++) {
            name = names[i]
            line(name, spent[name " proof"], spent[name " edits"], spent[name " run"])
            p += spent[name " proof"]
            e += spent[name " edits"]
            r += spent[name " run"]
        }
        line("all", p, e, r)
        printf "%d processor seconds in %.1f minutes\n", p + e + r, clock / 60
    }
    function line(name, p, e, r) { printf "%-24s %7d %7d %7d\n", name, p, e, r }
' "$seen"
exit $status
