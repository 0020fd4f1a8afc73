#!/usr/bin/env bash
# Measures the gate: runs `rt ci` in a clone of this repository, samples the provers of that run each second, and writes a table of
# processor seconds by crate (check, tests, edits) with lines of code, the wall time and the longest chain of checks. Provers of
# other runs are not counted, though they cost wall time. What an earlier run kept is not proved again, so the whole is measured
# where nothing is kept, or with --anew. With names of crates it measures these and those below them.
#
#   bench/gate.sh [--anew] [CRATE..] >table
set -u
top=$(cd "$(dirname "$(readlink -f "${BASH_SOURCE[0]}")")/.." && pwd)
work=$(mktemp -d)
trap 'rm -rf "$work"' EXIT
git clone -q "$top" "$work/clone"

(cd "$work/clone" && exec rt ci "$@" >"$work/log" 2>&1) &
gate=$!

# Lines `PROCESS PROVER CRATE KIND` of what this run began: a prover may have processes of its own, and KIND is check or tests.
provers() {
    ps -e -o pid=,ppid=,args= | awk -v gate="$gate" '
        function is_of_gate(process) {
            while (process > 1 && process != gate) process = parent[process]
            return process == gate
        }
        function prover_of(process) {
            while (parent[process] in crate) process = parent[process]
            return process
        }
        { parent[$1] = $2 }
        $3 ~ /\/rattle$/ && $4 ~ /^(check|build)$/ {
            kind[$1] = / --test( |$)/ ? "tests" : "check"
            for (i = 5; i < NF; i++) if ($i == "--crate-name") crate[$1] = $(i + 1)
        }
        END { for (one in crate) if (is_of_gate(one)) print one, prover_of(one), crate[one], kind[one] }'
}

# Adds lines `PROVER START TICKS CRATE KIND` to the samples. The ticks are those of the prover and of its processes, also of
# those that ended. An edit is tried in a folder of its own.
sample() {
    local process prover crate kind stat
    local -A ticks=() about=()
    while read -r process prover crate kind; do
        read -r -a stat <"/proc/$process/stat" || continue
        ticks[$prover]=$((${ticks[$prover]:-0} + stat[13] + stat[14] + stat[15] + stat[16]))
        [ "$process" = "$prover" ] || continue
        case $(readlink "/proc/$process/cwd") in */rt-edit-*) kind=edits ;; esac
        about[$prover]="$crate $kind"
        start[$prover]=${stat[21]}
    done < <(provers) 2>/dev/null
    for prover in "${!about[@]}"; do
        echo "$prover ${start[$prover]} ${ticks[$prover]} ${about[$prover]}"
    done >>"$work/samples"
}

declare -A start=()
touch "$work/samples"
SECONDS=0
while kill -0 $gate 2>/dev/null; do
    sample
    sleep 1
done
wait $gate
status=$?

# lines `CRATE CHECK TESTS EDITS`, in seconds
sums() {
    awk -v second="$(getconf CLK_TCK)" '
        { key = $1 " " $2; if ($3 > most[key]) most[key] = $3; crate[key] = $4; kind[key] = $5 }
        END {
            for (key in most) sum[crate[key] " " kind[key]] += most[key] / second
            for (key in most) seen[crate[key]] = 1
            for (one in seen) printf "%s %d %d %d\n", one, sum[one " check"], sum[one " tests"], sum[one " edits"]
        }' "$work/samples" | sort
}

lines_of() {
    find "$work/clone/crates/$1" -name '*.rt' -exec cat {} + 2>/dev/null | wc -l
}

# the crates of the longest chain of checks, and its seconds
longest_chain() {
    awk '
        function longest(name, i, n, used, one) {
            if (name in whole) return whole[name]
            whole[name] = 0
            n = split(uses[name], used, " ")
            for (i = 1; i <= n; i++) {
                one = longest(used[i])
                if (one > whole[name]) { whole[name] = one; below[name] = used[i] }
            }
            return whole[name] += check[name]
        }
        NR == FNR { check[$1] = $2; next }
        /^[a-z]/ { split($0, parts, ":"); split(parts[1], head, " "); uses[head[1]] = parts[2] }
        END {
            for (name in uses) if (longest(name) > whole[last] && check[name]) last = name
            for (name = last; name != ""; name = below[name]) chain = name (chain ? ", " : "") chain
            print chain ": " whole[last] + 0 " seconds"
        }' <(sums) "$work/clone/crates.txt"
}

echo "$(date +%F), $(nproc) cores, $((SECONDS / 60)) min $((SECONDS % 60)) s of wall time; $(tail -1 "$work/log")"
echo
echo "| Crate | Lines of code | Check | Tests | Edits | Seconds in all |"
echo "|---|---|---|---|---|---|"
sums | while read -r crate check tests edits; do
    echo "| $crate | $(lines_of "$crate") | $check | $tests | $edits | $((check + tests + edits)) |"
done
echo
sums | awk '{ check += $2; tests += $3; edits += $4 }
    END { printf "Together %d seconds of checks, %d of tests and %d of edits.\n", check, tests, edits }'
echo "The longest chain of checks: $(longest_chain)."
exit $status
