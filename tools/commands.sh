#!/usr/bin/env bash
# Runs each command line of README.md, docs/ and examples/ as it stands there, and compares what it writes with the text
# that lies beside the example, or that the page says. The last line is `N the same, M different`; the status is 0 where
# none differs.
#
#   tools/commands.sh                              runs ./s7h and ./trace_chart, which prove and build the programs first
#   S7H=PATH TRACE_CHART=PATH tools/commands.sh    runs these programs in their place; `--look` is run by ./s7h always
#   tools/commands.sh --list                       lists the command lines, and runs nothing
#
# Not run: `rt ci`, the gate itself, and the lines that take the time (bench/README.md).
cd "$(dirname "$(readlink -f "${BASH_SOURCE[0]}")")/.." || exit 1
pages=(README.md tools/help docs/*.md examples/*/README.md)

# the command lines of the pages: those of indented lines and of backticks that begin with a program of this repository or
# with awk. A word in capital letters stands for an argument, so such a line is a form and no command.
command_lines() {
    {
        sed -nE 's/^( {2}| {4})(\.\/(s7h|trace_chart) .*|awk .*)$/\2/p' "${pages[@]}"
        grep -ohE '`(\./)?(s7h|trace_chart) [^`]+`' "${pages[@]}" | tr -d '`'
    } | sed -E 's/   .*//; s/ +$//; s/^trace_chart /.\/trace_chart /' | grep -vE ' [A-Z]{3,}( |$)' | grep -vE '^s7h ' | sort -u
}

# the lines that the page of this example says the command writes, where no file has them
said_of() {
    tr '\n' ' ' <"$2/README.md" | grep -oF "\`$1\` writes \`" >/dev/null || return 1
    tr '\n' ' ' <"$2/README.md" | awk -v command="\`$1\` writes " '{ print substr($0, index($0, command) + length(command)) }' |
        grep -oE '^`[^`]*`( and `[^`]*`)*' | grep -oE '`[^`]*`' | tr -d '`'
}

# the first cells of the table of this page that begin with a number
rows_of() {
    grep -oE '^\| `[0-9][^`]*` ' "$1/README.md" | sed -E 's/^\| `(.*)` $/\1/'
}

# the text that a command has to write
expected() {
    local folder=
    folder=$(grep -oE 'examples/[a-z0-9-]+' <<<"$1" | head -1)
    case $1 in
        "./s7h --help") cat tools/help ;;
        awk\ *) rows_of "$folder" ;;
        ./trace_chart\ examples/*) cat "$folder/chart.svg" ;;
        *" load "*) cat "$folder/blocks" 2>/dev/null || said_of "$1" "$folder" ;;
        *" connect "*) cat "$folder/text" ;;
        *" solo "* | *" turns "*) cat "$folder/trace" ;;
        *) return 1 ;;
    esac
}

# the command, with the programs that the caller named
with_programs() {
    case $1 in
        "./s7h --"*) echo "$1" ;;
        ./s7h\ *) echo "${S7H:-./s7h}${1#./s7h}" ;;
        ./trace_chart\ *) echo "${TRACE_CHART:-./trace_chart}${1#./trace_chart}" ;;
        *) echo "$1" ;;
    esac
}

# says how the command fared: it has to end with status 0, and to write what is expected, byte for byte
run_line() {
    local folder=$1 line=$2 status
    if ! expected "$line" >"$folder/expected" || [ ! -s "$folder/expected" ]; then
        echo "no text to compare with: $line"
        return 1
    fi
    bash -c "$(with_programs "$line")" >"$folder/written" 2>"$folder/messages"
    status=$?
    if [ $status -ne 0 ]; then
        echo "status $status: $line"
        tail -1 "$folder/messages"
        return 1
    fi
    cmp -s "$folder/expected" "$folder/written" && return 0
    echo "different: $line"
    diff "$folder/expected" "$folder/written" | head -3
    return 1
}

if [ "${1-}" = --list ]; then
    command_lines
    exit 0
fi
folder=$(mktemp -d)
trap 'rm -rf "$folder"' EXIT
same=0
different=0
while read -r line; do
    if run_line "$folder" "$line" <&-; then
        same=$((same + 1))
    else
        different=$((different + 1))
    fi
done < <(command_lines)
echo "$same the same, $different different"
[ "$same" -gt 0 ] && [ "$different" -eq 0 ]
