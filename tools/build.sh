# Proving and building a program, for the scripts at the top: they give `top` and `name`, the program's crate.
program=$top/crates/$name/out/$name
built=$top/crates/$name/out/built

# says one line on standard error
say() {
    echo "$name: $*" >&2
}

# the folders of code, definitions and proofs of the program's crates
sources_of_program() {
    local crate
    while IFS=: read -r crate _; do
        printf '%s\n' "$top/crates/$crate"/{src,specs,proofs}
    done <<<"$(crates_of_program)"
}

# the program is not there, or a file that it is made from is newer
is_stale() {
    local -a sources
    [ -x "$program" ] && [ -e "$built" ] || return 0
    mapfile -t sources <<<"$(sources_of_program)"
    [ -n "$(find "$top/crates.txt" "${sources[@]}" -newer "$built" -type f -print -quit 2>/dev/null)" ]
}

needs_kit() {
    command -v rt >/dev/null && return
    say "the kit is missing: put the folder bin of the Rattle kit on PATH"
    exit 70
}

# the memory that is free, in gigabytes
free_memory() {
    awk '/^MemAvailable:/ { print int($2 / 1048576) }' /proc/meminfo
}

# how many crates are proved at once: one for each processor, and for each two gigabytes of free memory
crates_at_once() {
    local by_memory=$(($(free_memory) / 2)) cores
    cores=$(nproc)
    [ "$by_memory" -lt 1 ] && by_memory=1
    [ "$cores" -lt "$by_memory" ] && echo "$cores" || echo "$by_memory"
}

# lines `CRATE: CRATES THAT IT USES` of the program's crates, a crate after those that it uses
crates_of_program() {
    awk -v program="$name" '
        function visit(name, i, n, used) {
            if (name in seen || !(name in uses)) return
            seen[name] = 1
            n = split(uses[name], used, " ")
            for (i = 1; i <= n; i++) visit(used[i])
            print name ":" uses[name]
        }
        /^[a-z]/ { split($0, parts, ":"); split(parts[1], head, " "); uses[head[1]] = parts[2] }
        END { visit(program) }
    ' "$top/crates.txt"
}

# how far the proving is, on the one line of a terminal
show_progress() {
    [ -t 2 ] || return 0
    printf '\r%s: proving the program: crate %d of %d (%s), %d min %02d s \e[K' \
        "$name" "$1" "$2" "$3" $((SECONDS / 60)) $((SECONDS % 60)) >&2
}

# the crates that are being proved, by the number of their process, which leads a group of its own
declare -A proving=()

# ends what this build began
stop_proving() {
    local pid
    for pid in "${!proving[@]}"; do
        kill -- "-$pid" 2>/dev/null || kill "$pid" 2>/dev/null
    done
    [ -t 2 ] && echo >&2
}

# what an interrupted build leaves: no process, and each crate that was done
interrupted() {
    stop_proving
    say "interrupted; what was proved is kept, and the next call goes on from there"
    exit 70
}

# begins `rt COMMAND` in a crate, and writes what it says to the log of the crate
start_crate() {
    (cd "$top/crates/$1" && exec setsid rt "$2") </dev/null >"$logs/$1.log" 2>&1 &
    proving[$!]=$1
}

# Waits until a crate is done, whose name is then in `ended`; fails where it was not proved. On a terminal the time goes on
# each second meanwhile.
next_ended() {
    local pid status
    while true; do
        if [ -t 2 ] && [ -z "$clock" ]; then
            sleep 1 &
            clock=$!
        fi
        wait -n -p pid
        status=$?
        [ -n "${proving[$pid]-}" ] && break
        [ "$pid" = "$clock" ] && clock=
        show_progress "$@"
    done
    ended=${proving[$pid]}
    unset "proving[$pid]"
    return $status
}

# all crates that this one uses are done
is_ready() {
    local used
    for used in ${uses[$1]}; do
        [ "${state[$used]:-done}" = done ] || return 1
    done
}

# Begins each crate that waits and is ready, while fewer than the limit are being proved.
start_ready() {
    local crate
    for crate in "${order[@]}"; do
        [ "${#proving[@]}" -lt "$limit" ] || return 0
        if [ "${state[$crate]}" = waits ] && is_ready "$crate"; then
            state[$crate]=runs
            last=$crate
            start_crate "$crate" lib
        fi
    done
}

# Builds the program over its proved crates. The build runs it once, with no arguments, which it answers with its usage.
build_top() {
    start_crate "$name" run
    next_ended "$total" "$total" "$name"
    grep -q "^rt: running out/$name" "$logs/$name.log"
}

# Proves the crates below the program, each when those that it uses are done, and then the program. What was done stays,
# so that an interrupted build goes on where it was.
build_program() {
    local logs=$top/out/build limit total done_count=0 clock='' ended last crate used
    local -A uses=() state=()
    local -a order=()
    limit=$(crates_at_once)
    [ "$(free_memory)" -lt 4 ] && say "less than 4 gigabytes of memory are free; proving may fail or take long"
    mkdir -p "$logs" "$top/crates/$name/out"
    touch "$built.now"
    while IFS=: read -r crate used; do
        [ "$crate" = "$name" ] && continue
        order+=("$crate")
        uses[$crate]=$used
        state[$crate]=waits
    done <<<"$(crates_of_program)"
    total=$((${#order[@]} + 1))
    SECONDS=0
    trap interrupted INT TERM HUP
    say "proving and building the program, $total crates, $limit at once; README tells how long that takes the first time"
    while [ "$done_count" -lt "${#order[@]}" ]; do
        start_ready
        show_progress $((done_count + 1)) "$total" "$last"
        if ! next_ended $((done_count + 1)) "$total" "$last"; then
            stop_proving
            say "crate $ended could not be proved; see $logs/$ended.log"
            return 1
        fi
        state[$ended]=done
        done_count=$((done_count + 1))
    done
    show_progress "$total" "$total" "$name"
    if ! build_top; then
        stop_proving
        say "the program could not be built; see $logs/$name.log"
        return 1
    fi
    trap - INT TERM HUP
    [ -t 2 ] && echo >&2
    mv "$built.now" "$built"
}

# Runs the program unproved: it is compiled with checks at each index and sum, and ends after 20 million steps at most.
look() {
    local -a files=() words=()
    local word file messages status
    for word in "$@"; do
        if [ -f "$word" ]; then
            file=file${#files[@]}
            files+=(--data "$file=$(readlink -f "$word")")
            words+=("$file")
        else
            words+=("$word")
        fi
    done
    say "a look: nothing is proved, and the run ends after 20 million steps; this takes about a minute"
    messages=$(mktemp)
    (cd "$top/crates/$name" && rt try "${files[@]}" -- "${words[@]}") 2>"$messages"
    status=$?
    # the two last lines are the kit's, and say how the run ended
    grep -v -e '^checked: ' -e '^run=' "$messages" >&2
    rm -f "$messages"
    return $status
}
