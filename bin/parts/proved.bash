# The build with all proofs, for bin/start, which reads this file.
#
# `rt lib` proves one crate, and `rt run` the program in the end. Libraries that do not stand on each other are proved side by
# side. An `rt` holds the folders of its crate and of all crates below while it works, so two of them in one place would wait for
# each other. Each works in a *room* then: a folder with crates.txt, the libraries below as they were built, and the crate.

# below[CRATE] are the libraries here that it stands on, each behind its own; above[CRATE] is how many of those wanted stand on it.
declare -A below above
# What is under way: the process, how many processors it was given, and the memory. Memory is in tenths of a GB.
declare -A running given holds
# What a proof with one job takes, as costs.txt beside this file tells it.
declare -A takes=([other]=35)

# The libraries of the kit, which crates.txt names too, have no line of their own.
read_crates() {
    local line it deeper name
    while read -r line; do
        [[ $line =~ ^([a-z][a-z0-9_]*):(.*)$ ]] || continue
        name=${BASH_REMATCH[1]}
        below[$name]=
        for it in ${BASH_REMATCH[2]}; do
            [ -n "${below[$it]+listed}" ] || continue
            for deeper in ${below[$it]} "$it"; do
                [[ " ${below[$name]} " == *" $deeper "* ]] || below[$name]+=" $deeper"
            done
        done
    done <"$root/crates.txt"
    for name in ${below[$crate]}; do
        for it in ${below[$name]}; do
            above[$it]=$((${above[$it]:-0} + 1))
        done
    done
}

read_costs() {
    local name gigabytes
    while read -r name _ gigabytes; do
        [ "$name" = '#' ] || takes[$name]=${gigabytes/./}
    done <"$bin/parts/costs.txt"
}

# How many processors proofs may have, and how much memory. RT_JOBS says how many, and then memory is not looked at. Below 8 GB it is
# one processor, so one proof at a time.
find_places() {
    processors=${RT_JOBS:-$(nproc)}
    memory=$(awk '/^MemAvailable/ { print int($2 * 1024 / 100000000) }' /proc/meminfo)
    if [ -n "${RT_JOBS:-}" ]; then
        memory=1000000
    elif [ "$memory" -lt 80 ]; then
        processors=1
    fi
}

# The memory that the proof of a crate takes with so many jobs: a further job takes six tenths of the first one.
need_of() {
    echo $((${takes[$1]:-${takes[other]}} * (4 + 6 * $2) / 10))
}

# A second name for each file, or a copy where the file system gives none. rt takes a file away before it makes it anew.
link_or_copy() {
    cp -al -- "$@" 2>/dev/null || cp -a -- "$@"
}

# Makes the room of a crate. What an interrupted build has proved there stays.
make_room() {
    local it=$1 room=$rooms/$1 kept=$rooms/$1.kept lower part
    if [ -d "$room/crates/$it/out" ]; then
        rm -rf "$kept"
        mv "$room/crates/$it/out" "$kept"
    fi
    rm -rf "$room"
    mkdir -p "$room/crates"
    # rt wants a folder for each crate that is named there.
    awk -v wanted="${below[$it]} $it" '
        BEGIN { count = split(wanted, names, " "); for (k = 1; k <= count; k++) here[names[k] ":"] }
        $1 in here
    ' "$root/crates.txt" >"$room/crates.txt"
    for lower in ${below[$it]} "$it"; do
        mkdir -p "$room/crates/$lower/out"
        for part in src specs proofs; do
            [ ! -d "$root/crates/$lower/$part" ] || link_or_copy "$root/crates/$lower/$part" "$room/crates/$lower"
        done
        [ ! -d "$root/crates/$lower/out/rlib" ] || link_or_copy "$root/crates/$lower/out/rlib" "$room/crates/$lower/out"
    done
    if [ -d "$kept" ]; then
        rm -rf "$room/crates/$it/out"
        mv "$kept" "$room/crates/$it/out"
    elif [ -d "$root/crates/$it/out/incremental" ]; then
        link_or_copy "$root/crates/$it/out/incremental" "$room/crates/$it/out"
    fi
}

# Puts what was made in the room of a crate to the crate itself, while no other rt works there.
empty_room() {
    local it=$1 made
    mkdir -p "$root/crates/$it/out"
    (
        flock 8
        for made in "$rooms/$it/crates/$it/out"/*; do
            rm -rf "$root/crates/$it/out/${made##*/}"
            mv "$made" "$root/crates/$it/out"
        done
    ) 8<"$root/crates/$it"
    rm -rf "${rooms:?}/$it"
}

start_crate() {
    local it=$1 jobs=$2
    make_room "$it" >>"$rooms/$it.log" 2>&1 || build_failed "$rooms/$it.log"
    (cd "$rooms/$it/crates/$it" && exec rt lib --jobs "$jobs" </dev/null >>"$rooms/$it.log" 2>&1 9>&-) &
    running[$it]=$!
    given[$it]=$jobs
    holds[$it]=$(need_of "$it" "$jobs")
}

# Starts a crate with as many of the `share` processors as there is memory for. With none, it is started where nothing else runs.
start_where_it_fits() {
    local it=$1 share=$2
    while [ "$share" -gt 1 ] && [ "$(need_of "$it" "$share")" -gt "$room" ]; do
        share=$((share - 1))
    done
    [ "$(need_of "$it" "$share")" -le "$room" ] || [ ${#running[@]} -eq 0 ] || return 0
    start_crate "$it" "$share"
    free=$((free - share))
    room=$((room - holds[$it]))
}

# Starts what can be, those first on which the most stand: they are what others wait for. They share the processors and the memory
# that are free; more than four processors for one crate would gain little.
start_crates() {
    local it lower share free=$processors room=$memory ready=() waiting=()
    for it in "${!running[@]}"; do
        free=$((free - given[$it]))
        room=$((room - holds[$it]))
    done
    for it in "${left[@]}"; do
        for lower in ${below[$it]}; do
            [ -n "${proved[$lower]+is}" ] || continue 2
        done
        ready+=("$(printf '%04d %s' "${above[$it]:-0}" "$it")")
    done
    mapfile -t ready < <(printf '%s\n' "${ready[@]}" | sort -r)
    for it in "${!ready[@]}"; do
        [ "$free" -gt 0 ] && [ -n "${ready[$it]}" ] || break
        share=$((free / (${#ready[@]} - it)))
        if [ "$share" -lt 1 ]; then share=1; elif [ "$share" -gt 4 ]; then share=4; fi
        start_where_it_fits "${ready[$it]#* }" "$share"
    done
    for it in "${left[@]}"; do
        [ -n "${running[$it]+is}" ] || waiting+=("$it")
    done
    left=("${waiting[@]}")
}

# Takes in what has ended. The first that failed ends the build.
gather_crates() {
    local it status
    for it in "${!running[@]}"; do
        ! kill -0 "${running[$it]}" 2>/dev/null || continue
        printf '== %s\n' "$it" | cat - "$rooms/$it.log" >>"$log"
        status=0
        wait "${running[$it]}" || status=$?
        unset "running[$it]"
        [ "$status" -eq 0 ] || build_failed "$rooms/$it.log"
        empty_room "$it" >>"$log" 2>&1 || build_failed
        rm "$rooms/$it.log"
        proved[$it]=1
        say "$it is proved, ${#proved[@]} of $many, after $SECONDS s"
    done
}

stop_crates() {
    local it
    for it in "${running[@]}"; do
        kill "$it" 2>/dev/null || true
    done
}

prove_libraries() {
    local left processors memory
    declare -gA proved
    read -ra left <<<"${below[$crate]}"
    read_costs
    find_places
    trap stop_crates EXIT
    while [ ${#left[@]} -gt 0 ] || [ ${#running[@]} -gt 0 ]; do
        start_crates
        tell_seconds "proving ${!running[*]}"
        sleep 0.2
        gather_crates
    done
    trap - EXIT
}

# `rt run` proves the program, links it and runs it. Its help ends with status 0, so any other status is that of a failed build.
prove_program() {
    local pid
    printf '== %s\n' "$crate" >>"$log"
    (cd "$root/crates/$crate" && exec rt run -- --help </dev/null >>"$log" 2>&1 9>&-) &
    pid=$!
    # shellcheck disable=SC2064
    trap "kill $pid 2>/dev/null || true" EXIT
    while kill -0 "$pid" 2>/dev/null; do
        tell_seconds "proving $crate"
        sleep 0.2
    done
    wait "$pid" || build_failed
    trap - EXIT
}

build_proved() {
    local many
    # Among the crates rt would take the files in the rooms for theirs; it keeps its own things in .git, too.
    rooms=$root/.git/rooms/$crate
    [ -d "$root/.git" ] || rooms=$out/rooms
    read_crates
    many=$(($(wc -w <<<"${below[$crate]}") + 1))
    say "proving and building $name, which takes half an hour and more the first time; its log is $log"
    { mkdir -p "$rooms" && rm -f "$rooms"/*.log && [ -w "$rooms" ]; } 2>/dev/null || fail "cannot write to $rooms"
    prove_libraries
    prove_program
    rm -rf "$rooms"
}
