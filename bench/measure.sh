# What the scripts that measure commands of `systrace` share; they source it from the folder above this one.

# Goes into a folder of its own, which is taken away at the end, with the program `proved` in it.
make_proved() {
    out=$(mktemp -d)
    trap 'rm -rf "$out"' EXIT
    if [ -n "${SYSTRACE:-}" ]; then
        cp "$SYSTRACE" "$out/proved"
    else
        (cd crates/systrace && rt run -- --version) > /dev/null
        cp crates/systrace/out/systrace "$out/proved"
    fi
    cd "$out"
}

# The same, with `unverified` too.
make_programs() {
    local sources=$PWD/bench/baseline/step
    make_proved
    rustc --edition 2024 -O -o unverified "$sources/main.rs"
}

# Sets `spent` to the processor time of all programs so far, user and system, in milliseconds. They are taken together, since the host only splits
# them by its ticks. Nothing is started for it, since that would be counted too.
note_spent() {
    local times time seconds
    times > times.text
    { read -r _; read -r -a times; } < times.text
    spent=0
    for time in "${times[@]}"; do
        # As 1m2.345s.
        seconds=${time#*m}
        seconds=${seconds%s}
        spent=$((spent + ${time%m*} * 60000 + 10#${seconds/./}))
    done
}

# What one run of each program takes, in milliseconds: the processor time of the one and the other, and the time that passes. Each is the mean of
# `runs` runs, a hundred without it. The programs take turns at each run, since the host is not equally fast all the time.
milliseconds() {
    local proved=0 unverified=0 passed_proved=0 passed_unverified=0 program run before begun passed spent
    for ((run = 0; run < ${runs:=100}; run++)); do
        for program in proved unverified; do
            note_spent
            before=$spent
            begun=${EPOCHREALTIME/[.,]/}
            "./$program" "$@" > /dev/null
            passed=$((${EPOCHREALTIME/[.,]/} - begun))
            note_spent
            printf -v "$program" %d $((${!program} + spent - before))
            printf -v "passed_$program" %d $((passed_$program + passed))
        done
    done
    awk -v n="$runs" -v a="$proved" -v b="$unverified" -v c="$passed_proved" -v d="$passed_unverified" \
        'BEGIN { printf "%.2f %.2f %.2f %.2f", a / n, b / n, c / n / 1000, d / n / 1000 }'
}

# Millions of instructions, or nothing without valgrind.
instructions() {
    if command -v valgrind > /dev/null; then
        valgrind --tool=callgrind --callgrind-out-file=/dev/null "$@" 2>&1 > /dev/null |
            awk '/Collected/ { printf "%.1f", $4 / 1e6 }'
    fi
}

# The most memory that was resident, in MiB: the median of 25 runs, since the pages that are touched depend on where the host maps a program.
memory() {
    local run
    for run in $(seq 25); do
        /usr/bin/time -f %M "$@" 2>&1 > /dev/null
    done | sort -n | sed -n 13p | awk '{ printf "%.1f", $1 / 1024 }'
}

quotient() {
    awk -v a="$1" -v b="$2" 'BEGIN { if (b > 0) printf "%.2f", a / b; else printf "-" }'
}

# Has each program write its text of these words, after the kind that they are of. Both have to end with 0 and to write the same, with `any_order`
# the same lines.
write_texts() {
    local program status
    for program in proved unverified; do
        "./$program" "${@:2}" > "$program.text" || {
            status=$?
            echo "$1: the $program program ends with $status" >&2
            exit "$status"
        }
        if [ -n "${any_order:-}" ]; then sort -o "$program.text" "$program.text"; fi
    done
    if ! cmp -s proved.text unverified.text; then
        echo "$1: the programs write different texts" >&2
        exit 1
    fi
}

# The head of a table whose first columns have these names. With `time_passed` the table has that time too.
print_head() {
    local row='|' line='|' column
    for column in "$@" ${time_passed:+'ms passed, proved' unverified quotient} 'ms, proved' unverified quotient \
        'million instructions, proved' unverified quotient 'MiB, proved' unverified quotient; do
        row="$row $column |"
        line="$line---|"
    done
    printf '%s\n%s\n' "$row" "$line"
}

# A row of the table: its first columns, and then what these words cost each program.
print_row() {
    local row=$1 unit a b c d
    shift
    read -r a b c d <<< "$(milliseconds "$@")"
    if [ -n "${time_passed:-}" ]; then row="$row $c | $d | $(quotient "$c" "$d") |"; fi
    row="$row $a | $b | $(quotient "$a" "$b") |"
    for unit in instructions memory; do
        a=$("$unit" ./proved "$@")
        b=$("$unit" ./unverified "$@")
        row="$row $a | $b | $(quotient "$a" "$b") |"
    done
    echo "$row"
}

# Writes the files policy, script and schedule of a run of as many threads as may be, each of which holds call after call.
threads() {
    {
        echo 'Policy: /bin/cat, Emulation: native'
        echo 'native-fsread: filename eq "/srv/f" then permit'
    } > policy
    {
        printf 'dir "/srv" 0 0 755\nfile "/srv/f" 0 0 644 "x"\n'
        for p in $(seq 8); do echo "process p$p traced \"/bin/cat\" 1000 1000 \"/\""; done
        for t in $(seq 64); do
            echo "thread t$t in p$((t % 8 + 1))"
            echo 'put 0 "/srv/f"'
            for _ in $(seq 60); do echo 'call access 0 4'; done
            echo end
        done
    } > script
    echo rest > schedule
}
