# Runs the program with less and less memory: memory.sh PROGRAM. Each run is complete and right, or ends by
# `arbiter: no memory`, status 1, after a beginning of the right output. Limits under which the system's loader gives
# up before the program begins are counted and passed over. There is a run of each kind.
program=$1

# Whether a file is a beginning of another.
begins() {
    head -c "$(wc -c < "$1")" "$2" | cmp -s "$1" -
}

# A run with so many KiB: run_with KIB STATUS INPUT OUTPUT WORDS..
run_with() {
    kib=$1 wanted=$2 input=$3 output=$4
    shift 4
    (ulimit -v "$kib" && exec "$program" "$@") < "$input" > written 2> complaint
    status=$?
    if [ "$status" -eq "$wanted" ] && cmp -s written "$output" && [ ! -s complaint ]; then
        complete=$((complete + 1))
    elif [ "$status" -eq 1 ] && [ "$(cat complaint)" = 'arbiter: no memory' ] && begins written "$output"; then
        refused=$((refused + 1))
    elif [ "$status" -ge 126 ] && [ ! -s written ] && ! grep -q '^arbiter: ' complaint; then
        unstarted=$((unstarted + 1))
    else
        echo "$* with $kib KiB: status $status, $(wc -c < written) bytes written, $(cat complaint)" >&2
        exit 1
    fi
}

# Tells how many runs there were of each kind: there must be one. counted WORDS..
counted() {
    told="$*: $complete complete, $refused without memory, $unstarted not started"
    echo "$told" >> counts
    if [ "$complete" -eq 0 ] || [ "$refused" -eq 0 ] || [ "$unstarted" -eq 0 ]; then
        echo "$told" >&2
        exit 1
    fi
}

# Runs with smaller and smaller limits: runs STATUS INPUT OUTPUT WORDS..
runs() {
    complete=0 refused=0 unstarted=0 limit=32768
    while [ "$limit" -gt 2048 ]; do
        run_with "$limit" "$@"
        if [ "$limit" -gt 8192 ]; then
            limit=$((limit - 1024))
        elif [ "$limit" -gt 4096 ]; then
            limit=$((limit - 256))
        else
            limit=$((limit - 16))
        fi
    done
    counted "$@"
}

# Runs with limits that rise by a page, from those with which the program doesn't begin to the first with which it is
# complete: refused_in_turn STATUS INPUT OUTPUT WORDS..
# By the first variable each request for memory gets pages of its own. By the second the loader finds the C library
# without a list that it would map, and let go before the program begins. So each request by which the program would
# hold more memory than ever before is refused in turn, among them both of `Session::open`.
refused_in_turn() {
    export MALLOC_MMAP_THRESHOLD_=1
    LD_LIBRARY_PATH=$(ldd "$program" | sed -n 's|.*=> \(/.*\)/libc\.so.*|\1|p')
    export LD_LIBRARY_PATH
    complete=0 refused=0 unstarted=0 limit=1024 step=64
    while [ "$complete" -eq 0 ] && [ "$limit" -lt 32768 ]; do
        limit=$((limit + step))
        run_with "$limit" "$@"
        if [ "$step" -eq 64 ] && [ "$refused" -gt 0 ]; then
            limit=$((limit - 64)) step=4
        fi
    done
    counted "$@, refused in turn"
}

runs 0 session.txt answers.txt session
runs 1 games.pgn plain.txt verify
runs 1 games.pgn verified.txt verify --keep-going
runs 1 games.pgn explained.txt verify --keep-going --explain
runs 0 stubbed.txt stub.txt stub e2e4 offer
refused_in_turn 0 session.txt answers.txt session
