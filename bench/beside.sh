# beside.sh: the times of the library beside those of jerasure and par2 on the same file, for bench/run, which has built target/bench/timed
# before. Here and in the programs a time is milliseconds of processor time, the best of three runs, or one run where it takes 5 s or more.
# shellcheck shell=bash disable=SC2154 # c is set in scripts/archive.sh

# another coder that takes more seconds of processor time for a step is stopped, so that the whole takes about two minutes
limit=${BENCH_LIMIT:-25}
[[ $limit =~ ^[1-9][0-9]{0,5}$ ]] || {
    echo "BENCH_LIMIT is $limit: it has to be a whole number of seconds" >&2
    exit 2
}

# Sets `ms` to the time of a command, or to nothing where the limit stops it.
find_time() { # BEFORE COMMAND ARG..: BEFORE is called before each run
    local before=$1 took status TIMEFORMAT='%3U %3S'
    shift
    ms=
    for _ in 1 2 3; do
        "$before"
        status=0
        took=$({ time prlimit "--cpu=$limit" "$@" >/dev/null 2>&1; } 2>&1) || status=$?
        # ended by the kernel
        [ "$status" -le 128 ] || return 0
        [ "$status" -eq 0 ] || fail 1 "$* ends with status $status"
        took=$(awk '{ printf "%d", ($1 + $2) * 1000 }' <<<"$took")
        if [ -z "$ms" ] || [ "$took" -lt "$ms" ]; then ms=$took; fi
        [ "$took" -lt 5000 ] || return 0
    done
}

# A row: who, encoding and decoding, with the ratios to the library's times, which stand in `our_encode` and `our_decode`.
time_row() { # WHO ENCODE DECODE
    awk -v who="$1" -v e="$2" -v d="$3" -v oe="$our_encode" -v od="$our_decode" -v limit="$limit" '
        function show(ms) { return ms == "" ? "over " limit " s" : sprintf("%.0f ms", ms) }
        function times(ms, ours) { return ms == "" ? sprintf("> %.2f", limit * 1000 / ours) : sprintf("%.2f", ms / ours) }
        BEGIN { printf "%-12s %12s %8s %14s %8s\n", who, show(e), times(e, oe), show(d), times(d, od) }'
}

jerasure_row() { # K N FILE
    local said
    if ! echo '#include <jerasure.h>' | "${c[@]}" -E -isystem /usr/include/jerasure - >/dev/null 2>&1; then
        leave_out "jerasure is missing: apt-get install libjerasure-dev"
        return
    fi
    "${c[@]}" -D_POSIX_C_SOURCE=200809L -isystem /usr/include/jerasure -o target/bench/jerasure bench/jerasure.c -lJerasure -lgf_complete
    said=$(target/bench/jerasure "$@" "$limit") || [ $? -gt 128 ] || fail 1 "bench/jerasure.c fails with k $1 and n $2"
    time_row jerasure "$(sed -n 's/^encode //p' <<<"$said")" "$(sed -n 's/^decode //p' <<<"$said")"
    made=$(sed -n 's/^matrix //p' <<<"$said")
}

lose_the_parity() {
    rm -f target/bench/par2/*.par2
}

lose_the_file() {
    rm -f target/bench/par2/file
}

par2_row() { # K N FILE
    local size encode place=target/bench/par2
    command -v par2 >/dev/null || {
        leave_out "par2 is missing: apt-get install par2"
        return
    }
    size=$(($(stat -c %s "$3") / $1))
    rm -rf "$place"
    mkdir -p "$place"
    cp "$3" "$place/file"
    find_time lose_the_parity par2 create -q -q -t1 "-s$size" "-c$(($2 - $1))" -n1 "$place/file.par2" "$place/file"
    encode=$ms
    [ -n "$encode" ] || {
        echo "par2 create takes more than $limit s: BENCH_LIMIT sets another limit"
        return
    }
    find_time lose_the_file par2 repair -q -q -t1 "$place/file.par2"
    [ -z "$ms" ] || cmp "$place/file" "$3"
    time_row par2 "$encode" "$ms"
}

beside_table() { # K N BYTES
    local file=target/bench/file
    python3 -c "import random, sys; random.seed($3); sys.stdout.buffer.write(random.randbytes($3))" >"$file"
    echo
    echo "A file of $3 bytes without a pattern, k = $1 and n = $2; times, and how many times sulmirejo's they are"
    printf '%-12s %12s %8s %14s %8s\n' coder encode ratio decode ratio
    our_encode=$(target/bench/timed write "$1" "$2" "$file")
    our_decode=$(target/bench/timed read "$1" "$2" "$file")
    time_row sulmirejo "$our_encode" "$our_decode"
    made=
    jerasure_row "$1" "$2" "$file"
    par2_row "$1" "$2" "$file"
    [ -z "$made" ] || echo "(jerasure's matrix, made once for k and n, takes $made ms more)"
}

print_beside() {
    cat <<'END'
Times beside other coders: milliseconds of processor time, on one thread each, the best of three runs, or one run where it takes 5 s or more.
All lose half of the n parts and have to bring the file back from the other half.
  sulmirejo: the calls write and read, from memory to memory, with all checks. The code is not systematic, so read has to decode whatever is
             lost. The shadows at the even positions are held.
  jerasure:  jerasure_matrix_encode and jerasure_matrix_decode, w = 16, from memory to memory. The code is systematic: encoding makes only the
             n - k parts added, and the time of decoding is that of the worst case, all data parts lost. Nothing is compared or checked.
  par2:      the commands par2 create and par2 repair -t1, each a process that reads, writes and hashes files. Systematic too; the file is lost.
END
    beside_table 128 256 262144
    beside_table 2048 4096 1048576
}
