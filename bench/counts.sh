# counts.sh: the tables of instruction counts, for bench/run, which has built target/bench/calls before.
# shellcheck shell=bash

declare -A costs

# Sets `cost` to the instructions of one call: a run with the call, less a run that only prepares and compares. A call is counted once.
find_cost() { # CALL K N KIND BLOCKS
    local with without key="$*"
    if [ -z "${costs[$key]:-}" ]; then
        without=$(bench/instructions target/bench/calls "$@" 0)
        with=$(bench/instructions target/bench/calls "$@" 1)
        costs[$key]=$((with - without))
    fi
    cost=${costs[$key]}
}

# Sets `inside` to the instructions that a function executes in a call with all that it calls, or to 0 if the compiler has left no such function.
find_inside() { # FUNCTION CALL K N KIND BLOCKS
    inside=$(bench/instructions --in "$1" target/bench/calls "${@:2}" 1)
}

# Sets `cost` to the instructions of the transform that has its turns in a table. Decode makes it once where all N symbols are held. Where the
# compiler has put it into its caller, its halving is counted there, and its arranging, which is the same function, in the transform by a running
# product. 0 if they cannot be told apart.
find_by_table() { # N
    local halving whole
    find_inside transform_table::transform_by decode $(($1 / 2)) "$1" all 1
    cost=$inside
    [ "$cost" -eq 0 ] || return 0
    find_inside transform_table::halve_by decode $(($1 / 2)) "$1" all 1
    halving=$inside
    find_inside transform_halving::transform transform "$1" "$1" all 0
    whole=$inside
    find_inside transform_halving::halve transform "$1" "$1" all 0
    [ "$halving" -eq 0 ] || [ "$whole" -eq 0 ] || [ "$inside" -eq 0 ] || cost=$((halving + whole - inside))
}

# Sets `each` to the instructions of one block more, and `fixed` to what a call takes beside its blocks.
find_block() { # CALL K N KIND
    local few many
    # enough blocks to have the mean of several, where they are cheap
    few=$(($3 > 1024 ? 1 : 4))
    many=$((2 * few))
    find_cost "$1" "$2" "$3" "$4" "$few"
    fixed=$cost
    find_cost "$1" "$2" "$3" "$4" "$many"
    each=$(((cost - fixed) / (many - few)))
    fixed=$((fixed - few * each))
}

transform_table() {
    local size butterflies exponent there back
    echo
    echo "The transform: instructions a call, and a butterfly, of which there are N/2 · log2 N. Transform and inverse keep a running product of the"
    echo "root; by a table is the transform inside decode and read, the work alone, with no checks and no clearing."
    printf '%6s %12s %12s %12s %12s %12s %12s\n' N transform a-butterfly inverse a-butterfly by-a-table a-butterfly
    for exponent in 4 6 8 10 12; do
        size=$((1 << exponent))
        butterflies=$((size * exponent / 2))
        find_cost transform "$size" "$size" all 0
        there=$cost
        find_cost inverse "$size" "$size" all 0
        back=$cost
        cost=0
        find_by_table "$size"
        awk -v n="$size" -v b="$butterflies" -v t="$there" -v i="$back" -v h="$cost" \
            'BEGIN { printf "%6d %12d %12.1f %12d %12.1f %12s %12s\n", n, t, t / b, i, i / b, h ? h : "-", h ? sprintf("%.1f", h / b) : "-" }'
    done
}

# A row: what, how many instructions, in how many transforms of N, and in how many for each byte of the message, if there are such bytes
row() { # WHAT INSTRUCTIONS TRANSFORM BYTES
    awk -v what="$1" -v i="$2" -v t="$3" -v b="$4" \
        'BEGIN { printf "%-58s %13d %11.2f %10s\n", what, i, i / t, b ? sprintf("%.1f", i / b) : "" }'
}

block_row() { # WHAT CALL K N KIND TRANSFORM
    find_cost "$2" "$3" "$4" "$5" 1
    row "$1" "$cost" "$6" $((2 * $3))
}

bundle_rows() { # WHAT CALL K N KIND TRANSFORM
    find_block "$2" "$3" "$4" "$5"
    row "$1: each block" "$each" "$6" $((2 * $3))
    row "$1: beside the blocks" "$fixed" "$6" 0
}

shape_table() { # K N
    local transform
    find_cost transform "$2" "$2" all 0
    transform=$cost
    echo
    echo "k = $1, n = $2: instructions, in transforms of N = $2 (of $transform), and for each of a block's $((2 * $1)) bytes"
    printf '%-58s %13s %11s %10s\n' call instructions transforms a-byte
    block_row "encode" encode "$1" "$2" all "$transform"
    block_row "decode, k held, the even positions" decode "$1" "$2" even "$transform"
    block_row "decode, k held without a pattern" decode "$1" "$2" some "$transform"
    block_row "decode, all n held" decode "$1" "$2" all "$transform"
    bundle_rows "write, no symbol overflows" write "$1" "$2" fits "$transform"
    bundle_rows "write, one in each block does" write "$1" "$2" over "$transform"
    bundle_rows "read, k held, the even positions" read "$1" "$2" even "$transform"
    bundle_rows "read, k held without a pattern" read "$1" "$2" some "$transform"
    bundle_rows "read, all n held" read "$1" "$2" all "$transform"
}

growth_table() {
    local n k transform encode decode
    echo
    echo "How the cost of a block grows, in transforms of N = n: k = n/2, k held without a pattern"
    printf '%6s %12s %12s %18s\n' n encode decode read,-each-block
    for n in 16 64 256 1024 4096; do
        k=$((n / 2))
        find_cost transform "$n" "$n" all 0
        transform=$cost
        find_cost encode "$k" "$n" all 1
        encode=$cost
        find_cost decode "$k" "$n" some 1
        decode=$cost
        find_block read "$k" "$n" some
        awk -v n="$n" -v t="$transform" -v e="$encode" -v d="$decode" -v r="$each" \
            'BEGIN { printf "%6d %12.2f %12.2f %18.2f\n", n, e / t, d / t, r / t }'
    done
}

print_counts() {
    echo "Counts of x86-64 instructions. Each is the difference of two runs, one that makes the call and one that only prepares it, so that the"
    echo "loader, the start-up, the filling and the comparison with the due result are left out. A block is the difference of two such calls on"
    echo "files with different numbers of blocks. A call is the entry point whole: the checks, the work, and the working space cleared."
    transform_table
    shape_table 128 256
    shape_table 2048 4096
    growth_table
}
