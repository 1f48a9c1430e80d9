# Where the threads of a job wait that hangs on purpose, as gasnetrun --stacks has them tell. run.sh reads this file.

# stacks BUILD WAY PATTERN..: whether a job that hangs in this way tells of all that, in some answer; then it is ended.
stacks() {
    local build=$1 way=$2 log runner pattern told=
    shift 2
    log="out/stacks-$RANDOM$RANDOM"
    bin/gasnetrun -n 2 "$build/tests/hangs" "$way" >"$log" 2>&1 &
    runner=$!
    for _ in {1..40}; do
        out/gasnetrun --stacks $runner 2>/dev/null
        sleep 0.8
        told=yes
        for pattern; do grep -q -E "$pattern" "$log" || told=; done
        [ -n "$told" ] && break
    done
    kill -KILL $runner # (the node that stopped ends with it)
    wait $runner 2>/dev/null
    cat "$log"
    rm -f "$log"
    [ -n "$told" ]
}
export -f stacks
alone="no thread is in a call of GASNet that polls"
for build in out out/sanitized; do
    kind=${build#out}
    kind=${kind:+ sanitized}
    check "stacks, a barrier$kind" 0 "" bash -c 'stacks "$@"' stacks $build barrier "node 0 of 2: thread [0-9]+ waits in gasnet_barrier_wait for [0-9.]+ s, until all" \
        "node 1 of 2: $alone"
    check "stacks, a put to a stopped node$kind" 0 "" bash -c 'stacks "$@"' stacks $build put "node 0 of 2: thread [0-9]+ waits in gasnet_put to node 1 for [0-9.]+ s" \
        "node 0 of 2: to node 1: [12] requests? without an answer, 1 piece of a transfer under way; it was heard [0-9.]+ s ago" \
        "gasnetrun: node 1 \(process [0-9]+\) is stopped"
    check "stacks, a condition$kind" 0 "" bash -c 'stacks "$@"' stacks $build condition "node 0 of 2: thread [0-9]+ waits in GASNET_BLOCKUNTIL for [0-9.]+ s" \
        "node 1 of 2: thread [0-9]+ waits in GASNET_BLOCKUNTIL for [1-9][0-9.]* s, until the program's condition holds"
    check "stacks, a lock$kind" 0 "" bash -c 'stacks "$@"' stacks $build lock "node 0 of 2: thread [0-9]+ waits in gasnet_hsl_lock for [0-9.]+ s, for a lock that another thread" \
        "node 0 of 2: $alone"
    check "stacks, no credit$kind" 0 "" bash -c 'stacks "$@"' stacks $build messages "node 0 of 2: thread [0-9]+ waits in gasnet_AMRequest to node 1 for [0-9.]+ s, for a credit" \
        "node 0 of 2: to node 1: [0-9]+ requests without an answer, 1 thread waits for a credit"
    check "stacks, a handler$kind" 0 "" bash -c 'stacks "$@"' stacks $build handler "node 0 of 2: no thread waits in a call that polls, and one is inside the library"
done
# A signal to the node itself asks too, and a job that nobody asks, or that ends, tells nothing.
one_asked() {
    local log
    log=$(bin/gasnetrun -n 2 bash -c '[ "$GASNET_RANK" = 0 ] && (sleep 1; kill -USR2 $$; sleep 1; kill $$) & exec out/tests/hangs condition' 2>&1)
    [ "$(grep -c waits <<<"$log")" = 1 ]
}
export -f one_asked
check "stacks, of one node" 0 "" bash -c one_asked
check "stacks, of a program that isn't GASNet's" 0 "node 1 hasn't called gasnet_init" bash -c \
    'bin/gasnetrun -n 2 sleep 2 & runner=$!; sleep 0.5; out/gasnetrun --stacks $runner; wait $runner'
# A node that became another program, which SIGUSR2 would end, isn't sent it; nor is what has the number of one that ended.
check "stacks, of a node that became another program" 0 "node 0 (process [0-9]*) has ended, or is another program now" bash -c \
    'bin/gasnetrun -n 1 out/tests/hangs program & runner=$!; sleep 1; out/gasnetrun --stacks $runner; wait $runner'
check "stacks, of a node that ended before its shell" 0 "node 0 (process [0-9]*) has ended" bash -c \
    'bin/gasnetrun -n 1 sh -c "out/tests/barriers; sleep 2; true" & runner=$!; sleep 1.5; out/gasnetrun --stacks $runner; wait $runner'
check "stacks, of no job" 64 "no gasnetrun has this number" bin/gasnetrun --stacks $$
