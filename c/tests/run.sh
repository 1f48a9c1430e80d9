#!/bin/bash
# Runs the tests: tests/run.sh [WORD], those whose name has the word. Each has a time limit, and a log in out/logs.
# Nothing is promised of time, so a test that fails is run once more, with a line that says so; the last line counts those.
# A test whose own check failed, which is status 1, isn't.
# GASNET_TEST_QUICK=1 leaves out the loss of 10 %, the eight nodes, and losses among 256.
cd "$(dirname "$0")/.." || exit 2
word=${1:-}
limit=${GASNET_TEST_LIMIT:-150}
passed=0 failed=0 skipped=0 repeated=0
rm -rf out/logs
mkdir -p out/logs
export ASAN_OPTIONS=abort_on_error=0 UBSAN_OPTIONS=print_stacktrace=1

wanted() { [[ "$1" == *"$word"* ]]; }

tell() { # NAME BEGUN OUTCOME LOG
    local took=$(($(date +%s%N) / 1000000 - $2))
    if [ "$3" = ok ]; then
        passed=$((passed + 1))
        echo "ok      $1 ($took ms)"
    else
        failed=$((failed + 1))
        echo "FAILED  $1 ($took ms): $3; $4 ends with"
        tail -5 "$4" | sed 's/^/        /'
    fi
}

# check NAME STATUS PATTERN COMMAND..: the command ends with this status in time, and its output has the pattern.
check() {
    local name=$1 status=$2 pattern=$3
    shift 3
    wanted "$name" || return
    local log="out/logs/${name//[ \/]/_}.log" begun=$(($(date +%s%N) / 1000000)) outcome got
    try_once "$@"
    if [ "$outcome" != ok ] && [ "$got" != 1 ]; then
        repeated=$((repeated + 1))
        echo "again   $name: $outcome"
        mv "$log" "$log.first"
        try_once "$@"
    fi
    tell "$name" "$begun" "$outcome" "$log"
}

# try_once COMMAND..: runs it within the limit into `log`, and sets `got`, its status, and `outcome` by `status` and `pattern`.
try_once() {
    timeout -k 5 "$limit" "$@" >"$log" 2>&1
    got=$?
    outcome=ok
    [ "$got" = "$status" ] || outcome="status $got where $status is wanted"
    [ "$outcome" = ok ] && [ -n "$pattern" ] && ! grep -q -e "$pattern" "$log" && outcome="no '$pattern' in its output"
}

skip() {
    wanted "$1" || return
    skipped=$((skipped + 1))
    echo "skipped $1: $2"
}

# The same of what needs a key, where the library has any.
keyed() {
    if grep -q crypto out/gasnet.pc; then
        check "$@"
    else
        skip "$1" "libgasnet was built without libcrypto (Debian: libssl-dev)"
    fi
}

# What the specification says, call by call, over clean and lossy networks, with and without sanitizers.
sizes="1 2 4 8" losses="0 10 30"
[ -n "$GASNET_TEST_QUICK" ] && sizes="1 2 4" losses="0 30"
for build in out out/sanitized; do
    kind=${build#out}
    kind=${kind:+ sanitized}
    for test in queries messages transfers pieces packs atomics numbers collectives barriers locks threads strangers; do
        for n in $sizes; do
            for loss in $losses; do
                [ "$n" = 1 ] && [ "$loss" != 0 ] && continue
                [ "$test" = strangers ] && [ "$loss" != 0 ] && continue
                check "$test n=$n loss=$loss$kind" 0 "" env GASNET_DROP="$loss" GASNET_TWICE="$loss" GASNET_SWAP="$loss" \
                    GASNET_SEED="$n" GASNET_RESEND=5 bin/gasnetrun -n "$n" "$build/tests/$test"
            done
        done
    done
done

# Calls wait for what the endpoint answers, also where the layer is told of chunks twice, or never.
for build in out out/sanitized; do
    kind=${build#out}
    kind=${kind:+ sanitized}
    for loss in $losses; do
        for way in answers hints; do
            check "syncs $way loss=$loss$kind" 0 "" env GASNET_DROP="$loss" GASNET_TWICE="$loss" GASNET_SWAP="$loss" \
                GASNET_RESEND=5 bin/gasnetrun -n 2 "$build/tests/syncs" "$way"
        done
    done
    check "syncs bad$kind" 71 "the sync of a transfer with node . was answered 5" bin/gasnetrun -n 2 $build/tests/syncs bad
    check "syncs in small packets$kind" 0 "" env GASNET_MTU=1500 bin/gasnetrun -n 2 $build/tests/syncs hints
    check "syncs asleep$kind" 0 "" env GASNET_SPIN=1 bin/gasnetrun -n 3 $build/tests/syncs hints
    for n in 3 8; do
        check "shares n=$n$kind" 0 "" env GASNET_PROGRESS=poll bin/gasnetrun -n $n $build/tests/shares
    done
done

# Three nodes, and a thousand mixed collectives among four over a lossy network.
for build in out out/sanitized; do
    kind=${build#out}
    kind=${kind:+ sanitized}
    check "collectives n=3 loss=0$kind" 0 "" bin/gasnetrun -n 3 $build/tests/collectives
    limit=600 check "collectives n=4 loss=20 mixed$kind" 0 "^1000 collectives were right" env GASNET_DROP=20 GASNET_TWICE=20 \
        GASNET_SWAP=20 GASNET_SEED=7 GASNET_RESEND=5 bin/gasnetrun -n 4 $build/tests/collectives 1000
done

for way in thread poll; do
    check "stores, $way" 0 "" env GASNET_PROGRESS=$way bin/gasnetrun -n 2 out/tests/stores
done
check "threads leave nothing" 0 "" bin/gasnetrun -n 2 out/tests/leaks

# Handlers with a count of their own, requested from their own node; and the memory that the proved library gives back.
for build in out out/sanitized; do
    kind=${build#out}
    kind=${kind:+ sanitized}
    for n in 1 2; do
        check "own n=$n$kind" 0 "" env GASNET_DROP=10 GASNET_TWICE=10 GASNET_SWAP=10 GASNET_SEED=$n GASNET_RESEND=5 \
            bin/gasnetrun -n $n $build/tests/own
    done
    check "freed$kind" 0 "" $build/tests/freed
done

# The records of gasnet_c.h have the layouts of the proved library: with two fields exchanged the layer isn't compiled.
changed_layout() {
    mkdir -p out/changed
    sed 's/uint16_t to, slot;/uint16_t slot, to;/' include/gasnet_c.h >out/changed/gasnet_c.h
    ${CC:-gcc} -std=c11 -Iinclude -fsyntax-only src/layouts.c && ! ${CC:-gcc} -std=c11 -Iout/changed -fsyntax-only src/layouts.c
}
export -f changed_layout
check "layouts" 0 "the place of to in gasnet_c_told" bash -c changed_layout

check "large segments" 0 "" env GASNET_MAX_SEGSIZE=100G bin/gasnetrun -n 2 out/tests/large
check "many nodes" 0 "" bin/gasnetrun -n 64 out/tests/queries
check "many nodes, collectives" 0 "^6 collectives were right" bin/gasnetrun -n 64 out/tests/collectives 6
for n in 64 128 256; do
    check "scale n=$n" 0 "^$n nodes were right" bin/gasnetrun -n $n out/tests/scale
done
[ -n "$GASNET_TEST_QUICK" ] || check "scale n=256 loss=5" 0 "^256 nodes were right" env GASNET_DROP=5 bin/gasnetrun -n 256 out/tests/scale
check "scale n=8 loss=5 sanitized" 0 "^8 nodes were right" env GASNET_DROP=5 bin/gasnetrun -n 8 out/sanitized/tests/scale
# Of two nodes the system takes no stranger's datagram.
check "strangers are counted" 0 "strays [1-9]" env GASNET_COUNTS=1 bin/gasnetrun -n 3 out/tests/strangers

# Datagrams that nobody would send now, from the nodes' own addresses: altered ones of this run, and those of an earlier one with
# the same addresses, number and key, whether it was ended by a status or not.
(umask 077; printf '6b%.0s' {1..32} >out/key)
for build in out out/sanitized; do
    kind=${build#out}
    kind=${kind:+ sanitized}
    for seed in 1 2 3; do
        check "fuzz $seed$kind" 0 "" bin/gasnetrun -n 3 $build/tests/fuzz mutate $seed
    done
    keyed "fuzz with a key$kind" 0 "" env GASNET_KEY_FILE=out/key bin/gasnetrun -n 3 $build/tests/fuzz mutate 4
    keyed "fuzz, numbers of what is sealed$kind" 0 "" env GASNET_KEY_FILE=out/key GASNET_DROP=10 GASNET_TWICE=10 GASNET_SWAP=10 \
        GASNET_RESEND=20 bin/gasnetrun -n 3 $build/tests/fuzz count 5
done
# Datagrams that may be believed: whoever is on the path, and has no key to guess, ends the job or spoils its results, and no more.
forged() { # SEED..: no node touches memory beyond its own, or finds the endpoint and the layer at odds
    local seed log
    for seed; do
        log=$(GASNET_END_TIMEOUT=200 timeout 60 bin/gasnetrun -n 3 out/sanitized/tests/fuzz forge "$seed" 2>&1)
        [ $? != 124 ] && ! grep -E "Sanitizer|runtime error|by signal (4|6|7|8|11)|was answered [0-9]" <<<"$log" && continue
        echo "seed $seed: $log"
        return 1
    done
}
export -f forged
check "fuzz forged sanitized" 0 "" bash -c "forged 1 2 3 20 35 40 45"
alone() { # RANK COMMAND..: this process becomes a node that is started by hand
    exec env GASNET_NODES=2 GASNET_RANK=$1 GASNET_JOB=7 GASNET_ADDRESSES=127.0.0.1:$port,127.0.0.1:$((port + 1)) "${@:2}"
}
former() { # CODE: node 1 of a run that ends with it is recorded, and what it sent comes again in the next run
    local port=$((20000 + RANDOM % 10000)) record=out/former-$1.$$ first
    (GASNET_EXIT_TIMEOUT=1 alone 0 out/tests/fuzz record "$record") &
    first=$!
    (GASNET_EXIT_TIMEOUT=1 alone 1 out/tests/fuzz record "$record" "$1")
    [ $? = "$1" ] || return 3
    wait $first
    (alone 0 out/sanitized/tests/fuzz replay "$record") &
    first=$!
    sleep 0.3
    (alone 1 out/sanitized/tests/fuzz replay "$record") && wait $first
    set -- $?
    rm -f "$record"
    return "$1"
}
export -f alone former
for code in 0 3; do
    check "former run that ended with $code" 0 "" bash -c "former $code"
    keyed "former run with a key that ended with $code" 0 "" env GASNET_KEY_FILE=out/key bash -c "former $code"
done

# Refusals by ICMP that wait on a node's socket, whoever made them, keep back nothing that it sends.
refused() {
    local log
    log=$(GASNET_COUNTS=1 GASNET_PROGRESS=poll bin/gasnetrun -n 2 "$1/tests/refusals" 2>&1) && ! grep "unsent [1-9]" <<<"$log" && return
    echo "$log"
    return 1
}
export -f refused
check "refusals that wait" 0 "" bash -c "refused out"
check "refusals that wait sanitized" 0 "" bash -c "refused out/sanitized"

# On networks of namespaces, where they can be had: queues, packets of 1,500 bytes, loss, and nodes that compute.
if why=$(tests/network can 2>&1); then
    for test in incast loss phases stall icmp complete hosts halo; do
        check "network $test" 0 "" tests/network "$test"
    done
else
    skip "network" "${why:-there is no python3}"
fi

check "round trips and windows" 0 "" out/sanitized/tests/windows
check "patience" 0 "" out/sanitized/tests/patience
# Two nodes on one processor, where a spin keeps the other one from it: a wait sleeps at once, and a round trip takes a twentieth
# of the processor's time that it takes with spins.
waits_on_one() {
    local processor own fixed
    processor=$(taskset -pc $$ | sed 's/.*: //; s/[,-].*//')
    own=$(taskset -c "$processor" bin/gasnetrun -n 2 out/tests/waits)
    fixed=$(GASNET_SPIN=400 taskset -c "$processor" bin/gasnetrun -n 2 out/tests/waits)
    echo "a round trip takes $own ns of a processor, with GASNET_SPIN=400 $fixed"
    [ "$own" -gt 0 ] && [ $((4 * own)) -le "$fixed" ] || return 3
}
export -f waits_on_one
check "waits on one processor" 0 "" bash -c waits_on_one
check "runs of pieces" 0 "" out/sanitized/tests/runs

# Sealed: with one key all goes as without, over a lossy network too; with two keys the nodes don't hear each other. What a
# processor has by OPENSSL_ia32cap libcrypto takes for what it has: these two have no instructions for AES.
no_aes="OPENSSL_ia32cap=~0x200000200000000"
keyed "seals by AES-256-GCM" 0 "^AES-256-GCM: [0-9]\{6\}" out/sanitized/tests/seals
keyed "seals by ChaCha20-Poly1305" 0 "^ChaCha20-Poly1305: [0-9]\{6\}" env "$no_aes" out/sanitized/tests/seals
(umask 077; printf '6b%.0s' {1..32} >out/key; printf '7c%.0s' {1..32} >out/other-key; cp out/key out/open-key; chmod 640 out/open-key)
for build in out out/sanitized; do
    kind=${build#out}
    kind=${kind:+ sanitized}
    for test in messages transfers barriers threads collectives; do
        keyed "sealed $test$kind" 0 "" env GASNET_KEY_FILE=out/key GASNET_DROP=10 GASNET_TWICE=10 GASNET_SWAP=10 GASNET_RESEND=20 \
            bin/gasnetrun -n 3 $build/tests/$test
    done
    keyed "sealed in small packets$kind" 0 "" env GASNET_KEY_FILE=out/key GASNET_MTU=1500 bin/gasnetrun -n 2 $build/tests/transfers
    keyed "sealed by both ciphers$kind" 0 "" env GASNET_KEY_FILE=out/key bin/gasnetrun -n 3 \
        bash -c "[ \$GASNET_RANK = 0 ] && export $no_aes; exec $build/tests/messages"
done
keyed "sealed strangers are counted" 0 "unsealed [0-9]" env GASNET_KEY_FILE=out/key GASNET_COUNTS=1 bin/gasnetrun -n 2 out/tests/strangers
keyed "sealed by two keys" 69 "didn.t come to gasnet_attach" env GASNET_PEER_TIMEOUT=2 bin/gasnetrun -n 2 \
    bash -c '[ "$GASNET_RANK" = 0 ] && key=out/key || key=out/other-key; GASNET_KEY_FILE=$key exec out/tests/messages'
keyed "sealed by an open key" 0 "others than its owner" bash -c 'GASNET_KEY_FILE=out/open-key bin/gasnetrun -n 2 out/tests/messages; [ $? != 0 ]; echo'
their_key() { # root may read it, and doesn't take it
    cp out/key out/their-key && chmod 600 out/their-key && chown nobody out/their-key || return
    GASNET_KEY_FILE=out/their-key bin/gasnetrun -n 2 out/tests/messages
    [ $? != 0 ]
}
export -f their_key
if [ "$(id -u)" = 0 ]; then
    keyed "sealed by another's key" 0 "it belongs to nobody (user [0-9]*)" bash -c their_key
else
    skip "sealed by another's key" "a file of another user's takes root"
fi
for n in 2 3; do
    keyed "sealed, keys that are late n=$n" 0 "" env GASNET_KEY_FILE=out/key bin/gasnetrun -n $n out/sanitized/tests/wants
done
for way in "one 5" "all 3" "alarm 7" "handler 6"; do
    keyed "sealed end $way" "${way#* }" "" env GASNET_KEY_FILE=out/key bin/gasnetrun -n 3 out/sanitized/tests/ends $way
done
# A layer that is built without libcrypto refuses the variable.
without_crypto() {
    mkdir -p out/keyless
    for source in src/*.c; do
        [ $source = src/gasnetrun.c ] || ${CC:-gcc} -std=c11 -D_GNU_SOURCE -Wall -Wextra -Werror -Iinclude -Isrc -c $source \
            -o out/keyless/$(basename $source .c).o || return
    done
    ${CC:-gcc} -std=c11 -D_GNU_SOURCE -Iinclude tests/barriers.c out/keyless/*.o -Lout -lgasnet -lpthread -o out/keyless/barriers &&
        bin/gasnetrun -n 2 out/keyless/barriers && ! GASNET_KEY_FILE=out/key bin/gasnetrun -n 2 out/keyless/barriers
}
export -f without_crypto
check "sealed by no library" 0 "GASNET_KEY_FILE is 'out/key': this library was built without OpenSSL" bash -c without_crypto
# A put of a MiB under a key beside one without, as medians of runs that take turns: not quite half (bench), and a fifth where the
# processor has no instructions for AES. Below an eighth something else than the cipher is slow.
sealed_speed() {
    local plain=() sealed=() rate
    for _ in {1..9}; do
        plain+=("$(bin/gasnetrun -n 2 out/tests/rates)")
        sealed+=("$(GASNET_KEY_FILE=out/key bin/gasnetrun -n 2 out/tests/rates)")
    done
    median() { printf '%s\n' "$@" | sort -n | sed -n 5p; }
    rate=$(echo "$(median "${plain[@]}") $(median "${sealed[@]}")" | awk '{ printf "%d", 100 * $2 / $1 }')
    echo "a sealed put goes at $rate % of another: ${sealed[*]} MB/s, ${plain[*]}"
    [ "$rate" -ge 12 ] || return 3
}
export -f sealed_speed
keyed "sealed puts of a MiB" 0 "" bash -c sealed_speed

# Each rule that is broken ends the job with a line.
for rule in request-in-handler put-in-handler get-in-handler poll-in-handler barrier-in-handler sync-in-handler \
    reply-under-lock handler-keeps-lock second-reply reply-in-reply lock-twice trylock-twice unlock-free \
    unlock-out-of-order poll-under-lock destroy-held hold-twice resume-alone poll-in-section put-outside get-before \
    put-to-nobody get-to-null get-half-inside handle-twice strides-overflow value-of-9 region-twice region-none sync-in-region notify-twice wait-alone flags-unknown \
    handler-of-nobody put-before-attach atomic-outside atomic-unaligned atomic-to-nobody atomic-not-in-domain \
    atomic-half-unaligned atomic-of-no-type atomic-of-another-type atomic-of-no-operation atomic-in-handler atomic-own-252 \
    collective-in-handler collective-own-254 collective-to-nobody collective-of-32-bits collective-by-xor \
    collective-from-nowhere collective-other-length collective-other-root collective-other-kind; do
    check "rule $rule" 70 "^gasnet: " bin/gasnetrun -n 2 out/sanitized/tests/rules "$rule"
done

# A thread of the layer serves the peers while the client computes; without it they wait, and all comes right too.
for build in out out/sanitized; do
    kind=${build#out}
    kind=${kind:+ sanitized}
    for way in serve keep fork; do
        check "progress $way$kind" 0 "" env ASAN_OPTIONS=detect_leaks=$([ $way = fork ] && echo 0 || echo 1) bin/gasnetrun -n 4 $build/tests/progress $way
    done
    check "progress serve with loss$kind" 0 "" env GASNET_DROP=10 GASNET_TWICE=10 GASNET_SWAP=10 GASNET_RESEND=5 \
        bin/gasnetrun -n 3 $build/tests/progress serve
    check "progress phases$kind" 0 "" env GASNET_DROP=5 GASNET_RESEND=20 bin/gasnetrun -n 3 $build/tests/progress phases
    for progress in thread poll; do
        check "attach with loss, $progress$kind" 0 "" env GASNET_PROGRESS=$progress bash -c "for seed in {1..5}; do
            GASNET_SEED=\$seed GASNET_DROP=20 GASNET_RESEND=5 timeout 20 bin/gasnetrun -n 4 $build/tests/progress attach || exit; done"
    done
    check "progress end$kind" 5 "" env GASNET_PROGRESS=thread GASNET_GRACE=100000 timeout 40 bin/gasnetrun -n 3 $build/tests/progress end
    check "progress quit$kind" 0 "^quit" env GASNET_PROGRESS=thread GASNET_GRACE=100000 bash -c \
        "timeout 40 bin/gasnetrun -n 3 $build/tests/progress quit; case \$? in 5 | 9) ;; *) false ;; esac"
done
check "progress by polls" 0 "" env GASNET_PROGRESS=poll bin/gasnetrun -n 4 out/tests/progress serve
check "progress of silent peers" 0 "" env GASNET_PROGRESS=thread GASNET_PEER_TIMEOUT=1 bin/gasnetrun -n 2 out/tests/progress silent
check "progress is counted" 0 "thread turns [1-9].* kept [1-9]" env GASNET_COUNTS=1 GASNET_PROGRESS=thread bin/gasnetrun -n 2 out/tests/progress keep
check "polls wake no thread" 0 "thread turns [0-9]\{1,2\}, wakes [0-9]\{1,2\}, looks" env GASNET_COUNTS=1 GASNET_PROGRESS=thread bin/gasnetrun -n 2 out/tests/progress poll
check "suspended" 0 "" env GASNET_PEER_TIMEOUT=2 bash -c \
    'bin/gasnetrun -n 2 out/tests/progress silent & runner=$!; sleep 1
     nodes=$(pgrep -P $runner); kill -STOP $nodes; sleep 4; kill -CONT $nodes; wait $runner'

# Pieces go packed on ways with small packets and with few credits, under a key, and without the thread; and one by one from and to
# a node whose client has the index itself.
for build in out out/sanitized; do
    kind=${build#out}
    kind=${kind:+ sanitized}
    for settings in GASNET_MTU=576 GASNET_MTU=1500 GASNET_CREDITS=1 GASNET_PROGRESS=poll; do
        check "packs $settings$kind" 0 "" env $settings bin/gasnetrun -n 2 $build/tests/packs
    done
    check "packs of 1,500 bytes with loss$kind" 0 "" env GASNET_MTU=1500 GASNET_DROP=5 GASNET_TWICE=5 GASNET_SWAP=5 GASNET_RESEND=5 \
        bin/gasnetrun -n 3 $build/tests/packs
    keyed "packs under a key$kind" 0 "" env GASNET_KEY_FILE=out/key GASNET_DROP=20 GASNET_RESEND=5 bin/gasnetrun -n 2 $build/tests/packs
    for node in -1 0 2; do
        check "packs, the client's index on node $node$kind" 0 "" bin/gasnetrun -n 3 $build/tests/packs own $node
    done
done
check "packs are few" 0 "node 0: sent [0-9]\{1,4\}, resent" env GASNET_COUNTS=1 bin/gasnetrun -n 2 out/tests/packs counted
# A message that names what is outside of a segment, or no pieces, writes nothing.
for what in behind beyond before second turned fewer more broken empty kind all get; do
    check "packs, $what is forged" 70 "^node 1 has what it had" bin/gasnetrun -n 2 out/sanitized/tests/packs forged $what
done
check "packs, one is right" 70 "^node 1 has what was put" bin/gasnetrun -n 2 out/sanitized/tests/packs forged right

# Nodes with other settings are refused by name, by both.
unequal() { # VARIABLE VALUE VALUE
    local log
    log=$(bin/gasnetrun -n 2 bash -c "[ \$GASNET_RANK = 0 ] && export $1=$2 || export $1=$3; exec out/tests/barriers" 2>&1)
    [ $? = 70 ] && [[ $log == *"node 1 has $1=$3, this node $2: set the same on all nodes"* ]] &&
        [[ $log == *"node 0 has $1=$2, this node $3: set the same on all nodes"* ]] && return
    echo "$log"
    return 1
}
export -f unequal
check "unequal GASNET_CREDITS" 0 "" bash -c 'unequal GASNET_CREDITS 32 16'
check "unequal GASNET_RESEND" 0 "" bash -c 'unequal GASNET_RESEND 20 50'
check "messages by GASNET_MTU" 0 "" env GASNET_MTU=1500 bin/gasnetrun -n 2 out/tests/messages
check "unequal GASNET_MTU" 0 "" bin/gasnetrun -n 2 bash -c 'export GASNET_MTU=$((1000 + 500 * GASNET_RANK)); exec out/tests/transfers'
more_nodes() { # node 1 counts a node more than node 0
    local port=$((20000 + RANDOM % 10000)) log
    local all=127.0.0.1:$port,127.0.0.1:$((port + 1))
    log=$( (GASNET_RANK=0 GASNET_NODES=2 GASNET_ADDRESSES=$all out/tests/barriers &
        GASNET_RANK=1 GASNET_NODES=3 GASNET_ADDRESSES=$all,127.0.0.1:$((port + 2)) out/tests/barriers; echo "status $?"; wait) 2>&1)
    echo "$log"
    [[ $log == *"status 70"* && $log == *"node 1 has GASNET_NODES=3, this node 2: set the same"* && $log == *"node 0 has GASNET_NODES=2, this node 3"* ]]
}
export -f more_nodes
check "unequal GASNET_NODES" 0 "" bash -c more_nodes
check "few credits" 0 "" env GASNET_CREDITS=1 bin/gasnetrun -n 2 out/tests/transfers

check "rule collective-given-254" 70 "handler 254, which collectives need, is the client's: gasnet_attach gave it" \
    bin/gasnetrun -n 2 out/sanitized/tests/rules collective-given-254
for n in 2 124; do
    check "indexes, $n of any" 0 "" bin/gasnetrun -n 2 out/sanitized/tests/indexes $n
done

# A call in a signal's handler that interrupted one, or behind a longjmp out of one, and descriptors that the client closed.
for rule in poll-in-signal:"gasnet_AMPoll is called while the thread is in another call" \
    wait-behind-jump:"gasnet_barrier_wait is called while the thread is in another call" \
    put-behind-exit:"gasnet_put_val is called after gasnet_exit" close-all:"a descriptor of this library is gone"; do
    check "rule ${rule%%:*}" 70 "${rule#*:}" bin/gasnetrun -n 2 out/sanitized/tests/rules "${rule%%:*}"
done
check "careless signal" 70 "gasnet_AMPoll is called while the thread is in another call" bin/gasnetrun -n 2 out/tests/careless signal
check "careless end in a handler" 70 "a thread ended within a call of GASNet" bin/gasnetrun -n 2 out/tests/careless end-in-handler
for way in begin fork cancel-wait cancel-get; do # (AddressSanitizer leaves marks on the stack of a cancelled thread)
    build=out/sanitized
    [[ $way == cancel-* ]] && build=out
    check "careless $way" 0 "" env ASAN_OPTIONS=detect_leaks=0 bin/gasnetrun -n 2 $build/tests/careless $way
done
careless_streams() { # two nodes without gasnetrun, whose sockets are their own
    local port=$((20000 + RANDOM % 10000)) first
    (alone 0 out/tests/careless streams) &
    first=$!
    (alone 1 out/tests/careless streams) && wait $first
}
export -f careless_streams
check "careless streams" 0 "" bash -c careless_streams

check "rule another-thread" 70 "gasnet_AMPoll is called by another thread than the one .*: define GASNET_PAR" \
    bin/gasnetrun -n 2 out/sanitized/tests/rules another-thread

# How a job ends.
for build in out out/sanitized; do
    kind=${build#out}
    kind=${kind:+ sanitized}
    check "end all 0$kind" 0 "" bin/gasnetrun -n 3 $build/tests/ends all 0
    check "end all 3$kind" 3 "" bin/gasnetrun -n 3 $build/tests/ends all 3
    check "end return 0$kind" 0 "" bin/gasnetrun -n 3 $build/tests/ends return 0
    check "end return 4$kind" 4 "" bin/gasnetrun -n 3 $build/tests/ends return 4
    check "end one 5$kind" 5 "" bin/gasnetrun -n 3 $build/tests/ends one 5
    check "end one 0$kind" 0 "ends the others: node . hadn't called it after 1 s" env GASNET_EXIT_TIMEOUT=1 bin/gasnetrun -n 3 $build/tests/ends one 0
    for way in fork fork-exit fork-call; do # (LeakSanitizer stops in a child of a process with several threads)
        check "end $way$kind" 0 "" env ASAN_OPTIONS=detect_leaks=0 bin/gasnetrun -n 3 $build/tests/ends $way 0
    done
    check "end leave$kind" 76 "node 2 returned, or called exit(0), and ends the others with status 76: node . hadn't" \
        env GASNET_EXIT_TIMEOUT=1 bin/gasnetrun -n 3 $build/tests/ends leave
    check "end handler 6$kind" 6 "" bin/gasnetrun -n 3 $build/tests/ends handler 6
    check "end alarm 0$kind" 0 "" bin/gasnetrun -n 3 $build/tests/ends alarm 0
    check "end alarm 7$kind" 7 "" bin/gasnetrun -n 3 $build/tests/ends alarm 7
    for way in two:0 return:0 handler:0 lock:3; do
        check "end of threads, ${way%:*}$kind" "${way#*:}" "" bin/gasnetrun -n 2 $build/tests/exits "${way%:*}"
    done
    check "end of threads, all of them$kind" 0 "" timeout 30 bin/gasnetrun -n 2 $build/tests/exits threads
    check "end of threads, signals$kind" 0 "" bash -c \
        "for i in {1..30}; do timeout 20 $build/tests/exits signal \$((1000 + 7 * i)) || exit; done"
    check "end of threads, one reads$kind" 0 "" timeout 20 bin/gasnetrun -n 2 $build/tests/exits reader
    check "end of threads, signals in malloc$kind" 0 "" bash -c \
        "for i in {1..30}; do timeout 20 bin/gasnetrun -n 2 $build/tests/exits malloc \$((2000 + 137 * i)) || exit; done"
    # The node that ends the job has 5, those that handle SIGQUIT have 9, and may end before it.
    check "end quit$kind" 5 "^quit" bin/gasnetrun -n 3 $build/tests/ends quit 5
done
# The node that ended the job is named, though others may end before it.
named() { # BUILD: the lines of twenty runs
    for _ in {1..20}; do bin/gasnetrun -n 4 "$1/tests/ends" one 5 2>&1; done | sort | uniq -c
}
export -f named
check "end one, named" 0 "^ *20 gasnetrun: node 3 ended with status 5; the others are ended$" bash -c "named out"
check "end one, named behind a shell" 0 "node 2 ended with status 5; the others" bash -c 'bin/gasnetrun -n 3 sh -c "out/tests/ends one 5; exit" ; [ $? = 5 ]'
# A node whose pipe to gasnetrun is closed, or is something else, ends as the others.
check "end one, unnamed" 5 "ended with status 5; the others" bin/gasnetrun -n 3 bash -c 'eval "exec ${GASNET_RUNNER%:*}>/dev/null"; exec out/tests/ends one 5'
check "end one 5 with loss" 5 "" env GASNET_DROP=30 GASNET_RESEND=20 bin/gasnetrun -n 8 out/tests/ends one 5
check "end all 0 with loss" 0 "" env GASNET_DROP=30 GASNET_RESEND=20 bin/gasnetrun -n 8 out/tests/ends all 0
check "end signal" 137 "node 2 was ended by signal 9" bin/gasnetrun -n 3 out/tests/ends signal 9

# gasnetrun that is ended leaves no node behind, nor one that its nodes started.
nodes_of() { pgrep -f "tests/ends sleep $1\$" | wc -l; }
ended() { # SIGNAL STATUS COMMAND..: 0 where all nodes are gone soon after
    local signal=$1 status=$2 mark=$RANDOM$RANDOM
    set -m # else the shell has gasnetrun ignore INT
    bin/gasnetrun -n 3 "${@:3}" sleep "$mark" >"out/here-$mark" &
    local runner=$!
    until_here 3 "out/here-$mark"
    kill "-$signal" "$runner"
    wait "$runner"
    local got=$?
    for _ in $(seq 600); do [ "$(nodes_of "$mark")" = 0 ] && break; sleep 0.05; done
    rm -f "out/here-$mark"
    [ "$(nodes_of "$mark")" = 0 ] && [ "$got" = "$status" ]
}
until_here() { # COUNT FILE: waits until so many nodes wrote there that they began
    for _ in $(seq 1000); do [ "$(grep -c here "$2")" -ge "$1" ] && break; sleep 0.05; done
}
export -f ended nodes_of until_here
for signal in TERM:143 INT:130 KILL:137 HUP:129; do
    check "orphans ${signal%:*}" 0 "" bash -c "ended ${signal%:*} ${signal#*:} out/tests/ends"
done
# What gasnetrun ignores as it starts it ignores to the end, as under nohup; and that children end is told all the same.
ignored() { # SIGNAL
    python3 -c 'import os, signal, sys; signal.signal(getattr(signal, sys.argv[1]), signal.SIG_IGN); os.execv(sys.argv[2], sys.argv[2:])' \
        "SIG$1" bin/gasnetrun -n 2 sleep 2 &
    local runner=$!
    sleep 1
    kill "-$1" $runner
    wait $runner
}
export -f ignored
for signal in HUP INT CHLD; do
    check "gasnetrun ignores $signal" 0 "" timeout 20 bash -c "ignored $signal"
done
# Nodes whose parent is gone: the pipe alone ends them, each of them.
check "orphans KILL without parents" 0 "" bash -c \
    'ended KILL 137 sh -c '\''( (sleep 0.3; exec "$0" "$@") & ); exec sleep 60'\'' out/tests/ends'
check "orphans KILL behind a shell" 0 "" bash -c 'ended KILL 137 sh -c '\''"$0" "$@"; :'\'' out/tests/ends'

# A peer that is gone is found by the others alone, where no gasnetrun looks.
gone() { # SIGNAL WAY
    local port=$((20000 + RANDOM % 10000))
    (alone 1 out/tests/ends poll >"out/here-$port") &
    local other=$! got
    (until_here 1 "out/here-$port"; sleep 0.5; kill "-$1" $other) &
    (alone 0 out/sanitized/tests/ends "${2:-poll}")
    got=$?
    kill -KILL $other 2>/dev/null
    rm -f "out/here-$port"
    return $got
}
export -f gone
check "peer killed" 69 "node 1 (127.0.0.1:[0-9]*) is gone" bash -c 'gone KILL'
keyed "sealed, and a peer is killed" 69 "node 1 (127.0.0.1:[0-9]*) is gone" env GASNET_KEY_FILE=out/key bash -c 'gone KILL'
check "peer killed, SIGQUIT" 9 "^quit" bash -c 'gone KILL watch'
check "peer stopped" 69 "node 1 (127.0.0.1:[0-9]*) didn't answer for [0-9.]* s" env GASNET_PEER_TIMEOUT=5 bash -c 'gone STOP'
absent() {
    local port=$((20000 + RANDOM % 10000))
    (GASNET_PEER_TIMEOUT=1 alone 0 out/tests/messages)
}
export -f absent
check "peer absent" 70 "node 1 .* didn't come to gasnet_attach" bash -c 'absent; [ $? = 69 ] && exit 70'

# Who is missing is told after five seconds and at the end, with what came from each: node 1 isn't started, the others are others'.
missing() { # KEY_OF_2 KEY_OF_3: node 2 has another job, node 3 another key, or one where node 0 has none
    local port=$((20000 + RANDOM % 10000))
    node() { # RANK JOB KEY
        [ -n "$3" ] && export GASNET_KEY_FILE=$3
        GASNET_PEER_TIMEOUT=6 GASNET_NODES=4 GASNET_RANK=$1 GASNET_JOB=$2 exec env \
            GASNET_ADDRESSES=127.0.0.1:$port,127.0.0.1:$((port + 1)),127.0.0.1:$((port + 2)),127.0.0.1:$((port + 3)) out/tests/barriers
    }
    (node 2 8 "$1" 2>/dev/null) &
    (node 3 7 "$2" 2>/dev/null) &
    (node 0 7 "$1") 2>&1
    wait
}
told() { # REASON_OF_3 ARGUMENTS..
    local log
    log=$(missing "${@:2}")
    echo "$log"
    local others="node 1 ([0-9.:]*): its host says that nobody has the port (ICMP)" second="node 2 ([0-9.:]*): what came has another GASNET_JOB"
    for part in "waits in gasnet_attach for 5" "didn't come to gasnet_attach for 6"; do
        grep "$part" <<<"$log" | grep "$others" | grep "$second" | grep -q "node 3 ([0-9.:]*): $1" || return
    done
}
export -f missing told
keyed "peers missing" 0 "" bash -c 'told "what came is sealed, and this node has no key" "" out/key'
keyed "peers missing, with a key" 0 "" bash -c 'told "what came has no right tag" out/key out/other-key'

# Nodes that are started one by one, each by a list of the hosts.
by_hosts() { # VARIABLE TEXT
    local port=$((20000 + RANDOM % 10000)) first
    (exec env GASNET_PORT=$port GASNET_RANK=0 "$1=$2" out/sanitized/tests/messages) &
    first=$!
    (exec env GASNET_PORT=$port GASNET_RANK=1 "$1=$2" out/tests/messages) && wait $first
}
export -f by_hosts
check "hosts" 0 "" bash -c 'by_hosts GASNET_HOSTS "127.0.0.1, 127.0.0.1"'
check "hosts of IPv6" 0 "" bash -c 'by_hosts GASNET_HOSTS "::1 ::1"'
printf '127.0.0.2\n127.0.0.3\n' >out/hosts
check "hosts of a file" 0 "" bash -c 'by_hosts GASNET_HOSTS_FILE out/hosts'

# A broken environment is told by one line.
broken() { check "environment $1" "${status:-70}" "^gasnet: $2" env "$1" "${@:3}" out/tests/barriers; }
broken GASNET_DROP=101 "GASNET_DROP is '101'"
broken GASNET_RESEND=soon "GASNET_RESEND is 'soon'"
broken GASNET_CREDITS=33 "GASNET_CREDITS is '33'"
broken GASNET_MTU=100 "GASNET_MTU is '100'"
broken GASNET_PROGRESS=never "GASNET_PROGRESS is 'never': set it to 'thread' or to 'poll'"
broken GASNET_MAX_SEGSIZE=7Q "GASNET_MAX_SEGSIZE is '7Q'"
broken GASNET_NODES=257 "GASNET_NODES is '257'" GASNET_RANK=0
broken GASNET_RANK=2 "GASNET_RANK is '2'" GASNET_NODES=2
broken GASNET_RANK=1 "neither GASNET_ADDRESSES nor GASNET_HOSTS is set" GASNET_NODES=2
broken GASNET_HOSTS=" , " "GASNET_HOSTS is broken: it has no host" GASNET_RANK=0
broken GASNET_HOSTS=127.0.0.1 "GASNET_HOSTS is broken: it has fewer" GASNET_RANK=0 GASNET_NODES=2
broken GASNET_HOSTS="127.0.0.1 nowhere.invalid" "GASNET_HOSTS is broken: the host of 'nowhere.invalid:21001' in it isn't known" GASNET_RANK=0
broken GASNET_HOSTS="127.0.0.1 ::1" "GASNET_HOSTS is broken: '\[::1\]:21001' in it is of IPv6, and the first address of IPv4" GASNET_RANK=0
broken GASNET_HOSTS=127.0.0.1 "GASNET_RANK is '1', but by GASNET_HOSTS the ranks are 0 to 0" GASNET_RANK=1
broken GASNET_RANK=0 "GASNET_RANK is set, but not how many nodes there are: set GASNET_HOSTS"
for variable in GASNET_HOSTS=127.0.0.1,127.0.0.2 GASNET_HOSTS_FILE=out/hosts GASNET_ADDRESSES=127.0.0.1:5000,127.0.0.2:5000 GASNET_NODES=2; do
    broken $variable "${variable%=*} is set, but not which node this is: set GASNET_RANK"
done
broken GASNET_HOSTS_FILE=/no/such/file "GASNET_HOSTS_FILE is broken: No such file" GASNET_RANK=0
broken GASNET_PORT=80 "GASNET_PORT is '80'" GASNET_RANK=0 GASNET_HOSTS=127.0.0.1
broken GASNET_ADDRESSES=127.0.0.1:5 "GASNET_ADDRESSES is broken: it has fewer" GASNET_NODES=2 GASNET_RANK=0
broken GASNET_ADDRESSES=here "GASNET_ADDRESSES is broken: 'here' in it isn't HOST:PORT" GASNET_NODES=1 GASNET_RANK=0
broken GASNET_ADDRESSES=127.0.0.1:5000,127.0.0.1:70000 "GASNET_ADDRESSES is broken: the port of '127.0.0.1:70000' in it isn't" \
    GASNET_NODES=2 GASNET_RANK=0
broken GASNET_ADDRESSES=127.0.0.1:5000,[::1]:5001 "GASNET_ADDRESSES is broken: '\[::1\]:5001' in it is of IPv6, and the first" \
    GASNET_NODES=2 GASNET_RANK=0
broken GASNET_ADDRESSES=127.0.0.1:5,127.0.0.1:5 "GASNET_ADDRESSES is broken: two of" GASNET_NODES=2 GASNET_RANK=0
# What the system refuses is 71.
status=71 broken GASNET_ADDRESSES=192.0.2.1:5000,127.0.0.1:5 "node 0 can't have the address 192.0.2.1:5000 .*this host has no such" GASNET_NODES=2 GASNET_RANK=0
status=71 broken GASNET_SOCKET=77 "GASNET_SOCKET is 77, which is no socket" GASNET_ADDRESSES=127.0.0.1:5,127.0.0.1:6 \
    GASNET_NODES=2 GASNET_RANK=0
taken_port() { # another node has the port
    local port=$((20000 + RANDOM % 10000)) first second got
    (alone 1 out/tests/ends poll) >>"out/here-$port" &
    first=$!
    (alone 0 out/tests/ends poll) >>"out/here-$port" &
    second=$!
    until_here 2 "out/here-$port"
    (alone 0 out/tests/barriers)
    got=$?
    kill $first $second
    rm -f "out/here-$port"
    return $got
}
export -f taken_port
check "environment, a port that is taken" 71 "another process has the port: set GASNET_PORT" bash -c taken_port

# A name that is no variable's is warned of, by one node; and each name that is read is known.
check "names, a mistyped one" 0 "^gasnet: no variable of this library has this name.*: GASNET_RESENT (GASNET_RESEND?)$" \
    env GASNET_RESENT=5 bin/gasnetrun -n 2 out/tests/barriers
unknown_names() {
    local name
    for name in $( (grep -rhoE '(getenv|config_number|is_set|read_[a-z]+)\("GASNET_[A-Z_]+"' src; grep -hoE '\$\{GASNET_[A-Z_]+' bin/*) |
        grep -oE 'GASNET_[A-Z_]+' | sort -u); do
        grep -q "\"$name\"" src/names.c || echo "$name isn't in src/names.c"
    done
}
export -f unknown_names
check "names are known" 0 "" bash -c '[ -z "$(unknown_names | tee /dev/stderr)" ]'
known_names() { ! env GASNET_RESEND=5 GASNET_COUNTS=1 bin/gasnetrun -n 2 out/tests/barriers 2>&1 | grep "no variable"; }
export -f known_names
check "names, known ones alone" 0 "" bash -c known_names
check "interfaces" 0 "" out/sanitized/tests/interfaces
check "gasnetrun usage" 64 "usage" bin/gasnetrun -n 257 out/tests/barriers
check "gasnetrun usage, a long number" 64 "usage" bin/gasnetrun -n 4294967297 out/tests/barriers
check "gasnetrun of no program" 127 "can't be started" bin/gasnetrun -n 2 out/tests/no-such-program

# The compiler, the example, and other launchers.
check "gasnetcc" 0 "" bin/gasnetcc -Wall -Wextra -Werror examples/hello.c -o out/hello
check "hello" 0 "node 3 of 4: the squares' sum is 86" bin/gasnetrun -n 4 out/hello
check "hello alone" 0 "node 0 of 1" out/hello
check "gasnetcc ring" 0 "" bin/gasnetcc -Wall -Wextra -Werror examples/ring.c -o out/ring
check "ring" 0 "node 3 has 2 from the node before it" bin/gasnetrun -n 4 out/ring
for example in "mediums:26 words in 4 lines, by 4 nodes" "atomics:200 of 200 tickets are drawn" \
    "regions:node 3 has numbers of 4 threads, whose sum is 20200"; do
    name=${example%%:*}
    check "example $name, gasnetcc" 0 "" bin/gasnetcc -Wall -Wextra -Werror "examples/$name.c" -o "out/$name"
    check "example $name" 0 "${example#*:}" bin/gasnetrun -n 4 "out/$name"
    check "example $name with loss" 0 "${example#*:}" env GASNET_DROP=20 bin/gasnetrun -n 4 "out/$name"
done
# That of docs/TUTORIAL.md: whatever the number of nodes, and the loss, its cells are those of the formula.
check "example halo, gasnetcc" 0 "" bin/gasnetcc -Wall -Wextra -Werror examples/halo.c -o out/halo -lm
for n in 1 3 4; do
    check "example halo n=$n" 0 "^halo of $n nodes: after 200 steps the height is 0.9663$" bin/gasnetrun -n $n out/halo 200
done
check "example halo with loss" 0 "^halo of 4 nodes: after 100 steps the height is 0.9830$" env GASNET_DROP=10 bin/gasnetrun -n 4 out/halo 100
# The commands work by a link from another folder, and where their path has a space.
mkdir -p out/links "out/a space/out"
for command in gasnetcc gasnetrun; do ln -sf "../../bin/$command" out/links/; done
cp -r bin include "out/a space/" && cp out/gasnetrun out/gasnet.pc out/libgasnet.a "out/a space/out/"
check "gasnetcc by a link" 0 "" out/links/gasnetcc examples/ring.c -o out/links/ring
check "gasnetrun by a link" 0 "node 3 has 2 from the node before it" out/links/gasnetrun -n 4 out/links/ring
check "gasnetcc in a path with a space" 0 "" "out/a space/bin/gasnetcc" examples/ring.c -o "out/a space/ring of nodes"
check "gasnetrun in a path with a space" 0 "node 3 has 2" "out/a space/bin/gasnetrun" -n 4 "out/a space/ring of nodes"
launcher="mpirun -n 4"
if ! command -v mpirun >/dev/null; then
    skip "$launcher" "there is no mpirun (Debian: openmpi-bin)"
elif ! grep -q pmix out/gasnet.pc; then
    skip "$launcher" "libgasnet was built without PMIx (Debian: libpmix-dev)"
else
    export OMPI_ALLOW_RUN_AS_ROOT=1 OMPI_ALLOW_RUN_AS_ROOT_CONFIRM=1
    check "$launcher hello" 0 "node 3 of 4" mpirun --oversubscribe -n 4 out/hello
    check "$launcher messages" 0 "" mpirun --oversubscribe -n 4 out/tests/messages
    check "$launcher transfers" 0 "" env ASAN_OPTIONS=detect_leaks=0 mpirun --oversubscribe -n 4 out/sanitized/tests/transfers
    check "$launcher by an interface" 0 "node 3 of 4" env GASNET_INTERFACE=lo mpirun --oversubscribe -n 4 out/hello
    check "$launcher by no interface" 0 "GASNET_INTERFACE is 'nowhere0': set it to an interface" \
        bash -c '! GASNET_INTERFACE=nowhere0 mpirun --oversubscribe -n 2 out/hello'
    check "$launcher ends" 5 "" mpirun --oversubscribe -n 4 out/tests/ends one 5
    if [ -x out/tests/comex ] && [ -x out/sanitized/tests/comex ]; then
        check "libcomex" 0 "all tests passed" comex/run-tests
    else
        skip "libcomex" "its tests aren't built: make comex-test GA=FOLDER, with the source of Global Arrays"
    fi
fi

# The commands' own words, what `make install` puts down, and how they are used from there.
. tests/commands.sh
. tests/stacks.sh
. tests/install.sh

# By Debian's Slurm, of which a test has one of its own: by PMIx, and by the number that srun gives each task.
by_srun() { # COMMAND..: four tasks, which find one another by a list of hosts
    # shellcheck disable=SC2016
    exec env GASNET_PORT=$((20000 + RANDOM % 10000)) GASNET_JOB=7 GASNET_HOSTS="127.0.0.1 127.0.0.1 127.0.0.1 127.0.0.1" tests/slurm \
        srun -n 4 sh -c 'GASNET_RANK=$SLURM_PROCID exec "$@"' sh "$@"
}
export -f by_srun
if why=$(tests/slurm --can); then
    check "srun by ranks" 0 "node 3 of 4: the squares' sum is 86" bash -c 'by_srun out/hello'
    check "srun by ranks ends" 5 "" bash -c 'by_srun out/tests/ends one 5'
    if grep -q pmix out/gasnet.pc; then
        check "srun hello" 0 "node 3 of 4: the squares' sum is 86" tests/slurm srun --mpi=pmix -n 4 out/hello
        check "srun transfers" 0 "" env ASAN_OPTIONS=detect_leaks=0 tests/slurm srun --mpi=pmix -n 4 out/sanitized/tests/transfers
        check "srun ends" 5 "" tests/slurm srun --mpi=pmix -n 4 out/tests/ends one 5
        keyed "srun with a key" 0 "" env GASNET_KEY_FILE=out/key tests/slurm srun --mpi=pmix -n 4 out/tests/barriers
    else
        skip "srun by PMIx" "libgasnet was built without PMIx (Debian: libpmix-dev)"
    fi
else
    skip "srun" "$why"
fi

echo "$passed passed, $failed failed, $skipped skipped, $repeated run twice"
[ "$failed" = 0 ]
