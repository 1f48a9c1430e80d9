#!/bin/bash
# Runs the tests of coarrays: tests/caf/run.sh [WORD], those whose name has the word. Each has a time limit, and a log in
# out/logs/caf. GASNET_TEST_QUICK=1 leaves out two and eight images.
# Nothing is promised of time, so a test that fails is run once more, with a line that says so; the last line counts those.
# A test whose own check failed, which is status 1, isn't.
cd "$(dirname "$0")/../.." || exit 2
word=${1:-}
limit=${GASNET_TEST_LIMIT:-150}
passed=0 failed=0 skipped=0 repeated=0
rm -rf out/logs/caf
mkdir -p out/logs/caf
# gfortran leaves what a program's own arrays hold, and what an inquiry of no image answers.
printf 'leak:allocate_here\nleak:list_images\n' >out/logs/caf/leaks
export ASAN_OPTIONS=abort_on_error=0 UBSAN_OPTIONS=print_stacktrace=1 LSAN_OPTIONS=suppressions=out/logs/caf/leaks:print_suppressions=0
export GASNET_PEER_TIMEOUT=60

wanted() { [[ "caf $1" == *"$word"* ]]; }

# check NAME STATUS PATTERN COMMAND..: the command ends with this status in time, and its output has the pattern.
check() {
    local name=$1 status=$2 pattern=$3
    shift 3
    wanted "$name" || return
    local log="out/logs/caf/${name//[ \/]/_}.log" begun=$(($(date +%s%N) / 1000000)) outcome got
    try_once "$@"
    if [ "$outcome" != ok ] && [ "$got" != 1 ]; then
        repeated=$((repeated + 1))
        echo "again   caf $name: $outcome"
        mv "$log" "$log.first"
        try_once "$@"
    fi
    local took=$(($(date +%s%N) / 1000000 - begun))
    if [ "$outcome" = ok ]; then
        passed=$((passed + 1))
        echo "ok      caf $name ($took ms)"
    else
        failed=$((failed + 1))
        echo "FAILED  caf $name ($took ms): $outcome; $log ends with"
        tail -5 "$log" | sed 's/^/        /'
    fi
}

# try_once COMMAND..: runs it within the limit into `log`, and sets `got`, its status, and `outcome` by `status` and `pattern`.
try_once() {
    timeout -k 5 "$limit" "$@" >"$log" 2>&1
    got=$?
    outcome=ok
    [ "$got" = "$status" ] || outcome="status $got where $status is wanted"
    [ "$outcome" = ok ] && [ -n "$pattern" ] && ! grep -q -e "$pattern" "$log" && outcome="no '$pattern' in its output"
}

if ! command -v gfortran >/dev/null; then
    echo "skipped caf: there is no gfortran (Debian: gfortran)"
    exit 0
fi

# What the standard says, statement by statement.
sizes="1 2 3 4 8"
[ -n "$GASNET_TEST_QUICK" ] && sizes="1 3 4"
for build in out out/sanitized; do
    kind=${build#out}
    kind=${kind:+ sanitized}
    for test in sections conversions references collectives locks synchronise teams polymorphic components classes memory random failed failed_first stopped; do
        for n in $sizes; do
            for loss in 0 20; do
                [ "$n" = 1 ] && [ "$loss" != 0 ] && continue
                pattern="$test: done"
                [ "$n" = 1 ] && [[ "$test" = failed* || "$test" = stopped ]] && pattern=
                check "$test n=$n loss=$loss$kind" 0 "$pattern" env GASNET_DROP="$loss" GASNET_TWICE="$loss" GASNET_SWAP="$loss" \
                    GASNET_SEED="$n" bin/cafrun -n "$n" "$build/tests/caf/$test"
            done
        done
    done
done

# Reductions of few long elements, where images aren't a power of two.
for build in out out/sanitized; do
    kind=${build#out}
    kind=${kind:+ sanitized}
    for n in 5 7; do
        for loss in 0 20; do
            check "shares n=$n loss=$loss$kind" 0 "shares: done" env GASNET_DROP="$loss" GASNET_TWICE="$loss" \
                GASNET_SWAP="$loss" GASNET_SEED="$n" bin/cafrun -n "$n" "$build/tests/caf/shares"
        done
    done
done

# Collectives whose lengths differ are refused in one way, whoever has more, and whichever way the numbers go.
for n in 2 3 4 5; do
    for which in sum words "to one" broadcast; do
        check "lengths n=$n $which, equal ones" 0 "lengths: done" bin/cafrun -n $n out/sanitized/tests/caf/lengths "$which" 0 0
        for pair in "10 20" "10 300" "10 0" "0 10" "131072 262144"; do
            check "lengths n=$n $which $pair" 1 "Fortran runtime error on image .: co_[a-z]*: image . brings" \
                bin/cafrun -n $n out/sanitized/tests/caf/lengths "$which" $pair
        done
    done
done

for n in 2 4; do
    check "lengths n=$n, elements of two types" 1 "co_sum: an image brings elements of another type than this image" \
        bin/cafrun -n $n out/sanitized/tests/caf/lengths types
done

# Images that wait in a short collective see that one stops, or fails.
for which in sum words broadcast; do
    for how in stops fails; do
        check "left_waiting $which $how sanitized" 0 "left_waiting: done" env GASNET_DROP=20 GASNET_TWICE=20 GASNET_SWAP=20 GASNET_SEED=3 \
            bin/cafrun -n 3 out/sanitized/tests/caf/left_waiting "$which" "$how"
    done
done

# The same where all that may be is a collective of the endpoint.
export GASNET_CAF_PROVED=1
for test in collectives failed failed_first stopped; do
    for n in 2 4; do
        for loss in 0 20; do
            check "proved $test n=$n loss=$loss sanitized" 0 "$test: done" env GASNET_DROP="$loss" GASNET_TWICE="$loss" GASNET_SWAP="$loss" \
                GASNET_SEED="$n" bin/cafrun -n "$n" "out/sanitized/tests/caf/$test"
        done
    done
done
for how in stops fails; do
    check "proved left_waiting broadcast $how sanitized" 0 "left_waiting: done" env GASNET_DROP=20 GASNET_SEED=3 \
        bin/cafrun -n 3 out/sanitized/tests/caf/left_waiting broadcast "$how"
done
unset GASNET_CAF_PROVED
check "proved by a broken variable" 1 "GASNET_CAF_PROVED is 'yes': it may be 0 or 1" env GASNET_CAF_PROVED=yes \
    bin/cafrun -n 2 out/tests/caf/collectives

# Reductions of long arrays where images have no memory to work in: all of them, or one.
for n in 3 4; do
    check "collectives n=$n without memory" 0 "collectives: done" env GASNET_MAX_SEGSIZE=64K bin/cafrun -n "$n" out/tests/caf/collectives
    check "collectives n=$n, one without memory" 0 "collectives: done" bin/cafrun -n "$n" \
        bash -c '[ "$GASNET_RANK" = 1 ] && export GASNET_MAX_SEGSIZE=64K; exec out/tests/caf/collectives'
done
for loss in 0 20; do
    check "many_teams n=3 loss=$loss" 0 "many_teams: done" env GASNET_DROP="$loss" bin/cafrun -n 3 out/tests/caf/many_teams
done

# The examples print what their page says.
for example in heat pi queue; do
    for n in 1 2 4 8; do
        for loss in 0 20; do
            [ "$n" = 1 ] && [ "$loss" != 0 ] && continue
            line="$(grep "^    $example of 4" ../docs/COARRAYS.md | sed 's/^ *//')"
            line="${line/of 4 images/of $n images}"
            [ "$n" = 1 ] && line="${line/images: the tenth/images: the tenth}"
            check "example $example n=$n loss=$loss" 0 "${line:-no line}" env GASNET_DROP="$loss" bin/cafrun -n "$n" "out/tests/caf/$example"
        done
    done
done

# That of docs/TUTORIAL.md: whatever the number of images, and the loss, its cells are those of the formula.
for n in 1 3 4; do
    check "example halo n=$n" 0 "^halo of $n images: after 200 steps the height is 0.9663$" bin/cafrun -n "$n" out/tests/caf/halo 200
done
check "example halo with loss" 0 "^halo of 4 images: after 100 steps the height is 0.9830$" env GASNET_DROP=10 bin/cafrun -n 4 out/tests/caf/halo 100

# With one image a program prints what it prints with -fcoarray=single.
for test in sections conversions references collectives polymorphic single heat queue halo; do
    check "one image $test" 0 "" bash -c "diff <(out/tests/caf/$test.single 2>&1) <(bin/cafrun -n 1 out/tests/caf/$test 2>&1)"
done

# How images end: the texts are GCC's, the code is cafrun's, and an end takes less than a second; on a busy machine a few,
# and some of those that a run took there just before which ends by itself.
ends() { # NAME STATUS PATTERN MILLISECONDS ARGS..
    local name=$1 status=$2 pattern=$3 most=$4
    shift 4
    check "end $name" "$status" "$pattern" bash -c '
        begun=$(date +%s%N)
        bin/cafrun -n 3 out/tests/caf/ends end >/dev/null
        most=$(($1 + 10 * ($(date +%s%N) - begun) / 1000000))
        begun=$(date +%s%N)
        "${@:2}"
        status=$?
        took=$((($(date +%s%N) - begun) / 1000000))
        [ $took -le $most ] || { echo "it took $took ms, at most $most"; exit 99; }
        exit $status' - "$most" bin/cafrun -n 3 out/tests/caf/ends "$@"
}
ends "program" 0 "image 3" 8000 end
ends "stop" 0 "image 3" 8000 stop
ends "stop 0" 0 "^STOP 0$" 8000 "stop 0"
ends "stop 7" 7 "^STOP 7$" 8000 "stop 7"
ends "stop text" 0 "^STOP a text$" 8000 "stop text"
ends "stop quiet" 7 "" 8000 "stop quiet" 2
ends "one stops" 1 "sync all: an image has stopped" 8000 "stop 7" 2
ends "late stop" 3 "^STOP 3$" 8000 late 2
ends "error stop" 1 "^ERROR STOP" 5000 "error stop"
ends "error stop of one" 9 "^ERROR STOP 9$" 5000 "error stop 9" 2
ends "error stop 0 of one" 0 "^ERROR STOP 0$" 5000 "error stop 0" 2
ends "error stop 0 of one, the others compute" 0 "^ERROR STOP 0$" 5000 "error stop 0 of one" 2
no_runner() { # error stop 0 signals no process that GASNET_RUNNER names
    sleep 60 &
    local other=$! got=1
    GASNET_RUNNER=$other out/tests/caf/ends "error stop 0"
    sleep 0.2
    kill -KILL $other && wait $other
    [ $? = 137 ] && got=0
    return $got
}
export -f no_runner
check "end error stop 0 without gasnetrun" 0 "^ERROR STOP 0$" bash -c no_runner
ends "error stop of one, the others compute" 1 "^ERROR STOP an error$" 5000 "error stop text" 2
ends "error stop quiet" 9 "" 5000 "error stop quiet" 3
ends "exit" 5 "" 5000 "exit 5" 1
ends "error of libgfortran" 2 "Fortran runtime error" 5000 twice 3
ends "no such image" 1 "Fortran runtime error on image 2: image 4" 5000 "no image" 2
ends "outside of a coarray" 1 "Fortran runtime error on image 1: elements outside" 5000 outside 1
ends "outside of a component" 1 "Fortran runtime error on image 1: elements outside" 5000 "outside component" 1
ends "outside of an array of objects" 1 "Fortran runtime error on image 1: elements outside" 5000 "outside objects" 1
ends "a text of deferred length" 1 "Fortran runtime error on image 1: a component is referred to that is a text" 5000 deferred 1
ends "other bounds" 1 "Fortran runtime error on image [1-3]: allocate: image . asks for [0-9]* bytes, and image . for [0-9]*: a coarray has" 5000 "other bounds"
ends "lock twice" 1 "Fortran runtime error on image 1: lock" 5000 "lock twice" 1
ends "abort" 134 "was ended by signal" 8000 abort 2

# The commands.
check "cafrun usage" 64 "usage" bin/cafrun
check "caf --show" 0 "gfortran -fcoarray=lib" bin/caf --show x.f90 -o x
check "ring" 0 "image 4 was told 3" bash -c 'bin/caf ../examples/coarrays/ring.f90 -o out/ring_f && bin/cafrun -n 4 out/ring_f'
# Where a process has few addresses its segment is smaller, and a line says so.
for n in 1 4; do
    check "few addresses n=$n" 0 "heat of $n images" bash -c "ulimit -v 4000000; bin/cafrun -n $n out/tests/caf/heat"
done
check "few addresses, told" 0 "node 0 of 2: the segment has [0-9]* MiB, not [0-9]*: .* set GASNET_MAX_SEGSIZE" \
    bash -c 'ulimit -v 500000; bin/cafrun -n 2 out/tests/caf/heat'
check "threads, none" 0 "parallel: done" bin/cafrun -n 2 out/tests/caf/parallel
check "threads of OpenMP" 70 "is called by another thread .*in Fortran let one thread refer to coarrays" \
    bash -c 'bin/caf -fopenmp tests/caf/parallel.f90 -J out -o out/parallel && bin/cafrun -n 2 out/parallel'
check "caf -c" 0 "" bash -c 'bin/caf -c ../examples/coarrays/heat.f90 -o out/heat.o && bin/caf out/heat.o -o out/heat && bin/cafrun -n 2 out/heat'
mkdir -p out/links "out/a space/out"
for command in caf cafrun; do ln -sf "../../bin/$command" out/links/; done
cp -r bin "out/a space/" && cp out/gasnetrun out/gasnet.pc out/libgasnet.a out/libcaf.a "out/a space/out/"
check "caf by a link" 0 "" out/links/caf ../examples/coarrays/ring.f90 -o out/links/ring_f
check "cafrun by a link" 0 "image 4 was told 3" out/links/cafrun -n 4 out/links/ring_f
check "caf in a path with a space" 0 "" "out/a space/bin/caf" ../examples/coarrays/ring.f90 -o "out/a space/ring f"
check "cafrun in a path with a space" 0 "image 4 was told 3" "out/a space/bin/cafrun" -n 4 "out/a space/ring f"
printf '#!/bin/sh\necho 13.2.0\n' >out/links/gfortran-13 && chmod +x out/links/gfortran-13
check "caf of another gfortran" 1 "gfortran-13 is version 13.2.0, and libcaf is for gfortran 12: set CAF_FC" env CAF_FC=out/links/gfortran-13 bin/caf --show x.f90
check "alone" 0 "heat of 1 images" out/tests/caf/heat
if ! command -v mpirun >/dev/null; then
    skipped=$((skipped + 1))
    echo "skipped caf mpirun: there is no mpirun (Debian: openmpi-bin)"
elif ! grep -q pmix out/gasnet.pc; then
    skipped=$((skipped + 1))
    echo "skipped caf mpirun: libgasnet was built without PMIx (Debian: libpmix-dev)"
else
    export OMPI_ALLOW_RUN_AS_ROOT=1 OMPI_ALLOW_RUN_AS_ROOT_CONFIRM=1
    check "mpirun heat" 0 "heat of 4 images" mpirun --oversubscribe -n 4 out/tests/caf/heat
    check "mpirun references" 0 "references: done" mpirun --oversubscribe -n 3 out/tests/caf/references
    check "mpirun error stop" 9 "ERROR STOP 9" mpirun --oversubscribe -n 3 out/tests/caf/ends "error stop 9" 2
fi

echo "coarrays: $passed passed, $failed failed, $skipped skipped, $repeated run twice"
[ "$failed" = 0 ]
