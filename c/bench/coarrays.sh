#!/bin/bash
# Halos and co_sum on four images of this host: this library, and OpenCoarrays over OpenMPI by TCP alone where it is (Debian's
# libcoarrays-openmpi-dev, libopenmpi-dev and openmpi-bin), in turn. c/bench/coarrays.sh [ROUNDS [IMAGES]]; 'make -C c' comes
# first. The last lines are the least time of each, and the ratio. A busy machine tells nothing.
cd "$(dirname "$0")/.." || exit 2
rounds=${1:-3}
images=${2:-4}
export OMPI_ALLOW_RUN_AS_ROOT=1 OMPI_ALLOW_RUN_AS_ROOT_CONFIRM=1
mkdir -p out/bench
bin/caf -O2 bench/coarrays.f90 -o out/bench/coarrays || exit
other=
if command -v caf.openmpi >/dev/null && command -v mpirun >/dev/null; then
    (cd out/bench && caf.openmpi -O2 ../../bench/coarrays.f90 -o coarrays_openmpi 2>/dev/null) && other=yes
fi
[ -n "$other" ] || echo "OpenCoarrays: skipped, there is no caf.openmpi that links"

echo "load before: $(cut -d' ' -f1-3 /proc/loadavg)"
rm -f out/bench/ours out/bench/theirs
for round in $(seq "$rounds"); do
    bin/cafrun -n "$images" out/bench/coarrays >>out/bench/ours || exit
    # Of OpenMPI's one-sided components pt2pt alone takes TCP.
    [ -z "$other" ] || timeout 120 mpirun --mca btl tcp,self --mca osc pt2pt --oversubscribe -n "$images" out/bench/coarrays_openmpi >>out/bench/theirs ||
        echo "OpenCoarrays: a run didn't end in 120 s"
done
echo "load behind: $(cut -d' ' -f1-3 /proc/loadavg)"
touch out/bench/theirs
awk -F': ' '
    { sub(/ us$/, "", $2); $2 += 0; which = FILENAME ~ /ours/ ? 1 : 2
      if (!($1 in place)) { place[$1] = ++count; name[count] = $1 }
      if (!((which, $1) in least) || $2 < least[which, $1]) least[which, $1] = $2 }
    END { for (i = 1; i <= count; i++) {
        line = sprintf("%-26s %10.1f us", name[i], least[1, name[i]])
        if ((2, name[i]) in least) line = line sprintf("   OpenCoarrays %10.1f us   ratio %.2f", least[2, name[i]], least[1, name[i]] / least[2, name[i]])
        print line } }' out/bench/ours out/bench/theirs
