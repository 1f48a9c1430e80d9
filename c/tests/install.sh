# What `make install` puts down, moved to another place: clients of C, C++, Fortran, pkg-config and CMake are built from it and
# run. run.sh reads this file, and its functions are used here.
staged=$PWD/out/staged moved="$PWD/out/moved here"
export staged moved

install_and_move() {
    rm -rf "$staged" "$moved" out/clients
    make install DESTDIR="$staged" PREFIX=/opt/gasnet && mv "$staged/opt/gasnet" "$moved" && mkdir -p out/clients
}
is_whole() { # each file is there, and nothing leads to the place where it was built
    local file
    for file in bin/{gasnetcc,gasnetrun,caf,cafrun} include/gasnet{,_atomics,_coll,_messages,_vis}.h share/man/man{1/gasnetrun.1,3/gasnet.3} \
        lib/lib{gasnet,caf}.a lib/libgasnet.so{,.0} lib/pkgconfig/gasnet.pc lib/cmake/gasnet/gasnet-config.cmake share/doc/gasnet/README.md; do
        [ -e "$moved/$file" ] || { echo "there is no $file"; return 1; }
    done
    ! grep -rIl -e "$PWD" -e /opt/gasnet "$moved/bin" "$moved/lib" "$moved/include"
}
exports() { # GASNet's names alone, those that the headers' macros and libcaf call, and none of the proved library
    nm -D --defined-only "$moved/lib/libgasnet.so.0" | awk '$2 != "A" { print $3 }' | sed 's/@.*//' | sort >out/exports
    [ "$(grep -c -x -e gasnet_put -e gex_AD_OpNB_U64 -e gasnetl_init out/exports)" = 3 ] &&
        ! grep -v -E '^(gasnet_|gex_|gasnetl_(block|init|reply|request|unsafe|collectives_on_mismatch|put[is]_nbi|runner_tell)$)' out/exports && ! grep '^gasnet_c_' out/exports &&
        readelf -d "$moved/lib/libgasnet.so.0" | grep -q 'soname: \[libgasnet.so.0\]'
}
run_moved() { LD_LIBRARY_PATH="$moved/lib" "$moved/bin/gasnetrun" -n 4 "$@"; }
client_c() { "$moved/bin/gasnetcc" examples/ring.c -o out/clients/ring && "$moved/bin/gasnetrun" -n 4 out/clients/ring; }
client_cxx() {
    cp examples/ring.c out/clients/ring.cc
    GASNET_CC=g++ "$moved/bin/gasnetcc" -c out/clients/ring.cc -o out/clients/ring.o &&
        GASNET_CC=g++ "$moved/bin/gasnetcc" out/clients/ring.o -o out/clients/ring_cc && "$moved/bin/gasnetrun" -n 4 out/clients/ring_cc
}
client_fortran() {
    "$moved/bin/caf" ../examples/coarrays/ring.f90 -o out/clients/ring_f && "$moved/bin/cafrun" -n 4 out/clients/ring_f
}
client_caf_shared() { # coarrays over the two shared objects
    gfortran -fcoarray=lib -fpcc-struct-return ../examples/coarrays/ring.f90 -o out/clients/ring_caf -L"$moved/lib" -lcaf -lgasnet &&
        readelf -d out/clients/ring_caf | grep -q libcaf.so.0 && run_moved out/clients/ring_caf &&
        ! nm -D --defined-only "$moved/lib/libcaf.so.0" | awk '$2 != "A" { print $3 }' | grep -v ^_gfortran_caf_
}
client_pkg_config() { # (pkg-config writes a space in a path as `\ `, which a shell's words don't take)
    ln -sfn "$moved" out/link &&
        export PKG_CONFIG_PATH=$PWD/out/link/lib/pkgconfig &&
        gcc examples/ring.c -o out/clients/ring_shared $(pkg-config --cflags --libs gasnet) &&
        gcc examples/ring.c -o out/clients/ring_static $(pkg-config --cflags gasnet) "$moved/lib/libgasnet.a" $(pkg-config --libs --static gasnet) &&
        readelf -d out/clients/ring_shared | grep -q libgasnet.so.0 && run_moved out/clients/ring_static >/dev/null && run_moved out/clients/ring_shared
}
client_shared() { # TEST: one of the tests, over the shared object
    gcc -O2 -std=c11 -D_GNU_SOURCE -I"$moved/include" "tests/$1.c" -o "out/clients/$1" "$moved/lib/libgasnet.so" -lpthread && run_moved "out/clients/$1" "${@:2}"
}
client_plugin() { # the archive within another shared object
    gcc -shared -fPIC -I"$moved/include" -x c - -o out/clients/plugin.so -x none "$moved/lib/libgasnet.a" $(sed -n 's/^Libs.private: //p' "$moved/lib/pkgconfig/gasnet.pc") <<<'#include <gasnet.h>
int plugin(int *argc, char ***argv) { return gasnet_init(argc, argv) || gasnet_attach(NULL, 0, GASNET_PAGESIZE, 0) ? -1 : gasnet_nodes(); }' &&
        gcc -x c - -x none out/clients/plugin.so -o out/clients/plugged <<<'int plugin(int *, char ***);
int main(int argc, char **argv) { return plugin(&argc, &argv); }' && ! "$moved/bin/gasnetrun" -n 1 out/clients/plugged
}
client_cmake() {
    mkdir -p out/clients/cmake && cp examples/ring.c out/clients/cmake/ && cat >out/clients/cmake/CMakeLists.txt <<'END'
cmake_minimum_required(VERSION 3.13)
project(ring C)
find_package(gasnet 0.0.0 REQUIRED)
add_executable(ring ring.c)
target_link_libraries(ring gasnet::gasnet)
add_executable(ring_static ring.c)
target_link_libraries(ring_static gasnet::static)
END
    cmake -S out/clients/cmake -B out/clients/cmake/build -DCMAKE_PREFIX_PATH="$moved" && cmake --build out/clients/cmake/build &&
        "$moved/bin/gasnetrun" -n 2 out/clients/cmake/build/ring_static && "$moved/bin/gasnetrun" -n 4 out/clients/cmake/build/ring
}
uninstall() {
    mkdir -p "$staged/opt" && make install DESTDIR="$staged" PREFIX=/opt/gasnet && make uninstall DESTDIR="$staged" PREFIX=/opt/gasnet &&
        ! find "$staged" -type f -o -type l | grep .
}
export -f install_and_move is_whole exports run_moved client_c client_cxx client_fortran client_caf_shared client_pkg_config client_shared client_plugin client_cmake uninstall

client() { # NAME TOOL PATTERN FUNCTION: skipped where the tool isn't there
    if command -v "$2" >/dev/null; then
        check "install, $1" 0 "$3" bash -c "$4"
    else
        skip "install, $1" "there is no $2"
    fi
}
if wanted "install, "; then install_and_move >out/logs/install.log 2>&1; fi
check "install, the files" 0 "" bash -c is_whole
check "install, exports" 0 "" bash -c exports
ring="node 3 has 2 from the node before it"
client "C" gcc "$ring" client_c
client "C++" g++ "$ring" client_cxx
client "Fortran" gfortran "image 4 was told 3" client_fortran
client "Fortran, shared objects" gfortran "image 4 was told 3" client_caf_shared
client "pkg-config" pkg-config "$ring" client_pkg_config
client "CMake" cmake "$ring" client_cmake
for test in messages transfers collectives locks; do
    client "shared object, $test" gcc "" "client_shared $test"
done
check "install, shared object, a signal's call" 0 "" bash -c "client_shared ends alarm 0"
client "the archive in a shared object" gcc "" client_plugin
check "install, uninstalled" 0 "" bash -c uninstall
if [ -n "$GASNET_TEST_QUICK" ]; then
    skip "install, Debian's packages" "GASNET_TEST_QUICK is set"
elif ! command -v dh >/dev/null || ! command -v lintian >/dev/null || ! command -v dpkg-buildpackage >/dev/null || [ "$(id -u)" != 0 ]; then
    skip "install, Debian's packages" "there is no debhelper, lintian or dpkg-dev, or this isn't root"
else
    limit=600 check "install, Debian's packages" 0 "node 3 has 2 from the node before it" tests/package.sh
fi
