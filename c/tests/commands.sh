# What the commands say of themselves, and how gasnetrun runs nodes by its options. run.sh reads this file.
for command in gasnetcc gasnetrun caf cafrun; do
    check "$command --help" 0 "^usage: $command .*" bin/$command --help
    check "$command --version" 0 "^$command 0\.0\.0 " bin/$command --version
done
check "gasnetrun --env" 0 "^GASNET_RESEND  *7  *2000  *the longest" env GASNET_RESEND=7 bin/gasnetrun --env
listed() { # the variables are those of the page's table
    diff <(bin/gasnetrun --env | grep -o '^GASNET_[A-Z_]*' | sort) \
        <(sed -n '/^## Variables/,/^## What/p' ../docs/GASNET.md | grep '^| `GASNET' | cut -d '|' -f 2 | grep -o 'GASNET_[A-Z_]*' | sort)
}
export -f listed
check "gasnetrun --env, as in GASNET.md" 0 "" bash -c listed
check "gasnetrun of an unknown option" 64 "usage" bin/gasnetrun -n 2 --no-such-thing out/tests/barriers
check "gasnetrun --hosts of none" 64 "no host" bin/gasnetrun -n 2 --hosts , out/tests/barriers
check "gasnetrun --hosts of an option" 64 "begins with '-'" bin/gasnetrun -n 2 --hosts h0,-oProxyCommand=true out/tests/barriers
check "gasnetrun --hosts, no such program" 127 "^gasnetrun: out/no-ssh, which is to start nodes on h0, can't be started .*: set GASNET_SSH" \
    env GASNET_SSH=out/no-ssh bin/gasnetrun -n 2 --hosts h0 out/tests/barriers
its_ssh() { # FOLDER: a program that runs a command here, as ssh does elsewhere, and writes down its words
    printf '#!/bin/sh\nprintf "%%s\\n" "$@" >>%s/words\nexec env -i PATH="$PATH" sh -c "$2"\n' "$1" >"$1/ssh" && chmod +x "$1/ssh"
}
unseen() { # what the environment says comes to the nodes of each host, and no list of processes has it
    local folder=out/unseen odd=$'it\'s $HOME\n "secret"'
    rm -rf $folder && mkdir -p $folder && its_ssh $folder
    GASNET_SSH=$folder/ssh GASNET_ODD=$odd bin/gasnetrun -n 3 --hosts 127.0.0.1,127.0.0.2 \
        bash -c '[ "$GASNET_ODD" = "$1" ] && [ "$GASNET_NODES" = 3 ] && [ ! "$GASNET_SSH" ]' name "$odd" &&
        [ "$(grep -c . $folder/words)" -ge 4 ] && ! grep 'GASNET_[A-Z]*=' $folder/words
}
cut_short() { # a part whose input ends before the environment does
    printf 'GASNET_ODD=1\0GASNET_NO' | bin/gasnetrun -n 1 --part 0 true
}
export -f its_ssh unseen cut_short
check "gasnetrun --hosts, an environment that isn't seen" 0 "" bash -c unseen
check "gasnetrun --hosts, an environment that is cut" 125 "" bash -c cut_short
check "cafrun --hosts of two" 64 "no host, or one that begins with '-'" bin/cafrun -n 2 --hosts "h0 -h1" out/tests/barriers
check "gasnetrun --gdb of no node" 64 "usage" bin/gasnetrun -n 2 --gdb 2 out/tests/barriers

# Each line has its node's rank in front, whole, on either stream; so has one without an end, and one that its node's end cuts.
prefixed() {
    local log
    log=$(bin/gasnetrun -n 3 --prefix-output bash -c 'for i in {1..200}; do echo "$GASNET_RANK out $i"; echo "$GASNET_RANK err $i" >&2; done
        printf "%s last" "$GASNET_RANK"' 2>&1)
    [ "$(wc -l <<<"$log")" = 1203 ] && ! grep -v -E '^([0-2]): \1 (out [0-9]+|err [0-9]+|last)$' <<<"$log"
}
long_lines() { # one of 65,536 bytes and more goes in pieces
    bin/gasnetrun -n 1 --prefix-output head -c 100000 /dev/zero | tr '\0' x >out/long
    [ "$(wc -l <out/long)" = 2 ] && [ "$(tr -d 'x0: \n' <out/long | wc -c)" = 0 ] && [ "$(tr -cd x <out/long | wc -c)" = 100000 ]
}
fails_while_others_write() { # a node that fails ends the others, though they write all the time
    timeout 20 bin/gasnetrun -n 2 --prefix-output bash -c '[ "$GASNET_RANK" = 0 ] && exit 5; exec yes' >/dev/null
}
left_behind() { # a process that a node leaves behind, and that writes without end, isn't waited for
    timeout 20 bin/gasnetrun -n 2 --prefix-output bash -c '(timeout 5 yes &) ; sleep 0.2; echo last' | grep -c last
}
of_many() { # 256 nodes have more pipes than a process has descriptors as a rule; the nodes have as many as gasnetrun had
    ulimit -S -n 1024
    [ "$(bin/gasnetrun -n 256 --prefix-output sh -c 'ulimit -S -n' | cut -d ' ' -f 2 | sort | uniq -c | xargs)" = "256 1024" ]
}
slow_reader() { # nothing is lost where the output doesn't wait, as ssh makes it, and is read late
    python3 - <<'END' | wc -l
import fcntl, os, subprocess, sys, time
reads, writes = os.pipe()
fcntl.fcntl(writes, fcntl.F_SETFL, os.O_WRONLY | os.O_NONBLOCK)
job = subprocess.Popen(["bin/gasnetrun", "-n", "2", "--prefix-output", "seq", "50000"], stdout=writes)
os.close(writes)
time.sleep(0.5)
sys.stdout.buffer.write(os.fdopen(reads, "rb").read())
END
}
export -f slow_reader left_behind prefixed long_lines fails_while_others_write of_many
check "gasnetrun --prefix-output" 0 "" bash -c prefixed
check "gasnetrun --prefix-output, long lines" 0 "" bash -c long_lines
check "gasnetrun --prefix-output, an end" 5 "node 0 ended with status 5" bash -c fails_while_others_write
check "gasnetrun --prefix-output, left behind" 0 "^2$" bash -c left_behind
check "gasnetrun --prefix-output, a reader that is slow" 0 "^100000$" bash -c slow_reader
check "gasnetrun --prefix-output, 256 nodes" 0 "" bash -c of_many
if command -v gdb >/dev/null; then
    check "gasnetrun --gdb" 0 "node 1 of 2.*\|Inferior 1 .* exited normally" env GASNET_GDB="gdb -q -batch -ex run" bin/gasnetrun -n 2 --gdb 1 out/hello
else
    skip "gasnetrun --gdb" "there is no gdb"
fi
