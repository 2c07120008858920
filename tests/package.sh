#!/bin/sh
# Makes the Debian package (packaging/deb), installs it in a new Debian, and lets it record a compilation there and find
# it again: package.sh [--unpacked]. The new Debian is a chroot made by debootstrap, with gcc. Where debootstrap fails,
# and with --unpacked, the package is unpacked in a directory, and gcc is the machine's. The time from the package to
# the hit is printed. The programs are CCK_PROGRAM, by default the one that was proved and built here, and those
# that are built beside it; it stands for the others, and the test says for which. Needs gcc, dpkg-dev and, for a chroot,
# debootstrap, root and the network: MIRROR names Debian's mirror. The last line is `package: N passed, M failed`.
top=$(cd "$(dirname "$0")/.." && pwd)
program=${CCK_PROGRAM:-$top/crates/cck_cache/out/cck_cache}
mirror=${MIRROR:-http://deb.debian.org/debian}
room=$(mktemp -d)
trap 'umount "$room/debian/proc" 2>/dev/null; rm -rf --one-file-system "$room"' EXIT
passed=0 failed=0
check() {
    if [ "$2" = "$3" ]; then passed=$((passed + 1)); else
        failed=$((failed + 1))
        printf 'FAILED: %s\nwanted: %s\nfound:  %s\n' "$1" "$3" "$2"
    fi
}

# The programs and the library, as `./install --built` takes them.
mkdir "$room/built" "$room/out"
cp "$program" "$room/built/cck_cache" || exit 2
for name in cck_run cck_explain; do
    if [ -x "$top/crates/$name/out/$name" ]; then
        cp "$top/crates/$name/out/$name" "$room/built"
    else
        echo "package: $name is not built, $program stands for it"
        cp "$program" "$room/built/$name"
    fi
done
echo 'package: an empty archive stands for libcck.a'
ar rcs "$room/built/libcck.a"
printf 'first\ngate: passed\n' >"$room/gate.log"

package=$("$top/packaging/deb" --built "$room/built" --out "$room/out" --log "$room/gate.log")
check 'the package' "$(cd "$room/out" && ls)" "$(basename "$package")"
field() { dpkg-deb --field "$package" "$1"; }
check 'its architecture' "$(field Architecture)" amd64
check 'no compiler and no kit is needed' "$(field Depends | tr ',' '\n' | sed 's/^ *\([^ ]*\).*/\1/' | sort |
    grep -vx 'libc6\|libm6\|libgcc-s1')" ''
dpkg-deb -x "$package" "$room/unpacked"
provenance=$room/unpacked/usr/share/doc/cck/cck-provenance
check 'the sums' "$(sed -n '/^SHA-256/,$p' "$provenance" | tail -n +2 | (cd "$room/unpacked" && sha256sum --check --quiet 2>&1))" ''
check 'the sum of the program' "$(sed -n 's|  usr/bin/cck_cache$||p' "$provenance")" "$(sha256sum <"$program" | cut -c 1-64)"
check 'the commit' "$(sed -n 's/^commit: \([0-9a-f]*\).*/\1/p' "$provenance")" "$(git -C "$top" rev-parse HEAD)"
check 'the toolchain' "$(sed -n 's/^toolchain: //p' "$provenance" | head -c 7)" "$(rt version 2>/dev/null | head -c 7 || echo unknown)"
check 'the log of the gate' "$(grep -c '^gate: passed$' "$provenance")" 1
rm "$room/built/cck_run"
check 'a missing program' "$("$top/packaging/deb" --built "$room/built" --out "$room" 2>&1)" \
    "install: there is no $room/built/cck_run"
check 'no package without it' "$(ls "$room"/*.deb 2>/dev/null)" ''

# What runs in the new Debian: the commands of a user. It prints what the wrapper did.
cat >"$room/first.sh" <<'END'
set -e
mkdir -p "$1/project"
cd "$1/project"
export PATH="$2/usr/libexec/cckcc:$2/usr/bin:$PATH" HOME="$1" CCK_LOG="$1/log"
unset CCK_PROGRAM CCK_STORE CCK_BASEDIR XDG_CACHE_HOME XDG_CONFIG_HOME
printf '#include <stdio.h>\nint main(void) { return puts("found") < 0; }\n' >x.c
sleep 0.1
gcc -c x.c
gcc -c x.c
gcc -o x x.o
./x
sed -n 's/^cckcc: \([a-z]*\).*/\1/p' "$1/log" | grep -v '^why$' | paste -sd ' '
END
wanted='found
look recorded hit passed'

# A new Debian in "$room/debian", or no such directory.
make_debian() {
    [ "$1" != --unpacked ] || return 1
    debootstrap --variant=minbase --include=gcc,libc6-dev "$(. /etc/os-release && echo "$VERSION_CODENAME")" "$room/debian" \
        "$mirror" >"$room/said" 2>&1 && return
    echo 'package: debootstrap failed:'
    tail -n 3 "$room/said"
    rm -rf --one-file-system "$room/debian"
    return 1
}

# The shell commands of an example: of a workflow those of its steps `run`, of a Dockerfile those of its lines RUN, without
# mounts.
commands_of() {
    case $1 in
    *.yml) awk '/^ *run: \|/ { indent = index($0, "run"); on = 1; next }
        on && NF && match($0, /[^ ]/) <= indent { on = 0 }
        on { print substr($0, indent + 2) }' "$1" ;;
    *) awk '/^RUN / { on = 1; sub(/^RUN /, "") }
        on { sub(/--mount=[^ ]*/, ""); on = sub(/\\$/, ""); printf "%s%s", $0, on ? "" : "\n" }' "$1" ;;
    esac
}
# Runs the commands of an example in the new Debian, as two runs in new machines with one store, and prints what both found. Each
# begins without the package and with other times of the project's files.
run_example() {
    commands_of "$1" >"$debian/tmp/commands.sh"
    rm -rf "$debian/root/.cache" "$debian/project"
    mkdir "$debian/project"
    echo 'int y(void) { return 0; }' >"$debian/project/y.c"
    printf '#include <stdio.h>\nint y(void);\nint main(void) { return puts("x") < 0 || y(); }\n' >"$debian/project/x.c"
    printf 'x: x.o y.o\n\t$(CC) -o $@ $^\n' >"$debian/project/Makefile"
    for run in 1 2; do
        cp "$package" "$debian/tmp"
        chroot "$debian" env -i PATH=/usr/bin:/bin:/usr/sbin:/sbin HOME=/root PACKAGE="file:///tmp/$(basename "$package")" \
            sh -ec 'cd /project; . /tmp/commands.sh' >"$room/said" 2>&1 || tail -n 5 "$room/said"
        sed -n 's/^hits *//p' "$room/said"
        chroot "$debian" dpkg -P cck >/dev/null 2>&1
        rm -f "$debian"/project/*.o "$debian"/project/x
        touch "$debian"/project/*
    done
}
if make_debian "${1-}"; then
    where='a chroot' debian=$room/debian
    cp "$package" "$room/first.sh" "$debian/tmp"
    mount -t proc proc "$debian/proc"
    start=$(date +%s.%N)
    check 'the installation' "$(chroot "$debian" dpkg -i "/tmp/$(basename "$package")" 2>&1 | grep -c '^Setting up cck')" 1
    found=$(chroot "$debian" env -i PATH=/usr/bin:/bin:/usr/sbin:/sbin sh /tmp/first.sh /tmp/user '' 2>&1)
    end=$(date +%s.%N)
    check 'a miss and a hit' "$found" "$wanted"
    check 'nothing is left after its removal' "$(chroot "$debian" sh -c '
        dpkg -P cck >/dev/null 2>&1; find /usr -path "*cck*"')" ''
    cp /etc/resolv.conf "$debian/etc"
    for example in github/cckcc.yml docker/Dockerfile; do
        check "the commands of $example" "$(run_example "$top/examples/$example" | paste -sd ,)" '0 of 2 (0.0 %),2 of 2 (100.0 %)'
    done
else
    where='a directory'
    start=$(date +%s.%N)
    dpkg-deb -x "$package" "$room/installed"
    found=$(sh "$room/first.sh" "$room/user" "$room/installed" 2>&1)
    end=$(date +%s.%N)
    check 'a miss and a hit' "$found" "$wanted"
fi
echo "package: $(awk "BEGIN { printf \"%.1f\", $end - $start }") s from the package to the hit, in $where"
echo "package: $passed passed, $failed failed"
[ "$failed" -eq 0 ]
