#!/bin/sh
# What a user gets by `make install`: into an empty folder, with nothing else there; then a program in C is compiled against it by the flags
# of the pkg-config file and run, the commands are run from there, and all is taken away again. Needs the archive and target/bin/handover.
set -eu
unset CDPATH
cd "$(dirname "$0")/.."
scratch=$(mktemp -d)
trap 'rm -rf "$scratch"' EXIT

wrong() {
    echo "install: $*" >&2
    exit 1
}

prefix="$scratch/a prefix"
make -s install PREFIX="$prefix" >"$scratch/log" 2>&1 || { cat "$scratch/log" >&2; wrong "make install failed"; }
expected="bin/handover
bin/sock
include/sock.h
lib/libcabinet.a
lib/pkgconfig/sock.pc
share/doc/sock/FORMAT.md
share/doc/sock/TEXT.md
share/doc/sock/TUTORIAL.md
$(printf 'share/doc/sock/%s\n' examples/*.sock | LC_ALL=C sort)
share/man/man1/sock.1"
[ "$(cd "$prefix" && find . -type f | sed 's|^\./||' | LC_ALL=C sort)" = "$expected" ] || wrong "other files: $(cd "$prefix" && find . -type f)"
grep -rqF '@' "$prefix/lib/pkgconfig/sock.pc" "$prefix/share/man/man1/sock.1" && wrong "a placeholder is left"

# ---- A program in C, by pkg-config's flags, or by those in its file where there is no pkg-config. A prefix with a blank needs the second way

plain="$scratch/plain"
make -s install PREFIX="$plain" >"$scratch/log" 2>&1 || wrong "make install failed the second time"
file="$plain/lib/pkgconfig/sock.pc"
field() { sed -n "s/^$1: *//p" "$file" | sed "s|\${includedir}|$plain/include|; s|\${libdir}|$plain/lib|"; }
version=$(sed -n 's/^.define SOCK_VERSION "\(.*\)"$/\1/p' include/sock.h)
if command -v pkg-config >/dev/null; then
    flags=$(PKG_CONFIG_PATH="$plain/lib/pkgconfig" pkg-config --cflags sock)
    links=$(PKG_CONFIG_PATH="$plain/lib/pkgconfig" pkg-config --libs sock)
    [ "$(PKG_CONFIG_PATH="$plain/lib/pkgconfig" pkg-config --modversion sock)" = "$version" ] || wrong "another version"
    by=pkg-config
else
    flags=$(field Cflags) links=$(field Libs)
    [ "$(field Version)" = "$version" ] || wrong "another version"
    by="the pkg-config file"
fi
# In a folder of its own, so that nothing of the repository is found.
mkdir "$scratch/work"
cp examples/worked.c examples/worked.txt examples/bridge.sock examples/bridge.txt "$scratch/work"
(
    cd "$scratch/work"
    # The flags are words of their own.
    # shellcheck disable=SC2086
    gcc -std=c99 -Wall -Wextra -Werror $flags worked.c $links -o worked
    ./worked | diff - worked.txt
) || wrong "the program in C does not print what it should"

# ---- The commands, from there, with nothing of the repository around

(
    cd "$scratch/work"
    PATH="$prefix/bin:$PATH"
    [ "$(command -v sock)" = "$prefix/bin/sock" ] || exit 1
    sock --help | grep -q '^usage: sock' || exit 1
    [ "$(sock --version)" = "sock $version" ] || exit 1
    sock asm -o bridge bridge.sock
    handover <bridge | diff - bridge.txt
    sock run --replay bridge.sock | tail -n 1 | grep -q 'nothing moves any more'
) || wrong "the installed commands do not run"
if command -v man >/dev/null; then
    MANWIDTH=100 man --warnings=w -l "$prefix/share/man/man1/sock.1" >"$scratch/page" 2>"$scratch/said" || wrong "the man page is not shown"
    [ ! -s "$scratch/said" ] || { cat "$scratch/said" >&2; wrong "the man page has warnings"; }
    for command in asm dis check show moves run; do grep -q "^ *sock $command " "$scratch/page" || wrong "the man page has no $command"; done
fi

# ---- Packages, and taking away

make -s install DESTDIR="$scratch/package" PREFIX=/usr >/dev/null 2>&1
[ -e "$scratch/package/usr/lib/libcabinet.a" ] || wrong "DESTDIR is not heeded"
grep -q '^prefix=/usr$' "$scratch/package/usr/lib/pkgconfig/sock.pc" || wrong "DESTDIR is in the pkg-config file"
# What `tools/build-library` sets: all functions of the archive begin at multiples of 64.
places=$(objdump -h "$scratch/package/usr/lib/libcabinet.a" | awk '$2 ~ /^\.text/ { print $NF }' | sort -u)
[ "$places" = '2**6' ] || wrong "functions of the archive begin at multiples of" $places
make -s uninstall PREFIX="$prefix"
[ -z "$(find "$prefix" -type f)" ] && [ ! -e "$prefix/share/doc/sock" ] || wrong "left behind: $(find "$prefix" -type f)"
make -s uninstall PREFIX="$prefix" || wrong "nothing can be taken away twice"

# ---- Building: in a copy, with stand-ins for rt and cargo that prove and compile nothing

copy=$scratch/copy
mkdir -p "$copy/crates/sock" "$copy/crates/cabinet_c" "$scratch/path"
cp -R bin tools "$copy"
echo 'sock:' >"$copy/crates.txt"
built=$PWD/target
export built scratch
cat >"$scratch/path/rt" <<'EOF'
#!/bin/sh
echo "rt $*" >>"$scratch/asked"
[ ! -e "$scratch/unproved" ] || { echo "logic=not-proved"; exit 1; }
mkdir -p out
cp "$built/staticlib/libcabinet.a" out/libcabinet_c.a
EOF
cat >"$scratch/path/cargo" <<'EOF'
#!/bin/sh
mkdir -p ../../target/tools/release
cp "$built/tools/release/sock" ../../target/tools/release/
EOF
chmod +x "$scratch/path/rt" "$scratch/path/cargo"
says() { (cd "$copy" && PATH=$scratch/path:$PATH bin/sock --version) 2>"$scratch/said"; }
asked() { [ "$(grep -c '^rt lib$' "$scratch/asked")" = "$1" ] || wrong "rt was asked: $(cat "$scratch/asked")"; }
[ "$(says)" = "sock $version" ] || wrong "bin/sock does not run from nothing: $(cat "$scratch/said")"
asked 1 && grep -q 'is not built yet' "$scratch/said" || wrong "it is not said that the library is built first"
[ "$(says)" = "sock $version" ] && asked 1 && [ ! -s "$scratch/said" ] || wrong "what is built is built again"
sleep 0.1
touch "$copy/crates/sock/new"
[ "$(says)" = "sock $version" ] && asked 2 && grep -q 'older than its sources' "$scratch/said" || wrong "a newer source is not seen"
sleep 0.1
touch "$copy/crates/sock/new" "$scratch/unproved"
status=0
says || status=$?
[ "$status" = 2 ] && grep -q 'log says why' "$scratch/said" || wrong "what is not proved is run"
ln -s "$copy/bin/sock" "$scratch/link"
rm "$scratch/unproved"
[ "$(cd / && PATH=$scratch/path:$PATH "$scratch/link" --version 2>/dev/null)" = "sock $version" ] || wrong "bin/sock does not run by a link"

echo "install: into an empty folder, compiled against by $by, and taken away"
