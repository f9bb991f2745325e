#!/bin/sh
# Installs into a folder with a space in its name, and uses what is there as a
# programmer would: install.sh, from the top of the repository. Programs are built
# as pkg-config says, with the shared library and with the archive; the command and
# the verdict program are run; every function has its manual page. uninstall must
# leave no file behind. It prints what fails, and ends with status 1 if anything
# does.
set -eu
cd "$(dirname "$0")/../.."
room=$(mktemp -d)
trap 'rm -rf "$room"' EXIT
unset MAKEFLAGS MFLAGS GNUMAKEFLAGS MAKELEVEL
prefix="$room/a place"
version=$(sed -n 's/^#define WS2S_VERSION "\(.*\)"$/\1/p' include/ws2s.h)
fail() {
    echo "install: $*"
    exit 1
}

make -s install PREFIX="$prefix" >"$room/said" 2>&1 || { cat "$room/said"; fail 'make install fails'; }

export PKG_CONFIG_PATH="$prefix/lib/pkgconfig"
for package in ws2s ws2s-static; do
    [ "$(pkg-config --modversion $package)" = "$version" ] || fail "the version of $package"
    flags=$(pkg-config --cflags --libs $package) # names with spaces are escaped for a shell
    eval "${CC:-cc} -std=c99 examples/host.c $flags -o \"\$room/$package\"" || fail "$package: the example does not build"
    [ "$(LD_LIBRARY_PATH="$prefix/lib" "$room/$package" samples/first_inside.rul belt seat)" = 'shown, places: 2
- seat
  - belt' ] || fail "$package: the example says something else"
done
readelf -d "$room/ws2s" | grep -q "(NEEDED).*\[libws2s.so.${version%%.*}\]" || fail 'the example does not take the shared library'
readelf -d "$room/ws2s-static" | grep -q '(NEEDED).*libws2s' && fail 'the example does not take the archive'

[ "$("$prefix/bin/ws2s" --version)" = "ws2s $version" ] || fail 'the command'
[ "$("$prefix/bin/verdict" <samples/first_inside.rul)" = 'shown 2 4 12B800' ] || fail 'the verdict program'

# a page for each function of the header, whose name line names it; those ending in _ are the header's own
functions=$(grep -o '\bws2s_[a-z_]*[a-z](' include/ws2s.h | tr -d '(' | sort -u)
pages=0
for name in $functions; do
    page=$prefix/share/man/man3/$name.3
    [ -f "$page" ] || fail "no manual page for $name"
    target=$(sed -n 's/^\.so //p' "$page")
    grep -A1 '^\.SH NAME' "${target:+$prefix/share/man/}${target:-$page}" | grep -qw "$name" || fail "the manual page of $name is of something else"
    pages=$((pages + 1))
done
[ "$pages" -ge 15 ] || fail "only $pages functions were found"
if command -v man >/dev/null; then
    for page in "$prefix"/share/man/man?/*; do
        name=$(basename "$page")
        said=$(man -M "$prefix/share/man" --warnings -E UTF-8 "${name##*.}" "${name%.*}" 2>&1 >"$room/page") || fail "man ${name##*.} ${name%.*} fails"
        [ -z "$said" ] || fail "man ${name%.*}: $said"
        [ "$(wc -l <"$room/page")" -gt 10 ] || fail "man ${name%.*} shows nothing"
    done
fi

make -s uninstall PREFIX="$prefix" >"$room/said" 2>&1 || fail 'make uninstall fails'
left=$(find "$prefix" ! -type d)
[ -z "$left" ] || fail "uninstall leaves $left"

# staged, for a package: the same files below DESTDIR, which no file names
make -s install DESTDIR="$room/a stage" PREFIX=/usr LIBDIR=/usr/lib/there >"$room/said" 2>&1 || { cat "$room/said"; fail 'staging fails'; }
[ -f "$room/a stage/usr/lib/there/libws2s.so.$version" ] && [ -x "$room/a stage/usr/bin/ws2s" ] || fail 'files are not where they should be'
grep -q '^libdir=/usr/lib/there$' "$room/a stage/usr/lib/there/pkgconfig/ws2s.pc" || fail 'pkg-config has another folder'
make -s uninstall DESTDIR="$room/a stage" PREFIX=/usr LIBDIR=/usr/lib/there >"$room/said" 2>&1
[ -z "$(find "$room/a stage" ! -type d)" ] || fail 'uninstall leaves files of a stage'

echo "installed, used and removed: $pages functions with manual pages"
