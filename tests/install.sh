#!/usr/bin/env bash
# Installs into a scratch folder, compiles a client by pkg-config as C99 and as C++17, with the archive and with the
# shared object, runs them and the installed command, and removes the installation again. Needs GNU make, gcc, g++ and
# pkg-config.
set -eu
cd "$(dirname "$0")/.."
top=$PWD
unset SERPENTGLEAM_LIBRARY_SO MAKEFLAGS MAKELEVEL
scratch=$(mktemp -d)
trap 'rm -rf "$scratch"' EXIT
for program in make gcc g++ pkg-config; do
    command -v "$program" > "$scratch/found" || { echo "tests/install.sh: $program is not there"; exit 1; }
done

# Says what is wrong and ends.
wrong() {
    echo "tests/install.sh: $1"
    exit 1
}

# make, silent unless it fails.
made() {
    make "$@" > "$scratch/make.out" 2>&1 || { cat "$scratch/make.out"; wrong "make $* failed"; }
}

# Compares a file with what is expected on standard input.
same() {
    diff - "$1" || wrong "$2 printed something else"
}

# Everything below a folder but the folders, and folders of ours.
left_in() {
    find "$1" ! -type d -o -name '*serpentgleam*'
}

# What the client prints of instalments and of pairs taken apart that are refused, whatever the account.
refused_pairs='pair: refusal 18, row 0, value 0, entries changed 0, amount 0
pair: refusal 1, row 0, value 0, entries changed 0, amount 0'
not_first="18: the lines in the list are not the account's first pairs"
refused_apart='apart: refusal 18, row 0, value 0, entries changed 0, amount 0
apart: refusal 1, row 0, value 0, entries changed 0, amount 0'
above_count='19: more pairs to take apart than there are in the list'

# What the client prints of factors, whatever the account.
factors='factors 1863083 1085366, refusal 0, row 0
factors 4102929 637796, refusal 0, row 0
factors 0 0, refusal 14, row 0
factors 0 0, refusal 14, row 0
factors 0 0, refusal 14, row 0
14: there are no factors of the code and days asked for: code not 0 to 3, or days above 1,800'

# What it prints of days, of which only one changes the file, PV from 3000 to 3050; then what follows: sentences, and loads, of
# whose longer file three bytes are those that were there.
days='day: refusal 16, row 0, value 0, bytes changed 0
day: refusal 17, row 0, value 0, bytes changed 0
day: refusal 1, row 0, value 0, bytes changed 0
day: refusal 0, row 0, value 0, bytes changed 1
day: refusal 0, row 0, value 0, bytes changed 0'
sentences="16: there is no series of the number asked for
17: the day's prices: high below low, close outside them, or one of the three not 1 to 10,000,000
load: refusal 0, row 0, value 292, bytes changed 292, total 6040300
load: refusal 0, row 0, value 8228, bytes changed 8225, total 25470400
load: refusal 20, row 0, value 0, bytes changed 0, total 0
load: refusal 20, row 0, value 0, bytes changed 0, total 0
load: refusal 20, row 0, value 0, bytes changed 0, total 0
20: the load asked for: seed not 1 to 2,147,483,646, p not 1 to 256, or a buffer below 36 + 32 x p bytes
3: there is no refusal of this number
15: there is no refusal of this number"

version=$(sed -n 's/^#define SERPENTGLEAM_VERSION "\(.*\)"$/\1/p' include/serpentgleam.h)

# The shared object follows the archive, also to one that is not newer.
shared=target/staticlib/libserpentgleam.so.1
made
cp "${SERPENTGLEAM_LIBRARY:-target/staticlib/libserpentgleam.a}" "$scratch/other.a"
echo 'int of_the_other_archive(void); int of_the_other_archive(void) { return 1; }' > "$scratch/other.c"
gcc -fPIC -c "$scratch/other.c" -o "$scratch/other.o"
ar r "$scratch/other.a" "$scratch/other.o"
touch -d '2 days ago' "$scratch/other.a"
made SERPENTGLEAM_LIBRARY="$scratch/other.a"
nm -D "$shared" | grep -q of_the_other_archive || wrong 'the shared object is not that of the archive that was named'
made
! nm -D "$shared" | grep -q of_the_other_archive || wrong 'the shared object is still that of another archive'

prefix=$scratch/prefix
made install PREFIX="$prefix"
export PKG_CONFIG_PATH=$prefix/lib/pkgconfig
[ "$(pkg-config --modversion serpentgleam)" = "$version" ] || wrong 'pkg-config names another version'
readelf -d "$prefix/lib/libserpentgleam.so" | grep -q 'soname: \[libserpentgleam.so.1\]' || wrong 'the soname is another'
[ "$(readlink "$prefix/lib/libserpentgleam.so.1")" = "libserpentgleam.so.$version" ] || wrong 'the soname link is another'

# From another folder, so that nothing of the repository is found by chance.
cd "$scratch"
warnings='-O2 -Wall -Wextra -pedantic -Werror'
for language in 'gcc -std=c99' 'g++ -std=c++17 -x c++'; do
    for way in '' -static; do
        # The words of pkg-config and of the compiler's command are separate on purpose.
        # shellcheck disable=SC2046,SC2086
        $language $warnings $way -o client "$top/tests/installed_client.c" -x none $(pkg-config --cflags --libs serpentgleam)
        needed=$(readelf -d client | grep -c 'NEEDED.*libserpentgleam\.so\.1' || true)
        [ "$needed" = "$([ -z "$way" ] && echo 1 || echo 0)" ] || wrong "$language $way links another library"
        LD_LIBRARY_PATH=$prefix/lib ./client "$top/examples/document.account" > client.out
        same client.out "$language $way" <<EXPECTED
version $version
pair 0
pair 3000
left 7500
entries kept 509
premium 300, refusal 0
total 10800, refusal 0
amount 25000
no list: refusal 12, row 0, lines 0, total 0
refused 1 0: the file has fewer than 12 or more than 65,536 bytes
pair: refusal 0, row 0, value 0, entries changed 0, amount 25300
pair: refusal 0, row 0, value 1, entries changed 1, amount 17800
pair: refusal 0, row 0, value 1, entries changed 1, amount 10800
$refused_pairs
no list: refusal 12, row 0, value 0, amount 0
$not_first
apart: refusal 0, row 0, value 1, entries changed 1, amount 17800
pair: refusal 0, row 0, value 1, entries changed 1, amount 10800
apart: refusal 19, row 0, value 0, entries changed 0, amount 10800
$refused_apart
apart: refusal 0, row 0, value 0, entries changed 2, amount 25300
no list: refusal 12, row 0, value 0
$above_count
$factors
$days
total after it 11700
$sentences
EXPECTED
        LD_LIBRARY_PATH=$prefix/lib ./client "$top/examples/no_positions.account" > client.out
        same client.out "$language $way without positions" <<EXPECTED
version $version
entries kept 512
premium 0, refusal 0
total 0, refusal 0
amount -13
no list: refusal 0, row 0, lines 0, total 0
refused 1 0: the file has fewer than 12 or more than 65,536 bytes
pair: refusal 0, row 0, value 0, entries changed 0, amount 0
pair: refusal 0, row 0, value 0, entries changed 0, amount 0
pair: refusal 0, row 0, value 0, entries changed 0, amount 0
$refused_pairs
no list: refusal 0, row 0, value 0, amount 0
$not_first
apart: refusal 0, row 0, value 0, entries changed 0, amount 0
pair: refusal 0, row 0, value 0, entries changed 0, amount 0
apart: refusal 19, row 0, value 0, entries changed 0, amount 0
$refused_apart
apart: refusal 0, row 0, value 0, entries changed 0, amount 0
no list: refusal 0, row 0, value 0
$above_count
$factors
$days
total after it 0
$sentences
EXPECTED
    done
done

cp "$top/examples/document.account" .
"$prefix/bin/serpentgleam" margin document.account > command.out 2> command.err
printf 'document.account\t%s\n' 'pair 0 2 3 0' 'pair 0 1 4 3000' 'left 0 3 7500' 'premium 300' 'total 10800' |
    same command.out 'the installed command'
"$prefix/bin/serpentgleam" instalments document.account 1 > command.out
printf 'document.account\t%s\n' 'pairs 0 25300' 'pairs 1 17800' 'pairs 2 10800' | same command.out 'the installed command'
"$prefix/bin/serpentgleam" factors FCI 720 > command.out
echo '1863083 1085366' | same command.out 'the installed command'
cp "$top/examples/before_the_day.account" .
"$prefix/bin/serpentgleam" day before_the_day.account 0 3500 2700 2900 -o before_the_day.account
cmp before_the_day.account "$top/examples/after_the_day.account" || wrong 'the installed command wrote another file'
"$prefix/bin/serpentgleam" load 99 8 -o load.account
cmp load.account "$top/examples/load.account" || wrong 'the installed command wrote another file'
"$prefix/bin/serpentgleam" --version > command.out
echo "serpentgleam $version" | same command.out 'the installed command'
PYTHONPATH=$prefix/share/serpentgleam \
    python3 -c 'from serpentgleam import library; print(library.load()._name)' > command.out
echo "$prefix/lib/libserpentgleam.so.1" | same command.out 'the installed module'
cmp "$prefix/share/man/man1/serpentgleam.1" "$top/man/serpentgleam.1"

# A file of an earlier version is not left among those of this one.
cd "$top"
touch "$prefix/share/serpentgleam/serpentgleam/earlier.py"
made install PREFIX="$prefix"
[ ! -e "$prefix/share/serpentgleam/serpentgleam/earlier.py" ] || wrong 'a file of an earlier version is left'
"$prefix/bin/serpentgleam" --version > "$scratch/command.out"
made uninstall PREFIX="$prefix"
[ -z "$(left_in "$prefix")" ] || wrong "after make uninstall there is still $(left_in "$prefix")"

# Below DESTDIR the same files, which name PREFIX alone.
made install PREFIX=/srv/margin DESTDIR="$scratch/a package"
grep -qx 'prefix=/srv/margin' "$scratch/a package/srv/margin/lib/pkgconfig/serpentgleam.pc" ||
    wrong 'the pkg-config file names another prefix'
made uninstall PREFIX=/srv/margin DESTDIR="$scratch/a package"
[ -z "$(left_in "$scratch/a package")" ] || wrong 'after make uninstall with DESTDIR something is left'

for refused in relative '/with space'; do
    ! make install PREFIX="$refused" DESTDIR="$scratch" > "$scratch/make.out" 2>&1 || wrong "PREFIX=$refused is taken"
done
made
echo 'install: 4 clients and the command run as expected, nothing is left'
