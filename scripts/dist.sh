#!/bin/bash
# Makes in build/dist a tarball and a Debian package for Linux on x86-64: static programs, which need no kit, no cargo and no gcc. The same
# commit gives the same bytes, in whatever folder it is made.
set -euo pipefail
cd "$(dirname "$0")/.."

version=$(sed -n 's/^#define PORTAL_VERSION \([0-9]*\)$/\1/p' include/portal.h)
dotted=$((version / 10000)).$((version / 100 % 100)).$((version % 100))
shared=libportal.so.$((version / 10000))
name=gemzuleg-$dotted-x86_64-linux
dist=build/dist
commit=$(git rev-parse HEAD)
SOURCE_DATE_EPOCH=$(git log -1 --format=%ct)
export SOURCE_DATE_EPOCH

bash scripts/gemzuleg.sh
rm -rf "$dist"
mkdir -p "$dist"

# ---- static programs. Paths of this folder and of cargo's must not get into them. The flags are handed over one by one: a path may have spaces.
echo "dist: static programs" >&2
flags=(-C target-feature=+crt-static "--remap-path-prefix=$PWD=/gemzuleg" "--remap-path-prefix=${CARGO_HOME:-$HOME/.cargo}=/cargo")
CARGO_ENCODED_RUSTFLAGS=$(printf '%s\x1f' "${flags[@]}")
export CARGO_ENCODED_RUSTFLAGS=${CARGO_ENCODED_RUSTFLAGS%$'\x1f'}
(cd rust && cargo build --release --quiet -p gemzuleg --target x86_64-unknown-linux-gnu --target-dir ../build/cargo-static)
kit=$(dirname "$(rt doc)")
for program in report pool; do
    bash scripts/make_older.sh "crates/$program/out/$program.o" python3 scripts/prove.py dist "build/$program.log" "$program"
    gcc -static -s -Wl,--build-id=none -o "$dist/$program" "crates/$program/out/$program.o" "$kit/c/libos_c.a" "$kit/c/liblibc_c.a"
done

# ---- lay FOLDER PREFIX: the files below a folder; PREFIX is what the pkg-config file says.
lay() {
    local to=$1 doc=$1/share/doc/gemzuleg page
    install -D -m 755 build/cargo-static/x86_64-unknown-linux-gnu/release/gemzuleg "$to/bin/gemzuleg"
    install -D -m 755 -t "$to/libexec/gemzuleg" "$dist/report" "$dist/pool"
    install -D -m 644 -t "$to/include" include/portal.h
    install -D -m 644 -t "$to/lib" build/lib/libportal.a
    install -D -m 755 "build/lib/$shared" "$to/lib/$shared"
    ln -s "$shared" "$to/lib/libportal.so"
    mkdir -p "$to/lib/pkgconfig"
    bash scripts/pkgconfig.sh "$2" "$dotted" > "$to/lib/pkgconfig/gemzuleg.pc"
    for page in gemzuleg.1 report.1 pool.1 portal.3 gemzuleg.5; do
        install -D -m 644 "man/$page" "$to/share/man/man${page##*.}/$page"
    done
    install -D -m 644 rust/gemzuleg/gemzuleg.bash "$to/share/bash-completion/completions/gemzuleg"
    install -D -m 644 -t "$doc" docs/COURSE.md docs/SHEET.md CHANGELOG.md "$dist/VERIFY.md"
    install -D -m 644 -t "$doc/examples" examples/*.sheet examples/*.report examples/*.kinds examples/portal.c examples/README.md
    find "$to" -exec touch -h -d "@$SOURCE_DATE_EPOCH" {} +
    find "$to" -type d -exec chmod 755 {} +
}

bash scripts/verify.sh "$dotted" "$commit" > "$dist/VERIFY.md"

echo "dist: the tarball" >&2
lay "$dist/$name" '${pcfiledir}/../..'
tar -C "$dist" --sort=name --mtime="@$SOURCE_DATE_EPOCH" --owner=0 --group=0 --numeric-owner --format=ustar -cf - "$name" | gzip -9n > "$dist/$name.tar.gz"

if command -v dpkg-deb > /dev/null; then
    echo "dist: the Debian package" >&2
    root=$dist/deb
    lay "$root/usr" /usr
    mkdir -p "$root/DEBIAN"
    cat > "$root/DEBIAN/control" << END
Package: gemzuleg
Version: $dotted
Architecture: amd64
Maintainer: Gemzuleg <gemzuleg@localhost>
Section: education
Priority: optional
Suggests: graphviz
Description: who can get into an account? Answers by proof
 Labs draw their own accounts, passwords, tokens and mailboxes. gemzuleg lists
 the smallest sets that open an account and the smallest losses that shut it,
 marks what students hand in, and makes papers to print.
END
    (cd "$root" && find usr -type f -print0 | sort -z | xargs -0 md5sum > DEBIAN/md5sums)
    find "$root/DEBIAN" "$root" -maxdepth 1 -exec touch -h -d "@$SOURCE_DATE_EPOCH" {} +
    dpkg-deb --root-owner-group -Zxz -b "$root" "$dist/gemzuleg_${dotted}_amd64.deb" > /dev/null
else
    echo "dist: dpkg-deb is not installed, so no Debian package is made" >&2
fi
rm -rf "$dist/$name" "$dist/deb" "$dist/report" "$dist/pool"
(cd "$dist" && sha256sum -- *.tar.gz *.deb VERIFY.md 2> /dev/null > SHA256SUMS || sha256sum -- *.tar.gz VERIFY.md > SHA256SUMS)
echo "dist: version $dotted of ${commit:0:12} in $dist" >&2
