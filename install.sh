#!/usr/bin/env bash
# install.sh PREFIX: the headers, the two static libraries, a shared library made of the first, and a pkg-config file, below PREFIX, as /usr/local; and where it is
# built the desk program, with its man page and its completion for bash. With DESTDIR set all of it goes below that, for who makes a package. The static libraries
# come from `tools/staticlib sktelbaan sktelbaan_runner`, the program from `cargo build --release --offline --package desk`.
set -euo pipefail
[ $# -eq 1 ] || { echo "usage: install.sh PREFIX" >&2; exit 2; }
prefix=$(realpath -m "$1")
cd "$(dirname "$0")"

headers=(include/sktelbaan.h include/sktelbaan_runner.h)
archives=(target/staticlib/libsktelbaan.a target/staticlib/libsktelbaan_runner.a)
for archive in "${archives[@]}"; do
    [ -f "$archive" ] || { name=${archive##*/lib}; echo "$archive is missing: run \`tools/staticlib ${name%.a}\`" >&2; exit 1; }
done
version=$(sed -n 's/^#define SKTELBAAN_VERSION "\(.*\)"$/\1/p' "${headers[@]}")
major=${version%%.*}

# The shared library shows what the headers declare, and nothing else.
made=$(mktemp -d)
trap 'rm -rf "$made"' EXIT
{
    echo '{ global:'
    sed -n 's/^uint64_t \(sktelbaan_[a-z_]*\)(.*/\1;/p' "${headers[@]}"
    echo 'local: *; };'
} > "$made/shown"
"${CC:-cc}" -shared -o "$made/libsktelbaan.so" -Wl,-soname,"libsktelbaan.so.$major" -Wl,--version-script="$made/shown" -Wl,--no-undefined \
    -Wl,--whole-archive "${archives[0]}" -Wl,--no-whole-archive
sed -e "s|@PREFIX@|$prefix|" -e "s|@VERSION@|$version|" include/sktelbaan.pc.in > "$made/sktelbaan.pc"

below=${DESTDIR:-}$prefix
install -d "$below/include" "$below/lib/pkgconfig"
install -m 644 "${headers[@]}" "$below/include"
install -m 644 "${archives[@]}" "$below/lib"
install -m 755 "$made/libsktelbaan.so" "$below/lib/libsktelbaan.so.$version"
ln -sf "libsktelbaan.so.$version" "$below/lib/libsktelbaan.so.$major"
ln -sf "libsktelbaan.so.$major" "$below/lib/libsktelbaan.so"
install -m 644 "$made/sktelbaan.pc" "$below/lib/pkgconfig"

program=${CARGO_TARGET_DIR:-target/cargo}/release/sktelbaan
if [ -f "$program" ]; then
    install -d "$below/bin" "$below/share/man/man1" "$below/share/bash-completion/completions"
    install -m 755 "$program" "$below/bin"
    install -m 644 desk/sktelbaan.1 "$below/share/man/man1"
    install -m 644 desk/sktelbaan.bash "$below/share/bash-completion/completions/sktelbaan"
else
    echo "the desk program is not installed, since it is not built: run \`cargo build --release --offline --package desk\`" >&2
fi
