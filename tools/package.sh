#!/usr/bin/env bash
# Makes a Debian package of a built bx: program, man page, completions and documents.
# Usage: tools/package.sh BX FOLDER      (the package is FOLDER/bx_VERSION_ARCHITECTURE.deb)
# Needs make and dpkg-dev; where lintian is installed, it has to find no error.
set -euo pipefail
bx=$(realpath "$1"); folder=$(realpath -m "$2"); cd "$(dirname "$0")/.."
version=$("$bx" --version | awk '{print $2}')
architecture=$(dpkg --print-architecture)
work=$(mktemp -d); trap 'rm -rf "$work"' EXIT
tree=$work/bx; chmod 755 "$work"

make --silent install BX="$bx" DESTDIR="$tree" PREFIX=/usr
strip --remove-section=.comment --remove-section=.note "$tree/usr/bin/bx"
install -D -m 644 -t "$tree/usr/share/doc/bx" README.md docs/FORMATS.md docs/RECIPES.md
day=$(awk -v version="$version" '$1 == "##" && $2 == version { print $4 }' CHANGELOG.md)
date=$(date -u -R -d "${day:-@$(git log -1 --format=%ct)}"); maintainer=$(git log -1 --format='%an <%ae>')
changes=$(awk -v version="$version" '/^## / { on = ($2 == version) } on && sub(/^- /, "  * ")' CHANGELOG.md |
  sed 's/ *<!--.*-->//' | fold -s -w 74 | sed -e 's/^[^ ]/    &/' -e 's/ *$//')
printf 'bx (%s) unstable; urgency=medium\n\n%s\n\n -- %s  %s\n' "$version" "${changes:-  * A version of its own.}" \
  "$maintainer" "$date" > "$tree/usr/share/doc/bx/changelog"
{ printf 'Format: https://www.debian.org/doc/packaging-manuals/copyright-format/1.0/\n\nFiles: *\n'
  sed -n 's/^Copyright (c) /Copyright: /p' LICENSE; echo 'License: Expat'
  sed -e '1,/^Copyright/d' -e 's/^$/./' -e 's/^/ /' LICENSE | sed '1{/^ \.$/d}'; } > "$tree/usr/share/doc/bx/copyright"
gzip -9n "$tree/usr/share/doc/bx/changelog" "$tree/usr/share/man/man1/bx.1"

mkdir -p "$work/debian" "$tree/DEBIAN"
printf 'Source: bx\n\nPackage: bx\nArchitecture: any\n' > "$work/debian/control"
depends=$(cd "$work" && dpkg-shlibdeps -O bx/usr/bin/bx 2> /dev/null | sed -n 's/^shlibs:Depends=//p')
sed -e "s/VERSION/$version/; s/ARCHITECTURE/$architecture/; s/MAINTAINER/$maintainer/; s/DEPENDS/$depends/" \
  -e "s/SIZE/$(du -sk --exclude=DEBIAN "$tree" | cut -f1)/; /^Depends: $/d" tools/control.txt > "$tree/DEBIAN/control"
(cd "$tree" && find usr -type f -print0 | sort -z | xargs -0 md5sum > DEBIAN/md5sums)
mkdir -p "$folder"
package=$folder/bx_${version}_${architecture}.deb
dpkg-deb --root-owner-group --build "$tree" "$package" > /dev/null
if command -v lintian > /dev/null; then lintian --allow-root --fail-on error "$package"; fi
echo "$package"
