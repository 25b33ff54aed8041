The Debian package of a built bx: lintian finds no error, and it is installed, upgraded and removed without leaving anything. All of
it in a root of its own, so that this system stays as it is.

# The package is made, installed, upgraded and removed (wants root lintian make dpkg-deb dpkg-shlibdeps strip)

  $ "$FOLDER/../../tools/package.sh" "$(command -v bx)" new > made || cat made
  $ new=$(tail -n 1 made); version=$(dpkg-deb -f "$new" Version); root=$PWD/root

An older one, with a file that the newer one doesn't have:

  $ dpkg-deb -R "$new" tree; sed -i "s/^Version: .*/Version: $version~before/" tree/DEBIAN/control; echo old > tree/usr/share/doc/bx/gone
  $ dpkg-deb --root-owner-group --build tree old.deb > said; mkdir -p root/var/lib/dpkg/{info,updates}; touch root/var/lib/dpkg/{status,available}
  $ put() { dpkg --root="$root" --force-depends --force-not-root --log="$PWD/log" "$@" > said 2>&1 || cat said; }
  $ state() { dpkg-query --admindir="$root/var/lib/dpkg" -W -f '${Status} ${Version}\n' bx 2> said; }
  $ are() { # PACKAGE: whether its files are installed, and no others
  >   diff <(cd root && find . -path ./var/lib/dpkg -prune -o ! -type d -print | sort) <(dpkg-deb --fsys-tarfile "$1" | tar -t | grep -v '/$' | sort)
  > }
  $ put -i old.deb; are old.deb
  $ put -i "$new"; are "$new"; dpkg --root="$root" --verify bx; state | grep -vx "install ok installed $version"
  [1]
  $ [ "$(root/usr/bin/bx --version)" = "$(bx --version)" ]; gzip -t root/usr/share/man/man1/*.gz
  $ put -r bx; find root -path root/var/lib/dpkg -prune -o ! -type d -print
  $ put -P bx; state
  [1]
  $ find root -mindepth 1 -path root/var/lib/dpkg -prune -o -print | grep -v -e '^root/var$' -e '^root/var/lib$'
  [1]
