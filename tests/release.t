What names a release: version, changelog, man page, authors and package. tools/release.sh makes the tags where this is as it is here.

# Version, dates and authors (wants git)

  $ cd "$FOLDER/../.."; [ "$(git rev-parse --is-shallow-repository)" = false ] || left_out 'no clone with its history'
  $ same() { [ "$1" = "$2" ] || echo "${1:-nothing}, and not $2"; }
  $ version=$(sed -n 's/.*\.version("\(.*\)").*/\1/p' crates/bx_cli/src/options.rt | head -n 1); same "$(bx --version)" "bx $version"

Each head of CHANGELOG.md has a version and a date, which both fall, but for a first one of what no version has yet:

  $ heads=$(sed -n 's/^## //p' CHANGELOG.md | sed '1 { /^Unreleased$/d }'); date=$(head -n 1 <<< "$heads" | cut -d ' ' -f 3)
  $ grep -vE '^[0-9]+\.[0-9]+\.[0-9]+ - [0-9]{4}-[0-9]{2}-[0-9]{2}$' <<< "$heads"
  [1]
  $ cut -d ' ' -f 1 <<< "$heads" | sort -rVuc; cut -d ' ' -f 3 <<< "$heads" | sort -rc
  $ same "$(head -n 1 <<< "$heads" | cut -d ' ' -f 1)" "$version"

The man page is of the same day, or of a later one where something is in no version yet:

  $ page=$(date -d "$(sed -n 's/^\.Dd //p' man/bx.1)" +%F)
  $ { grep -qx '## Unreleased' CHANGELOG.md && [[ ! $page < $date ]]; } || same "$page" "$date"
  $ same "$(git log --format=%an%n%cn | sort -u)" "$(sed -n 's/^Copyright (c) [0-9, -]*//p' LICENSE)"

# The package (wants git make dpkg-deb dpkg-shlibdeps strip)

  $ cd "$FOLDER/../.."; same() { [ "$1" = "$2" ] || echo "${1:-nothing}, and not $2"; }
  $ version=$(bx --version | cut -d ' ' -f 2); date=$(sed -n "s/^## $version - //p" CHANGELOG.md)
  $ made=$(tools/package.sh "$(command -v bx)" "$OLDPWD/made" | tail -n 1); dpkg-deb -x "$made" "$OLDPWD/tree"
  $ same "$(dpkg-deb -f "$made" Version)" "$version"; cd "$OLDPWD/tree/usr/share/doc/bx"
  $ same "$(zcat changelog.gz | head -n 1 | cut -d ' ' -f 1,2)" "bx ($version)"
  $ same "$(date -u -d "$(zcat changelog.gz | sed -n 's/^ -- .*>  //p')" +%F)" "$date"
  $ same "$(sed -n 's/^Copyright: //p' copyright)" "$(sed -n 's/^Copyright (c) //p' "$FOLDER/../../LICENSE")"
