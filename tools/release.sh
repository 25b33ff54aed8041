#!/usr/bin/env bash
# Makes the annotated tags of all versions in CHANGELOG.md that have none, where tests/release.t finds what names a
# release as it is to be: the commit that is checked out gets that of the newest one, and the last commit of its day,
# whose sources have that version, that of an earlier one. Usage: tools/release.sh [--dry-run] BX None is made where
# files are changed that no commit has, where CHANGELOG.md begins with `## Unreleased`, where the newest version has
# its tag, or where the commit is of another day. Between two releases that is no fault: with --dry-run, which makes no
# tag and says which it would make, the status is 1 only where something is wrong that a release can't mend.
set -euo pipefail
dry= mark=failed made=made
if [ "$1" = --dry-run ]; then
  dry=yes mark=skipped made='would make'
  shift
fi
bx=$(realpath "$1")
cd "$(dirname "$0")/.."
wrong= held= tags=()
failed() { echo "failed   $1"; wrong=yes; }
hold() { printf '%-8s %s\n' "$mark" "$1"; held=yes; [ "$dry" ] || wrong=yes; }
version_at() { git show "$1:crates/bx_cli/src/options.rt" | sed -n 's/.*\.version("\(.*\)").*/\1/p' | head -n 1; }
day_of() { git log -1 --format=%cs "$1"; }

if [ "$(git rev-parse --is-shallow-repository)" != false ]; then
  echo 'left out: all (no clone with its history)'
  [ "$dry" ]
  exit
fi
tests/hostile.py --bx "$bx" release || wrong=yes
newest=$(sed -n 's/^## //p' CHANGELOG.md | head -n 1)
[ "$newest" != Unreleased ] || hold 'CHANGELOG.md begins with Unreleased, which needs a version and a date'
[ -z "$(git status --porcelain)" ] || hold 'files are changed that no commit has'

while read -r version _ date; do
  commit=$(git log --first-parent -1 --format=%H --until="${date}T23:59:59Z")
  if tagged=$(git rev-parse --verify --quiet "v$version^{commit}"); then
    [ "$(version_at "$tagged")" = "$version" ] || failed "v$version: its sources have another version"
    [ "$newest" != "$version - $date" ] || hold "v$version is there, at ${tagged:0:12}"
    continue
  elif [ "$newest" = "$version - $date" ]; then
    commit=$(git rev-parse HEAD)
    [ "$(day_of HEAD)" = "$date" ] || hold "the commit is not of $date"
  elif [ -z "$commit" ] || [ "$(day_of "$commit")" != "$date" ] || [ "$(version_at "$commit")" != "$version" ]; then
    failed "v$version: no commit of $date has the version"
  fi
  tags+=("$version $commit")
done < <(sed -n 's/^## \([0-9.]* - .*\)$/\1/p' CHANGELOG.md | tac)

if [ "$wrong" ]; then
  echo 'no tag is made'
  exit 1
fi
for tag in "${tags[@]}"; do
  read -r version commit <<< "$tag"
  echo "$made v$version at ${commit:0:12}"
  [ -z "$dry" ] || continue
  IFS='|' read -r name mail time <<< "$(git log -1 --format='%an|%ae|%cI' "$commit")"
  export GIT_COMMITTER_NAME=$name GIT_COMMITTER_EMAIL=$mail GIT_COMMITTER_DATE=$time
  git tag -a "v$version" -m "bx $version" "$commit"
done
[ -z "$dry" ] || echo "a dry run: ${#tags[@]} tags are missing${held:+", and none is made before what is skipped here"}"
