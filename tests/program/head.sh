# What the transcripts of this folder share: tests/hostile.py reads it before each section.
trap '' XFSZ
ulimit -c 0
# the journal of two bytes at 2 of an image of 8, as it is before its end line, and the redo text once they are taken
# back
stopped='change2 00000001 0000000000000008\n00000002: 4344                                     CD\nsave 00000001\n'
patched=${stopped}'done2 00000001 0000000000000008\n' unpatched=${patched//4344/7879} unpatched=${unpatched//CD/xy}
mega() { head -c "$2" /dev/zero | tr '\0' "$1"; }  # a character again and again

# Image, journal and redo file anew; what isn't given, or is -, is missing.
fresh() {
  local name
  rm -rf img img.bxj img.bxj.redo img.bxj.image
  for name in img img.bxj img.bxj.redo; do
    [ "${1--}" = - ] || printf %b "$1" > $name
    shift $(($# > 0))
  done
}

# An image of ABCDEFGH anew, and a change for each dump.
changes() {
  local dump
  fresh ABCDEFGH
  for dump; do echo "$dump" | bx revert img; done
}

# Whether image, journal and redo file are so; one that is empty is as one that is missing.
holds() {
  local name
  for name in img img.bxj img.bxj.redo; do
    printf %b "${1-}" | cmp -s - <(cat $name 2> /dev/null) || { echo "$name:"; head -c 500 $name; }
    shift $(($# > 0))
  done
}

# A sum of image, journal and redo file; one that is empty is as one that is missing.
trio() {
  local name
  for name in img img.bxj img.bxj.redo; do cat $name; echo =; done 2> /dev/null | sha256sum
}

# Every file below: kind, bits, owner, names, where a link leads, time, and what is in it; and what is on the device
# $dev. A refused command may leave another line on the image.
state() {
  [ -z "${dev-}" ] || sha256sum "$dev"
  find . -name '*.bxj.image' -o \( -type d -printf '%p %y %m %U:%G\n' \) -o -printf '%p %y %m %U:%G %n %l %T@\n' | sort
  find . -type f -size +0 ! -name '*.bxj.image' -exec sha256sum {} +
}

left_out() {
  echo "left out: $*"
  exit 80
}

# Runs a command, and says so where a file isn't as before.
kept() {
  local before status
  before=$(state)
  "$@"
  status=$?
  [ "$(state)" = "$before" ] || echo 'not as before'
  return $status
}

# Each line of standard input is words of bx, behind FRONT, that it refuses with a fault; every file is as before.
refused() { # FAULT [FRONT ..]
  local fault=$1 words out status before
  shift
  before=$(state)
  while IFS= read -r words <&9; do
    out=$(eval "${*:-bx} $words" 2>&1 < /dev/null 9<&-)
    status=$?
    [[ $status$fault = 2bad* || $status = 1 && $fault != bad* ]] && [[ $out == "bx: "$fault ]] ||
      echo "$words: status $status, $out"
    [ "$(state)" = "$before" ] || { echo "$words: not as before"; before=$(state); }
  done 9<&0
}
