Patches: round trips with `diff`, texts that are none, images that have other bytes, `-n` and `show -p`, what these don't read, and
random pairs.

# A patch is applied, taken back, and applied the other way round

  $ fresh ABCDEFGH; printf 'ABxyEFGH\0Z' > new; bx diff img new > fix; cat fix
  length 8 to 10
  -00000002: 4344                                     CD
  +00000002: 7879                                     xy
  +00000008: 005a                                     .Z
  end 4
  $ bx patch -f fix img; cmp img new
  $ kept bx patch -f fix img
  bx: image should have 8 bytes
  [1]
  $ bx patch -R -f fix img; cat img; bx log img
  ABCDEFGH1 8 2
  2 10 4
  $ bx undo -k 2 img; holds ABCDEFGH '' "$(cat img.bxj.redo)\n"
  0
  $ bx redo img; cmp img new
  1
  $ : > none; bx diff none new | bx patch made; cmp made new

# Texts that are no patches

Nothing is made or recovered: of an image with its texts, of one whose last change was stopped, and of one that is missing.

  $ echo '00000002: 7879' > dump; printf 'length 8 to 8\n+00000007: 4142\nend\n' > past; printf -- '-00000002: 7879\nlength 8 to 8\nend\n' > late
  $ echo 'length 8 to' > one; printf -- '--- old\n+++ new\n' > unified
  $ (yes '+00000000: 4142 4344 4546 4748' | head -1000000; echo x) > million
  $ for journal in patched stopped; do fresh ABxyEFGH "${!journal}" "$unpatched"
  >   for image in img new; do
  >     refused 'line 1: not a line of a patch' <<< "patch -f dump $image"
  >     refused 'line 2: past the length' <<< "patch -f past $image"
  >     refused 'line 2: not a line of a patch' <<< "patch -f late $image"
  >     refused 'line 1: bad length' <<< "patch -f one $image"
  >     refused 'line 1: bad address' <<< "patch -f unified $image"
  >     refused 'line 1000001: not a line of a patch' <<< "patch -f million $image"
  >   done
  > done
  $ kept bx patch -f "$(command -v bx)" new
  bx: line 1: not a line of a patch
  [1]
  $ kept bx patch -f / new
  bx: read failed
  [1]
  $ kept bx patch -f missing new
  bx: cannot open file
  [1]
  $ printf -- '-0: 41\nend\n' > text; kept bx patch -f text new
  bx: the image has other bytes at 0
  [1]

# Patches without an end

Every front of one is refused, and every one with a line less in the middle, with image and history byte for byte as before; and of
`-R` one that can't be turned round.

  $ fresh ABCDEFGH '' "$unpatched"; printf 'ABxyEFGH\0Z' > new; bx diff img new > whole
  $ for n in $(seq 0 $(($(wc -c < whole) - 1))); do
  >   head -c $n whole > ../front; for option in '' --fresh; do refused 'the patch has no end' <<< "patch $option -f ../front img"; done
  > done
  $ for n in 1 2 3 4; do sed ${n}d whole > part; refused 'line 4: bad count of lines' <<< 'patch -f part img'; done
  $ printf 'length 8 to 4\nend\n' > cut; refused "the patch can't be turned round" <<< 'patch -R -f cut img'
  $ for text in '' ' end\n' 'end \n' 'end' 'end 0' 'end 01\n' 'END\n' 'end\r\n' 'end 0\r\n' 'end\nend\n' 'end\n\n' 'end 1\n' '\0' '\0\n'; do
  >   printf "$text" > text; for option in '' --fresh; do refused '*' <<< "patch $option -f text img"; done
  > done

A whole one that writes nothing is none: no entry, what is undone stays, no history is dropped, and no file is made.

  $ for text in 'end\n' 'end 0\n' 'length 8 to 8\nend 1\n' '# nothing\n-0: 41\nend\n'; do
  >   printf "$text" > text; for option in '' --fresh; do kept bx patch $option -f text img || echo "$text"; done
  > done
  $ printf 'end\n' > text; kept bx patch -f text new.img; printf 'length 8 to 8\nend\n' > text; refused 'image should have 8 bytes' <<< 'patch -f text new.img'
  $ refused 'the image has other bytes at 0' <<< "patch img <<< \$'-0: 42\nend'"
  $ kept bx diff img img | kept bx patch img; kept bx diff -q img img; kept bx diff -q img new
  [1]

# Nothing is no change

  $ fresh ABxyEFGH "$patched" "$unpatched"; : > none; printf '*\n\n' > stars
  $ for image in img new.img; do for option in '' --fresh -n; do refused 'nothing to write' << .
  > revert $option -f none $image
  > revert $option -f stars $image
  > revert $option -p -f none $image
  > .
  > done; done

# Changes that would make the image longer

With `--no-grow` they are refused, with -n too, and before a history is dropped.

  $ printf '7: 4142\n' > over; printf '8: 41\n' > behind; printf 4142 > digits; printf 123456789 > nine; : > none
  $ printf 'length 8 to 9\n+00000008: 49\nend\n' > longer; printf -- '-0: 41\n+8: 49\nend\n' > untold
  $ growing() { # IMAGE ..: as of `fresh`
  >   for option in '' --fresh -n; do fresh "$@"; refused 'the image would get longer' << .
  > revert --no-grow $option -f over img
  > revert --no-grow $option -f behind img
  > revert --no-grow $option -p -s 7 -f digits img
  > dd --no-grow $option if=nine of=img
  > dd --no-grow $option if=nine of=img bs=1 seek=6 count=3 conv=notrunc
  > dd --no-grow $option if=none of=img bs=9 seek=1
  > patch --no-grow $option -f longer img
  > patch --no-grow $option -f untold img
  > .
  >   done
  > }
  $ growing ABCDEFGH; growing ABCDEFGH '' "$unpatched"; growing ABxyEFGH "$patched" "$unpatched"

A missing image has no byte, and isn't made, with a journal beside it too:

  $ printf '0: 41\n7: 42\n' > within; printf 'length 0 to 2\n+0: 4142\nend\n' > made
  $ for option in '' --fresh -n; do fresh; refused 'the image would get longer' << .
  > revert --no-grow $option -f within img
  > dd --no-grow $option if=nine of=img
  > patch --no-grow $option -f made img
  > .
  > echo img*; done
  img*
  img*
  img*
  $ fresh - "$patched"; refused 'the image would get longer' <<< 'revert --no-grow --fresh -f within img'; echo img*
  img.bxj

One that keeps the length or makes it less is as without the option:

  $ printf 'length 8 to 8\n-0: 41\n+0: 61\nend\n' > same; printf 'length 8 to 2\n-2: 7879 4546 4748\nend\n' > trimmed
  $ while IFS= read -r words <&9; do for option in '' --fresh -n; do for text in '' "$patched"; do
  >   fresh ABxyEFGH "$text"; bx $words $option > ../want 2> ../want.err; cp img ../made; bx log img > ../log
  >   fresh ABxyEFGH "$text"; bx $words $option --no-grow > ../out 2> ../err || { echo "$words $option"; cat ../err; }
  >   bx log img | cmp - ../log; cmp img ../made; cmp ../out ../want; cmp ../err ../want.err
  > done; done; done 9<< .
  > revert -f within img
  > revert -p -s 6 -f digits img
  > dd if=nine of=img bs=1 count=8
  > dd if=nine of=img bs=1 count=2
  > dd if=nine of=img bs=1 count=4 seek=4 conv=notrunc
  > dd if=none of=img
  > patch -f same img
  > patch -f trimmed img
  > .

A patch that doesn't agree is told first, and what is unfinished is recovered before the length counts:

  $ fresh ABCDEFGHI; refused 'image should have 8 bytes' <<< 'patch --no-grow -f longer img'
  $ fresh xBCDEFGH; refused 'the image has other bytes at 0' <<< 'patch --no-grow -f untold img'
  $ fresh ABCDEFGHIJ 'change2 00000001 0000000000000008\nsave 00000001\n'; bx revert --no-grow -f behind img; holds ABCDEFGH
  bx: recovered: change 1 was taken back
  bx: the image would get longer
  $ fresh ABCDEFGHIJ; echo '1000000000000: 41' > far; refused 'image too large' <<< 'revert --no-grow -f far img'

To standard output dd takes the option as the others of an image:

  $ bx dd --no-grow if=nine status=none; echo
  123456789

# Patches of other images

One that was applied before, one that goes on behind the image, of a shorter image, and of one of 18 digits; and one that makes
it too large.

  $ fresh ABxyEFGH "$patched" "$unpatched"; printf 'length 8 to 8\n-00000002: 4344\n+00000002: 7879\nend\n' > fix; kept bx patch -f fix img
  bx: the image has other bytes at 2
  [1]
  $ printf -- '-00000006: 4748 49\nend\n' > behind; kept bx patch -f behind img
  bx: the image has other bytes at 8
  [1]
  $ printf 'length 7 to 8\n-00000000: 41\n+00000000: 42\nend\n' > shorter; kept bx patch -f shorter img
  bx: image should have 7 bytes
  [1]
  $ printf 'length 999999999999999999 to 0\nend\n' > digits; kept bx patch -f digits img
  bx: image should have 999999999999999999 bytes
  [1]
  $ printf 'length 8 to 281474976710656\nend\n' > large; kept bx patch -f large img
  bx: image too large
  [1]

The other way round the first fits:

  $ bx patch -R -f fix img; cat img
  ABCDEFGH

# What refuses a change refuses it under -n, with the same words

  $ printf 'length 8 to 8\n-00000002: 4344\n+00000002: 7879\nend\n' > fix
  $ printf 'length 7 to 8\nend\n' > seven; printf -- '-00000006: 4748 49\nend\n' > behind; printf 'length 8 to 281474976710656\nend\n' > large
  $ for image in ABCDEFGH AB; do for option in '' -n; do
  >   fresh $image; refused 'line 1: bad pair' <<< "revert $option img <<< '00000002: 787'"
  >   refused 'image too large' <<< "revert $option img <<< 'ffffffffffff: 78'"
  >   refused 'cannot open file' <<< "revert $option -f missing img"
  >   refused 'cannot open file' <<< "dd $option if=missing of=img"
  >   refused 'operand 2: unknown' <<< "dd $option of=img off=1"
  >   refused 'line 1: not a line of a patch' <<< "patch $option img <<< x"
  >   refused 'image should have 7 bytes' <<< "patch $option -f seven img"
  >   [ $image = AB ] && fault='image should have 8 bytes' || fault='the image has other bytes at 2'
  >   refused "$fault" <<< "patch $option -R -f fix img"
  >   [ $image = AB ] && fault='the image has other bytes at 6' || fault='the image has other bytes at 8'
  >   refused "$fault" <<< "patch $option -f behind img"
  >   [ $image = AB ] && fault='image should have 8 bytes' || fault='image too large'
  >   refused "$fault" <<< "patch $option -f large img"
  >   refused 'nothing to write' <<< "revert $option img <<< '*'"
  >   refused 'the patch has no end' <<< "patch $option -f /dev/null img"
  > done; done

A missing image that should have bytes, a folder, and one that may only be read, in a folder that may:

  $ rm img*; kept bx patch -n -f fix img
  bx: image should have 8 bytes
  [1]
  $ mkdir folder; refused 'cannot open file' << .
  > revert -n folder <<< '00000002: 7879'
  > dd -n bs=2 seek=1 of=folder <<< xyz
  > patch -n -f fix folder
  > .
  $ fresh ABCDEFGH; bx revert -n img <<< '2: 78' > /dev/full; holds ABCDEFGH
  bx: write failed after 0 bytes

One that another program changes, and one that others read:

  $ fresh ABCDEFGH; refused 'cannot open file' flock img bx << .
  > revert -n img <<< '00000002: 7879'
  > dd -n bs=2 seek=1 of=img <<< xyz
  > patch -n -f fix img
  > .
  $ flock -s img bx revert -n img <<< '00000002: 78'
  length 8 to 8
  -00000002: 43                                       C
  +00000002: 78                                       x
  end 3

# What -n writes can be applied

  $ fresh ABCDEFGH; printf '00000002: 7879\n00000003: 7a\n0000000c: 41\n' > dump; kept bx revert -n -f dump img > ../patch; cat ../patch
  length 8 to 13
  -00000002: 4344                                     CD
  +00000002: 787a                                     xz
  +00000008: 0000 0000 41                             ....A
  end 4
  $ chmod 444 img; mkdir shut; mv img shut; chmod 555 shut; kept bx revert -n -f dump shut/img | cmp - ../patch
  $ chmod 755 shut; mv shut/img img; chmod 644 img; bx patch -f ../patch img; bx xxd img
  00000000: 4142 787a 4546 4748 0000 0000 41         ABxzEFGH....A

# What `show -p` says no to

  $ fresh ABxyEFGH "$stopped"; kept bx show -p img
  bx: interrupted: open again to recover
  [1]
  $ kept bx show -d -p img
  bx: bad arguments
  [2]

# What a change would be, beside `diff`

With -n a command writes what `diff` writes once the change is made, and changes nothing, whatever stands beside the image. A line has
the words and what they read.

  $ dried() { # OPTIONS [IMAGE [TEXT ..]]
  >   local options=$1 words given status; shift
  >   while IFS='|' read -r words given <&9; do
  >     printf %b "${1-}" > old; printf "$given" > input; fresh "${1--}"
  >     bx $words < input > /dev/null 2> ../want.err; status=$?; bx diff old img > ../want
  >     fresh "$@"; kept bx ${words/ / $options } < input > ../out 2> ../err
  >     [ $? = $status ] && cmp ../out ../want && cmp ../err ../want.err || echo "$words with $options beside $*: $(cat ../err)"
  >   done 9<&0
  > }
  $ changes='revert img|00000002: 7879\n00000003: 7a\n0000000c: 41\n
  > revert -p -s 6 img|414243
  > dd bs=2 seek=1 of=img|xyz
  > dd conv=notrunc of=img|ABxy
  > dd of=img|'
  $ patches='patch img|length 8 to 8\n-00000002: 4344\n+00000002: 7879\nend\n
  > patch -R img|length 4 to 8\n+00000004: 4546 4748\nend 2\n
  > patch img|end 0\n'
  $ dried -n ABCDEFGH <<< "$changes"$'\n'"$patches"
  $ dried -n ABCDEFGH "$patched" "$unpatched" <<< "$changes"$'\n'"$patches"
  $ dried -n ABCDEFGH "$stopped" <<< "$changes"$'\n'"$patches"
  $ dried -n ABCDEFGH 'no journal\n' <<< "$changes"$'\n'"$patches"
  $ dried '--dry-run --fresh -U --mounted -J other' ABCDEFGH <<< "$changes"$'\n'"$patches"
  $ dried -n << .
  > $changes
  > patch img|length 0 to 2\n+0: 4142\nend\n
  > patch img|length 0 to 5\nend\n
  > .

# The last changes as one patch

With -r those that a redo would make. It only reads.

  $ fresh ABCDEFGH; cp img image0; number=0
  $ while IFS='|' read -r words given; do printf "$given" | bx $words 2> err || cat err; cp img image$((++number)); done << .
  > revert img|00000002: 7879\n00000003: 7a\n0000000c: 41\n
  > dd bs=2 seek=1 of=img|xyz
  > dd of=img|A
  > revert -p -s 6 img|414243
  > patch img|length 9 to 40\n+0000001f: 21\nend\n
  > .
  $ shows() { kept bx show -p $1 img | cmp - <(bx diff image$2 image$3) || echo "show -p $1 at $stands"; }
  $ steps() { # WORDS OTHER: what `show -d` says is a patch
  >   bx $1 > step; cp img made; bx patch -f step made; cmp made image$2; rm -f made made.*
  > }
  $ for stands in 5 4 3 2 1 0; do
  >   for n in $(seq 0 $stands); do shows "-k $n" $((stands - n)) $stands; done
  >   for n in $(seq 0 $((5 - stands))); do shows "-rk $n" $stands $((stands + n)); done
  >   kept bx show -p -k $((stands + 1)) img
  >   [ $stands = 0 ] || steps 'show -d img' $((stands - 1)); [ $stands = 5 ] || steps 'show -rd img' $((stands + 1))
  >   bx undo img
  > done
  bx: only 5 changes to undo
  4
  bx: only 4 changes to undo
  3
  bx: only 3 changes to undo
  2
  bx: only 2 changes to undo
  1
  bx: only 1 changes to undo
  0
  bx: only 0 changes to undo
  bx: only 0 changes to undo
  [1]

# The patch of two far bytes of a sparse image

Of 1 TiB no more is read than what the change touches, by `-n` and by `show -p`.

  $ truncate -s 1T img; printf '00000003: 41\nffffffffff: 42\n' > dump; cat > want << .
  > length 1099511627776 to 1099511627776
  > -00000003: 00                                       .
  > +00000003: 41                                       A
  > -ffffffffff: 00                                       .
  > +ffffffffff: 42                                       B
  > end 5
  > .
  $ timeout 20 bx revert -n -f dump img | cmp - want
  $ timeout 20 bx patch -n -f want img | cmp - want
  $ timeout 20 bx revert -f dump img; timeout 20 bx show -p img | cmp - want
  $ timeout 20 bx undo img; timeout 20 bx show -rp img | cmp - want
  0

# The patch of a dump in whatever order

Of lines that overlap the later one wins, by `-n` as on the image. In random order 100,000 bytes take little longer than in the order of their addresses.

  $ truncate -s 3M img; python3 - << .
  > import random
  > draw, want = random.Random(7), bytearray(3 << 20)
  > with open("dump", "w") as dump:
  >     for _ in range(30000):
  >         at, count = draw.randrange((3 << 20) - 200), draw.choice([1, 1, 2, 16, 200])
  >         want[at : at + count] = part = draw.randbytes(count)
  >         print(f"{at:08x}: {part.hex()}", file=dump)
  >     for at in [70, 32760, 70, 32768, 32760]:
  >         want[at : at + 20] = part = draw.randbytes(20)
  >         print(f"{at:08x}: {part.hex()}", file=dump)
  > open("want", "wb").write(want)
  > .
  $ timeout 60 bx revert -n -f dump img > patch; bx diff img want | cmp - patch
  $ bx patch -f patch img && cmp img want
  $ rm img*; truncate -s 64M img; python3 - << .
  > import random
  > draw = random.Random(8)
  > with open("dump", "w") as dump:
  >     for _ in range(100000):
  >         print(f"{draw.randrange(64 << 20):08x}: 78", file=dump)
  > .
  $ sort -u dump > sorted; timeout 60 bx revert -n -f sorted img > patch; timeout 60 bx revert -n -f dump img | cmp - patch

# Random pairs of files, beside `cmp -l`

  $ python3 "$FOLDER/../../tools/cases.py" --compare --bx "$(command -v bx)" patches
  patches: 1033 pairs, 0 differ
