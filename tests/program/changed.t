An image that something else changed: when `undo` and `redo` refuse it by the text beside the journal, and texts that say nothing.

# The text beside the journal

Each command that changes something writes its line: how many changes stand and are undone, the image's length, the MD5 of what
the last change wrote ("xy", and nothing) and of what the last undo did ("CD"), the lengths between which a stop leaves the image, and
the first four bytes of the MD5 of each of 32 blocks.

  $ changes '2: 7879'; wc -c < img.bxj.image; cut -c 1-150 img.bxj.image; cut -c 152- img.bxj.image | tr ' ' '\n' | uniq -c
  439
  image3 00000001 00000000 0000000000000008 3e44107170a520582ade522fa73c1d15 d41d8cd98f00b204e9800998ecf8427e 00000000 0000000000000008 0000000000000008
        5 7fc56270
        4 9d5ed678
        5 9dd4e461
        4 41529076
        5 3a3ea00c
        4 80061894
        4 dfcf28d0
        1 c1d9f50f
  $ for byte in A B x y E F G H; do printf $byte | md5sum | cut -c 1-8; done | paste -sd' '
  7fc56270 9d5ed678 9dd4e461 41529076 3a3ea00c 80061894 dfcf28d0 c1d9f50f
  $ bx undo img; cut -c 1-150 img.bxj.image
  0
  image3 00000000 00000001 0000000000000008 d41d8cd98f00b204e9800998ecf8427e 4170acd6af571e8d0d59fdad999cc605 00000000 0000000000000008 0000000000000008
  $ bx forget img; ls img.bxj.image
  ls: cannot access 'img.bxj.image': No such file or directory
  [2]

# A new build of the same length

  $ changes '2: 7879' '4: 7a7a'; printf abcdefgh > img; refused 'the image was changed since' << .
  > undo img
  > undo -k 2 img
  > .
  $ kept bx undo -k 0 img
  2
  $ kept bx undo -k 3 img
  bx: only 2 changes to undo
  [1]
  $ bx show img | head -1
  # the image was changed since
  $ bx log img
  1 8 2
  2 8 2
  $ bx show -k 3 img
  bx: only 2 changes to undo
  [1]
  $ bx undo --anyway img; cat img
  1
  abcdEFgh
  $ kept bx undo img
  bx: the image was changed since
  [1]

And what was undone:

  $ changes '2: 7879'; bx undo img; printf abcdefgh > img; kept bx redo img
  0
  bx: the image was changed since
  [1]
  $ bx show -r img | head -1; bx log -v img | grep -c since
  # the image was changed since
  0
  [1]
  $ bx redo --anyway img; cat img
  1
  abxyefgh
  $ changes '2: 7879' '4: 7a7a'; bx undo img; printf abcdEFgh > img
  1
  $ bx redo img; cat img
  2
  abcdzzgh
  $ kept bx undo -k 2 img
  bx: the image was changed since
  [1]

  $ bx show -r -k 0 img | head -1

Between two changes:

  $ changes '2: 7879'; printf abcdefgh > img; echo '0: 5a' | bx revert img; bx show -d -k 2 img | head -1; bx log -v img
  # the image was changed since
  # the image was changed after change 1
  1 8 8 2 2-3
  2 8 8 1 0-0
  $ bx show img | head -1; bx undo img; bx show img | head -1; bx log -v img
  # change 2: undo writes 1 byte at 0-0, keeps length 8
  1
  # the image was changed since
  # the image was changed after change 1
  1 8 8 2 2-3

# What a change appended

  $ fresh ABCD; echo '4: 78797a' | bx revert img; printf ABCDEVI > img; refused 'the image was changed since' <<< 'undo img'
  $ bx log -v img | head -1; bx undo --anyway img; cat img
  # the image was changed since
  0
  ABCD
  $ fresh; printf hello | bx dd of=img 2> /dev/null; printf HELLO > img; refused 'the image was changed since' <<< 'undo img'
  $ fresh ABCD; printf 12345678 | bx dd of=img 2> /dev/null; printf 1234abcd > img; refused 'the image was changed since' <<< 'undo img'

What a redo would cut off, and what counts of more:

  $ changes; printf xy | bx dd of=img 2> /dev/null; bx undo img; printf ABCDEFgh > img; refused 'the image was changed since' <<< 'redo img'
  0
  $ bx show -r -k 0 img | head -1
  # the image was changed since
  $ mega x 65537 > many
  $ for place in 65535 65536; do
  >   fresh; bx dd if=many of=img 2> /dev/null; printf y | dd of=img bs=1 seek=$place conv=notrunc status=none; bx undo img; wc -c < img
  > done
  bx: the image was changed since
  65537
  0
  0

# A change on an image that something else changed, and the undo past it

  $ printf '+6: 7a7a\nend\n' > fix; echo '6: 7a7a' > dump; printf zz > zz
  $ for words in 'revert -f dump img' 'patch -f fix img' 'dd if=zz of=img seek=6 obs=1 conv=notrunc'; do
  >   changes '2: 7879'; printf abcdefgh > img; bx $words 2> /dev/null; cat img; cut -c 109-116 img.bxj.image
  >   refused 'the image was changed since' <<< 'undo -k 2 img'
  >   bx undo img; cat img; echo
  >   refused 'the image was changed since' <<< 'undo img'
  >   bx undo --anyway img; cat img; echo
  > done
  abcdefzz00000001
  1
  abcdefgh
  0
  abCDefgh
  abcdefzz00000001
  1
  abcdefgh
  0
  abCDefgh
  abcdefzz00000001
  1
  abcdefgh
  0
  abCDefgh

# A journal that is older than its text

An old copy of the journal is put back, in which fewer changes stand than the text counts: neither way it is undone, and each look says so.

  $ older() { # DUMP ..: the changes, and the journal that stood before the last of them
  >   local last=${!#}
  >   changes "${@:1:$#-1}"; cp img.bxj ../older; echo "$last" | bx revert img; cp ../older img.bxj
  > }
  $ older '2: 7879' '4: 7a7a'; refused 'the image was changed since' << .
  > undo img
  > undo -k 1 img
  > .
  $ kept bx undo -k 0 img; kept bx undo -k 2 img
  1
  bx: only 1 changes to undo
  [1]
  $ bx show img | head -1; bx show -k 0 img | head -1; bx log -v img
  # the image was changed since
  # the image was changed since
  # the image was changed since
  1 8 8 2 2-3
  $ bx undo --anyway img; cat img; cut -c 1-25 img.bxj.image
  0
  ABCDzzGHimage3 00000000 00000001 

And so where the redo file is older too, or the journal alone, beside the redo file of today:

  $ changes '2: 7879' '4: 7a7a'; bx undo img; cp img.bxj* ..; rm ../img.bxj.image; bx redo img; echo '6: 7171' | bx revert img; cp ../img.bxj* .
  1
  2
  $ refused 'the image was changed since' <<< 'undo img'
  $ kept bx redo img; bx show -r img | head -1
  bx: the image was changed since
  # the image was changed since
  $ changes '2: 7879'; cp img.bxj ..; echo '4: 7a7a' | bx revert img; echo '6: 7171' | bx revert img; bx undo img; cp ../img.bxj .
  2
  $ refused 'the image was changed since' << .
  > undo img
  > redo img
  > .
  $ bx redo --anyway img; cat img
  2
  ABxyzzqq

A change goes on, and the changes before it stand for another image; to drop the history leaves the image:

  $ older '2: 7879' '4: 7a7a'; echo '6: 7171' | bx revert img; cat img; cut -c 1-25 img.bxj.image; cut -c 109-116 img.bxj.image
  ABxyzzqqimage3 00000002 00000000 
  00000001
  $ bx undo img; cat img
  1
  ABxyzzGH
  $ refused 'the image was changed since' <<< 'undo img'
  $ older '2: 7879' '4: 7a7a'; bx forget img; cat img; ls img*
  ABxyzzGHimg
  img.bxj
  img.bxj.redo
  $ older '2: 7879' '4: 7a7a'; echo '6: 7171' | bx revert --fresh img; bx log img; bx undo img; cat img
  1 8 2
  0
  ABxyzzGH

Beside an empty journal, and an older one with as many changes, nothing is older; the bytes of that one's last change tell it:

  $ changes '2: 7879'; : > img.bxj; echo '4: 7a7a' | bx revert img; bx undo img; cat img
  0
  ABxyEFGH
  $ changes '2: 7879' '4: 7a7a'; cp img.bxj ..; bx undo img; echo '6: 7171' | bx revert img; cp ../img.bxj .
  1
  $ bx undo img; cat img
  bx: the image was changed since
  ABxyEFqq

# What a stop leaves is never older (wants strace)

An undo that is killed at its syncs, and then what recovers it or drops its history, killed at each sync too: the next undo is never refused
for another image.

  $ killed() { # N WORDS ..: bx, killed at its sync N
  >   { strace -f -o ../calls -e inject=fsync:signal=KILL:when=$1 bx "${@:2}"; } > ../said 2>&1
  > }
  $ for first in 6 8 9 10; do
  >   changes '2: 7879' '4: 7a7a' '6: 7171'; killed $first undo -k 2 img; rm -rf ../left; mkdir ../left; cp -p img* ../left
  >   for words in 'log img' 'forget img'; do
  >     for next in $(seq 9); do
  >       rm -rf img*; cp -p ../left/* .; killed $next $words
  >       bx undo img > ../said 2>&1 || grep since ../said
  >     done
  >   done
  > done

Behind an undo that a device refused the text tells of the journal again:

  $ changes '2: 7879'; { strace -f -o ../calls -e inject=fsync:error=EIO:when=3 bx undo img; } 2>&1; cut -c 1-25 img.bxj.image
  bx: device failed
  image3 00000001 00000000 
  $ printf abcdefgh > img; refused 'the image was changed since' <<< 'undo img'

# What leaves the bytes

It is refused nowhere: a newer time, bytes that no change wrote, no text, and the four files in another place; there too another
image is refused.

  $ changes '2: 7879' '4: 7a7a'; touch img; bx undo img; cat img
  1
  ABxyEFGH
  $ bx redo img; cat img
  2
  ABxyzzGH
  $ there() {
  >   bx undo -k 2 img; cat img; echo; bx redo -k 2 img; cat img; echo
  >   printf abcdefgh > img; refused 'the image was changed since' <<< 'undo img'
  > }
  $ mkdir copy; cp img* copy; (cd copy; there)
  0
  ABCDEFGH
  2
  ABxyzzGH
  $ git init -q .; git add img*; git -c user.name=a -c user.email=a commit -qm a; git clone -q . clone; rm -r .git; (cd clone; there)
  0
  ABCDEFGH
  2
  ABxyzzGH
  $ place=$(mktemp -d -p /dev/shm); mv img* $place; (cd $place; there); rm -r $place
  0
  ABCDEFGH
  2
  ABxyzzGH
  $ changes '2: 7879' '4: 7a7a'; printf XXxyzzXX > img; bx undo img; cat img
  1
  XXxyEFXX
  $ changes '2: 7879'; rm img.bxj.image; printf abcdefgh > img; bx undo img; cat img
  0
  abCDefgh
  $ bx log -v img > /dev/null; cut -c 1-25 img.bxj.image
  image3 00000000 00000001 

# A build script that runs a hundred times

  $ echo '2: 7879' > dump; : > img
  $ for n in $(seq 100); do mega $((n % 10)) 8 > img; bx revert -U --fresh -f dump img || echo "$n: $?"; done; bx log img; cut -c 1-25 img.bxj.image
  1 8 2
  image3 00000001 00000000 
  $ bx undo img; cat img
  0
  00000000

# What a refused change leaves of the third text

Its line is put before it is refused. Where no third text was there, or no journal, no line is left; a file of that name that says nothing is
as it was, one without bytes too. Beside a journal a line is followed by another one.

  $ printf ABCDEFGX > a; printf ABCDEFGY > b; bx diff a b > no
  $ refuses() { # WORDS ..: the status, and how long the third text is
  >   bx patch "$@" -f no img 2> /dev/null; echo "$? $(stat -c %s img.bxj.image 2> /dev/null || echo none)"
  > }
  $ changes '2: 7879'; cp img.bxj.image line; fresh ABCDEFGH; for text in none '' 'image3 ' '\0\0' mine; do
  >   rm -f img.bxj.image; [ "$text" = none ] || printf %b "$text" > img.bxj.image; refuses; refuses --fresh
  > done
  1 none
  1 none
  1 0
  1 0
  1 7
  1 7
  1 7
  1 7
  1 4
  1 4
  $ cp line img.bxj.image; echo zz > bad; refused 'line 1: bad address' <<< 'revert -f bad img'; refuses; ls img*
  1 none
  img
  $ : > own.image; bx patch -J own -f no img; ls -s own*
  bx: the image has other bytes at 7
  0 own.image
  $ changes '2: 7879'; refuses; rm img.bxj.image; refuses; refuses; : > img.bxj.image; refuses; chmod 444 img.bxj.image; refuses; bx log img
  1 439
  1 none
  1 none
  1 0
  1 0
  1 8 2
  $ bx undo img; wc -c < img.bxj.image; cat img
  0
  439
  ABCDEFGH

# Texts that say nothing

One that isn't longer than a line, has a line's first word and no byte behind it that a line hasn't, or is zeros alone or empty, is written
anew by an undo; any other stays.

  $ zeros=$(mega 0 32)
  $ undone() { # TEXT: the undo goes on, and the text is written anew or stays
  >   changes '2: 7879'; printf %b "$1" | tee img.bxj.image > was
  >   bx undo img > out 2>&1; echo "$(cat out) $(cat img) $(cmp -s img.bxj.image was && echo stays || echo anew)"
  > }
  $ undone ''
  0 ABCDEFGH anew
  $ undone '\0'
  0 ABCDEFGH anew
  $ undone "$(mega '0' 439 | sed 's/0/\\0/g')"
  0 ABCDEFGH anew
  $ undone "$(mega '0' 440 | sed 's/0/\\0/g')"
  0 ABCDEFGH stays
  $ undone im
  0 ABCDEFGH stays
  $ undone imagine
  0 ABCDEFGH stays
  $ undone "$(mega x 117)"
  0 ABCDEFGH stays
  $ undone "$(mega x 1000000)"
  0 ABCDEFGH stays
  $ undone 'image2 \n'
  0 ABCDEFGH anew
  $ undone "image2 $(mega 0 110)"
  0 ABCDEFGH anew
  $ undone "image1 00000001 00000000 0000000000000008 $zeros $zeros 00000000\n"
  0 ABCDEFGH anew
  $ undone "image2 $(mega y 200 | sed 's/y/\\0377/g')"
  0 ABCDEFGH stays
  $ undone "image2 00000001 00000000 0000000000000008 $zeros $zeros 00000000"
  0 ABCDEFGH anew
  $ undone "image2 00000001 00000000 0000000000000008 ${zeros//0/g} $zeros 00000000\n"
  0 ABCDEFGH stays
  $ undone "image2 00000001 00000000 0000000000000008 ${zeros//0/A} $zeros 00000000\n"
  0 ABCDEFGH stays
  $ undone "image2 00000002 00000000 0000000000000008 $zeros $zeros 00000000\n"
  0 ABCDEFGH anew
  $ undone "image2 00000001 00000000 0000000000000009 $zeros $zeros 00000000\n"
  0 ABCDEFGH anew
  $ undone "image2 ffffffff ffffffff ffffffffffffffff $zeros $zeros ffffffff\n"
  0 ABCDEFGH anew

So one of this form:

  $ undone 'image3 '
  0 ABCDEFGH anew
  $ undone 'image3 disk\n'
  0 ABCDEFGH stays
  $ changes '2: 7879'; cp img.bxj.image line
  $ undone "$(head -c 300 line)"
  0 ABCDEFGH anew
  $ undone "$(cat line; echo x)"
  0 ABCDEFGH stays
  $ undone "$(sed 's/ 7fc56270/ --------/g' line)\n"
  0 ABCDEFGH anew
  $ undone "$(head -c 300 line)$(mega '0' 139 | sed 's/0/\\0/g')"
  0 ABCDEFGH anew

Beside a journal that -J names an empty file of the user's stays:

  $ fresh ABCDEFGH; : > disk.image; echo '2: 7879' | bx revert -J disk img; wc -c < disk.image; bx undo -J disk img; wc -c < disk.image
  0
  0
  0
  $ rm disk*

The line of another image, on as many changes of as many bytes, and a line that may only be read:

  $ changes '2: 7879'; cp img.bxj.image line; changes '4: 7a7a'; cp line img.bxj.image; refused 'the image was changed since' <<< 'undo img'
  $ bx undo --anyway img; cat img
  0
  ABCDEFGH
  $ changes '2: 7879'; chmod 444 img.bxj.image; bx undo img; cut -c 1-25 img.bxj.image
  0
  image3 00000000 00000001 

# Files in its place that aren't touched

  $ echo 'image2 precious' > precious
  $ for link in 'ln -s' 'ln -f'; do
  >   changes '2: 7879'; rm img.bxj.image; $link precious img.bxj.image; bx undo img; bx forget img; cat img precious
  >   [ precious -ef img.bxj.image ] || echo 'another file'
  > done
  0
  ABCDEFGHimage2 precious
  0
  ABCDEFGHimage2 precious
  $ changes '2: 7879'; rm img.bxj.image; mkdir img.bxj.image; bx undo img; cat img
  0
  ABCDEFGH
  $ rmdir img.bxj.image; mkfifo img.bxj.image; bx redo img; cat img; rm img.bxj.image
  1
  ABxyEFGH

An image that has the text's name, and begins as a line does:

  $ printf ABCDEFGH > a.image; echo '2: 7879' | bx revert -J a a.image; cat a.image
  ABxyEFGH
  $ bx undo -J a a.image; cat a.image
  0
  ABCDEFGH
  $ printf 'image2 AB' > a.image; bx forget -J a a.image; echo '2: 7879' | bx revert -J a a.image; cat a.image
  imxye2 AB

A line beside files of another history, whose journal is newer than it:

  $ changes '2: 7879'; cp -p img.bxj.image line; fresh ABCDzzGH "${patched/00000002: 4344/00000004: 4546}"
  $ sed -i 's/CD$/EF/' img.bxj; cp -p line img.bxj.image; touch -d '+1 second' img.bxj
  $ kept bx undo img
  bx: the image was changed since
  [1]
  $ bx undo --anyway img; cat img; cmp -s line img.bxj.image
  0
  ABCDEFGH
  [1]

# A text of somebody else (wants root)

  $ changes '2: 7879'; chown 12345:12345 img img.bxj; chown 54321:54321 img.bxj.image; chmod 666 img.bxj.image
  $ cp img.bxj.image was; bx undo img; cmp was img.bxj.image; stat -c %u img.bxj.image
  0
  54321

# Other texts behind a stop (wants strace)

A change that is killed before its end line, and other texts in place of its line. What is no line says nothing: the change is taken back.

  $ begun() { # the second change, whose end line isn't written
  >   changes '2: 7879'; echo '6: 7a7a' > dump
  >   { strace -f -o ../calls -e inject=pwrite64:signal=KILL:when=4 bx revert -f dump img; } > ../said 2>&1
  > }
  $ begun; cat img; tail -n 1 img.bxj; rm -rf ../begun; mkdir ../begun; cp -p img* ../begun; zeros=$(mega 0 32)
  ABxyEFzzsave 00000002
  $ again() { rm -rf img*; cp -p ../begun/* .; }
  $ undone() { # TEXT: the undo of none goes on, and the text is written anew or stays
  >   again; printf %b "$1" | tee img.bxj.image > was
  >   bx undo -k 0 img > out 2>&1; echo "$? $(cat img) $(cmp -s img.bxj.image was && echo stays || echo anew)"
  > }
  $ again; for text in '' '\0' "$(mega 0 439 | sed 's/0/\\0/g')" "$(head -c 438 img.bxj.image)" "$(head -c 300 img.bxj.image)$(mega 0 139 | sed 's/0/\\0/g')" \
  >   "image2 00000001 00000000 0000000000000008 $zeros $zeros 00000000\n" "image1 00000001 00000000 0000000000000008 $zeros $zeros 00000000\n"
  > do undone "$text"; done | uniq -c
        7 0 ABxyEFGH anew
  $ again; for text in "$(cat img.bxj.image)\n\n" "$(mega 0 440 | sed 's/0/\\0/g')" 'image of a disk\n'; do undone "$text"; done | uniq -c
        3 0 ABxyEFGH stays

Each character another one: of LEAST and MOST (16), of M where blocks of such an image lie within this one (2), and of the digests of 27
blocks that the change leaves alone it is 48, with all files as they were; of all others the change is taken back, and so it is anyway.

  $ for at in $(seq 0 438); do
  >   again; old=$(head -c $((at + 1)) img.bxj.image | tail -c 1); new=0; [ "$old" != 0 ] || new=1
  >   printf $new | dd of=img.bxj.image bs=1 seek=$at conv=notrunc status=none
  >   kept bx undo -k 0 img > ../out 2>&1 && ! cmp -s img ../begun/img || cat ../out
  >   bx undo -k 0 --anyway img > ../out 2>&1; [ "$(cat img)" = ABxyEFGH ] || echo $at
  > done | grep -v '^not as before$' | sort | uniq -c
      234 bx: the image was changed since

A link and a folder in its place are left alone; one whose bits are wider than the image's is made anew:

  $ again; mv img.bxj.image line; ln -s line img.bxj.image; cp line was; bx undo -k 0 img; cat img; cmp line was; readlink img.bxj.image
  bx: recovered: change 2 was taken back
  1
  ABxyEFGHline
  $ again; rm img.bxj.image; mkdir img.bxj.image; bx undo -k 0 img; cat img; rmdir img.bxj.image
  bx: recovered: change 2 was taken back
  1
  ABxyEFGH
  $ again; chmod 600 img img.bxj img.bxj.redo; chmod 644 img.bxj.image; bx undo -k 0 img; cat img; stat -c %a img.bxj.image
  bx: recovered: change 2 was taken back
  1
  ABxyEFGH600

# A text of somebody else behind a stop (wants root strace)

  $ begun() {
  >   changes '2: 7879'; echo '6: 7a7a' > dump
  >   { strace -f -o ../calls -e inject=pwrite64:signal=KILL:when=4 bx revert -f dump img; } > ../said 2>&1
  > }
  $ begun; chown 54321:54321 img.bxj.image; chmod 666 img.bxj.image; cp img.bxj.image was; bx undo -k 0 img; cat img; cmp was img.bxj.image
  bx: recovered: change 2 was taken back
  1
  ABxyEFGH
  $ stat -c %u img.bxj.image
  54321
