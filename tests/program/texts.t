Bad dumps, journals and redo files, each prefix of a journal, and what is shown of one.

# The texts of a change

Of two bytes at 2 of an image of 8; the journal, and the redo text once they are taken back.

  $ fresh ABCDEFGH; echo '2: 7879' | bx revert img; cat img.bxj
  change2 00000001 0000000000000008
  00000002: 4344                                     CD
  save 00000001
  done2 00000001 0000000000000008
  $ bx undo img; cat img.bxj.redo
  0
  change2 00000001 0000000000000008
  00000002: 7879                                     xy
  save 00000001
  done2 00000001 0000000000000008
  $ holds ABCDEFGH '' "$unpatched"

# Dumps

  $ fresh xyz
  $ mega a 1000000 > dump; kept bx revert -f dump img
  bx: line 1: bad address
  [1]
  $ (printf '0: '; mega 4 1000000) > dump; kept bx revert -f dump img
  bx: line 1: more than 256 bytes
  [1]
  $ mega '\0' 1000000 > dump; kept bx revert -f dump img
  bx: line 1: bad address
  [1]
  $ printf '0: 41\n1: 42\0\n' > dump; kept bx revert -f dump img
  bx: line 2: bad pair
  [1]
  $ printf '00000000: 41\n00000001: 414' > dump; kept bx revert -f dump img
  bx: line 2: bad pair
  [1]
  $ echo 'ffffffffffff: 41' > dump; kept bx revert -f dump img
  bx: image too large
  [1]
  $ echo '4000000000000000: 41' > dump; kept bx revert -f dump img
  bx: line 1: address too large
  [1]
  $ (yes '00000000: 4142 4344 4546 4748' | head -1000000; echo x) > dump; kept bx revert -f dump img
  bx: line 1000001: bad address
  [1]
  $ kept bx revert -f "$(command -v bx)" img
  bx: line 1: bad address
  [1]
  $ kept bx revert -f / img
  bx: read failed
  [1]

Plain digits:

  $ (mega 4 4000000; printf g) > dump; kept bx revert -p -f dump img
  bx: line 1: bad pair
  [1]
  $ (mega 4 3999999; printf '\n\n') > dump; kept bx revert -p -f dump img
  bx: line 1: odd number of digits
  [1]

# Several files, and the end of one

Each tool reads them one behind the other; one that is missing is left out, and the status is 1.

  $ printf abc > first; printf defg > last
  $ bx od -An -c first none last 2> said; cat said
     a   b   c   d   e   f   g
  bx: cannot open file
  $ bx od -An -c -j 2 -N 3 first - < last
     c   d   e
  $ bx hexdump -C -s 2 first last
  00000002  63 64 65 66 67                                    |cdefg|
  00000007
  $ bx strings -n 3 first none last 2> said
  abc
  defg
  [1]
  $ bx strings -f -n 3 first last; bx strings -f -n 3 -t d < first
  first: abc
  last: defg
  {standard input}: 0 abc
  $ bx od none / 2> said
  0000000
  [1]
  $ bx xxd -s -2 last; bx xxd -s -3 -l 2 -p last; bx xxd -s -0x3 -o 16 last
  00000002: 6667                                     fg
  6566
  00000011: 6566 67                                  efg

# The way back of a dump

To standard output, from a file and from a pipe, with gaps, at a place and of digits alone:

  $ printf '0: 4142\n8: 43\n' > dump; bx xxd -r dump | od -An -c; bx xxd -r -s 2 < dump | od -An -c
     A   B  \0  \0  \0  \0  \0  \0   C
    \0  \0   A   B  \0  \0  \0  \0  \0  \0   C
  $ echo 4142 | bx xxd -rp | od -An -c; echo 4142 | bx xxd -revert -ps -seek 0x2 - - | od -An -c; bx xxd -r < /dev/null
     A   B
    \0  \0   A   B
  $ head -c 300000 "$(command -v bx)" > bytes; bx xxd bytes | bx xxd -r | cmp - bytes; bx xxd -p bytes | bx xxd -r -p | cmp - bytes
  $ bx xxd -c 7 -g 3 -u bytes | bx xxd -r | cmp - bytes; yes 0: 41 | head -1 | bx xxd -r; echo
  A

A line that goes back, a faulty one, and a full device; what stands before was written.

  $ printf '0: 4142\n1: 43\n' > dump; kept bx xxd -r dump; kept bx xxd -r - < dump
  ABbx: line 2: goes back in a stream
  ABbx: line 2: goes back in a stream
  [1]
  $ printf '0: 4142\nzz\n' | bx xxd -r
  ABbx: line 2: bad address
  [1]
  $ printf '4142zz' | bx xxd -r -p
  bx: line 1: bad pair
  [1]
  $ bx xxd bytes | bx xxd -r > /dev/full
  bx: write failed after 0 bytes
  [1]
  $ bx xxd bytes | bx xxd -r >&-
  bx: write failed after 0 bytes
  [1]
  $ kept bx xxd -r none
  bx: cannot open file
  [1]

Onto a file it is revert, where lines may go back:

  $ fresh ABCDEFGH; echo '2: 7879' | bx xxd -r - img; holds ABxyEFGH "$patched"
  $ bx undo img; holds ABCDEFGH '' "$unpatched"
  0
  $ fresh ABCDEFGH; echo 7879 | bx xxd -r -p -s 2 - img; holds ABxyEFGH "$patched"; bx xxd -r dump img; cat img; echo
  ACxyEFGH
  $ kept bx xxd -r dump dump
  bx: bad arguments
  [2]

# Journals

  $ fresh ABxyEFGH '\1'; (mega '\0' 1000; printf '\1') > img.bxj; kept bx undo img
  bx: journal line 1 is damaged
  [1]
  $ mega '\0' 1000000 > img.bxj; kept bx undo img
  bx: journal line 1 is damaged
  [1]
  $ mega s 1000000 > img.bxj; kept bx log img
  bx: journal line 1 is damaged
  [1]
  $ (echo 'change 00000001 00000008'; mega a 1000000) > img.bxj; kept bx log img
  bx: journal line 2 is damaged
  [1]
  $ fresh ABxyEFGH "$patched\n"; kept bx undo img
  bx: journal line 5 is damaged
  [1]
  $ fresh ABxyEFGH "$patched$patched"; kept bx undo img
  bx: journal line 5 is damaged
  [1]
  $ fresh ABxyEFGH "${patched//c/C}"; kept bx undo img
  bx: journal line 1 is damaged
  [1]
  $ fresh ABxyEFG "$patched"; kept bx undo img
  bx: image should have 8 bytes
  [1]
  $ cp "$(command -v bx)" img.bxj; kept bx undo img
  bx: journal line 1 is damaged
  [1]
  $ fresh ABxyEFGH; kept bx undo -J img img
  bx: bad arguments
  [2]
  $ kept bx log img
  bx: cannot open file
  [1]

A NUL byte, as a loss of power leaves one, is nothing:

  $ fresh ABxyEFGH '\0'; bx undo img
  bx: recovered: an unfinished entry was dropped
  bx: only 0 changes to undo
  [1]
  $ holds ABxyEFGH

# A full journal

It has 65,535 changes, here in the older form.

  $ fresh '' ''
  $ seq 65535 | awk '{ printf "change %08x 00000000\nsave %08x\ndone %08x\n", $1, $1, $1 }' > img.bxj; tail -3 img.bxj
  change 0000ffff 00000000
  save 0000ffff
  done 0000ffff
  $ kept bx revert -p img <<< 41
  bx: journal is full
  [1]
  $ printf 'change2 00000001 0000000000000000\nsave 00000001\ndone2 00000001 0000000000000000\n' > img.bxj.redo; kept bx log img
  bx: redo line 1 is damaged
  [1]
  $ rm img.bxj.redo; echo 'change 00010000 00000000' >> img.bxj; kept bx log img
  bx: journal line 196606 is damaged
  [1]

# Redo files

  $ fresh ABxyEFGH "$patched"; mega '\0' 1000000 > img.bxj.redo; kept bx undo img
  bx: redo line 1 is damaged
  [1]
  $ mega s 1000000 > img.bxj.redo; kept bx revert -p img <<< 41
  bx: redo line 1 is damaged
  [1]
  $ cp "$(command -v bx)" img.bxj.redo; refused 'redo line 1 is damaged' << .
  > log img
  > redo img
  > .
  $ fresh ABxyEFGH "$patched" "$unpatched$unpatched"; kept bx undo -k 0 img
  bx: redo line 5 is damaged
  [1]
  $ fresh ABxyEFGH "$patched" "${unpatched}change2 00000002 0000000000000008\n"; kept bx dd if=/dev/null of=img
  bx: redo line 5 is damaged
  [1]
  $ fresh ABxyEFGH "$patched" 'change 00000001 00000008\nsave 00000001\ndone 00000001\n'; kept bx log img
  bx: redo line 1 is damaged
  [1]
  $ fresh ABCDEFG '' "$unpatched"; kept bx revert -p img <<< 41
  bx: redo line 4 is damaged
  [1]

A longer image is told by its journal first:

  $ fresh ABxyEFG "$patched" "$unpatched"; kept bx log img
  bx: image should have 8 bytes
  [1]

Each prefix of one:

  $ for n in $(seq $(($(printf %b "$unpatched" | wc -c) - 1))); do
  >   fresh ABxyEFGH "$patched"; printf %b "$unpatched" | head -c $n > img.bxj.redo; refused 'redo line 1 is damaged' <<< 'log img'
  > done

# A redo file in order

  $ fresh ABxyEFGH "$patched" "$unpatched"; kept bx log img
  1 8 2
  $ kept bx undo -k 0 img
  1
  $ kept bx redo -k 0 img
  1
  $ kept bx redo -k 2 img
  bx: only 1 changes to redo
  [1]
  $ bx undo img; holds ABCDEFGH '' "$unpatched${unpatched// 00000001/ 00000002}"
  0
  $ fresh ABxyEFGH "$patched" "$unpatched"; echo '1: 79' | bx revert img
  $ tail -4 img.bxj; holds AyxyEFGH "$patched$(tail -4 img.bxj)\n"
  change2 00000002 0000000000000008
  00000001: 42                                       B
  save 00000002
  done2 00000002 0000000000000008
  $ fresh ABCDEFGH '' "$unpatched"; bx redo img; holds ABxyEFGH "$patched"
  1

# Each prefix of a journal

Over the image before, in the middle of and behind the change: the image comes back, what was recovered is told, and whatever
stands in the redo file, it is then empty.

  $ for image in ABCDEFGH ABxDEFGH ABxyEFGH; do
  >   fresh $image ''; bx undo -k 0 img; holds $image
  > done
  0
  0
  0
  $ entry=$(printf %b "$patched" | wc -c) saved=$(printf %b "$stopped" | wc -c)
  $ for image in ABCDEFGH ABxDEFGH ABxyEFGH; do
  >   for n in $(seq $((entry - 1))); do
  >     fresh $image - 'hello\n'; printf %b "$patched" | head -c $n > img.bxj; bx undo -k 0 img || echo "[$?]"
  >     [ $n -lt $saved ] && holds $image || holds ABCDEFGH
  >   done
  > done 2>&1 | sort | uniq -c
      399 0
      303 bx: recovered: an unfinished entry was dropped
       96 bx: recovered: change 1 was taken back

# What is shown of what is unfinished

The line on it comes first, and nothing is written.

  $ fresh ABxyEFGH "$stopped"; for words in '-k 0' '' '-k 3' '-d -k 65535' -r '-r -k 0'; do kept bx show $words img || echo "[$?]"; done
  # change 1: unfinished, the next command takes it back
  # change 1: unfinished, the next command takes it back
  bx: only 0 changes to undo
  [1]
  # change 1: unfinished, the next command takes it back
  bx: only 0 changes to undo
  [1]
  # change 1: unfinished, the next command takes it back
  bx: only 0 changes to undo
  [1]
  # change 1: unfinished, the next command takes it back
  bx: only 0 changes to redo
  [1]
  # change 1: unfinished, the next command takes it back

No byte of a line is shown as it stands, so that none hides another line of a terminal:

  $ fresh ABxyEFGH "${patched/  CD/  \\x1b[1A\\r\\x1b[Kseen/}"; grep -c seen img.bxj; kept bx show img
  1
  # change 1: undo writes 2 bytes at 2-3, keeps length 8
  00000002: 4344                                     CD
  
  $ kept bx show -d img | grep -c $'[\r\e]'
  0
  [1]
