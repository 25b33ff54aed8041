`forget` and `--fresh`: what is left of image, journal and redo file, which inputs drop no history, and files that aren't emptied.

# What is forgotten

  $ forgotten() { bx forget img || echo "[$?]"; holds "$1"; echo *; bx undo img; }
  $ fresh ABxyEFGH "$patched" "$unpatched"; forgotten ABxyEFGH
  img img.bxj img.bxj.redo
  bx: only 0 changes to undo
  [1]
  $ fresh ABxyEFGH "$patched"; forgotten ABxyEFGH
  img img.bxj
  bx: only 0 changes to undo
  [1]

An image of another length, and texts that are damaged:

  $ fresh ABxyEFGHIJ "$patched" "$unpatched"; forgotten ABxyEFGHIJ
  img img.bxj img.bxj.redo
  bx: only 0 changes to undo
  [1]
  $ fresh ABxyEFGH "${patched}what is this\n" "$unpatched"; forgotten ABxyEFGH
  img img.bxj img.bxj.redo
  bx: only 0 changes to undo
  [1]
  $ fresh ABxyEFGH "$patched" "${unpatched}what is this\n"; forgotten ABxyEFGH
  img img.bxj img.bxj.redo
  bx: only 0 changes to undo
  [1]

A change that was stopped, and an entry that isn't whole:

  $ fresh ABxyEFGH "$stopped"; forgotten ABxyEFGH
  bx: the image was changed since
  [1]
  img.bxj:
  change2 00000001 0000000000000008
  00000002: 4344                                     CD
  save 00000001
  img img.bxj
  bx: recovered: change 1 was taken back
  bx: only 0 changes to undo
  [1]
  $ fresh ABCDEFGH "${stopped%save*}"; forgotten ABCDEFGH
  bx: recovered: an unfinished entry was dropped
  img img.bxj
  bx: only 0 changes to undo
  [1]

No journal:

  $ fresh ABxyEFGH; kept bx forget img
  bx: cannot open file
  [1]

# A history that begins anew

  $ echo '0: 41' > dump; printf '+0: 41\nend\n' > fix
  $ fresh ABxyEFGHIJ "$patched" "$unpatched"; bx revert --fresh -f dump img; bx log img; wc -c < img.bxj.redo
  1 10 1
  0
  $ fresh ABxyEFGH "$patched" "$unpatched"; bx patch --fresh -f fix img; bx log img; wc -c < img.bxj.redo
  1 8 1
  0
  $ fresh ABxyEFGH "$patched" "$unpatched"; bx dd --fresh if=dump of=img conv=notrunc; bx log img; wc -c < img.bxj.redo
  0+1 records in
  0+1 records out
  1 8 6
  0
  $ bx undo img; cat img
  0
  ABxyEFGH
  $ bx revert --fresh -f dump made; cat made; bx log made
  A1 0 0

# A redo file whose journal is gone

One that is right, of an image of another length, damaged behind its first line, empty, and of a history of which the line still
tells:

  $ echo '0: 41' > dump; printf '+0: 41\nend\n' > fix
  $ dropped() { bx forget img || echo "[$?]"; holds "$1"; echo img*; }
  $ fresh ABCDEFGH - "$unpatched"; dropped ABCDEFGH
  img img.bxj.redo
  $ fresh ABCDEFGHIJ - "$unpatched"; dropped ABCDEFGHIJ
  img img.bxj.redo
  $ fresh ABCDEFGH - "${unpatched}what is this\n"; dropped ABCDEFGH
  img img.bxj.redo
  $ fresh ABCDEFGH - ''; dropped ABCDEFGH
  img img.bxj.redo
  $ changes '2: 7879'; bx undo img; rm img.bxj; dropped ABCDEFGH
  0
  img img.bxj.redo

A change that begins a history anew goes on as with none:

  $ anew() { bx "$@" 2>&1 || echo "[$?]"; bx log img; head -c 3 img; echo; wc -c < img.bxj.redo; }
  $ fresh ABCDEFGH - "$unpatched"; anew revert --fresh -f dump img
  1 8 1
  ABC
  0
  $ fresh XBCDEFGHIJ - "$unpatched"; anew revert --fresh -f dump img
  1 10 1
  ABC
  0
  $ fresh XBCDEFGHIJ - "$unpatched"; anew patch --fresh -f fix img
  1 10 1
  ABC
  0
  $ fresh XBCDEFGHIJ - "${unpatched}what is this\n"; anew dd --fresh if=dump of=img conv=notrunc
  0+1 records in
  0+1 records out
  1 10 6
  0: 
  0
  $ changes '2: 7879'; bx undo img; rm img.bxj; anew revert --fresh -f dump img
  0
  1 8 1
  ABC
  0

A redo file that begins as none may be any file, and nothing is dropped where the change is refused or a file can't be opened:

  $ fresh ABCDEFGH - 'a letter\nthat is no journal\n'
  $ refused 'redo line 1 is damaged' << .
  > forget img
  > revert --fresh -f dump img
  > patch --fresh -f fix img
  > dd --fresh if=dump of=img
  > .
  $ echo '0: 4g' > bad
  $ fresh ABCDEFGH - "$unpatched"; kept bx revert --fresh -f bad img
  bx: line 1: bad pair
  [1]
  $ chmod 666 img.bxj.redo; kept bx forget img
  bx: cannot open file
  [1]
  $ fresh ABCDEFGH - "$unpatched"; kept flock img.bxj.redo bx forget img
  bx: cannot open file
  [1]
  $ fresh - - "$unpatched"; kept bx forget img
  bx: cannot open file
  [1]
  $ fresh ABCDEFGHIJ - "$unpatched"; echo '1000000000000: 41' | bx revert --fresh img; holds ABCDEFGHIJ; echo img*
  bx: image too large
  img img.bxj.redo

Each other command is refused as before, and drops none:

  $ fresh ABCDEFGHIJ - "$unpatched"
  $ refused 'redo line 4 is damaged' << .
  > revert -f dump img
  > patch -f fix img
  > .
  $ refused 'cannot open file' << .
  > undo img
  > redo img
  > log img
  > show img
  > .

# A file that begins as no journal, and inputs that are refused

  $ echo '0: 41' > dump; printf '+0: 41\nend\n' > fix; echo '0: 4g' > bad
  $ printf -- '-0: 42\n+0: 41\nend\n' > other; printf 'length 3 to 3\nend\n' > short
  $ for file in journal redo; do
  >   [ $file = journal ] && fresh ABxyEFGH 'a letter\nthat is no journal\n' || fresh ABxyEFGH "$patched" 'a letter\nthat is no journal\n'
  >   refused "$file line 1 is damaged" << .
  > forget img
  > revert --fresh -f dump img
  > dd --fresh if=dump of=img
  > patch --fresh -f fix img
  > .
  > done
  $ fresh ABxyEFGH "$patched" "$unpatched"
  $ kept bx revert --fresh -f bad img
  bx: line 1: bad pair
  [1]
  $ kept bx revert --fresh -f missing img
  bx: cannot open file
  [1]
  $ kept bx revert --fresh -f / img
  bx: read failed
  [1]
  $ kept bx patch --fresh -f bad img
  bx: line 1: not a line of a patch
  [1]
  $ kept bx patch --fresh -f other img
  bx: the image has other bytes at 0
  [1]
  $ kept bx patch --fresh -f short img
  bx: image should have 3 bytes
  [1]
  $ kept bx dd --fresh of=img off=1
  bx: operand 2: unknown
  [1]
  $ kept bx dd --fresh if=missing of=img
  bx: cannot open file
  [1]
  $ kept bx dd --fresh if=/ of=img
  bx: read failed
  [1]

# What a change that is refused or stopped leaves behind --fresh

A redo file that was missing stays so; an image that was made stays where it was stopped.

  $ fresh ABxyEFGH "$patched"; echo '1000000000000: 41' | bx revert --fresh img
  bx: image too large
  [1]
  $ echo img*
  img img.bxj
  $ fresh - "$patched"; (ulimit -f 0; echo '0: 41' | bx revert --fresh img) 2>&1 | cat; echo img*
  bx: interrupted: open again to recover
  img img.bxj img.bxj.redo
  $ bx log img

Where the history is kept, so is what is known of the image that a redo is for:

  $ changes '2: 7879'; bx undo img; echo '0: 41' > dump; kept flock -s img bx revert --fresh -f dump img
  0
  bx: cannot open file
  [1]

# A patch behind a change that was stopped

Where nothing tells that it was begun on this image, the history isn't dropped. With the line that stood before the change, the image is
recovered, and then has to agree with the patch.

  $ printf -- '-0: 6162\n+0: 5a5a\nend\n' > torn; printf -- '-0: 4142\n+0: 5a5a\nend\n' > whole
  $ begun() { # an image whose second change was stopped, with its line
  >   changes '2: 7879'; printf 'change2 00000002 0000000000000008\n00000000: 4142                                     AB\nsave 00000002\n' >> img.bxj
  >   printf abxyEFGH > img
  > }
  $ begun; rm img.bxj.image; kept bx patch --fresh -f torn img
  bx: the image was changed since
  [1]
  $ bx log img; bx log --anyway img; cat img
  # change 2: unfinished, the next command takes it back
  1 8 2
  bx: recovered: change 2 was taken back
  1 8 2
  ABxyEFGH
  $ begun; bx patch --fresh -f torn img
  bx: recovered: change 2 was taken back
  bx: the image has other bytes at 0
  [1]
  $ bx log img; cat img
  1 8 2
  ABxyEFGH
  $ begun; bx patch --fresh -f whole img; bx log img; cat img
  bx: recovered: change 2 was taken back
  1 8 2
  ZZxyEFGH

# What is shown beside another image

The next command takes nothing back there, so the line on what is unfinished doesn't say so.

  $ begun() { # an image whose second change was stopped, with its line
  >   changes '2: 7879'; printf 'change2 00000002 0000000000000008\n00000000: 4142                                     AB\nsave 00000002\n' >> img.bxj
  >   printf abxyEFGH > img
  > }
  $ begun; kept bx show -k 0 img
  # change 2: unfinished, the next command takes it back
  $ begun; printf ZbxyEFGH > img; kept bx show -k 0 img
  # change 2: unfinished, the next command takes it back
  $ begun; printf abxyEFGZ > img; kept bx show img; kept bx show -k 3 img
  # change 2: unfinished
  # the image isn't the one that it was made on
  # change 1: undo writes 2 bytes at 2-3, keeps length 8
  00000002: 4344                                     CD
  
  # change 2: unfinished
  # the image isn't the one that it was made on
  bx: only 1 changes to undo
  [1]
  $ kept bx log img
  # change 2: unfinished
  # the image isn't the one that it was made on
  1 8 2
  $ kept bx undo img
  bx: the image was changed since
  [1]

# What somebody planted, and what is in use

  $ fresh ABxyEFGH; echo 'change2 precious' > precious
  $ ln -s precious img.bxj; kept bx forget img
  bx: cannot open file
  [1]
  $ ln -f precious img.bxj; kept bx forget img
  bx: cannot open file
  [1]
  $ fresh ABxyEFGH "$patched" "$unpatched"; kept flock img.bxj bx forget img
  bx: cannot open file
  [1]
  $ echo '0: 41' > dump; kept flock -s img bx revert --fresh -f dump img
  bx: cannot open file
  [1]
  $ flock -s img bx forget img
