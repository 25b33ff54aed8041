Two names of one file, what is no regular file, what a refused command leaves, names among the devices, links, and held locks.

# The image as its own journal or redo file

It begins as a journal does, so that opening it as one would cut it.

  $ fresh "$stopped"; ln img hard; ln -s img soft; echo '0: 41' > dump
  $ for name in ./img $PWD/img hard soft; do refused 'cannot open file' << .
  > log -J $name img
  > undo -J img $name
  > revert -f dump -J $name img
  > dd if=dump of=$name -J img
  > .
  > done
  $ fresh ABxyEFGH; printf %b "$patched" > own
  $ for name in img own; do
  >   ln -f $name own.redo; refused 'cannot open file' <<< 'undo -J own img'
  >   ln -sf $name own.redo; refused 'cannot open file' <<< 'revert -f dump -J own img'
  > done

# What is no regular file

It is refused as an image, as a journal, as what is compared, and as a redo file, before anything is written or made.

  $ fresh ABxyEFGH "$stopped"; mkdir folder; mkfifo pipe; echo '0: 41' > dump; : > kind
  $ python3 -c 'import socket; socket.socket(socket.AF_UNIX).bind("socket")'
  $ for name in / /dev/null /dev/full /dev/zero folder pipe socket; do refused 'cannot open file' << .
  > revert -f dump $name
  > dd if=dump of=$name -J new.bxj
  > undo -J img.bxj $name
  > log -J img.bxj $name
  > diff $name img
  > diff img $name
  > revert -f dump -J $name img
  > dd if=dump of=new -J $name
  > undo -J $name img
  > log -J $name img
  > .
  > ln -s "$(realpath -s $name)" kind.redo; refused 'cannot open file' << .
  > revert -f dump -J kind img
  > dd if=dump of=new -J kind
  > undo -J kind img
  > redo -J kind img
  > log -J kind img
  > .
  > rm kind.redo
  > done
  $ ls /.bxj /.bxj.redo /dev/null.bxj 2>&1 | grep -c 'No such file'
  3
  $ mkdir new.bxj.redo
  $ kept bx dd if=dump of=new -J new.bxj
  bx: cannot open file
  [1]

# What is compared

  $ fresh ABxyEFGH "$patched"; ln img hard
  $ refused 'cannot open file' << .
  > diff missing img
  > diff img missing
  > diff /dev/stdin img
  > diff img /dev/stdin
  > .
  $ kept bx diff img img
  end 0
  $ kept bx diff -q img hard
  $ kept bx diff -q img img.bxj
  [1]
  $ kept bx diff img img.bxj | head -3
  length 8 to 134
  -00000000: 4142 7879 4546 4748                      ABxyEFGH
  +00000000: 6368 616e 6765 3220 3030 3030 3030 3031  change2 00000001

# What a refused command leaves

Nothing that it made; behind an image's links to a missing file neither. Standard input is closed.

  $ echo '0: 4g' > bad; echo '0: 41' > dump; printf %b "$patched" > changed
  $ for links in no yes; do
  >   [ $links = no ] || { mkdir far; ln -s far/next img; ln -s $PWD/far/image far/next; }
  >   refused '*' << .
  > revert -f bad img <&-
  > revert -p -f bad img <&-
  > revert -f missing img <&-
  > revert -f .. img <&-
  > revert img <&-
  > dd if=.. of=img <&-
  > dd if=missing of=img <&-
  > dd of=img <&-
  > dd if=dump of=img obs=1 seek=281474976710655 <&-
  > undo img <&-
  > redo img <&-
  > log img <&-
  > show img <&-
  > revert -f dump -J no/such img <&-
  > revert -f dump -J .. img <&-
  > revert -f dump -J changed img <&-
  > .
  > done
  $ umask 022; bx revert -f dump img
  $ cat far/image; echo; echo *; wc -l < img.bxj
  A
  bad changed dump far img img.bxj img.bxj.image img.bxj.redo
  3
  $ bx undo img; cat far/image
  0
  $ for words in undo redo; do : > new; : > new.bxj; bx $words new; ls new.bxj.redo; rm new*; done
  bx: only 0 changes to undo
  ls: cannot access 'new.bxj.redo': No such file or directory
  bx: only 0 changes to redo
  ls: cannot access 'new.bxj.redo': No such file or directory

# Links that lead nowhere, and texts that are links

Texts stand beside an image's link, and are none themselves.

  $ fresh ''; echo '0: 41' > dump; ln -s round turn; ln -s turn round; ln -s no/such off
  $ refused 'cannot open file' << .
  > revert -f dump turn
  > revert -f dump off
  > revert -f dump -J turn img
  > revert -f dump -J off img
  > .
  $ for name in img.bxj img.bxj.redo; do
  >   fresh '' ''; rm -f $name; ln -s text $name
  >   refused 'cannot open file' << .
  > revert -f dump img
  > dd if=dump of=img
  > undo img
  > undo -k 0 img
  > redo img
  > log img
  > show img
  > .
  > done

# Among the devices

Nothing is made in their folder, nor beside the name of a standard stream, and in /dev/shm it is.

  $ fresh ABCDEFGH; echo '0: 41' > dump; ln -s /dev/bx.none link; ls /dev > devices
  $ refused 'cannot open file' << .
  > dd if=dump of=/dev/sdzz1
  > dd if=dump of=/dev/sdzz1 -J own.bxj
  > revert -f dump /dev/bx.none
  > revert -f dump -J own.bxj /dev/bx.none
  > revert -f dump -J /dev/own.bxj img
  > dd if=dump of=/dev/stdout
  > dd if=dump of=/dev/stdout -J own.bxj
  > dd if=dump of=/dev/fd/1
  > revert -f dump -J /dev/own.bxj new
  > revert -f dump link
  > .
  $ bx dd if=dump of=/dev/stdout 1<> img
  bx: cannot open file
  [1]
  $ holds ABCDEFGH
  $ ls /dev | cmp devices -

# Files in /dev/shm (wants /dev/shm)

  $ shared=$(mktemp -d /dev/shm/bx.XXXXXX); echo '0: 41' | bx revert $shared/img; bx undo $shared/img; rm -r $shared
  0

# Locks that another program holds

On one of the three, and on a text of a new image, which is taken away again.

  $ fresh ABxyEFGH "$stopped" "$unpatched"; echo '0: 41' > dump; printf %b "$unpatched" > new.bxj.redo
  $ for held in img img.bxj img.bxj.redo; do refused 'cannot open file' flock $held bx << .
  > revert -f dump img
  > dd if=dump of=img
  > undo img
  > undo -k 0 img
  > redo img
  > log img
  > show img
  > .
  > done
  $ kept flock img.bxj bx dd if=dump of=new -J img.bxj
  bx: cannot open file
  [1]
  $ kept flock new.bxj.redo bx dd if=dump of=new -J new.bxj
  bx: cannot open file
  [1]
  $ bx log --anyway img
  bx: recovered: change 1 was taken back
