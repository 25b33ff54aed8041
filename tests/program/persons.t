Whose texts are made and opened, and with which permissions.

  $ as() { # USER[:GROUP[,GROUP..]] COMMAND ..
  >   local user=${1%:*} groups=${1#*:}
  >   shift
  >   setpriv --reuid "$user" --regid "${groups%%,*}" --groups "$groups" -- "$@"
  > }

Each command that opens a text refuses IMAGE, and every file is as before.

  $ opening() { # IMAGE [FRONT ..]
  >   local image=$1 words
  >   shift
  >   for words in 'revert -f dump IMG' 'dd if=dump of=IMG' 'undo IMG' 'redo -k 0 IMG' 'log IMG' 'log -v IMG' 'show IMG' \
  >     'show -r -k 0 IMG'; do
  >     echo "${words/IMG/$image}"
  >   done | refused 'cannot open file' "$@"
  > }

  $ put() { # OWNER[:GROUP] BITS NAME [TEXT]
  >   printf %b "${4-}" > "$3"
  >   chmod "$2" "$3"
  >   chown "$1" "$3"
  > }

# The bits of texts

Journal and redo file have no bit that their image lacks, and none to execute, under any umask; of a new image all three have
those that the umask leaves.

  $ echo '0: 58' > dump
  $ for mask in 000 022 077; do for mode in 600 640 644 755 none; do
  >   rm -f img*; [ $mode = none ] || { printf secret > img; chmod $mode img; }
  >   (umask $mask; bx revert -f dump img)
  >   echo "image $mode, umask $mask: $(stat -c '%a %u:%g' $([ $mode = none ] && echo img) img.bxj img.bxj.redo | sed "s/ $(id -u):$(id -g)//" | xargs)"
  > done; done
  image 600, umask 000: 600 600
  image 640, umask 000: 640 640
  image 644, umask 000: 644 644
  image 755, umask 000: 644 644
  image none, umask 000: 666 666 666
  image 600, umask 022: 600 600
  image 640, umask 022: 640 640
  image 644, umask 022: 644 644
  image 755, umask 022: 644 644
  image none, umask 022: 644 644 644
  image 600, umask 077: 600 600
  image 640, umask 077: 600 600
  image 644, umask 077: 600 600
  image 755, umask 077: 600 600
  image none, umask 077: 600 600 600

A journal that more people may read than the image is refused; once it is narrowed the redo file has the image's bits:

  $ fresh secret ''; chmod 600 img; chmod 644 img.bxj; kept bx revert -f dump img
  bx: cannot open file
  [1]
  $ chmod 600 img.bxj; bx revert -f dump img; rm img.bxj.redo; (umask 077; bx undo img); stat -c %a img.bxj.redo
  0
  600

# The bits of texts of an image that its owner may only read (wants root)

  $ echo '0: 58' > dump
  $ for mask in 000 022 077; do
  >   rm -f img*; printf secret > img; chmod 400 img; (umask $mask; bx revert -f dump img); stat -c '%a %u:%g' img.bxj img.bxj.redo
  > done
  400 0:0
  400 0:0
  400 0:0
  400 0:0
  400 0:0
  400 0:0

# Root on another's image, and another on root's (wants root)

  $ umask 022; chown 65534:65534 .; echo '0: 58' > dump
  $ put 65534:65534 600 key secret; bx revert -f dump key; stat -c '%a %u:%g' key.bxj key.bxj.redo
  600 65534:65534
  600 65534:65534
  $ as 65534 bx undo key; cat key
  0
  secret

The group's bits are for the image's group alone:

  $ put 0:0 666 shared secret; (umask 0; as 65534 bx revert -f dump shared); stat -c '%a %u:%g' shared.bxj shared.bxj.redo
  606 65534:65534
  606 65534:65534

Changes that may only be looked at:

  $ chown 0:0 .; fresh ABCDEFGH; bx revert -f dump img; rm img.bxj.redo; chmod 644 img img.bxj
  $ kept as 65534 bx log img
  1 8 1
  $ kept as 65534 bx show img
  # change 1: undo writes 1 byte at 0-0, keeps length 8
  00000000: 41                                       A
  
  $ bx undo img; bx redo img; chmod 644 img.bxj.redo; as 65534 bx log img
  0
  1
  1 8 1
  $ (flock -s 9; as 65534 bx log img) 9< img.bxj
  1 8 1

What is unfinished may be shown, and root's `log --anyway` recovers it, as nothing tells which image it is of:

  $ head -3 img.bxj > begun; cat begun > img.bxj; kept as 65534 bx log img
  bx: cannot open file
  [1]
  $ kept as 65534 bx show -k 0 img
  # change 1: unfinished, the next command takes it back
  $ bx log --anyway img; wc -c < img.bxj
  bx: recovered: change 1 was taken back
  0

# Links in the home of user 1, to what only root may write or make (wants root)

  $ umask 022; evil="change2 00000001 0000000000000008\n$(printf EVIL | bx xxd)\nsave 00000001\n"
  $ mkdir home system; put 0:0 600 system/kept kept; cd home; chown 1:1 .; put 1:1 644 a ABCDEFGH; put 1:1 644 dump '0: 58\n'
  $ for text in ../system/preload ../system/kept; do
  >   ln -s $text a.bxj; chown -h 1:1 a.bxj; opening a; opening a as 1 bx; rm a.bxj
  >   put 1:1 644 a.bxj "$evil"; ln -s $text a.bxj.redo; chown -h 1:1 a.bxj.redo; opening a; opening a as 1 bx; rm a.bxj a.bxj.redo
  > done
  $ ln ../system/kept a.bxj; opening a; rm a.bxj; cat ../system/kept; ls ../system
  keptkept

Root goes on with what its owner stopped:

  $ put 1:1 644 a.bxj "$evil"; bx log --anyway a; cat a; wc -c < a.bxj
  bx: recovered: change 1 was taken back
  EVILEFGH0

An image behind another's link, missing; and root's file by another's link, with a journal of that user:

  $ ln -s ../system/new b; ln -s ../system/kept c; chown -h 1:1 b c; put 1:1 644 c.bxj
  $ refused 'cannot open file' << .
  > revert -f dump b
  > dd if=dump of=b -J ../j
  > .
  $ opening c

# Texts of a neighbour beside root's image, where everybody may put files (wants root)

  $ umask 022; evil="change2 00000001 0000000000000008\n$(printf EVIL | bx xxd)\nsave 00000001\n"; chmod 1777 .; echo '0: 58' > dump
  $ for bits in 600 644 664 666; do
  >   put 0:0 $bits img ABCDEFGH; put 65534:65534 $bits img.bxj "$evil"; opening img
  >   [ $bits -gt 644 ] || { chgrp 0 img.bxj; opening img; }
  >   rm img.bxj; put 0:0 644 img.bxj; put 65534:65534 $bits img.bxj.redo "$evil"; opening img; rm img.bxj img.bxj.redo
  > done

The group and the bits of an image of root, and those of an empty journal of root:

  $ while read -r group bits other more; do put 0:$group $bits img ABCDEFGH; put 0:$other $more img.bxj; opening img; done << .
  > 0 600  0 666
  > 0 600  0 644
  > 0 600  0 640
  > 0 600  0 602
  > 1 640  2 640
  > 1 640  2 604
  > 1 640  2 620
  > 1 604  2 604
  > .
  $ put 65534:65534 644 new.bxj "$evil"; ln -s $PWD/missing far; chown -h 65534:65534 far; refused 'cannot open file' << .
  > revert -f dump new
  > dd if=dump of=new
  > dd if=dump of=far
  > .

# A team of the group 7 that shares a folder (wants root)

Each of them goes on with what another one did. A folder where others may put files too gives them the group, so there it tells
nothing.

  $ echo '0: 58' > dump; evil="change2 00000001 0000000000000008\n$(printf EVIL | bx xxd)\nsave 00000001\n"
  $ for folder in 2770 0770; do for mask in 002 007; do
  >   umask $mask; chown 0:7 .; chmod $folder .; rm -f img*
  >   as 1:1,7 bx revert -f dump img; chgrp 7 img img.bxj img.bxj.redo
  >   as 2:2,7 bx dd if=dump of=img seek=1 obs=1 2> /dev/null; rm img.bxj.redo
  >   as 2:2,7 bx undo img; as 1:1,7 bx redo img; bx undo -k 2 img; rm img.bxj img.bxj.redo
  >   as 2:2,7 bx revert -f dump img; stat -c '%a %u:%g' img.bxj img.bxj.redo | cut -c 1-2,4-
  >   as 1:1,7 bx undo img; as 3:3,7 bx log img
  > done; done
  1
  2
  0
  66 2:7
  66 2:7
  0
  1
  2
  0
  66 2:7
  66 2:7
  0
  1
  2
  0
  66 2:7
  66 2:7
  0
  1
  2
  0
  66 2:7
  66 2:7
  0
  $ umask 022; chmod 3777 .; rm -f img*; put 0:7 660 img ABCDEFGH; put 65534:7 660 img.bxj "$evil"; opening img
  $ chmod 2770 .; as 1:1,7 bx log --anyway img
  bx: recovered: change 1 was taken back

# A group that a folder gave to a file of a neighbour (wants root)

User 65534 isn't of the group 7: in a folder below the one that gives it, and where the file was moved, the group tells nothing.

  $ echo '0: 58' > dump; evil="change2 00000001 0000000000000008\n$(printf EVIL | bx xxd)\nsave 00000001\n"
  $ put 0:7 660 system ABCDEFGH; mkdir pool home; chown 0:7 pool; chmod 3777 pool; chown 65534:65534 home
  $ as 65534 mkdir pool/sub; ln -s $PWD/system pool/sub/img; ln -s $PWD/system home/img
  $ for name in pool/sub/img pool/img; do as 65534 bash -c "umask 007; printf %b '$evil' > $name.bxj"; done; as 65534 mv pool/img.bxj home
  $ stat -c '%a %u:%g' pool/sub/img.bxj home/img.bxj; opening pool/sub/img; opening home/img
  660 65534:7
  660 65534:7

# A folder that may be searched and written, and not be read

It can't be opened, but by root: another user does it then.

  $ mkdir shut; cp "$(command -v bx)" shut; printf ABCDEFGH > shut/img; echo '2: 7879' > shut/dump
  $ [ "$(id -u)" != 0 ] || { chown -R 65534:65534 shut; front='as 65534'; }; chmod 333 shut
  $ $front shut/bx revert -f shut/dump shut/img; cat shut/img
  ABxyEFGH
  $ $front shut/bx undo shut/img; cat shut/img; chmod 755 shut
  0
  ABCDEFGH
