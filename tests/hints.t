What standard error gets at each fault, and after a success. On a terminal it is all that stands below a command, in a pipe the lines
that don't begin with `hint: `, and with `bx -v` in a pipe all but what a person types is told; standard output goes nowhere. Each command of bx has a copy of the
folder to itself. `(re)` stands behind a line that is a regular expression.

What standard error gets of a line on a terminal. It says so where a pipe gets something else than that without hints and without what
says how far work is. Each runs in a copy of this folder; standard output goes nowhere.

  $ hint() { # LINE
  >   local terminal pipe asked status
  >   terminal=$(set -o pipefail; copied; SHELL=$BASH script -qec "($1) > /dev/null" /dev/null < /dev/null | tr -d '\r')
  >   status=$?
  >   pipe=$(copied; bash -c "($1) > /dev/null" 2>&1 < /dev/null)
  >   [ $? = $status ] || echo 'another status in a pipe'
  >   asked=$(copied; PATH=$verbose:$PATH bash -c "($1) > /dev/null" 2>&1 < /dev/null)
  >   [ $? = $status ] || echo 'another status with -v'
  >   [ -z "$terminal" ] || echo "$terminal"
  >   terminal=$(sed -e 's/.*\x1b\[K//' -e '/^$/d' <<< "$terminal")
  >   [ "$pipe" = "$(sed '/^hint: /d' <<< "$terminal")" ] || echo "in a pipe: $pipe"
  >   [ "$asked" = "$(sed '/ is read from the terminal, /d' <<< "$terminal")" ] || echo "with -v: $asked"
  >   return $status
  > }
  > copied() { rm -rf ../copy && cp -a . ../copy && cd ../copy || exit; }

`bx -v` writes in a pipe what stands on a terminal:

  $ mkdir ../verbose; verbose=$(cd ../verbose && pwd); real=$(command -v bx)
  $ printf '#!/bin/bash\nexec %q -v "$@"\n' "$real" > $verbose/bx; chmod +x $verbose/bx

# Standard error on a terminal and in a pipe (by hint)

## What stands in the folder

An image of two changed bytes, its journal, and what is undone:

  $ change='change2 00000001 0000000000000008\n00000002: 4344                                     CD\nsave 00000001\ndone2 00000001 0000000000000008\n'
  $ undone='change2 00000001 0000000000000008\n00000002: 7879                                     xy\nsave 00000001\ndone2 00000001 0000000000000008\n'
  $ for name in img private second later older ./-8; do printf ABxyEFGH > $name; printf "$change" > $name.bxj; done
  $ printf ABCDEFGH > undone; : > undone.bxj; printf "$undone" > undone.bxj.redo; printf "$undone" > later.bxj.redo
  $ printf ABCDEFGH > new; printf ABxyEFGHI > long; printf "$change" > long.bxj; printf ABxyEFGH > 'two words'; printf "$change" > "it's"

Texts that are damaged, twice there, begun, and of an image that something else changed:

  $ printf "$change"'what is this\n' > bad.bxj; : > bad.redo.bxj; echo 'what is this' > bad.redo.bxj.redo
  $ printf "$change" > twin.bxj; : > twin.bxj.bxj; ln -s twin.bxj soft; ln second.bxj second.too; mkdir dir; mkfifo pipe
  $ printf ABxyEFGH > begun; printf "${change%done2*}" > begun.bxj; printf abcdefgh > other; printf "$change" > other.bxj
  $ line='image3 00000001 00000000 0000000000000008 3e44107170a520582ade522fa73c1d15 d41d8cd98f00b204e9800998ecf8427e'
  $ marks=' 0000000000000008 0000000000000008'; for n in $(seq 32); do marks+=' --------'; done
  $ echo "$line 00000000$marks" > other.bxj.image; echo "$line 00000001$marks" > older.bxj.image

The journal of an image that is missing, and one whose undo was stopped:

  $ printf "$change" > gone.bxj; printf ABxzEFGH > twice
  $ printf "$change${change//0000000[1]/00000002}" | sed '6s/.*/00000003: 79                                       y/' | head -n 7 > twice.bxj

Dumps and a patch, and two files that are dumped as one:

  $ echo '0: 4g' > words; echo x > address; echo '0 41' > colon; echo '0:  41' > nothing; echo 'ffffffffffffffff: 41' > far
  $ printf abc > first; printf defg > last; (printf '0: '; printf '41 %.0s' $(seq 257); echo) > wide; echo '3fffffffffffffff: 41' > high; printf 414 > digits; printf '0: 41\r\n' > returns
  $ printf 'length 8 to 8\n-00000002: 4344\n+00000002: 7879\nend\n' > patch
  $ chmod 644 -- [^d]* digits; chmod 600 private; touch -d @1000000000 -- *; touch -d @1000000001 later

## Faults

  $ bx xxd none
  bx: cannot open file
  hint: none: No such file or directory
  [1]
  $ bx xxd dir
  bx: read failed
  hint: dir: Is a directory
  [1]
  $ bx od -j 99 img
  bx: skip is past the end of the input
  hint: give a smaller -j
  [1]
  $ bx od -An -c first none dir last
  bx: cannot open file
  hint: none: No such file or directory
  bx: read failed
  hint: dir: Is a directory
  [1]
  $ bx strings -n 3 first none last
  bx: cannot open file
  hint: none: No such file or directory
  [1]
  $ bx strings -f none
  bx: cannot open file
  hint: none: No such file or directory
  [1]
  $ bx od none dir
  bx: cannot open file
  hint: none: No such file or directory
  bx: read failed
  hint: dir: Is a directory
  [1]
  $ bx xxd -s -5 last
  bx: read failed
  hint: last: it has fewer bytes than a negative -s counts from its end
  [1]
  $ cat last | bx xxd -s -2
  bx: read failed
  hint: standard input: a negative -s counts from the end, which only a file or a block device has that is given by its name
  [1]
  $ bx revert -f address img
  bx: line 1: bad address
  hint: a line is like '00000002: 7879'; for digits alone give -p
  [1]
  $ bx revert -f colon img
  bx: line 1: missing colon
  hint: a line is like '00000002: 7879'; for digits alone give -p
  [1]
  $ bx revert -f words img
  bx: line 1: bad pair
  hint: bytes are pairs of digits, with at most one space between two; under -p there are digits and white space alone
  [1]
  $ bx revert -f nothing img
  bx: line 1: no bytes
  hint: digits follow the colon, behind at most one space
  [1]
  $ bx revert -f wide img
  bx: line 1: more than 256 bytes
  [1]
  $ bx revert -f far img
  bx: line 1: address too large
  hint: addresses are below 4611686018427387904
  [1]
  $ bx revert -p -f digits img
  bx: line 1: odd number of digits
  hint: each byte is two digits
  [1]
  $ bx revert -f high img
  bx: image too large
  hint: an image has at most 281474976710655 bytes
  [1]
  $ bx revert --no-grow img <<< '00000008: 41'
  bx: the image would get longer
  hint: img: it has 8 bytes, and would have 9; without --no-grow it may get longer
  [1]
  $ bx dd --no-grow if=/dev/null of=img seek=1
  bx: the image would get longer
  hint: img: it has 8 bytes, and would have 512; without --no-grow it may get longer
  [1]
  $ printf 'length 8 to 10\nend\n' | bx patch -n --no-grow img
  bx: the image would get longer
  hint: img: it has 8 bytes, and would have 10; without --no-grow it may get longer
  [1]
  $ printf '41' | bx revert --no-grow --fresh -p imgae
  bx: the image would get longer
  hint: imgae: it has 0 bytes, and would have 1; without --no-grow it may get longer
  [1]
  $ bx dd if=img off=4
  bx: operand 2: unknown
  hint: off=4; bx dd --help lists the operands and the conversions; Usage: bx dd [OPTIONS] [OPERAND]...
  [1]
  $ bx dd bs=4q
  bx: operand 1: bad number
  hint: bs=4q; a number is decimal; behind it b (512), k or K (1024), M, G or T may stand, and of BYTES kB (1000), KiB and so on; Usage: bx dd [OPTIONS] [OPERAND]...
  [1]
  $ bx dd bs=9999999999999999999
  bx: operand 1: number too large
  hint: bs=9999999999999999999: a number is at most 1099511627775; Usage: bx dd [OPTIONS] [OPERAND]...
  [1]
  $ bx dd if=img ibs=64M
  bx: operand 2: number too large
  hint: ibs=64M: at most 16777216 bytes, which is 16M; bs= takes more; Usage: bx dd [OPTIONS] [OPERAND]...
  [1]
  $ bx dd count=1MB
  bx: operand 1: bad number
  hint: count=1MB; a number is decimal; behind it b (512), k or K (1024), M, G or T may stand, and of BYTES kB (1000), KiB and so on; Usage: bx dd [OPTIONS] [OPERAND]...
  [1]
  $ bx dd if=img skip=0xff
  bx: operand 2: bad number
  hint: skip=0xff: 0x begins no hexadecimal number here, since x multiplies: give it in decimal; a number is decimal; behind it b (512), k or K (1024), M, G or T may stand, and of BYTES kB (1000), KiB and so on; Usage: bx dd [OPTIONS] [OPERAND]...
  [1]
  $ bx dd if=img skip=1024G
  bx: operand 2: number too large
  hint: skip=1024G: a number is at most 1099511627775, and a place at most 281474976710656 bytes from the start; Usage: bx dd [OPTIONS] [OPERAND]...
  [1]
  $ bx dd if=img count=1024G
  bx: operand 2: number too large
  hint: count=1024G: a number is at most 1099511627775; Usage: bx dd [OPTIONS] [OPERAND]...
  [1]
  $ bx dd bs=0x4
  bx: operand 1: zero size
  hint: bs=0x4; a size is at least 1, and a product such as 0x4 is 0: give numbers in decimal; Usage: bx dd [OPTIONS] [OPERAND]...
  [1]
  $ bx dd conv=block,unblock cbs=4
  bx: conflicting conversions
  hint: give one of block and unblock, and one of lcase and ucase; Usage: bx dd [OPTIONS] [OPERAND]...
  [1]
  $ bx dd conv=block
  bx: cbs is missing
  hint: block and unblock want cbs=BYTES; Usage: bx dd [OPTIONS] [OPERAND]...
  [1]
  $ bx dd bs=4 bs=4
  bx: operand 2: given twice
  hint: bs=4; Usage: bx dd [OPTIONS] [OPERAND]...
  [1]
  $ bx dd seek=4
  bx: seek needs an output file
  hint: give of=IMAGE too; Usage: bx dd [OPTIONS] [OPERAND]...
  [1]
  $ bx log -J bad.bxj img
  bx: journal line 5 is damaged
  hint: bad.bxj; repair that line, or move the journal and the redo file away (their undo history is lost)
  [1]
  $ bx undo -k 2 img
  bx: only 1 changes to undo
  hint: bx log img lists the changes
  [1]
  $ bx show -k 2 img
  bx: only 1 changes to undo
  hint: bx log img lists the changes
  [1]
  $ bx undo -k 2 -J ./img.bxj img
  bx: only 1 changes to undo
  hint: bx log -J ./img.bxj img lists the changes
  [1]
  $ bx undo -k 2 --mounted img
  bx: only 1 changes to undo
  hint: bx log --mounted img lists the changes
  [1]
  $ bx undo -k 2 -J "it's" 'two words'
  bx: only 1 changes to undo
  hint: bx log -J "it's" 'two words' lists the changes
  [1]
  $ bx undo -k 2 -- -8
  bx: only 1 changes to undo
  hint: bx log ./-8 lists the changes
  [1]
  $ bx show begun
  bx: only 0 changes to undo
  hint: begun: a change is unfinished, and isn't counted; bx log begun takes it back or drops it, as each command but bx show does, and lists the changes
  [1]
  $ bx show -k 3 begun
  bx: only 0 changes to undo
  hint: begun: a change is unfinished, and isn't counted; bx log begun takes it back or drops it, as each command but bx show does, and lists the changes
  [1]
  $ bx show -d -k 65535 begun
  bx: only 0 changes to undo
  hint: begun: a change is unfinished, and isn't counted; bx log begun takes it back or drops it, as each command but bx show does, and lists the changes
  [1]
  $ bx show -r begun
  bx: only 0 changes to redo
  hint: begun: a change is unfinished, and isn't counted; bx log begun takes it back or drops it, as each command but bx show does, and lists the changes
  [1]
  $ bx redo img
  bx: only 0 changes to redo
  hint: a change that is no redo gives up what was undone, and a journal that is moved takes its redo file along
  [1]
  $ bx log long
  bx: image should have 8 bytes
  hint: long: it has 9 bytes and not 8; it may have another journal; where its length alone was changed, truncate -s 8 long gives that back; or bx forget accepts it as it is (the undo history is lost)
  [1]
  $ bx log -J bad.redo.bxj img
  bx: redo line 1 is damaged
  hint: bad.redo.bxj.redo; move the redo file away to go on (what was undone is lost)
  [1]
  $ bx xxd -z img
  bx: bad arguments
  hint: unexpected argument '-z' found; Usage: bx xxd [OPTIONS] [FILE] [OUT]
  [2]
  $ bx xxd -c 999 img
  bx: bad arguments
  hint: 999: a number from 1 to 256; Usage: bx xxd [OPTIONS] [FILE] [OUT]
  [2]
  $ bx xxd -e -c 6 img
  bx: bad arguments
  hint: -e: -g has to be a power of 2, which is 4 without it, and -c a multiple of that; Usage: bx xxd [OPTIONS] [FILE] [OUT]
  [2]
  $ bx xxd -s 1k img
  bx: bad arguments
  hint: 1k: a number as 512, 0x200 or 01000, with nothing behind it, and - before it where it counts from the end; Usage: bx xxd [OPTIONS] [FILE] [OUT]
  [2]
  $ bx od -N 4q img
  bx: bad arguments
  hint: 4q: a number as 512, 0x200 or 01000, with b, k or m behind it, or K, M, G, T, P, kB or KiB; Usage: bx od [OPTIONS] [FILE]...
  [2]
  $ bx od -A q img
  bx: bad arguments
  hint: q: one of d, o, x and n; Usage: bx od [OPTIONS] [FILE]...
  [2]
  $ bx od -t x3 img
  bx: bad arguments
  hint: x3: c, or one of d, o, u and x with one of 1, 2, 4 and 8, or C, S, I and L, and perhaps z; at most 16 in all; Usage: bx od [OPTIONS] [FILE]...
  [2]
  $ bx od -t x1 -t x1q img
  bx: bad arguments
  hint: x1q: c, or one of d, o, u and x with one of 1, 2, 4 and 8, or C, S, I and L, and perhaps z; at most 16 in all; Usage: bx od [OPTIONS] [FILE]...
  [2]
  $ bx od -w12 -t x1 -t x8 img
  bx: bad arguments
  hint: 12: a decimal number from 1 to 256, and a multiple of the bytes of each value; Usage: bx od [OPTIONS] [FILE]...
  [2]
  $ bx od -w3 img
  bx: bad arguments
  hint: 3: a decimal number from 1 to 256, and a multiple of the bytes of each value; Usage: bx od [OPTIONS] [FILE]...
  [2]
  $ bx od --endian=middle img
  bx: bad arguments
  hint: middle: big or little; Usage: bx od [OPTIONS] [FILE]...
  [2]
  $ bx strings -n 0 img
  bx: bad arguments
  hint: 0: a decimal number from 1 to 4096; Usage: bx strings [OPTIONS] [FILE]...
  [2]
  $ bx strings -t n img
  bx: bad arguments
  hint: n: one of d, o and x; Usage: bx strings [OPTIONS] [FILE]...
  [2]
  $ bx strings -e w img
  bx: bad arguments
  hint: w: one of s, S, b, l, B and L; Usage: bx strings [OPTIONS] [FILE]...
  [2]
  $ bx hexdump img
  bx: bad arguments
  hint: -C: it has to be given, since there is no other form; Usage: bx hexdump [OPTIONS] [FILE]...
  [2]
  $ bx undo -k 99999 img
  bx: bad arguments
  hint: 99999: a decimal number from 0 to 65535; Usage: bx undo [OPTIONS] <IMAGE>
  [2]
  $ bx undo -J img img
  bx: bad arguments
  hint: -J: the journal is a file of its own: neither the image nor another text beside it; Usage: bx undo [OPTIONS] <IMAGE>
  [2]
  $ bx undo -J img.bxj.redo img
  bx: bad arguments
  hint: -J: the journal is a file of its own: neither the image nor another text beside it; Usage: bx undo [OPTIONS] <IMAGE>
  [2]
  $ bx log -J img.bxj.image img
  bx: bad arguments
  hint: -J: the journal is a file of its own: neither the image nor another text beside it; Usage: bx log [OPTIONS] <IMAGE>
  [2]
  $ bx xxd $'\xff'
  bx: bad arguments
  hint: a word is not UTF-8; a file of such a name can be given by a link to it
  with -v: bx: bad arguments
  [2]
  $ bx undo
  bx: bad arguments
  hint: the following required arguments were not provided: <IMAGE>; Usage: bx undo <IMAGE>
  [2]
  $ bx frobnicate
  bx: bad arguments
  hint: unrecognized subcommand 'frobnicate'; Usage: bx [OPTIONS] <COMMAND>
  [2]
  $ bx log new
  bx: cannot open file
  hint: new.bxj: no journal is here, so no change is known; -J names one that is elsewhere, and bx revert, bx patch and bx dd make one
  [1]
  $ bx log none
  bx: cannot open file
  hint: none: No such file or directory
  [1]
  $ bx log gone
  bx: cannot open file
  hint: gone: it is missing, and its journal keeps changes of it; put it back, or begin a new history by --fresh of the command that writes it
  [1]
  $ bx undo gone
  bx: cannot open file
  hint: gone: it is missing, and its journal keeps changes of it; put it back, or begin a new history by --fresh of the command that writes it
  [1]
  $ bx revert gone <<< '0: 41'
  bx: image should have 8 bytes
  hint: gone: it is missing, and its journal keeps changes of it; put it back, or begin a new history by --fresh of the command that writes it
  [1]
  $ bx revert dir <<< '0: 41'
  bx: cannot open file
  hint: dir: it is no regular file and no block device
  [1]
  $ bx revert pipe <<< '0: 41'
  bx: cannot open file
  hint: pipe: it is no regular file and no block device
  [1]
  $ bx revert -J dir new <<< '0: 41'
  bx: cannot open file
  hint: dir: it is no regular file
  [1]
  $ bx revert -J img new <<< '0: 41'
  bx: journal line 1 is damaged
  hint: img; repair that line, or move the journal and the redo file away (their undo history is lost)
  [1]
  $ bx log -J twin.bxj soft
  bx: cannot open file
  hint: twin.bxj: it is one of the others by another name
  [1]
  $ bx undo -J twin.bxj soft
  bx: cannot open file
  hint: twin.bxj: another program has it locked, or it is one of the others by another name
  [1]
  $ bx log private
  bx: cannot open file
  hint: private.bxj: somebody may read or write it who may not do so with the image; chmod 600 private.bxj narrows it, and -J names a journal elsewhere
  [1]
  $ bx revert -J soft img <<< '0: 41'
  bx: cannot open file
  hint: soft: it is a link, and neither a journal nor a redo file may be one; -J names the journal that lies behind it, or one elsewhere
  [1]
  $ bx revert /dev/sdzz1 <<< '0: 41'
  bx: cannot open file
  hint: /dev/sdzz1: there is no such device, and no file is made among the devices
  [1]
  $ bx revert -J /dev/img.bxj img <<< '0: 41'
  bx: cannot open file
  hint: /dev/img.bxj: no file is made among the devices, where none lasts; -J names a journal elsewhere
  [1]
  $ bx show second
  bx: cannot open file
  hint: second.bxj: it has a second name, and neither a journal nor a redo file may have one; -J names a journal elsewhere
  [1]
  $ bx revert -J new.bxj /proc/self/mem <<< '0: 41'
  bx: device failed
  hint: /proc/self/mem: lseek: Invalid argument; nothing was changed
  [1]
  $ bx undo --count 2 img
  bx: bad arguments
  hint: unexpected argument '--count' found: give -k COUNT; Usage: bx undo [OPTIONS] <IMAGE>
  [2]
  $ bx undo --count=2 img
  bx: bad arguments
  hint: unexpected argument '--count' found: give -k COUNT; Usage: bx undo [OPTIONS] <IMAGE>
  [2]
  $ bx log --journal j img
  bx: bad arguments
  hint: unexpected argument '--journal' found: give -J JOURNAL; Usage: bx log [OPTIONS] <IMAGE>
  [2]
  $ bx undo --counts 2 img
  bx: bad arguments
  hint: unexpected argument '--counts' found; Usage: bx undo [OPTIONS] <IMAGE>
  [2]
  $ bx xxd --len 4 img
  bx: bad arguments
  hint: unexpected argument '--len' found: give -l COUNT; Usage: bx xxd [OPTIONS] [FILE] [OUT]
  [2]
  $ bx od --format=x1 img
  bx: bad arguments
  hint: unexpected argument '--format' found: give -t TYPE; Usage: bx od [OPTIONS] [FILE]...
  [2]
  $ bx revert words img
  bx: bad arguments
  hint: unexpected argument 'img' found: one word is the image; a dump is named by -f: bx revert -f DUMP IMAGE; Usage: bx revert [OPTIONS] <IMAGE>
  [2]
  $ bx undo img 2
  bx: bad arguments
  hint: unexpected argument '2' found: one word is the image, and there is no other; Usage: bx undo [OPTIONS] <IMAGE>
  [2]
  $ bx xxd img out
  bx: bad arguments
  hint: out: one word is the file that is read, and with -r another the file that is written; Usage: bx xxd [OPTIONS] [FILE] [OUT]
  [2]
  $ bx strings -8 img
  bx: bad arguments
  hint: -8: give -n COUNT for the minimum run length; Usage: bx strings [OPTIONS] [FILE]...
  [2]
  $ bx xxd -l 99999999999999999999 img
  bx: bad arguments
  hint: 99999999999999999999: a number is at most 4611686018427387904; Usage: bx xxd [OPTIONS] [FILE] [OUT]
  [2]
  $ bx od -j 0xfffffffffffffffffffff img
  bx: bad arguments
  hint: 0xfffffffffffffffffffff: a number is at most 4611686018427387904; Usage: bx od [OPTIONS] [FILE]...
  [2]
  $ bx xxd -s $'\e[2J\r' img
  bx: bad arguments
  hint: \033[2J\r: a number as 512, 0x200 or 01000, with nothing behind it, and - before it where it counts from the end; Usage: bx xxd [OPTIONS] [FILE] [OUT]
  [2]
  $ bx $'\e[2J'
  bx: bad arguments
  hint: unrecognized subcommand '\033[2J'; Usage: bx [OPTIONS] <COMMAND>
  [2]
  $ bx revert -f returns img
  bx: line 1: bad pair
  hint: returns: its lines end in CR LF; tr -d '\r' takes the CR off; bytes are pairs of digits, with at most one space between two; under -p there are digits and white space alone
  [1]
  $ printf '0: 41\r\n1: 42\r\n' | bx revert img
  bx: line 1: bad pair
  hint: standard input: its lines end in CR LF; tr -d '\r' takes the CR off; bytes are pairs of digits, with at most one space between two; under -p there are digits and white space alone
  [1]
  $ printf '0: 41\n1: 4g\r\n' | bx revert img
  bx: line 2: bad pair
  hint: bytes are pairs of digits, with at most one space between two; under -p there are digits and white space alone
  [1]
  $ printf '*\r\n' | bx revert img
  bx: line 1: bad address
  hint: standard input: its lines end in CR LF; tr -d '\r' takes the CR off; a line is like '00000002: 7879'; for digits alone give -p
  [1]
  $ bx undoo img
  bx: bad arguments
  hint: unrecognized subcommand 'undoo': did you mean 'undo'; Usage: bx [OPTIONS] <COMMAND>
  [2]
  $ bx xxd -r -c 8 words
  bx: bad arguments
  hint: -c: beside -r there are -p and -s alone; Usage: bx xxd [OPTIONS] [FILE] [OUT]
  [2]
  $ bx xxd -r -s -1 words
  bx: bad arguments
  hint: -1: under -r a place counts from the start; Usage: bx xxd [OPTIONS] [FILE] [OUT]
  [2]
  $ bx xxd -r words words
  bx: bad arguments
  hint: words: it is the dump itself: give another file to write; Usage: bx xxd [OPTIONS] [FILE] [OUT]
  [2]
  $ bx xxd --revert words
  bx: bad arguments
  hint: unexpected argument '--revert' found: give -r; Usage: bx xxd [OPTIONS] [FILE] [OUT]
  [2]
  $ printf '0: 4142\n1: 43\n' | bx xxd -r > out
  bx: line 2: goes back in a stream
  hint: a stream is written from front to end; onto a file lines may go back: bx xxd -r DUMP OUT
  [1]
  $ bx od -a words
  bx: bad arguments
  hint: unexpected argument '-a' found: give -c for characters; Usage: bx od [OPTIONS] [FILE]...
  [2]
  $ bx od -f words
  bx: bad arguments
  hint: unexpected argument '-f' found: numbers are shown as integers alone; Usage: bx od [OPTIONS] [FILE]...
  [2]
  $ bx od -S 3 words
  bx: bad arguments
  hint: unexpected argument '-S' found: bx strings shows texts; Usage: bx od [OPTIONS] [FILE]...
  [2]
  $ bx xxd -E words
  bx: bad arguments
  hint: unexpected argument '-E' found: characters are shown as ASCII alone; Usage: bx xxd [OPTIONS] [FILE] [OUT]
  [2]
  $ bx xxd -C -i words
  bx: bad arguments
  hint: unexpected argument '-C' found: give -n NAME for the name of the array; Usage: bx xxd [OPTIONS] [FILE] [OUT]
  [2]
  $ bx xxd -R always words
  bx: bad arguments
  hint: unexpected argument '-R' found: a dump has no colors; Usage: bx xxd [OPTIONS] [FILE] [OUT]
  [2]
  $ bx xxd --name=n -i words
  bx: bad arguments
  hint: unexpected argument '--name' found: give -n NAME; Usage: bx xxd [OPTIONS] [FILE] [OUT]
  [2]
  $ bx hexdump -e '1/1 "%02x"' words
  bx: bad arguments
  hint: unexpected argument '-e' found: -C is the only form; Usage: bx hexdump [OPTIONS] [FILE]...
  [2]
  $ bx hexdump -x words
  bx: bad arguments
  hint: unexpected argument '-x' found: -C is the only form; bx od has others; Usage: bx hexdump [OPTIONS] [FILE]...
  [2]
  $ bx strings -o words
  bx: bad arguments
  hint: unexpected argument '-o' found: give -t o; Usage: bx strings [OPTIONS] [FILE]...
  [2]
  $ bx strings --print-file-name words
  bx: bad arguments
  hint: unexpected argument '--print-file-name' found: give -f; Usage: bx strings [OPTIONS] [FILE]...
  [2]
  $ bx od -r words
  bx: bad arguments
  hint: unexpected argument '-r' found; Usage: bx od [OPTIONS] [FILE]...
  [2]
  $ bx xxd -s -4k img
  bx: bad arguments
  hint: -4k: a number as 512, 0x200 or 01000, with nothing behind it, and - before it where it counts from the end; Usage: bx xxd [OPTIONS] [FILE] [OUT]
  [2]
  $ bx xxd -l-10 img
  bx: bad arguments
  hint: -10: there are no negative places and counts; Usage: bx xxd [OPTIONS] [FILE] [OUT]
  [2]
  $ bx undo -k-1 img
  bx: bad arguments
  hint: -1: there are no negative places and counts; Usage: bx undo [OPTIONS] <IMAGE>
  [2]
  $ bx dd skip=-1
  bx: operand 1: bad number
  hint: skip=-1: there are no negative places and counts; places count from the start; a number is decimal; behind it b (512), k or K (1024), M, G or T may stand, and of BYTES kB (1000), KiB and so on; Usage: bx dd [OPTIONS] [OPERAND]...
  [1]
  $ bx dd if=-
  bx: cannot open file
  hint: -: No such file or directory; - is a file's name here; an input without a name is standard input
  [1]
  $ bx revert -f - img
  bx: cannot open file
  hint: -: No such file or directory; - is a file's name here; an input without a name is standard input
  [1]
  $ bx log img.bxj
  bx: cannot open file
  hint: img.bxj.bxj: no journal is here, so no change is known; -J names one that is elsewhere, and bx revert, bx patch and bx dd make one; its image has the name of a journal or a redo file
  [1]
  $ bx undo later.bxj.redo
  bx: cannot open file
  hint: later.bxj.redo.bxj: no journal is here, so no change is known; -J names one that is elsewhere, and bx revert, bx patch and bx dd make one; its image has the name of a journal or a redo file
  [1]
  $ bx patch -f patch img
  bx: the image has other bytes at 2
  hint: img: it has what the patch writes, so the patch is applied already; bx patch -R takes it back
  [1]
  $ bx patch -f patch other
  bx: the image has other bytes at 2
  hint: other: it has '00000002: 6364 6566 6768' there; the patch is of another image, or was applied before
  [1]
  $ bx patch img <<< $'-6: 4748 49\nend'
  bx: the image has other bytes at 8
  hint: img: it ends before; the patch is of another image, or was applied before
  [1]
  $ bx patch img <<< $'-1: 41\nend'
  bx: the image has other bytes at 1
  hint: img: it has '00000001: 4278 7945 4647 48' there; the patch is of another image, or was applied before
  [1]
  $ bx patch -R -f patch long
  bx: image should have 8 bytes
  hint: long: it has 9 bytes and not 8; it may have another journal; where its length alone was changed, truncate -s 8 long gives that back; or bx forget accepts it as it is (the undo history is lost)
  [1]
  $ bx patch img <<< $'length 7 to 9\nend'
  bx: image should have 7 bytes
  hint: img: it has 8 bytes and not 7; the patch is of another image, or was applied before
  [1]
  $ bx patch img <<< '00000002: 7879'
  bx: line 1: not a line of a patch
  hint: bx patch reads what bx diff writes: 'length 8 to 10' before all other lines, and lines like '+00000002: 7879'
  [1]
  $ bx patch img <<< 'length 8'
  bx: line 1: bad length
  hint: it is like 'length 8 to 10', in decimal
  [1]
  $ printf 'length 8 to 8\n+8: 41\nend\n' | bx patch img
  bx: line 2: past the length
  hint: the first line says how long the image is before and after
  [1]
  $ bx patch img <<< '+x: 41'
  bx: line 1: bad address
  hint: a line is like '+00000002: 7879'
  [1]
  $ bx patch img <<< '+0: 4g'
  bx: line 1: bad pair
  hint: bytes are pairs of digits, with at most one space between two
  [1]
  $ printf 'length 8 to 8\r\n' | bx patch img
  bx: line 1: bad length
  hint: standard input: its lines end in CR LF; tr -d '\r' takes the CR off; it is like 'length 8 to 10', in decimal
  [1]
  $ bx patch patch img
  bx: bad arguments
  hint: unexpected argument 'img' found: one word is the image; a patch is named by -f: bx patch -f PATCH IMAGE; Usage: bx patch [OPTIONS] <IMAGE>
  [2]
  $ bx patch --reverse img
  bx: bad arguments
  hint: unexpected argument '--reverse' found: give -R; Usage: bx patch [OPTIONS] <IMAGE>
  [2]
  $ bx patch -f - img
  bx: cannot open file
  hint: -: No such file or directory; - is a file's name here; an input without a name is standard input
  [1]
  $ bx forget new
  bx: cannot open file
  hint: new.bxj: no journal is here, so no change is known; -J names one that is elsewhere, and bx revert, bx patch and bx dd make one
  [1]
  $ bx forget img 2
  bx: bad arguments
  hint: unexpected argument '2' found: one word is the image, and there is no other; Usage: bx forget [OPTIONS] <IMAGE>
  [2]
  $ bx forget -J img new
  bx: journal line 1 is damaged
  hint: img; repair that line, or move the journal and the redo file away (their undo history is lost)
  [1]
  $ bx undo other
  bx: the image was changed since
  hint: other: it hasn't the bytes that the last command left; --anyway goes on all the same, and --fresh of the command that writes it begins a new history; see bx show -d other, which writes nothing
  [1]
  $ bx undo older
  bx: the image was changed since
  hint: older: it was changed between these changes, by another program; --anyway goes on all the same, and --fresh of the command that writes it begins a new history; see bx show -d older, which writes nothing
  [1]

A limit on the size of files, a full device, and pipes that nobody reads:

  $ trap '' XFSZ; prlimit --fsize=200 bx revert img <<< '00: 41 41 41 41 41 41 41 41 41 41 41 41 41 41 41 41 '
  bx: interrupted: open again to recover
  hint: img.bxj: pwrite: File too large; each command on the image but bx show first takes back or drops what was begun; look by bx show img, which writes nothing
  [1]
  $ bx xxd img > /dev/full
  bx: write failed after 0 bytes
  hint: standard output: No space left on device
  [1]
  $ (sleep 0.2; bx xxd img) | :
  $ (sleep 0.2; bx dd if=img) | :
  $ (sleep 0.2; bx undo img) | :
  $ (sleep 0.2; bx log img) | :
  $ (sleep 0.2; bx show img) | :

Nothing to write, and what is typed:

  $ bx revert imgae
  hint: a dump is read from the terminal, up to control-D at the start of a line; -f DUMP names a file
  bx: nothing to write
  hint: the input was read to its end, and has no byte
  [1]
  $ printf '\n*\n' | bx revert undone
  bx: nothing to write
  hint: the input was read to its end, and has no byte
  [1]
  $ bx patch img
  hint: a patch is read from the terminal, up to control-D at the start of a line; -f PATCH names a file
  bx: the patch has no end
  hint: bx diff writes 'end N' last: what stops before that isn't whole; by hand a line 'end' will do
  [1]
  $ head -c 40 patch | bx patch img
  bx: the patch has no end
  hint: bx diff writes 'end N' last: what stops before that isn't whole; by hand a line 'end' will do
  [1]
  $ printf 'length 8 to 8\nend 3\n' | bx patch img
  bx: line 2: bad count of lines
  hint: the last line counts those before it: one was lost or put in; by hand 'end' alone will do
  [1]
  $ printf 'length 8 to 8\nend 1\r\n' | bx patch img
  bx: line 2: bad count of lines
  hint: the last line counts those before it: one was lost or put in; by hand 'end' alone will do
  [1]
  $ printf 'length 8 to 4\nend\n' | bx patch -R img
  bx: the patch can't be turned round
  hint: each byte that it writes or cuts off has to stand in a '-' line too, and lines in the order of addresses
  [1]
  $ bx patch -R -f patch undone
  bx: the image has other bytes at 2
  hint: undone: it has what stood before the patch, so that is taken back already; bx patch without -R applies it
  [1]

What is unfinished, and nothing tells on which image it was begun:

  $ bx forget begun
  bx: the image was changed since
  hint: begun: begun.bxj has a change that is unfinished, and nothing tells whether it was begun on this image: if it was, bx undo -k 0 begun takes it back first; if not, --anyway drops it and leaves the image
  [1]
  $ bx revert --fresh begun <<< '0: 41'
  bx: the image was changed since
  hint: begun: begun.bxj has a change that is unfinished, and nothing tells whether it was begun on this image: if it was, bx undo -k 0 begun takes it back first; if not, --anyway drops it and leaves the image
  [1]

## After a success

  $ bx undo twice
  bx: recovered: change 2 was taken back
  hint: twice: change 2 is unfinished and is taken back first, and then the undo is made too; where it was an undo that was stopped, bx undo -k 0 twice would have finished it alone
  hint: twice: change 1 is taken back; left to undo: 0
  $ bx show -k 0 begun
  $ bx show -r -k 0 begun
  $ printf '41\r\n42\r\n' | bx revert -p img
  hint: img: it had these bytes already, so no byte was changed
  $ bx patch -R -f patch -- -8
  $ bx xxd img
  $ bx log img
  $ bx revert imgae <<< '0: 41'
  hint: imgae: it was missing, so it was made; its journal is imgae.bxj
  $ bx revert -J elsewhere imgae <<< '0: 41'
  hint: imgae: it was missing, so it was made; its journal is elsewhere
  $ bx revert img <<< '0: 41'
  hint: img: it had these bytes already, so no byte was changed
  $ bx revert img <<< '0: 42'
  $ bx revert - <<< '0: 41'
  hint: -: it was missing, so it was made; its journal is -.bxj
  hint: - is a file's name here, of an image too
  $ bx revert none.bxj <<< '0: 41'
  hint: none.bxj: it was missing, so it was made; its journal is none.bxj.bxj
  hint: none.bxj: it has the name of a journal or a redo file, and was taken as an image
  $ bx log twin.bxj
  hint: twin.bxj: it has the name of a journal or a redo file, and was taken as an image
  $ bx revert img <<< '00000000: 4142 7879                                ABxy'
  hint: img: it had these bytes already, so no byte was changed
  $ bx revert img <<< '00000000: 4142 4344                                ABxy'
  $ bx revert img <<< '2: 7879'
  hint: img: it had these bytes already, so no byte was changed
  $ bx revert img <<< '8: 4142434445464748'
  $ bx revert img <<< '8: 414243444546474849'
  hint: img: it had 8 bytes and has 17 now; bx undo img takes this back
  $ bx revert img <<< 'c: 4142434445464748'
  hint: img: it had 8 bytes and has 20 now, 4 of them zeros that the dump doesn't give; bx undo img takes this back
  $ bx revert img <<< '100009: 41'
  hint: img: it had 8 bytes and has 1048586 now, 1048577 of them zeros that the dump doesn't give; bx undo img takes this back
  $ bx revert imgae <<< '100000: 41'
  hint: imgae: it was missing, so it was made; its journal is imgae.bxj
  $ bx revert imgae <<< '100001: 41'
  hint: imgae: it was missing, so it was made; its journal is imgae.bxj
  hint: imgae: it had 0 bytes and has 1048578 now, 1048577 of them zeros that the dump doesn't give; bx undo imgae takes this back
  $ printf '*\n\n00000000: 4142 2020                                AB\n' | bx revert img
  $ printf '00000000: 2020 4142  AB\r\n' | bx revert img
  $ bx revert img <<< '00000000: 0941 0d0a                                .A..'
  $ bx revert img <<< '00000000: 41  B'
  hint: the characters beside the digits aren't those of the bytes in line 1; bx undo img takes this back, and bx revert --help shows the form of a line
  hint: img: it had these bytes already, so no byte was changed
  $ printf '00000000: 41\n\n*\n00000004: 01000001 01000010  AB\n' | bx revert img
  hint: the characters beside the digits aren't those of the bytes in line 4; bx undo img takes this back, and bx revert --help shows the form of a line
  $ bx revert img <<< '00000000: 44434241 48474645                    ABCDEFGH'
  hint: the characters beside the digits aren't those of the bytes in line 1; bx undo img takes this back, and bx revert --help shows the form of a line
  $ bx revert img <<< '00000000: 41 42 43 44  45 46 47 48                           ABCDEFGH'
  hint: the characters beside the digits aren't those of the bytes in line 1; bx undo img takes this back, and bx revert --help shows the form of a line
  $ bx revert -p img <<< '41 42  43'
  $ bx revert undone <<< '0: 41'
  hint: undone: it had these bytes already, so no byte was changed, but what was undone is given up
  $ bx revert undone <<< '0: 42'
  $ bx dd if=/dev/null of=undone conv=notrunc
  0+0 records in
  0+0 records out
  hint: nothing was written, but what was undone is given up
  $ bx dd if=/dev/null of=undone obs=8 seek=1
  0+0 records in
  0+0 records out
  hint: nothing was written, but what was undone is given up
  $ bx dd if=/dev/null of=undone
  0+0 records in
  0+0 records out
  $ bx dd if=/dev/null of=img conv=notrunc
  0+0 records in
  0+0 records out
  $ bx patch -R -f patch img
  $ bx forget img
  hint: img: its history is dropped; changes: 1, undone: 0
  $ bx patch undone <<< end
  hint: the patch changes nothing, so nothing was done
  $ bx patch imgae <<< $'length 0 to 0\nend'
  hint: the patch changes nothing, so nothing was done
  $ bx undo later
  hint: later: change 1 is taken back; left to undo: 0
  hint: later: it was modified later than its journal, perhaps by another program; bx redo -k 1 later goes back
  $ bx redo later
  hint: later: change 2 is made again; left to redo: 0
  hint: later: it was modified later than its journal, perhaps by another program; bx undo -k 1 later goes back
  $ bx undo -J ./later.bxj later
  hint: later: change 1 is taken back; left to undo: 0
  hint: later: it was modified later than its journal, perhaps by another program; bx redo -k 1 -J ./later.bxj later goes back
  $ bx undo -k 0 later
  $ bx redo -k 0 later
  $ bx log later
  $ bx undo img
  hint: img: change 1 is taken back; left to undo: 0
  $ bx redo undone
  hint: undone: change 1 is made again; left to redo: 0
  $ bx undo --anyway other
  hint: other: change 1 is taken back; left to undo: 0
  $ bx revert other <<< '0: 41'
  hint: other: it was changed since, so the older changes stand for another image; --fresh begins a new history
  $ bx revert older <<< '0: 42'
  $ bx revert --fresh other <<< '0: 41'
  hint: other: its history is dropped; changes: 1, undone: 0

## Before dd's report of an empty input

  $ bx dd if=/dev/null skip=0x10
  bx: warning: '0x' is a zero multiplier; use '00x' if that is intended
  hint: skip=0x10: x multiplies, so this is 0; for 0x10 in hexadecimal give skip=16
  0+0 records in
  0+0 records out
  $ bx dd if=/dev/null count=0x10
  bx: warning: '0x' is a zero multiplier; use '00x' if that is intended
  hint: count=0x10: x multiplies, so this is 0; for 0x10 in hexadecimal give count=16
  0+0 records in
  0+0 records out
  $ bx dd if=/dev/null of=new conv=notrunc seek=0x200
  bx: warning: '0x' is a zero multiplier; use '00x' if that is intended
  hint: seek=0x200: x multiplies, so this is 0; for 0x200 in hexadecimal give seek=512
  0+0 records in
  0+0 records out
  $ bx dd if=/dev/null skip=2x0x10
  bx: warning: '0x' is a zero multiplier; use '00x' if that is intended
  hint: skip=2x0x10: x multiplies, so this is 0
  0+0 records in
  0+0 records out
  $ bx dd if=/dev/null skip=00x10
  0+0 records in
  0+0 records out
  $ bx dd if=/dev/null skip=10x0
  0+0 records in
  0+0 records out
  $ bx dd if=/dev/null skip=0
  0+0 records in
  0+0 records out
  $ bx dd if=/dev/null count=2x10 skip=10
  0+0 records in
  0+0 records out

## Names of files, as `ls --quoting-style=shell-escape` of coreutils 9.1 shows them

Each was a file in a folder; the last three have a character that turns the order of others or takes no place, which ls shows as it is.

  $ bx xxd plain-1.0_x+y,z:w@v%u]
  bx: cannot open file
  hint: plain-1.0_x+y,z:w@v%u]: No such file or directory
  [1]
  $ bx xxd 'three words'
  bx: cannot open file
  hint: 'three words': No such file or directory
  [1]
  $ bx xxd $'a\nb'
  bx: cannot open file
  hint: 'a'$'\n''b': No such file or directory
  [1]
  $ bx xxd $'\n'
  bx: cannot open file
  hint: ''$'\n': No such file or directory
  [1]
  $ bx xxd $'a\tb\rc\033[2Jd'
  bx: cannot open file
  hint: 'a'$'\t''b'$'\r''c'$'\033''[2Jd': No such file or directory
  [1]
  $ bx xxd $'\177'
  bx: cannot open file
  hint: ''$'\177': No such file or directory
  [1]
  $ bx xxd $'a\001\002b'
  bx: cannot open file
  hint: 'a'$'\001\002''b': No such file or directory
  [1]
  $ bx xxd $'ain\'t'
  bx: cannot open file
  hint: "ain't": No such file or directory
  [1]
  $ bx xxd $'ain\'t $HOME'
  bx: cannot open file
  hint: 'ain'\''t $HOME': No such file or directory
  [1]
  $ bx xxd $'\''
  bx: cannot open file
  hint: "'": No such file or directory
  [1]
  $ bx xxd $'a\'b\'c'
  bx: cannot open file
  hint: "a'b'c": No such file or directory
  [1]
  $ bx xxd 'a"b'
  bx: cannot open file
  hint: 'a"b': No such file or directory
  [1]
  $ bx xxd 'a$b'
  bx: cannot open file
  hint: 'a$b': No such file or directory
  [1]
  $ bx xxd 'a`b'
  bx: cannot open file
  hint: 'a`b': No such file or directory
  [1]
  $ bx xxd 'a\b'
  bx: cannot open file
  hint: 'a\b': No such file or directory
  [1]
  $ bx xxd 'a!b'
  bx: cannot open file
  hint: 'a!b': No such file or directory
  [1]
  $ bx xxd 'a*b'
  bx: cannot open file
  hint: 'a*b': No such file or directory
  [1]
  $ bx xxd 'a?b'
  bx: cannot open file
  hint: 'a?b': No such file or directory
  [1]
  $ bx xxd 'a;b'
  bx: cannot open file
  hint: 'a;b': No such file or directory
  [1]
  $ bx xxd 'a&b'
  bx: cannot open file
  hint: 'a&b': No such file or directory
  [1]
  $ bx xxd 'a|b'
  bx: cannot open file
  hint: 'a|b': No such file or directory
  [1]
  $ bx xxd 'a<b'
  bx: cannot open file
  hint: 'a<b': No such file or directory
  [1]
  $ bx xxd 'a>b'
  bx: cannot open file
  hint: 'a>b': No such file or directory
  [1]
  $ bx xxd '(a)'
  bx: cannot open file
  hint: '(a)': No such file or directory
  [1]
  $ bx xxd '[a'
  bx: cannot open file
  hint: '[a': No such file or directory
  [1]
  $ bx xxd 'a=b'
  bx: cannot open file
  hint: 'a=b': No such file or directory
  [1]
  $ bx xxd 'a^b'
  bx: cannot open file
  hint: 'a^b': No such file or directory
  [1]
  $ bx xxd $'\303\244'
  bx: cannot open file
  hint: ä: No such file or directory
  [1]
  $ bx xxd $'\303\244 b'
  bx: cannot open file
  hint: 'ä b': No such file or directory
  [1]
  $ bx xxd $'\342\202\254\302\205x'
  bx: cannot open file
  hint: '€'$'\302\205''x': No such file or directory
  [1]
  $ bx xxd $'\302\205'
  bx: cannot open file
  hint: ''$'\302\205': No such file or directory
  [1]
  $ bx xxd ' '
  bx: cannot open file
  hint: ' ': No such file or directory
  [1]
  $ bx xxd $'a\007\010\013\014'
  bx: cannot open file
  hint: 'a'$'\a\b\v\f': No such file or directory
  [1]
  $ bx xxd $'a\342\200\256b'
  bx: cannot open file
  hint: 'a'$'\342\200\256''b': No such file or directory
  [1]
  $ bx xxd $'\342\200\213x'
  bx: cannot open file
  hint: ''$'\342\200\213''x': No such file or directory
  [1]
  $ bx xxd $'a\357\273\277'
  bx: cannot open file
  hint: 'a'$'\357\273\277': No such file or directory
  [1]

## Work on an input that comes slowly

  $ for n in 1 2 3 4 5 6 7 8; do printf %01000d 0; sleep 0.25; done | bx xxd
  (\\x1b\[Kbx: [0-9]+[.][0-9] [kM]B)+\\x1b\[K (re)
  $ for n in 1 2 3 4 5 6 7 8; do printf %01000d 0; sleep 0.25; done | bx od -N 100000
  (\\x1b\[Kbx: [0-9]+[.][0-9] of 100[.]0 [kM]B)+\\x1b\[K (re)
  $ for n in 1 2 3 4 5 6 7 8; do printf %01000d 0; sleep 0.25; done | bx hexdump -C -n 4500000
  (\\x1b\[Kbx: [0-9]+[.][0-9] of 4[.]5 [kM]B)+\\x1b\[K (re)
  $ for n in 1 2 3 4 5 6 7 8; do printf %01000d 0; sleep 0.25; done | bx dd bs=1000000
  (\\x1b\[Kbx: [0-9]+[.][0-9] [kM]B)+\\x1b\[K0\+1 records in (re)
  0+1 records out
  $ for n in 1 2 3 4 5 6 7 8; do printf %01000d 0; sleep 0.25; done | bx dd bs=1000000 count=2
  (\\x1b\[Kbx: [0-9]+[.][0-9] of 2[.]0 [kM]B)+\\x1b\[K0\+1 records in (re)
  0+1 records out
  $ for n in 1 2 3 4 5 6 7 8; do printf %01000d 0; sleep 0.25; done | bx dd bs=1000000 count=2 of=new
  (\\x1b\[Kbx: [0-9]+[.][0-9] of 2[.]0 [kM]B)+\\x1b\[K0\+1 records in (re)
  0+1 records out
  $ for n in 1 2 3 4 5 6 7 8; do printf %01000d 0; sleep 0.25; done | bx dd --fresh bs=1000000 of=new
  (\\x1b\[Kbx: [0-9]+[.][0-9] [kM]B)+\\x1b\[K0\+1 records in (re)
  0+1 records out
  $ for n in 1 2 3 4 5 6 7 8; do printf %01000d 0; sleep 0.25; done | bx dd -n bs=1000000 of=new
  (\\x1b\[Kbx: [0-9]+[.][0-9] [kM]B)+\\x1b\[K0\+1 records in (re)
  0+1 records out
  $ for n in 1 2 3 4 5 6 7 8; do printf '0: 42\n'; sleep 0.25; done | bx revert new
  (\\x1b\[Kbx: [0-9]+[.][0-9] [kM]B)+\\x1b\[K (re)

## A comparison of long files

  $ truncate -s 8G ../one ../other; bx diff ../one ../other; rm ../one ../other
  (\\x1b\[Kbx: [0-9]+[.][0-9] of 17[.]1 GB)+\\x1b\[K (re)
