How much memory changes, undos, redos and recoveries hold, and memory that is refused in the toolchain's checked build.

A command that has to hold no more memory at any time.

  $ within() { # KIB COMMAND ..
  >   python3 -c 'import resource, subprocess, sys
  > status = subprocess.run(sys.argv[2:], stdout=subprocess.DEVNULL, stderr=subprocess.DEVNULL).returncode
  > most = resource.getrusage(resource.RUSAGE_CHILDREN).ru_maxrss
  > sys.exit(f"status {status}, {most} KiB" if status or most > int(sys.argv[1]) else 0)' "$@"
  > }

# Changes, undos and redos of 64 MiB

A change holds its new bytes, and beside them no more than 16 MiB: 65536 KiB in 88473, of a dump in 95027. An undo holds what it
overwrites, a redo what it restores.

  $ head -c 64M /dev/urandom > new; truncate -s 64M before
  $ for words in -p ''; do bx xxd $words new > dump; rm -f img*; cp before img; within 95027 bx revert $words -f dump img; cmp new img; done
  $ rm img*; cp before img; (ulimit -v 88473; bx dd if=new of=img conv=notrunc) 2> /dev/null; cmp new img
  $ rm img*; cp before img; within 88473 bx dd if=new of=img conv=notrunc; cmp new img
  $ within 88473 bx undo img; cmp before img
  $ within 88473 bx redo img; cmp new img

An opening that rolls back holds neither, zeros behind the save line or not:

  $ truncate -s -32 img.bxj; (ulimit -v 20000; bx log --anyway img); cmp before img; wc -c < img.bxj
  bx: recovered: change 1 was taken back
  0
  $ bx dd if=new of=img conv=notrunc 2> /dev/null; truncate -s -32 img.bxj; truncate -s +16M img.bxj
  $ (ulimit -v 24576; bx log --anyway img); cmp before img; wc -c < img.bxj
  bx: recovered: change 1 was taken back
  0

# A growth with a gap of 256 MiB

The undo keeps no block of zeros of what it takes off, so its redo file is short and it takes no memory for the gap:

  $ rm -f img*; printf A > img; printf '10000000: 42\n' | bx revert img
  $ within 20000 bx undo img; cat img; echo; test $(wc -c < img.bxj.redo) -le 65536
  A
  $ within 20000 bx redo img; wc -c < img; tail -c 1 img; echo
  268435457
  B
  $ bx undo img; rm img*
  0

Nor does an undo of three with gaps of 32 MiB, of any of them. A byte that a later change wrote into a gap comes back too:

  $ printf A > img
  $ for line in '02000000: 42' '04000000: 43' '06000000: 44' '01000000: 45' '01000000: 00'; do echo "$line" | bx revert img; done
  $ cp img before; within 20000 bx undo -k 5 img; cat img; echo; test $(wc -c < img.bxj.redo) -le 131072
  A
  $ within 20000 bx redo -k 4 img; bx dd if=img bs=1 skip=$((0x01000000)) count=1 2> /dev/null; echo
  E
  $ within 20000 bx redo img; cmp img before; wc -c < img
  100663297
  $ bx undo -k 5 img; rm img* before
  0

# A redo file of a gigabyte, in four of memory

  $ fresh ABxyEFGH "$patched" ''; truncate -s 1G img.bxj.redo; (ulimit -v 3906250; bx log img)
  bx: redo line 1 is damaged
  [1]

One of 51 MiB that is unfinished, of the older form, or of too many entries takes 20 MB at most:

  $ yes "$(printf %b "$unpatched" | sed -n 2p)" | head -n 1000000 > lines
  $ { echo 'change 00000001 00000008'; cat lines; } > img.bxj.redo; (ulimit -v 20000; bx log img)
  bx: redo line 1 is damaged
  [1]
  $ printf 'save 00000001\ndone 00000001\n' >> img.bxj.redo; (ulimit -v 20000; bx log img)
  bx: redo line 1 is damaged
  [1]
  $ for number in {1..65535}; do printf 'change2 %08x 0000000000000008\nsave %08x\ndone2 %08x 0000000000000008\n' $number{,,}; done > many
  $ { printf 'change2 00000001 0000000000000008\n'; cat lines; tail -n +2 many; } > img.bxj.redo
  $ (ulimit -v 20000; bx log img)
  bx: redo line 1196603 is damaged
  [1]

# A saved line with a text column of 51 MiB

It is opened, logged, shown and undone as one with a column of a byte, in 20 MB at most:

  $ for column in 1 51M; do
  >   fresh ABxyEFGH '' ''
  >   { printf 'change2 00000001 0000000000000008\n00000002: 4344  '; head -c $column /dev/zero | tr '\0' x; } > img.bxj
  >   printf '\nsave 00000001\ndone2 00000001 0000000000000008\n' >> img.bxj
  >   (ulimit -v 20000; bx log img; bx log -v img; bx show img; bx show -d img; bx undo img) > out$column 2>&1; echo $?; cat img; echo
  > done; cmp out1 out51M
  0
  ABCDEFGH
  0
  ABCDEFGH

# Memory refused in the checked build (wants rt)

It takes some two minutes for each number of RT_TRY (1 10 40), and is left out by RT_TRY=no. A run that faults, hangs, or ends
otherwise than by the refusal is a wrong one.

  $ [ "${RT_TRY-}" != no ] || left_out 'RT_TRY=no'
  $ mkdir cases; while read -r name words; do echo 'Hello World' > cases/$name; printf '%s\n' $words > cases/$name.args; done << .
  > xxd xxd
  > include xxd -i
  > od od -t x1
  > hexdump hexdump -C
  > strings strings -t x
  > dd dd cbs=4 conv=block,ucase
  > help revert --help
  > columns xxd -c 300
  > operand dd foo=1
  > .
  $ for number in ${RT_TRY-1 10 40}; do
  >   (cd "$FOLDER/../../crates/bx"; rt try --fail-alloc $number --cases "$OLDPWD/cases") > out 2>&1
  >   grep -c '^bx: out of memory$' out; tail -n 1 out | grep -o '^cases=9 ended=9 fault=0 ' || tail -n 1 out
  > done | sort -u
  9
  cases=9 ended=9 fault=0 
