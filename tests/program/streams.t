Full devices, closed pipes, and each set of closed streams.

# To a full device

  $ fresh ABxyEFGH "$patched" ''; mega '\0' 1000000 > zeros; head -c 100000 "$(command -v bx)" > bytes
  $ refused 'write failed after * bytes' << .
  > xxd bytes > /dev/full
  > xxd -i bytes > /dev/full
  > xxd -p bytes > /dev/full
  > od bytes > /dev/full
  > hexdump -C bytes > /dev/full
  > strings bytes > /dev/full
  > xxd --help > /dev/full
  > log img > /dev/full
  > log -v img > /dev/full
  > show img > /dev/full
  > diff bytes zeros > /dev/full
  > undo -k 0 img > /dev/full
  > patch --help > /dev/full
  > .

The report of dd is a part of what it does, but where it wrote a file:

  $ bx dd if=bytes 2> /dev/full > out; echo $?; cmp out bytes
  1
  $ bx dd if=bytes of=img 2> /dev/full; cmp img bytes

# dd to a character device

As to standard output: no journal, no history, and the counts. What wants an image, and a place to seek to, is refused.

  $ head -c 100000 "$(command -v bx)" > bytes; ls -A > before
  $ bx dd if=bytes of=/dev/null bs=64M
  0+1 records in
  0+1 records out
  $ bx dd if=bytes of=/dev/null conv=notrunc,ucase count=3 status=none
  $ head -c 1000 bytes | bx dd of=/dev/null
  1+1 records in
  1+1 records out
  $ refused 'write failed after 0 bytes' <<< 'dd if=bytes of=/dev/full'
  $ bx -v dd if=bytes of=/dev/full
  bx: write failed after 0 bytes
  hint: /dev/full: No space left on device
  [1]
  $ bx -v dd if=bytes of=/dev/null seek=1
  bx: seek needs an output file
  hint: /dev/null: a character device is written in order, and has no place to seek to; give of=IMAGE too
  [1]
  $ refused 'cannot open file' << .
  > dd if=bytes of=/dev/null -J new.bxj
  > dd if=bytes of=/dev/null --fresh
  > dd if=bytes of=/dev/null --no-grow
  > dd -n if=bytes of=/dev/null
  > dd if=missing of=/dev/null
  > .
  $ ln -s /dev/null made; bx dd if=bytes of=made status=none; ls made*; rm made; ls -A | cmp - before; ls /dev/null*
  made
  /dev/null
  $ bx dd if=bytes of=/dev/null 2> /dev/full

# To a pipe that nobody reads any longer

  $ mega '\0' 1000000 > zeros; mega a 1000000 > letters
  $ for words in 'xxd zeros' 'od -v zeros' 'hexdump -C -v zeros' 'xxd -p zeros' 'strings letters'; do
  >   bx $words | head -c 10 > /dev/null; echo "$words: ${PIPESTATUS[0]}"
  > done
  xxd zeros: 1
  od -v zeros: 1
  hexdump -C -v zeros: 1
  xxd -p zeros: 1
  strings letters: 1

# A folder as standard input

  $ bx xxd < /
  bx: read failed
  [1]

# Standard input that a person types

No line on how far work is stands in what is typed.

  $ fresh ABxyEFGH; for words in xxd 'revert img' 'dd of=img' 'dd -n of=img'; do
  >   (for place in 1 2 3; do echo "$place: 41"; sleep 0.7; done; printf '\004') |
  >     SHELL=$BASH script -qec "bx $words > /dev/null" /dev/null | tr -d '\r'
  > done | grep -v ' records ' | sort | uniq -c
        4 1: 41
        4 2: 41
        4 3: 41
        1 hint: a dump is read from the terminal, up to control-D at the start of a line; -f DUMP names a file
        2 hint: the input is read from the terminal, up to control-D at the start of a line; if=FILE names a file

# Each set of closed standard streams

No file of the user's takes the number of a closed stream, and using one fails. A line has the journal, the streams without which
a command fails (0: it reads, 1: it writes, 2: it reports), its words, and standard input.

  $ echo '1: 41' > dump; redirected=('<&-' '>&-' '2>&-')
  $ closed() { # JOURNAL NEEDS WORDS SET: what SET closes, beside what the command does with all three
  >   local before after hit=${4//[!.$2]/} fault= want=out status number to=
  >   case $hit in 0*) fault='bx: read failed' ;; 1*) fault='bx: write failed after 0 bytes' ;; esac
  >   fresh ABxyEFGH "${!1}"; before=$(trio); bx $3 < input > out 2> err || echo "status $?"
  >   after=$(trio); fresh ABxyEFGH "${!1}"; : > other; : > said
  >   for number in 0 1 2; do [[ $4 != *$number* ]] || to+=" ${redirected[number]}"; done
  >   eval "bx $3 < input > other 2> said $to"; status=$?
  >   [[ $hit = [01]* || $4 = *1* ]] && : > out
  >   [ -z "$fault" ] || { echo "$fault" > err; tail -n 1 said > last; mv last said; }
  >   [[ $4 != *2* ]] || : > err
  >   [ $status = $((${#hit} > 0)) ] && cmp out other && cmp err said || echo "status $status"
  >   [ "$(trio)" = "$([[ $hit = 0* ]] && echo "$before" || echo "$after")" ] || echo 'other files'
  > }
  $ while IFS='|' read -r journal needs words given <&9; do
  >   printf "$given" > input
  >   for set in none 0 1 2 01 02 12 012; do closed $journal "$needs" "$words" $set 2>&1 | sed "s/^/$words without $set: /"; done
  > done 9<< .
  > stopped||revert -f dump img|1: 41\n
  > stopped|1|undo -k 0 img|
  > stopped|1|log img|
  > stopped||dd if=dump of=img conv=notrunc|
  > patched||revert -f dump img|
  > patched|0|revert img|1: 41\n
  > patched|0|dd of=img|1: 41\n
  > patched|0|dd of=img seek=1 obs=2 conv=ucase|1: 41\n
  > patched||dd if=dump of=img|
  > patched|1|undo img|
  > patched|1|redo -k 0 img|
  > patched|1|log img|
  > patched|1|show img|
  > patched|1|xxd img|
  > patched|12|dd if=img|
  > patched|01|xxd|1: 41\n
  > patched|012|dd|1: 41\n
  > patched|0|revert -p -s 1 img|41 4\n2
  > .
