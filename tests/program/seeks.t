Seeks of dumps and of dd beside those of xxd, od, hexdump and dd.

# Seeks in files, in no more than twice the time

Of a small file, a sparse one of 2 TiB and more, and a loop device where there may be one, with bytes at its begin, its end and
behind each place.

  $ places="0 512 4999 5000 5001 5000000000 1099511627779 2199023255552 2199023260536 2199023260551 2199023260552 2199023260553"
  $ made() { # NAME LENGTH
  >   truncate -s $2 $1
  >   for place in 0 $places $(($2 - 40)); do
  >     [ $place -ge $2 ] || head -c 40 /dev/urandom | dd of=$1 bs=1 seek=$((place > 7 ? place - 7 : 0)) conv=notrunc status=none
  >   done
  >   truncate -s $2 $1
  > }
  $ made small 5000; made huge 2199023260552; made disk 67108864; files='small huge'
  $ if dev=$(losetup -f --show disk 2> /dev/null); then files+=" $dev"; trap 'losetup -d $dev' EXIT; fi
  $ timed() { # FILE COMMAND ..: what it writes, the reports of dd and whether it succeeds; `took` is its time on a processor
  >   local TIMEFORMAT='%3U %3S' user system
  >   { time "${@:2}" > $1 2> said; } 2> times; echo $(($? > 0)) >> $1; grep records said >> $1
  >   read -r user system < times; took=$((10#${user/./} + 10#${system/./}))
  > }
  $ beside() { # WORDS ..
  >   local ours; timed one bx "$@"; ours=$took; timed other "$@"; cmp one other || echo "$*: $(tail -c 300 one)"
  >   [ $ours -le 500 ] || [ $ours -le $((2 * took)) ] || echo "$*: $ours ms, and $took"
  > }
  $ for name in $files; do
  >   length=$([ -b $name ] && echo 67108864 || stat -c %s $name)
  >   for place in $places $((length / 3)) $((length + 2)); do
  >     [ $place -le $((2 * length)) ] || continue
  >     for few in 1 17 48; do
  >       for type in x1 o2 c u8; do beside od -j $place -N $few -A x -t $type $name; done
  >       for radix in d o n; do beside od -j $place -N $few -A $radix $name; done
  >       [ $place -lt $length ] || continue
  >       for how in '' -p '-c 7' '-o 16' '-o 4611686018427387904' -b; do beside xxd -s $place -l $few $how $name; done
  >       beside hexdump -C -s $place -n $few $name
  >     done
  >     [ ! -b $name ] || [ $place -le $length ] || continue  # a seek that GNU dd calls failed
  >     for ibs in 1 512 4096 65536; do
  >       [ $((place / ibs)) -lt 1099511627776 ] || continue  # the greatest number that an operand may have
  >       for count in 1 2; do beside dd ibs=$ibs skip=$((place / ibs)) count=$count if=$name; done
  >     done
  >   done
  > done

# Standard input that was read in part, a pipe and a fifo

Of the first what is left for the next program is compared, too. The others are read, and give what a file gives.

  $ head -c 5000 /dev/urandom > small; mkfifo fifo
  $ left() { (head -c $at > /dev/null; "$@" 2> /dev/null; echo =; cat) < small; }
  $ for place in 0 512 3000 4800; do for at in 0 1 100; do for words in 'od -N 17 -t x1 -j PLACE' 'dd ibs=1 count=2 skip=PLACE'; do
  >   cmp <(left bx ${words/PLACE/$place}) <(left ${words/PLACE/$place}) || echo "$words of $place at $at"
  > done; done; done
  $ outcome() { "$@" 2> said; echo $(($? > 0)); grep records said; }
  $ for place in 0 512 3000 4999 5000 5001 9000; do while read -r words; do
  >   words=${words/PLACE/$place}; outcome bx ${words/FILE/small} > want
  >   cat small | outcome bx ${words% *} | cmp - want || echo "$words: a pipe"
  >   cat small > fifo 2> /dev/null & outcome bx ${words/FILE/fifo} | cmp - want || echo "$words: a fifo"; wait $!
  > done << .
  > xxd -s PLACE -l 17 FILE
  > xxd -s PLACE -p FILE
  > od -j PLACE -N 17 -t x1 FILE
  > od -j PLACE -A d -c FILE
  > hexdump -C -s PLACE -n 48 FILE
  > dd ibs=1 skip=PLACE count=2 if=FILE
  > dd ibs=512 skip=PLACE count=1 if=FILE
  > .
  > done
