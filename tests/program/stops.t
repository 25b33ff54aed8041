Changes, undos and redos that are stopped, on a full disk and by a kill; and two commands at once.

# Files that may not grow past a size

A change, and an undo, which writes the redo file, stop, and opening finds the image.

  $ head -c 3000 "$(command -v bx)" > before; mega 5 8000 > digits; cp before img; bx revert -p -f digits img; cp img after; cp img.bxj after.bxj
  $ restored() { bx undo -k $(bx undo -k 0 img 2> /dev/null) img && cmp before img && [ ! -s img.bxj ]; }
  $ for most in 1 2 3 4 5 6; do
  >   rm -f img*; cp before img; (ulimit -f $most; bx revert -p -f digits img); restored || echo "$most KiB: not restored"
  > done 2>&1 | sort | uniq -c
        6 0
        6 bx: interrupted: open again to recover
  $ for most in 4 8 16 18 20; do
  >   rm -f img*; cp after img; cp after.bxj img.bxj; (ulimit -f $most; bx undo img); restored || echo "$most KiB: not restored"
  > done 2>&1 | sort | uniq -c
        7 0
        3 bx: interrupted: open again to recover

# A full disk, and a new build once there is room (wants root)

The change stops, in its record or in the image; behind that another image stands there. Nothing but `--fresh` goes on, and then the new
image can be had back.

  $ mkdir disk other; disk=$PWD/disk; trap 'cd /; umount "$disk" 2> /dev/null' EXIT
  $ mount -t tmpfs -o size=256k tmpfs disk || left_out 'it cannot be mounted'
  $ seq 0 4000 99999 | awk '{ printf "%x: 42\n", $1 }' > dump; echo '1: 43' > one; mega n 90000 > new; cd disk
  $ built() { # KIB TEXTS: a change with so much room, and then a new build
  >   rm -f * ../other/*; truncate -s 100000 img; echo '8: 41' | bx revert $2 img
  >   head -c $((($(df --output=avail -k . | tail -n 1) - $1) * 1024)) /dev/zero > fill; bx revert $2 -f ../dump img; rm fill; cp ../new img
  >   for words in undo 'undo -k 0' redo 'revert -f ../one'; do bx $words $2 img; cmp ../new img; done; bx revert --fresh $2 -f ../one img
  > }
  $ for room in 0 4 8 16 32 64; do built $room; bx xxd -l 4 img; bx log img; bx undo img; cmp ../new img; done 2>&1 | sort | uniq -c
        6 0
        6 00000000: 6e43 6e6e                                nCnn
        6 1 90000 1
        6 bx: interrupted: open again to recover
       24 bx: the image was changed since

With the texts on another disk, it is 48 too:

  $ for room in 0 4 8 16 32 64; do built $room '-J ../other/j'; cmp ../new img; bx revert --fresh --anyway -J ../other/j -f ../one img
  >   bx log -J ../other/j img; bx undo -J ../other/j img; cmp ../new img
  > done 2>&1 | sort | uniq -c
        6 0
        6 1 90000 1
        6 bx: interrupted: open again to recover
       30 bx: the image was changed since

# Killed at a random moment

The image comes back, and no redo file is then called damaged.

  $ head -c 3000000 /dev/zero > before; seq 0 59999 | awk '{ printf "%x: 41\n", $1 * 7919 % 2999999 }' > dump
  $ other=${patched//0000000000000008/00000000002dc6c0}
  $ cp before img; bx revert -f dump img; cp img changed; cp img.bxj changed.bxj; bx undo img; cp img undone; cp img.bxj.redo undone.redo
  0
  $ restored() { bx undo -k $(bx undo -k 0 img 2> /dev/null) img && cmp before img && [ ! -s img.bxj ]; }
  $ killed() { # MILLISECONDS COMMAND ..
  >   { timeout --foreground -s KILL 0.$(printf %03d $1) "${@:2}"; } > /dev/null 2>&1
  >   if [ -e img.bxj ]; then restored; else cmp before img && echo 0; fi
  > }
  $ for n in $(seq 30); do
  >   rm -f img*; cp before img; printf %b "$other" > img.bxj.redo; killed $((4 * n)) bx revert -f dump img
  > done 2>&1 | sort | uniq -c
       30 0
  $ for n in $(seq 30); do
  >   rm -f img*; cp changed img; cp changed.bxj img.bxj; printf %b "$other" > img.bxj.redo; killed $((3 * n)) bx undo img
  > done 2>&1 | sort | uniq -c
       30 0
  $ for n in $(seq 30); do
  >   rm -f img*; cp undone img; : > img.bxj; cp undone.redo img.bxj.redo; killed $((3 * n)) bx redo img
  > done 2>&1 | sort | uniq -c
       30 0

# Two commands at once

One is refused, or both are done, and the files are as one of them or an order of both makes them.

  $ scattered() { seq 0 1999 | awk -v step=$1 -v text=$2 '{ printf "%x: %s\n", $1 * step % 19999, text }'; }
  $ scattered 7919 41 > dump1; scattered 6007 4242 > dump2; mkdir none alone changed undone stopped; mega x 20000 > alone/img
  $ begin() { rm -f img*; cp $1/* . 2> /dev/null; }
  $ begin alone; bx revert -f dump2 img; cp img img.bxj changed; cp img img.bxj undone; cp img img.bxj stopped
  $ bx revert -f dump1 img; bx undo img; cp img.bxj.redo undone; truncate -s -20 stopped/img.bxj
  1
  $ at_once() { # START TRIES ONE OTHER: `fits` is what may be found where one, the other or both have the status 0
  >   local start=$1 tries=$2 one=$3 other=$4 status wrong=0; local -A fits
  >   begin $start; bx $one > /dev/null 2>&1; fits[01]=$(trio); bx $other > /dev/null 2>&1; fits[00]=$(trio)
  >   begin $start; bx $other > /dev/null 2>&1; fits[10]=$(trio); bx $one > /dev/null 2>&1; fits[00]+=$(trio)
  >   for n in $(seq $tries); do
  >     begin $start; bx $one > /dev/null 2> one & bx $other > /dev/null 2> other; status=$?; wait $!; status=$?$status
  >     [[ $status = 0? || $(cat one) = 'bx: cannot open file' ]] && [[ $status = ?0 || $(cat other) = 'bx: cannot open file' ]] &&
  >       [[ -n ${fits[$status]-} && ${fits[$status]} = *$(trio)* ]] || wrong=$((wrong + 1))
  >   done
  >   echo "$wrong of $tries wrong"
  > }
  $ at_once alone 400 'revert -f dump1 img' 'revert -f dump2 img'
  0 of 400 wrong
  $ at_once changed 200 'revert -f dump1 img' 'undo img'
  0 of 200 wrong
  $ at_once undone 200 'undo img' 'redo img'
  0 of 200 wrong
  $ at_once stopped 200 'revert -f dump1 img' 'log img'
  0 of 200 wrong
  $ at_once none 200 'dd if=dump1 of=img' 'dd if=dump2 of=img seek=1'
  0 of 200 wrong
