What bx says and leaves in each state of a pair of image and journal. tools/draw.py plays it, and puts the words into states.in: those of
the commands behind which a name stands.

A change, its entry, and the images that may stand beside a front of it:

  $ printf ABCDEFGH > image; cp image first; printf '2: 7879\n8: 5a\n' | bx revert image; cp image last; cp image.bxj entry; cat entry # entry
  change2 00000001 0000000000000008
  00000002: 4344                                     CD
  save 00000001
  done2 00000001 0000000000000009
  $ cat first # first
  ABCDEFGH
  $ cat last # last
  ABxyEFGHZ
  $ printf ABxyEFGH > middle; cat first; echo; cat middle; echo; cat last # between
  ABCDEFGH
  ABxyEFGH
  ABxyEFGHZ

Each front of the head, and each front behind the save line beside each of the images; the first image is left, and no text:

  $ begun=$(sed '/^save/q' entry | wc -c) end=$(wc -c < entry)
  $ opened() { cp $1 image; head -c $2 entry > image.bxj; echo lost > image.bxj.redo; bx log image; cmp first image; cat image.bxj*redo image.bxj; }
  $ for n in $(seq $((begun - 1))); do opened first $n; done 2>&1 | sort -u # dropped
  bx: recovered: an unfinished entry was dropped
  $ for n in $(seq $begun $((end - 1))); do for x in first middle last; do opened $x $n; done; done 2>&1 | sort -u # taken
  bx: recovered: change 1 was taken back

The whole entry is left as it is; and an undo and a redo come from one rest to the other:

  $ put() { cp $1 image; cp $2 image.bxj; printf "$3" > image.bxj.redo; }
  $ put last entry ''; bx log image > log; cmp last image; cmp entry image.bxj
  $ bx undo image > log; cmp first image; cat image.bxj
  $ bx redo image > log; cmp last image; cmp entry image.bxj; cat image.bxj.redo

What is refused is left as it is:

  $ refused() { cp image was; cp image.bxj was.bxj; bx log image; cmp was image; cmp was.bxj image.bxj; }
  $ (printf x; cat entry) > other; (cat last; printf more) > longer
  $ put last other ''; refused 2>&1; put longer entry ''; refused 2>&1; put last entry 'lost\n'; refused 2>&1; cat image.bxj.redo # refused
  bx: journal line 1 is damaged
  bx: image should have 9 bytes
  bx: redo line 1 is damaged
  lost
