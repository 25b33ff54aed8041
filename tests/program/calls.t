What a file system may answer to locks and to the sync of a folder, and calls that fail in turn, by shim.c.

Builds shim.c, by which a call of a command fails.

  $ shim() { cc -shared -fPIC -O1 -o shim.so "$FOLDER/shim.c" -ldl; }

  $ failing() { # MODE AT COMMAND ..: AT is a number, or the name of an error
  >   local at=$2
  >   [[ $at != E* ]] || at=$(python3 -c "import errno; print(errno.$at)")
  >   SHIM_MODE=$1 SHIM_AT=$at SHIM_COUNT=$PWD/../count LD_PRELOAD=$PWD/shim.so "${@:3}"
  > }

# A folder that answers a sync with an error (wants cc)

One that has no such sync, or is not to be synced by this user, is passed by, and any other error refuses the command and changes
nothing. With -U nothing is synced, and `log` syncs nothing.

  $ shim; echo '2: 7879' > dump; printf '78 7\n9' > plain; printf 'length 8 to 8\n-2: 7879\n+2: 4344\nend\n' > same
  $ commands='revert -f dump img
  > dd if=plain of=img conv=notrunc
  > patch -f same img
  > undo img
  > redo img'
  $ for error in EINVAL ENOSYS EOPNOTSUPP EPERM EACCES; do
  >   while read -r words; do
  >     fresh ABxyEFGH "$patched" "$unpatched"; failing o $error bx $words > out 2>&1 || echo "$error $words: $(cat out)"
  >     [ "$(holds ABxyEFGH "$patched" "$unpatched")" ] || echo "$error $words: nothing is changed"
  >   done <<< "$commands"
  > done
  $ for error in EIO ENOSPC EROFS EDQUOT; do
  >   fresh ABxyEFGH "$patched" "$unpatched"; refused 'cannot open file' failing o $error bx <<< "$commands"
  > done
  $ for error in EINVAL ENOSYS EOPNOTSUPP EPERM EACCES EIO ENOSPC EROFS EDQUOT; do
  >   while read -r word words; do fresh ABxyEFGH "$patched" "$unpatched"; failing o $error bx $word -U $words > out 2>&1 || echo "$error $word -U"
  >   done <<< "$commands"
  >   fresh ABxyEFGH "$patched" "$unpatched"; failing o $error bx log img
  > done | sort | uniq -c
        9 1 8 2

# Links that take a name meanwhile (wants root cc)

One takes the redo file's, which a recovery made: it stays, and so does the empty file that it leads to.

  $ shim; mkdir system; : > system/empty; fresh ABxyEFGH "$stopped"
  $ SHIM_RUN='mv img.bxj.redo away; ln -s system/empty img.bxj.redo' failing p 1 bx log --anyway img
  bx: recovered: change 1 was taken back
  bx: cannot open file
  [1]
  $ ls system; cat img; readlink img.bxj.redo
  empty
  ABCDEFGHsystem/empty

Another one, of a neighbour, takes that of a link to an image that is missing:

  $ fresh; ln -s system/made img; echo '0: 41' > dump
  $ SHIM_RUN='ln -sfn system/other img; chown -h 65534 img' failing l 1 bx revert -f dump img
  bx: cannot open file
  [1]
  $ ls system
  empty

# A second command at each opening (wants cc)

A whole `revert` of another shell runs before each opening of a first command in turn. Until the first has the image locked, the second comes
before it: an undo then takes back that change, which is the newest, and --fresh drops its history. Behind that lock it is refused. No change that
was answered is lost. A line has how many openings, how both end, the image, the log, and what the way back makes.

  $ shim; echo '0: 61' > dump; echo '6: 7a7a' > second
  $ beside() { # WAY_BACK WORDS ..: the first command
  >   local back=$1 number
  >   shift; changes '2: 7879'; failing b 0 bx "$@" > out 2>&1
  >   for number in $(seq $(cat ../count)); do
  >     changes '2: 7879'; SHIM_RUN='bx revert -f second img > said 2>&1; echo $? >> said' failing b $number bx "$@" > out 2>&1
  >     echo "$? $(cat out), $(tail -n 1 said) $(grep bx: said), $(cat img), $(bx log img | paste -sd+), $(bx $back img) $(cat img)"
  >   done | uniq -c
  > }
  $ beside redo undo img
        3 0 1, 0 , ABxyEFGH, 1 8 2, 2 ABxyEFzz
        4 0 0, 1 bx: cannot open file, ABCDEFGH, , 1 ABxyEFGH
  $ beside undo revert -f dump img
        4 0 , 0 , aBxyEFzz, 1 8 2+2 8 2+3 8 1, 2 ABxyEFzz
        4 0 , 1 bx: cannot open file, aBxyEFGH, 1 8 2+2 8 1, 1 ABxyEFGH
  $ beside undo revert --fresh -f dump img
        4 0 , 0 , aBxyEFzz, 1 8 1, 0 ABxyEFzz
       12 0 , 1 bx: cannot open file, aBxyEFGH, 1 8 1, 0 ABxyEFGH

# A pipe that takes a file's place before each opening (wants cc)

No command waits for somebody who writes it, where the file that stood there may be written.

  $ shim; echo '0: 61' > dump; printf ABCDEFGX > other
  $ for words in 'log -v img' 'show img' 'undo img' 'revert -n -f dump img' 'revert --fresh -f dump img' 'forget img' 'diff img other'; do
  >   changes '2: 7879'; failing b 0 bx $words > out 2>&1
  >   for number in $(seq $(cat ../count)); do
  >     for file in img img.bxj img.bxj.redo img.bxj.image other; do
  >       changes '2: 7879'; rm -f other; printf ABCDEFGX > other
  >       SHIM_RUN="mv $file away; mkfifo $file" failing b $number timeout 9 bx $words > out 2>&1
  >       [ $? != 124 ] || echo "$words: waits for $file, at opening $number"
  >     done
  >   done
  > done

# Somebody who waits for a lock (wants cc)

From the drop of a history to the change the files stay locked: who waits for the image gets it behind both.

  $ shim; changes '2: 7879'; echo '0: 61' > dump
  $ SHIM_RUN='flock -s img sleep 1 > /dev/null 2>&1 &' failing p 1 bx revert --fresh -f dump img; cat img; echo; bx log img
  aBxyEFGH
  1 8 1

# A file system without locks (wants cc)

One file by two names is refused there too.

  $ shim; echo '2: 7879' > dump; fresh ABCDEFGH; failing n 0 bx revert -f dump img; bx log img
  1 8 2
  $ printf AB > one; printf %b "$patched" > own; printf ABxyEFGH > two; ln one hard; ln -s own soft
  $ ln -s own own.redo; refused '*' failing n 0 bx << .
  > revert -f dump -J own two
  > log -J own two
  > show -J own two
  > revert -f dump -J hard one
  > undo -J hard one
  > log -J hard one
  > show -J hard one
  > .
  $ refused 'bad arguments' failing n 0 bx <<< 'revert -f dump -J one one'
  $ rm own.redo; refused '*' failing n 0 bx << .
  > revert -f dump -J own soft
  > undo -J own soft
  > log -J own soft
  > show -J own soft
  > .

A new image by a link as its own journal, with locks and without:

  $ ln -s dangling j; refused 'cannot open file' <<< 'revert -f dump -J j dangling'
  $ refused '*' failing n 0 bx <<< 'revert -f dump -J j dangling'

# Each memory request, read, write and sync, failing in turn (wants cc)

Each command begins `before` a change or `after` it:

  $ shim; printf '2: 7879\n20: 41\n' > dump; printf '78 7\n9' > plain
  $ printf 'length 8 to 9\n-2: 4344\n+2: 7879\n+8: 41\nend\n' > fix; printf 'length 3 to 8\n-2: 42\n+2: 7879\nend\n' > back
  $ before() { fresh ABCDEFGH '' "$unpatched"; }; after() { fresh ABxyEFGH "$patched" "$unpatched"; }
  $ each() { # MODE LEAST CHECK: each line is a start and words; CHECK looks at `status`, `out` and `err`, and LEAST have to stop
  >   local start words number status was begun made stopped
  >   while read -r start words <&9; do
  >     $start; was=$(trio) begun=$(sha256sum < img) stopped=0
  >     failing $1 0 bx $words > out 2> err < "${given-/dev/null}"; made=$(sha256sum < img)
  >     for number in $(seq $(cat ../count)); do
  >       $start; failing $1 $number bx $words > out 2> err < "${given-/dev/null}"; status=$?
  >       stopped=$((stopped + (status == 1))); $3 || echo "$words: wrong at $number: status $status, $(cat err)"
  >     done
  >     [ $stopped -ge $2 ] || echo "$words: $stopped stopped it"
  >   done 9<&0
  > }
  $ undone_all() {
  >   bx undo -k 0 img > ../said 2>&1 && bx undo -k $(bx log img | wc -l) img > ../said && [[ $(cat img) = ABCDEFGH && ! -s img.bxj ]]
  > }
  $ changes='before revert -f dump img
  > after revert -f dump img
  > after dd if=plain of=img obs=3 seek=1 conv=ucase
  > after undo img
  > before redo img
  > after redo img
  > before patch -f fix img
  > after patch -R -f back img'

Where memory is refused, the status is 1 and nothing is changed:

  $ refuses() { [ "$(cat err)" != 'bx: out of memory' ] && [ $status = 0 ] || [[ $status = 1 && ! -s out && $(trio) = "$was" ]]; }
  $ each a 1 refuses << .
  > $changes
  > before revert -p -s 3 -f plain img
  > after log img
  > after log -v img
  > after show img
  > after show -d img
  > after diff img dump
  > .
  $ words() { [[ $status$(cat err) = '1bx: out of memory' || $status$(cat err) = '2bx: bad arguments' ]]; }
  $ each a 1 words << .
  > before xxd -c 300
  > before bogus
  > before undo -k 1k img
  > .

Where another call fails, opening again finds the image before or after it, and undoing all gives the first; a call that moves one
byte does what it always does:

  $ recovers() {
  >   bx undo -k 0 img > ../said 2>&1 || return; local found=$(sha256sum < img)
  >   [[ $status -le 1 && ( $found = "$made" || $found = "$begun" && $status = 1 ) ]] && undone_all
  > }
  $ each f 1 recovers <<< "$changes"
  $ moves() { [[ $status = 0 && $(sha256sum < img) = "$made" ]]; }
  $ each s 0 moves <<< "$changes"

A disk that is full at a sync: the folder's can't be opened; at those of the third text and its name the change goes on without one; the
next ones, before the first write, change nothing, and those after it are interrupted. With -U nothing is synced.

  $ syncs() {
  >   local want='interrupted: open again to recover'
  >   [[ $number != [23] ]] || { moves && undone_all; return; }
  >   [ $number -gt 6 ] || { want='device failed'; [ "$(trio)" = "$was" ] || return; }; [ $number -gt 1 ] || want='cannot open file'
  >   [[ $status = 1 && $(grep '^bx: ' err | tail -n 1) = "bx: $want" ]] && undone_all
  > }
  $ synced='before revert -f dump img
  > after dd if=plain of=img obs=3 seek=1 conv=ucase
  > after undo img
  > after redo img'
  $ each d 5 syncs <<< "$synced"
  $ while read -r start word words; do
  >   $start; failing d 1 bx $word -U $words > out 2>&1 || echo "$word: $(cat out)"; cat ../count
  > done <<< "$synced"
  0
  0
  0
  0

Of a dump, where memory is refused nothing is written, or all of it where dd's report can't be made; else what is written is a prefix:

  $ printf 'Hello World\n\0\1\2 and some more text\n' > text; given=text; fault='^bx: (read failed|write failed after [0-9]+ bytes)$'
  $ whole() { [ $status = 0 ] && cmp -s out plain.out; }
  $ refuses() {
  >   [ "$(tail -n 1 err)" = 'bx: out of memory' ] || { whole; return; }
  >   [[ $status = 1 && ! -s out ]] || { [[ $status = 1 && $words = dd* ]] && cmp -s out plain.out; }
  > }
  $ fails() { [ $status = 1 ] && cmp -s out <(head -c $(stat -c %s out) plain.out) && grep -qE "$fault" err || whole; }
  $ for words in xxd 'xxd -i' 'od -t x2' 'hexdump -C' 'strings -t x' 'dd cbs=4 conv=block,ucase' --help; do
  >   bx $words < text > plain.out 2> /dev/null
  >   each a 1 refuses <<< "before $words"; each f 0 fails <<< "before $words"; each s 0 whole <<< "before $words"
  > done
