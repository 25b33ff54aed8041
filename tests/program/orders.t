What each command syncs, and in which order, by the calls that strace sees it make, beside the tables in docs/FORMATS.md, "Order of
device calls": F and I are the folders of the texts and of the image, N the image's text, J the journal, D the image, R the redo file. A
command that may write syncs F and I, the line N on the image, where it makes that text its name F, and then JDR; a change then JRDJ, with
a J before it where it is the journal's first byte, and an undo or a redo of one change JDRJ. A history that is dropped is JDRRJ; `forget`
makes no file, and syncs the folder behind it, from which it takes N away. `wrong:` stands where a file is written before the folder of the
texts is synced, or while another one is not on the disk, but for the line N at the end of a command.

  $ head='change2 0000000N 0000000000000008\n' saved="${head}00000000: 41                                       A\nsave 0000000N\n"
  $ line() { echo "${*/IMAGE/-J texts/journal images/image}" | sed 's|OF$|-J texts/journal of=images/image|'; }

An image of ABCDEFGH with changes of which some are undone, and a text behind them that goes to the first line of an entry, or to its
save line:

  $ given() { # CHANGES UNDONE [TEXT]
  >   local n=$(($1 > 0 ? 2 : 1))
  >   rm -rf images texts; mkdir images texts; echo '00000002: 7879' > dump; echo none > bad; printf ABCDEFGH > images/image
  >   for _ in $(seq "$1"); do bx $(line revert -f dump IMAGE); done
  >   bx $(line undo -k "$2" IMAGE) > /dev/null 2>&1
  >   printf "${3//N/$n}" >> texts/journal
  > }
  $ synced() { # WORDS ..
  >   local status
  >   strace -f -y -o ../calls -e trace=fsync,fdatasync,ftruncate,fallocate,/write,copy_file_range bx $(line "$@") > /dev/null 2>&1
  >   status=$?
  >   sed -nE 's/^([0-9]+ +)?(\w+)\([0-9]+<[^>]*\/(texts|images|image|journal|journal\.redo|journal\.image)>.* = [0-9]+.*/\2 \3/p' ../calls | awk -v unsynced="$*" '
  >     BEGIN { letter["texts"] = "F"; letter["images"] = "I"; letter["image"] = "D"; letter["journal"] = "J"; letter["journal.redo"] = "R"; letter["journal.image"] = "N"
  >       named = unsynced ~ /^forget / }
  >     { at = letter[$2] }
  >     /^f(data)?sync/ { order = order at; named = named || at == "F"; if (left == at) left = ""; next }
  >     unsynced !~ / -U / && (!named || left && left != at && left != "N") { print "wrong: " $0 }
  >     { left = at }
  >     END { if (left && left != "N" && unsynced !~ / -U /) print "wrong: " left; if (order) print order }'
  >   return $status
  > }

# Syncs (wants strace)

  $ given 0 0; rm -r images/* texts/*; synced revert -f dump IMAGE
  FINFJDRJJRDJ
  $ given 0 0; synced revert -f dump IMAGE
  FINFJDRJJRDJ
  $ given 1 0; synced revert -f dump IMAGE
  FINJDRJRDJ
  $ given 2 1; synced revert -f dump IMAGE
  FINJDRJRDJ
  $ given 0 0; synced dd if=dump OF
  FINFJDRJJRDJ
  $ given 0 0; synced dd if=dump obs=1 seek=100 OF
  FINFJDRJJRDJ
  $ given 1 0; synced undo -k 0 IMAGE
  FINJDR
  $ given 1 0; synced undo IMAGE
  FINJDRJDRJJ
  $ given 4 0; synced undo -k 3 IMAGE
  FINJDRJDRJJDRJJDRJ
  $ given 2 1; synced redo -k 0 IMAGE
  FINJDR
  $ given 1 1; synced redo IMAGE
  FINJDRJJDRJ
  $ given 4 4; synced redo -k 3 IMAGE
  FINJDRJJDRJJDRJJDRJ
  $ given 1 0 "$head"; synced undo -k 9 IMAGE
  FINJDRRJ
  [1]
  $ given 1 0 "$saved"; synced undo -k 9 IMAGE
  FINJDRRDJ
  [1]
  $ given 1 0; synced undo -k 9 IMAGE
  FIN
  [1]
  $ given 1 0; synced redo IMAGE
  FIN
  [1]
  $ given 0 0; synced revert -f bad IMAGE
  FI
  [1]
  $ given 3 0; synced log IMAGE
  $ given 1 0 "$head"; synced log IMAGE
  FINJDRRJJDR
  $ given 0 0 "$head"; synced log IMAGE
  FIJDRRJJJDR
  $ given 0 0 "$saved"; synced log IMAGE
  FI
  $ given 0 0 "$saved"; synced log --anyway IMAGE
  FIJDRRDJJJDR
  $ given 2 1; synced forget IMAGE
  JDRRJF
  $ given 1 0 "$saved"; synced forget IMAGE
  JDRFINJDRRDJJDRJDRRJF
  $ given 2 1; synced revert --fresh -f dump IMAGE
  FINJDRJDRRJFINJDRJJRDJ
  $ given 0 0; synced xxd images/image
  $ given 0 0; synced dd if=images/image
  $ given 0 0; rm -r images/* texts/*; synced revert -U -f dump IMAGE
  $ given 0 0; synced dd -U if=dump OF
  $ given 2 0; synced undo -U -k 2 IMAGE
  $ given 2 2; synced redo -U -k 2 IMAGE
  $ given 1 0 "$saved"; synced undo -U -k 0 IMAGE
  $ given 1 0; synced log -U IMAGE
  $ given 2 1; synced forget -U IMAGE
  $ given 2 1; synced revert -U --fresh -f dump IMAGE
  $ given 3 0; synced show -k 3 IMAGE
  $ given 1 0 "$saved"; synced show -k 0 IMAGE
