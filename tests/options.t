What bx takes beside what its help, man page, completions and README.md name: commands, options, and whether they have a value,
operands and words of dd, and the texts of faults with their numbers. A line for each that one has, and the other hasn't.

# Commands, their options, and dd's operands

What bx takes is found by trying: each letter as an option, and the names of GNU dd as operands.

  $ top=$FOLDER/../..; man=$top/man/bx.1; bash=$top/completions/bx.bash; zsh=$top/completions/_bx; fish=$top/completions/bx.fish
  $ same() { grep -vx -e -h -e --help | sort -u | diff bx - | sed -n "s/^</bx has, and not $1:/p; s/^>/bx hasn't, but $1:/p"; }
  $ for name in xxd od hexdump strings dd revert undo redo log show diff patch forget; do bx $name --help > help && echo $name; done | sort > bx
  $ commands=$(cat bx); sed -n 's/^bx \([a-z]*\) .*/\1/p' $top/README.md | same README.md
  $ sed -n "s/.*commands='\([a-z ]*\)'.*/\1/p" $bash | tr ' ' '\n' | same bx.bash; sed -n "s/^    '\([a-z]*\):.*/\1/p" $zsh | same _bx
  $ printf '%s\n' $commands help | sort > bx; bx --help | sed -n '/^Commands:/,/^$/s/^  \([a-z]*\).*/\1/p' | same 'its help'
  $ sed '/^\.Sh DESCRIPTION/q' $man | sed -n 's/^\.Nm bx Cm \([a-z]*\)$/\1/p' | same 'the synopsis of the man page'
  $ sed -n 's/^\.Ss bx \([a-z]*\)$/\1/p' $man | same 'sections of the man page'; grep -oP -- '-a \K\w+(?= -d)' $fish | same bx.fish
  $ for name in '' $commands; do bx $name --help; done | grep -E '.{81}'
  [1]
  $ bx --help | grep -oP '^ +\K-\w, --[a-z]+' | sed 's/, /\n/' | sort > bx; for words in '-v xxd' '--verbose xxd'; do bx $words image; done
  bx: cannot open file
  hint: image: No such file or directory
  bx: cannot open file
  hint: image: No such file or directory
  [1]
  $ front() { sort -u | diff - bx | sed -n "s/^>/bx has, and not $1:/p; s/^</bx hasn't, but $1:/p"; }
  $ sed '/^\.Sh DESCRIPTION/q' $man | sed -n '/^\.Nm bx$/,/^\.\(Nm bx Cm\|Sh\)/p' | sed -nE 's/^\.Fl (-\w+) \| Fl (\w)$/-\1\n-\2/p' | front 'the synopsis of the man page'
  $ bash -c '. "$0"; COMP_WORDS=(bx -) COMP_CWORD=1; _bx; printf "%s\n" "${COMPREPLY[@]}"' $bash | front bx.bash
  $ { sed -nE "s/.*\{(-[a-zA-Z]),(--[a-z]+)\}.*/\1\n\2/p" $zsh; } | front _bx
  $ grep -oP "^complete -c bx( -n .none)? -s \K\w -l \w+" $fish | sed -E 's/(.) -l (.*)/-\1\n--\2/' | front bx.fish
  $ takes() { # WORDS ..
  >   echo ABCDEFGH | tee image > other; : > image.bxj; : > 1; : > x; : > x1
  >   bx "$@" > out 2> said < /dev/null; [ $? != 2 ] && ! grep -q unknown said
  > }
  $ letters() { # WORDS ..: each letter that is taken as an option behind them, and a = where it has a value
  >   local letter value
  >   for letter in {a..g} {i..z} {A..Z} {0..9}; do
  >     [ "$*$letter" != 'hexdump -CC' ] || set -- hexdump
  >     if takes "$@" -$letter; then printf '%s\n' -$letter; continue; fi
  >     for value in 1 x x1 S other; do if takes "$@" -$letter $value; then echo -$letter=; break; fi; done
  >   done
  > }
  $ flag='(?<![\w-])-\w\b( <?[A-Z]+>?)?'
  $ for command in $commands; do
  >   case $command in xxd | od | strings | dd) words=$command ;; hexdump) words='hexdump -C' ;; *) words="$command image" ;; esac
  >   bx $command --help > help; letters $words $([ $command != diff ] || echo other) > taken
  >   sed -nE 's/^ +(-\w, )?(--[a-z-]+).*/\2/p' help | grep -vx -e --help > long; sed -nE 's/^ +-\w, (--[a-z-]+).*/\1/p' help > lettered
  >   for name in $(cat long); do takes $words $name || takes $words $name=big || echo "$command: $name isn't taken"; done
  >   cat taken long | sort > bx
  >   { grep '^  -' help | sed 's/^  //; s/  .*//' | grep -oP "$flag" | sed 's/ .*/=/'; cat long; } | same "help of $command"
  >   sed -n "/^\.Ss bx $command\$/,/^\.S[sh] /p" $man | grep -oP '^\.It Fl \K(\w( Ar)?( , -[\w-]+)?|-[\w-]+)' | sed 's/ , /\n/' |
  >     sed 's/^/-/; s/ Ar$/=/' | same "$command in the man page"
  >   sed -n "/^    $command)/,/^      ;;/p" $zsh | grep -oP "'(\([^)]*\))?\*?\K(-\w\+?|--[\w-]+)(?=\[)" | sed 's/+$/=/' | same "$command in _bx"
  >   here="^complete -c bx -n '__fish_seen_subcommand_from $command' "
  >   { grep -oP "$here-s \K\w( -x| -r)?" $fish | sed 's/^/-/; s/ -[xr]$/=/'; grep -oP "$here(-s \w )?-l \K[\w-]+" $fish | sed 's/^/--/'; } |
  >     same "$command in bx.fish"
  >   cp bx all; grep -vxFf lettered -- all > bx
  >   sed '/^\.Sh DESCRIPTION/q' $man | sed -n "/^\.Nm bx Cm $command\$/,/^\.\(Nm bx\|Sh\)/p" | grep -oP 'Fl \w\b( Ar)?|Fl -[\w-]+' |
  >     sed 's/^Fl /-/; s/ Ar$/=/' | same "$command in the synopsis"
  >   grep "^bx $command " $top/README.md | grep -oP "$flag|(?<=\[)--[\w-]+(?=\])" | sed 's/ .*/=/' | same "$command in README.md"
  >   sed 's/=$//' all > bx; bash -c '. "$0"; COMP_WORDS=(bx $1 -) COMP_CWORD=2; _bx; printf "%s\n" "${COMPREPLY[@]}"' $bash $command |
  >     same "$command in bx.bash"
  > done
  $ printf '%s\n' if of ibs obs bs cbs skip seek count conv files status iflag oflag > names
  $ for name in $(cat names); do
  >   for value in 1 image notrunc fullblock none; do if takes dd $name=$value $([ $name = of ] || echo of=image); then echo $name; fi; done
  > done | sort -u > bx
  $ bx dd --help | sed -nE 's/^  (\w+)=.*/\1/p' | grep -xFf names | same 'the help of dd'
  $ sed -nE 's/^\.It Cm (\w+)=.*/\1/p' $man | same 'dd in the man page'
  $ for shell in $bash $zsh $fish; do grep -oP "\b\w+(?==[ ':\\\\])" $shell | grep -xFf names | same "the operands of ${shell##*/}"; done
  $ words='block unblock lcase ucase swab sync notrunc noerror fdatasync fsync ascii ebcdic ibm sparse excl nocreat'
  $ for word in $words; do if takes dd cbs=4 conv=$word; then echo $word; fi; done | sort > bx
  $ for shell in $bash $zsh $fish; do grep -owE "${words// /|}" $shell | same "the conversions of ${shell##*/}"; done

# Faults

By the texts of each kind of fault, and the numbers of all.

  $ cd "$FOLDER/../../crates"; texts() { # KIND FILE
  >   perl -0ne 'while (/#\[error\("(.*?)"\)\]\s+(\w+)/g) { my ($text, $name) = ($1, $2); $text =~ s/\{\w+\}/N/g; print "'$1'::$name $text\n" }' $2
  > }
  $ { texts IoFault bx_text/src/fault.rt; texts ReadFault bx_read/src/fault.rt; texts DdFault bx_dd/src/fault.rt
  >   texts PatchFault bx_patch/src/read/fault.rt; texts Other bx_patch/src/other.rt; texts SessionFault bx_journal_model/src/fault.rt
  >   texts Fault bx_cli_commands/src/fault.rt; } | sort > "$OLDPWD/texts"
  $ grep -oP '\b(\w*Fault|Other)::\w+( \{ \.\. \}|\(_\))? => \d+(?=,)' bx_cli_commands/src/fault.rt | sed -E 's/^(\w+::\w+).* /\1 /' | sort > "$OLDPWD/numbers"
  $ cd "$OLDPWD"; join numbers texts | cut -d ' ' -f 2- | sort -u > bx; wc -l < bx
  43
  $ sed -nE 's/^\| ([0-9]+) \| `(.*)` \|$/\1 \2/p' "$FOLDER/../../docs/FORMATS.md" | sort | diff bx -
  $ sed -nE 's/^\.It ([0-9]+)  (.*)$/\1 \2/p' "$FOLDER/../../man/bx.1" | sort | diff bx -
