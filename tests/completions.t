What bash, zsh and fish offer for the last word of a line, where `<TAB>` is, in order: of dd the value alone, behind a `=`. `-h`,
`--help`, `-V` and `--version` are left out. What bx takes is compared with the same files by options.t.

  $ files=$(realpath "$FOLDER/../../completions"); touch 'a file' image image.bxj image.bxj.redo

Prints offers in a line, without options that each command has, and of dd without what stands in front of a value.

  $ offered() {
  >   sed -E 's/^\w+=(.)/\1/; s/.*,//; /^(-h|--help|-V|--version|)$/d' | sort -u | sed "s/.* .*/'&'/" | paste -sd' ' | grep .
  >   true
  > }

The function of bash is called with the words as bash cuts them, at '=' too.

  $ bash_offers() { # LINE
  >   local line=${1%<TAB>}
  >   . "$files/bx.bash"
  >   [[ $line != *' dd '* ]] || line=$(sed -E 's/=$/ =/; s/=([^ ])/ = \1/g' <<< "$line")
  >   read -ra COMP_WORDS <<< "$line"
  >   [[ $1 != *[\ ]'<TAB>' ]] || COMP_WORDS+=('')
  >   COMP_CWORD=$((${#COMP_WORDS[@]} - 1)) COMPREPLY=()
  >   _bx
  >   printf '%s\n' "${COMPREPLY[@]}" | offered
  > }

  $ fish_offers() { # LINE
  >   command -v fish > /dev/null || left_out 'fish is not installed'
  >   HOME=$PWD fish --no-config -c "source $files/bx.fish; complete -C '${1%<TAB>}'" | cut -f 1 | sed 's/\\ / /g' | offered
  > }

What the completion of zsh adds, at a terminal of its own, is written down by a `compadd` of our own.

  $ zsh_offers() { # LINE
  >   command -v zsh > /dev/null || left_out 'zsh is not installed'
  >   cat > ../start <<'ZSH'
  > PS1=; autoload -U compinit; compinit -u -D; compdef _bx bx
  > zstyle ':completion:*' verbose no; zstyle ':completion:*' menu no
  > compadd() {
  >   if [[ ${@[1,(i)(-|--)]} == *-(O|A|D)* ]]; then builtin compadd "$@"; return; fi
  >   local -a hits; builtin compadd -A hits -D nothing "$@" 2> /dev/null; builtin compadd -A hits "$@"
  >   print -rl -- $hits >> ../hits; return 1
  > }
  > ask() { zle complete-word; print '=asked='; exit }
  > zle -N ask; bindkey '^X' ask; print '=ready='
  > ZSH
  >   cat > ../terminal <<'ZSH'
  > zmodload zsh/zpty; zpty shell 'zsh -f -i'
  > zpty -w shell "fpath=($1 \$fpath); . ../start"; zpty -r shell said '*=ready=*'
  > zpty -w -n shell $2$'\x18'; zpty -r shell said '*=asked=*'
  > ZSH
  >   : > ../hits
  >   TERM=dumb COLUMNS=500 timeout 60 zsh -f ../terminal "$files" "${1%<TAB>}"
  >   sed 's/\\ / /g' ../hits | offered
  > }

# Words (by bash_offers, zsh_offers, fish_offers)

  $ bx <TAB>
  dd diff forget help hexdump log od patch redo revert show strings undo xxd
  $ bx re<TAB>
  redo revert
  $ bx -v re<TAB>
  redo revert
  $ bx --verbose od -A <TAB>
  d n o x
  $ bx --verb<TAB>
  --verbose
  $ bx help <TAB>
  dd diff forget hexdump log od patch redo revert show strings undo xxd
  $ bx od -A <TAB>
  d n o x
  $ bx od -t <TAB>
  c d1 d2 d4 d8 o1 o2 o4 o8 u1 u2 u4 u8 x1 x2 x4 x8
  $ bx od -t x<TAB>
  x1 x2 x4 x8
  $ bx strings -t <TAB>
  d o x
  $ bx xxd <TAB>
  'a file' image image.bxj image.bxj.redo
  $ bx xxd im<TAB>
  image image.bxj image.bxj.redo
  $ bx xxd -c <TAB>
  $ bx hexdump -C <TAB>
  'a file' image image.bxj image.bxj.redo
  $ bx undo -k 2 <TAB>
  'a file' image
  $ bx undo -k <TAB>
  $ bx revert -f <TAB>
  'a file' image image.bxj image.bxj.redo
  $ bx redo -J <TAB>
  'a file' image image.bxj image.bxj.redo
  $ bx log <TAB>
  'a file' image
  $ bx show <TAB>
  'a file' image
  $ bx show -k <TAB>
  $ bx diff <TAB>
  'a file' image image.bxj image.bxj.redo
  $ bx diff image im<TAB>
  image image.bxj image.bxj.redo
  $ bx patch <TAB>
  'a file' image
  $ bx forget <TAB>
  'a file' image
  $ bx patch -f <TAB>
  'a file' image image.bxj image.bxj.redo
  $ bx revert <TAB>
  'a file' image
  $ bx redo im<TAB>
  image
  $ bx dd <TAB>
  bs= cbs= conv= count= ibs= if= iflag= obs= of= seek= skip= status=
  $ bx dd c<TAB>
  cbs= conv= count=
  $ bx dd if=image <TAB>
  bs= cbs= conv= count= ibs= iflag= obs= of= seek= skip= status=
  $ bx dd if=image of<TAB>
  of=
  $ bx dd if=<TAB>
  'a file' image image.bxj image.bxj.redo
  $ bx dd bs=4 of=im<TAB>
  image
  $ bx dd if=im<TAB>
  image image.bxj image.bxj.redo
  $ bx dd conv=<TAB>
  block fdatasync fsync lcase notrunc swab sync ucase unblock
  $ bx dd conv=s<TAB>
  swab sync
  $ bx dd conv=lcase,s<TAB>
  swab sync
  $ bx dd conv=swab,s<TAB>
  sync
  $ bx dd status=<TAB>
  none noxfer progress
  $ bx dd iflag=<TAB>
  fullblock
  $ bx dd count=<TAB>
  $ bx dd -J <TAB>
  'a file' image image.bxj image.bxj.redo

# Options: zsh lists them in its own way (by bash_offers, fish_offers)

  $ bx xxd -<TAB>
  -a -b -c -d -e -g -i -l -n -o -p -r -s -u
  $ bx od -<TAB>
  --endian --width -A -N -b -c -d -i -j -l -o -s -t -v -w -x
  $ bx hexdump -<TAB>
  -C -n -s -v
  $ bx strings -<TAB>
  -a -e -f -n -t
  $ bx revert -<TAB>
  --anyway --dry-run --fresh --mounted --no-grow -J -U -f -n -p -s
  $ bx undo -<TAB>
  --anyway --mounted -J -U -k
  $ bx redo -<TAB>
  --anyway --mounted -J -U -k
  $ bx log -<TAB>
  --anyway --mounted -J -U -v
  $ bx show -<TAB>
  -J -d -k -p -r
  $ bx diff -<TAB>
  -q -v
  $ bx patch -<TAB>
  --anyway --dry-run --fresh --mounted --no-grow -J -R -U -f -n
  $ bx forget -<TAB>
  --anyway --mounted -J -U
  $ bx dd -<TAB>
  --anyway --dry-run --fresh --mounted --no-grow -J -U -n
