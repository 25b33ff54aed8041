# Completion of bx for bash.

# Offers what begins with what was typed: of some words, or of the names of files.
_bx_words() { mapfile -t COMPREPLY < <(compgen -P "$lead" -W "$1" -- "$cur"); }
_bx_files() {
    compopt -o filenames 2> /dev/null
    mapfile -t COMPREPLY < <(compgen -P "$lead" -f -- "$cur")
}

# The names of files that may be images: journals and the texts beside them are none.
_bx_images() {
    local name left=()
    _bx_files
    for name in "${COMPREPLY[@]}"; do
        [[ $name == *.bxj || $name == *.redo || $name == *.bxj.image ]] || left+=("$name")
    done
    COMPREPLY=("${left[@]}")
}

# The names of dd's operands that weren't given, each with its '='.
_bx_operands() {
    local names='if= of= ibs= obs= bs= cbs= skip= seek= count= conv= iflag= status=' line=" ${COMP_WORDS[*]:first+1}" name left=''
    line=${line// =/=}
    for name in $names; do
        [[ $line == *" $name"* ]] || left+=" $name"
    done
    compopt -o nospace 2> /dev/null
    _bx_words "$left"
}

# The conversions that weren't given. More may follow behind a comma.
_bx_conversions() {
    local word left=''
    for word in block unblock lcase ucase swab sync notrunc fsync fdatasync; do
        [[ ,$cur, == *",$word,"* ]] || left+=" $word"
    done
    [[ $cur == *,* ]] && lead=$lead${cur%,*},
    cur=${cur##*,}
    compopt -o nospace 2> /dev/null
    _bx_words "$left"
}

# An operand of dd. Where '=' cuts words, its name stands one or two words back.
_bx_dd() {
    local name=''
    case $cur in
    =) name=$prev cur='' ;;
    *=*) name=${cur%%=*} lead=${cur%%=*}= cur=${cur#*=} ;;
    *) [[ $prev == '=' ]] && name=${COMP_WORDS[COMP_CWORD - 2]} ;;
    esac
    case $name in
    if) _bx_files ;;
    of) _bx_images ;;
    conv) _bx_conversions ;;
    iflag) _bx_words fullblock ;;
    status) _bx_words 'none noxfer progress' ;;
    '') _bx_operands ;;
    esac
}

_bx() {
    local cur=${COMP_WORDS[COMP_CWORD]} prev=${COMP_WORDS[COMP_CWORD - 1]} first=1 lead='' command
    local commands='xxd od hexdump strings dd revert undo redo log show diff patch forget' options
    COMPREPLY=()
    # -v may stand in front of the command.
    [[ $COMP_CWORD -gt 1 && (${COMP_WORDS[1]} == -v || ${COMP_WORDS[1]} == --verbose) ]] && first=2
    command=${COMP_WORDS[first]}
    if ((COMP_CWORD == first)); then
        case $cur in
        -*) _bx_words '-h --help -V --version -v --verbose' ;;
        *) _bx_words "$commands help" ;;
        esac
        return
    fi
    case $command in
    help)
        _bx_words "$commands"
        return
        ;;
    xxd) options='-a -b -c -d -e -g -i -l -n -o -p -r -s -u' ;;
    od) options='-A -N -b -c -d -i -j -l -o -s -t -v -w -x --endian --width' ;;
    hexdump) options='-C -n -s -v' ;;
    strings) options='-a -e -f -n -t' ;;
    dd) options='-J -U -n --anyway --dry-run --fresh --mounted --no-grow' ;;
    revert) options='-J -U -f -n -p -s --anyway --dry-run --fresh --mounted --no-grow' ;;
    undo | redo) options='-J -U -k --anyway --mounted' ;;
    log) options='-J -U -v --anyway --mounted' ;;
    show) options='-J -d -k -p -r' ;;
    diff) options='-q -v' ;;
    patch) options='-J -R -U -f -n --anyway --dry-run --fresh --mounted --no-grow' ;;
    forget) options='-J -U --anyway --mounted' ;;
    *) return ;;
    esac
    case $command:$prev in
    od:-A) _bx_words 'd o x n' ;;
    od:--endian) _bx_words 'big little' ;;
    od:-t) _bx_words 'c d1 d2 d4 d8 o1 o2 o4 o8 u1 u2 u4 u8 x1 x2 x4 x8' ;;
    strings:-e) _bx_words 's S b l B L' ;;
    strings:-t) _bx_words 'd o x' ;;
    xxd:-[cglnos] | od:-[jN] | hexdump:-[ns] | strings:-n | revert:-s | undo:-k | redo:-k | show:-k) ;;
    *:-J | revert:-f | patch:-f) _bx_files ;;
    *)
        case $command:$cur in
        *:-*) _bx_words "$options -h --help" ;;
        dd:*) _bx_dd ;;
        revert:* | undo:* | redo:* | log:* | show:* | patch:* | forget:*) _bx_images ;;
        *) _bx_files ;;
        esac
        ;;
    esac
}

complete -F _bx bx
