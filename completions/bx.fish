# Completion of bx for fish.

# The names of files that may be images: journals and the texts beside them are none.
function __bx_image
    __fish_complete_path $argv | string match -rv '^[^\t]*\.(bxj|redo|bxj\.image)(\t|$)'
end

# An operand of dd: a name that wasn't given with its '=', or a value that can be known.
function __bx_operand
    set -l token (commandline -ct)
    switch $token
        case 'conv=*'
            set -l front (string replace -r '^(conv=(?:.*,)?).*' '$1' -- $token)
            set -l given (string split , -- (string sub -s 6 -- $token))
            for word in block unblock lcase ucase swab sync notrunc fsync fdatasync
                contains -- $word $given; or echo $front$word
            end
        case 'iflag=*'
            echo iflag=fullblock
        case 'status=*'
            printf 'status=%s\n' none noxfer progress
        case 'if=*'
            __fish_complete_path (string sub -s 4 -- $token) | string replace -r '^' if=
        case 'of=*'
            __bx_image (string sub -s 4 -- $token) | string replace -r '^' of=
        case '*=*'
        case '*'
            set -l given (commandline -opc | string match -r '^[a-z]+=')
            for operand in if=\t'File to read' of=\t'Image to change' ibs=\t'Bytes of an input block' \
                obs=\t'Bytes of an output block' bs=\t'Bytes of both blocks' cbs=\t'Bytes of a record' \
                skip=\t'Input blocks to skip' seek=\t'Output blocks to skip' count=\t'Most input blocks' conv=\tConversions \
                iflag=\t'How the input is read' status=\t'What is reported'
                contains -- (string replace -r '\t.*' '' -- $operand) $given; or echo $operand
            end
    end
end

set -l commands xxd od hexdump strings dd revert undo redo log show diff patch forget
set -l none "not __fish_seen_subcommand_from $commands help"

complete -c bx -f
complete -c bx -s h -l help -d 'Show help'
complete -c bx -n $none -s V -l version -d 'Show the version'
complete -c bx -n $none -s v -l verbose -d 'Write hints wherever standard error leads'

complete -c bx -n $none -a xxd -d 'Dump bytes in hexadecimal'
complete -c bx -n $none -a od -d 'Dump bytes as numbers or characters'
complete -c bx -n $none -a hexdump -d 'Dump bytes in hexadecimal beside their characters'
complete -c bx -n $none -a strings -d 'Show the printable runs of a file'
complete -c bx -n $none -a dd -d 'Copy and convert bytes'
complete -c bx -n $none -a revert -d 'Write the bytes of a dump onto an image'
complete -c bx -n $none -a undo -d 'Take the last changes of an image back'
complete -c bx -n $none -a redo -d 'Make the last undone changes of an image again'
complete -c bx -n $none -a log -d 'List the changes of an image'
complete -c bx -n $none -a show -d 'Show what an undo or a redo would do'
complete -c bx -n $none -a diff -d 'Write what differs between two files, as a patch'
complete -c bx -n $none -a patch -d 'Apply a patch of bx diff to an image'
complete -c bx -n $none -a forget -d 'Accept all changes of an image'
complete -c bx -n $none -a help -d 'Show the help of a command'
complete -c bx -n '__fish_seen_subcommand_from help' -a "$commands"

complete -c bx -n '__fish_seen_subcommand_from xxd od hexdump strings diff' -F
complete -c bx -n '__fish_seen_subcommand_from revert undo redo log show patch forget' -a '(__bx_image (commandline -ct))'

complete -c bx -n '__fish_seen_subcommand_from xxd' -s a -d 'A star for all but the first line of a row of zeros'
complete -c bx -n '__fish_seen_subcommand_from xxd' -s b -d 'Eight binary digits for each byte'
complete -c bx -n '__fish_seen_subcommand_from xxd' -s c -x -d 'Bytes on a line, 1 to 256'
complete -c bx -n '__fish_seen_subcommand_from xxd' -s d -d 'Addresses in decimal'
complete -c bx -n '__fish_seen_subcommand_from xxd' -s e -d 'Each group as a little-endian number'
complete -c bx -n '__fish_seen_subcommand_from xxd' -s g -x -d 'Bytes in a group, 0 for one group a line'
complete -c bx -n '__fish_seen_subcommand_from xxd' -s i -d 'A C array'
complete -c bx -n '__fish_seen_subcommand_from xxd' -s l -x -d 'Maximum number of bytes to dump'
complete -c bx -n '__fish_seen_subcommand_from xxd' -s n -x -d 'Name of the C array'
complete -c bx -n '__fish_seen_subcommand_from xxd' -s o -x -d 'Bytes to add to the addresses shown'
complete -c bx -n '__fish_seen_subcommand_from xxd' -s p -d 'Digits alone'
complete -c bx -n '__fish_seen_subcommand_from xxd' -s r -d 'Write the bytes of a dump'
complete -c bx -n '__fish_seen_subcommand_from xxd' -s s -x -d 'Bytes to skip first'
complete -c bx -n '__fish_seen_subcommand_from xxd' -s u -d 'Digits in upper case'

complete -c bx -n '__fish_seen_subcommand_from od' -s A -x -a 'd o x n' -d 'Base of the addresses'
complete -c bx -n '__fish_seen_subcommand_from od' -s N -x -d 'Maximum number of bytes to dump'
complete -c bx -n '__fish_seen_subcommand_from od' -s b -d 'Octal bytes'
complete -c bx -n '__fish_seen_subcommand_from od' -s c -d 'Characters'
complete -c bx -n '__fish_seen_subcommand_from od' -s d -d 'Unsigned decimal of 2 bytes'
complete -c bx -n '__fish_seen_subcommand_from od' -s i -d 'Signed decimal of 4 bytes'
complete -c bx -n '__fish_seen_subcommand_from od' -s l -d 'Signed decimal of 8 bytes'
complete -c bx -n '__fish_seen_subcommand_from od' -s w -l width -d 'Bytes on a line'
complete -c bx -n '__fish_seen_subcommand_from od' -l endian -x -a 'big little' -d 'Order of the bytes of a number'
complete -c bx -n '__fish_seen_subcommand_from od' -s j -x -d 'Bytes to skip first'
complete -c bx -n '__fish_seen_subcommand_from od' -s o -d 'Octal of 2 bytes'
complete -c bx -n '__fish_seen_subcommand_from od' -s s -d 'Signed decimal of 2 bytes'
complete -c bx -n '__fish_seen_subcommand_from od' -s t -x -a 'c d1 d2 d4 d8 o1 o2 o4 o8 u1 u2 u4 u8 x1 x2 x4 x8' -d 'Values'
complete -c bx -n '__fish_seen_subcommand_from od' -s v -d 'Show every line'
complete -c bx -n '__fish_seen_subcommand_from od' -s x -d 'Hexadecimal of 2 bytes'

complete -c bx -n '__fish_seen_subcommand_from hexdump' -s C -d 'The canonical form, which must be given'
complete -c bx -n '__fish_seen_subcommand_from hexdump' -s n -x -d 'Maximum number of bytes to dump'
complete -c bx -n '__fish_seen_subcommand_from hexdump' -s s -x -d 'Bytes to skip first'
complete -c bx -n '__fish_seen_subcommand_from hexdump' -s v -d 'Show every line'

complete -c bx -n '__fish_seen_subcommand_from strings' -s a -d 'Read the whole file, as is always done'
complete -c bx -n '__fish_seen_subcommand_from strings' -s e -x -a 's S b l B L' -d 'Characters of a run'
complete -c bx -n '__fish_seen_subcommand_from strings' -s f -d 'The name of its file in front of each line'
complete -c bx -n '__fish_seen_subcommand_from strings' -s n -x -d 'Minimum run length, 1 to 4096'
complete -c bx -n '__fish_seen_subcommand_from strings' -s t -x -a 'd o x' -d 'Show where each run begins'

complete -c bx -n '__fish_seen_subcommand_from dd' -s J -r -F -d 'Journal of the image'
complete -c bx -n '__fish_seen_subcommand_from dd' -s U -d 'Do not wait for the disk'
complete -c bx -n '__fish_seen_subcommand_from dd' -s n -l dry-run -d 'Change nothing, write the patch of it'
complete -c bx -n '__fish_seen_subcommand_from dd' -l fresh -d 'Drop the history of the image first'
complete -c bx -n '__fish_seen_subcommand_from dd' -l anyway -d 'Go on where the image is another one'
complete -c bx -n '__fish_seen_subcommand_from dd' -l mounted -d 'Change a device that is mounted'
complete -c bx -n '__fish_seen_subcommand_from dd' -l no-grow -d 'Refuse what makes the image longer'
complete -c bx -n '__fish_seen_subcommand_from dd' -a '(__bx_operand)'

complete -c bx -n '__fish_seen_subcommand_from revert' -s J -r -F -d 'Journal of the image'
complete -c bx -n '__fish_seen_subcommand_from revert' -s U -d 'Do not wait for the disk'
complete -c bx -n '__fish_seen_subcommand_from revert' -s n -l dry-run -d 'Change nothing, write the patch of it'
complete -c bx -n '__fish_seen_subcommand_from revert' -l fresh -d 'Drop the history of the image first'
complete -c bx -n '__fish_seen_subcommand_from revert' -l anyway -d 'Go on where the image is another one'
complete -c bx -n '__fish_seen_subcommand_from revert' -l mounted -d 'Change a device that is mounted'
complete -c bx -n '__fish_seen_subcommand_from revert' -l no-grow -d 'Refuse what makes the image longer'
complete -c bx -n '__fish_seen_subcommand_from revert' -s f -r -F -d 'File to read the dump from'
complete -c bx -n '__fish_seen_subcommand_from revert' -s p -d 'The dump is digits alone'
complete -c bx -n '__fish_seen_subcommand_from revert' -s s -x -d 'Bytes to add to each address'

complete -c bx -n '__fish_seen_subcommand_from undo' -s J -r -F -d 'Journal of the image'
complete -c bx -n '__fish_seen_subcommand_from undo' -s U -d 'Do not wait for the disk'
complete -c bx -n '__fish_seen_subcommand_from undo' -l anyway -d 'Go on where the image is another one'
complete -c bx -n '__fish_seen_subcommand_from undo' -l mounted -d 'Change a device that is mounted'
complete -c bx -n '__fish_seen_subcommand_from undo' -s k -x -d 'Changes to take back, 0 to 65535'
complete -c bx -n '__fish_seen_subcommand_from redo' -s J -r -F -d 'Journal of the image'
complete -c bx -n '__fish_seen_subcommand_from redo' -s U -d 'Do not wait for the disk'
complete -c bx -n '__fish_seen_subcommand_from redo' -l anyway -d 'Go on where the image is another one'
complete -c bx -n '__fish_seen_subcommand_from redo' -l mounted -d 'Change a device that is mounted'
complete -c bx -n '__fish_seen_subcommand_from redo' -s k -x -d 'Changes to make again, 0 to 65535'

complete -c bx -n '__fish_seen_subcommand_from log' -s J -r -F -d 'Journal of the image'
complete -c bx -n '__fish_seen_subcommand_from log' -s U -d 'Do not wait where a change is taken back'
complete -c bx -n '__fish_seen_subcommand_from log' -s v -d 'Show lengths and ranges too'
complete -c bx -n '__fish_seen_subcommand_from log' -l anyway -d 'Go on where the image is another one'
complete -c bx -n '__fish_seen_subcommand_from log' -l mounted -d 'Take a change of a mounted device back'

complete -c bx -n '__fish_seen_subcommand_from show' -s J -r -F -d 'Journal of the image'
complete -c bx -n '__fish_seen_subcommand_from show' -s d -d 'Show what the image has there too'
complete -c bx -n '__fish_seen_subcommand_from show' -s k -x -d 'Changes to show, 0 to 65535'
complete -c bx -n '__fish_seen_subcommand_from show' -s p -d 'Show the changes as one patch'
complete -c bx -n '__fish_seen_subcommand_from show' -s r -d 'Show what a redo would do'

complete -c bx -n '__fish_seen_subcommand_from diff' -s q -d 'Write nothing, answer by the exit status'
complete -c bx -n '__fish_seen_subcommand_from diff' -s v -d 'Write whole rows where a byte differs'

complete -c bx -n '__fish_seen_subcommand_from patch' -s J -r -F -d 'Journal of the image'
complete -c bx -n '__fish_seen_subcommand_from patch' -s R -d 'Apply the patch the other way round'
complete -c bx -n '__fish_seen_subcommand_from patch' -s U -d 'Do not wait for the disk'
complete -c bx -n '__fish_seen_subcommand_from patch' -s n -l dry-run -d 'Change nothing, write the patch of it'
complete -c bx -n '__fish_seen_subcommand_from patch' -l fresh -d 'Drop the history of the image first'
complete -c bx -n '__fish_seen_subcommand_from patch' -l anyway -d 'Go on where the image is another one'
complete -c bx -n '__fish_seen_subcommand_from patch' -l mounted -d 'Change a device that is mounted'
complete -c bx -n '__fish_seen_subcommand_from patch' -l no-grow -d 'Refuse what makes the image longer'
complete -c bx -n '__fish_seen_subcommand_from patch' -s f -r -F -d 'File to read the patch from'

complete -c bx -n '__fish_seen_subcommand_from forget' -s J -r -F -d 'Journal of the image'
complete -c bx -n '__fish_seen_subcommand_from forget' -s U -d 'Do not wait for the disk'
complete -c bx -n '__fish_seen_subcommand_from forget' -l anyway -d 'Go on where the image is another one'
complete -c bx -n '__fish_seen_subcommand_from forget' -l mounted -d 'Take a change of a mounted device back'
