Block devices, as loop devices over a file.

Each line of standard input is words of bx that do the same on the device $dev and on the file `plain` of its length.

  $ alike() {
  >   local words one other
  >   while IFS= read -r words <&9; do
  >     one=${words//DEV/$dev} other=${words//DEV/plain}
  >     bx ${one/JOURNAL/device.bxj} > one 2>&1 && bx ${other/JOURNAL/plain.bxj} > other 2>&1 && cmp one other &&
  >       cmp "$dev" plain && cmp device.bxj plain.bxj && cmp device.bxj.redo plain.bxj.redo || echo "$words: $(cat one)"
  >   done 9<&0
  > }

# A device is an image as a file of its length is (wants root losetup)

  $ head -c 1M /dev/urandom > ../disk; dev=$(losetup -f --show ../disk) || left_out 'there are no loop devices'
  $ trap 'losetup -d $dev' EXIT; first=$(sha256sum < $dev)
  $ cp ../disk plain; printf '10: 4142\nffffe: 5a5a\n' > dump; mega 5 512 > digits; head -c 5000 "$(command -v bx)" > tail
  $ head -c 1M /dev/urandom > whole; mega ' ' 2097152 > spaces; ln -s $dev link; fresh xyz

Without a journal beside it or as one nothing is written or made:

  $ refused 'cannot open file' << .
  > revert -f dump $dev
  > dd if=dump of=link conv=notrunc
  > log -J $dev img
  > .
  $ ls $dev.bxj $dev.bxj.redo 2>&1 | grep -c 'No such file'
  2
  $ rm img; alike << .
  > revert -f dump -J JOURNAL DEV
  > revert -p -s 0xfff00 -f digits -J JOURNAL DEV
  > dd if=dump of=DEV bs=4k seek=3 conv=notrunc,sync -J JOURNAL
  > dd if=tail of=DEV obs=1 seek=1043576 -J JOURNAL
  > dd if=whole of=DEV ibs=64k -J JOURNAL
  > dd if=/dev/null of=DEV obs=1048576 seek=1 -J JOURNAL
  > log -J JOURNAL DEV
  > .

Past its end, and an input without end; no more is read than shows that it doesn't fit:

  $ refused 'image too large' << .
  > revert -s 1 -f dump -J device.bxj $dev
  > dd if=tail of=$dev obs=1 seek=1043577 conv=notrunc -J device.bxj
  > .
  $ refused 'image too large' "yes | bx dd of=$dev -J device.bxj" << .
  > if=/dev/zero
  > if=/dev/zero bs=4k seek=3
  > if=/dev/zero skip=100 conv=sync
  > if=/dev/zero seek=1000000
  > obs=1 seek=7 conv=swab
  > conv=block cbs=80
  > conv=block cbs=80 skip=100
  > conv=unblock cbs=80
  > conv=unblock,swab cbs=8192 skip=3
  > .
  $ (mega '\0' 1048065; echo rest) > longer; (kept bx dd of=$dev seek=1 -J device.bxj; cat) < longer
  bx: image too large
  rest
  $ alike << .
  > dd if=spaces of=DEV conv=unblock,notrunc cbs=512 -J JOURNAL
  > undo -J JOURNAL DEV
  > log -J JOURNAL DEV
  > undo -k 2 -J JOURNAL DEV
  > redo -J JOURNAL DEV
  > undo -k 5 -J JOURNAL DEV
  > redo -k 6 -J JOURNAL DEV
  > undo -k 6 -J JOURNAL DEV
  > .
  $ [ "$(sha256sum < $dev)" = "$first" ]; wc -c < device.bxj
  0

Into the middle of a device, without notrunc: as with the real dd the length stays, and so does what lies behind.

  $ cp ../disk want; dd if=tail of=want obs=1 seek=524288 conv=notrunc status=none
  $ bx dd if=tail of=$dev obs=1 seek=524288 -J device.bxj 2> /dev/null; cmp want $dev
  $ dd if=tail of=want obs=1 seek=7 conv=notrunc,ucase status=none
  $ bx dd if=tail of=$dev obs=1 seek=7 conv=ucase -J device.bxj 2> /dev/null; cmp want $dev; [ $(stat -c %s device.bxj) -lt 100000 ]
  $ bx undo -k 2 -J device.bxj $dev; [ "$(sha256sum < $dev)" = "$first" ]
  0

Killed in the middle of changes and undos. What is unfinished touches all blocks, so `log` would only name it; an undo of none recovers it:

  $ seq 0 59999 | awk '{ printf "%x: 41\n", $1 * 7919 % 1048575 }' > dump
  $ killed() { timeout --foreground -s KILL "$@" > /dev/null 2>&1; bx undo -k 0 -J device.bxj $dev > /dev/null 2>&1; bx log -J device.bxj $dev | wc -l; }
  $ for n in $(seq 30); do
  >   [ $((n % 2)) = 1 ] && words="revert -f dump $dev" || words="dd if=whole of=$dev ibs=64k"
  >   changes=$(killed 0.$(printf %03d $((2 * n))) bx $words -J device.bxj); [ $((n % 3)) = 0 ] || continue
  >   bx revert -f dump -J device.bxj $dev; changes=$(killed 0.$(printf %03d $((3 * n))) bx undo -k $((changes + 1)) -J device.bxj $dev)
  >   bx undo -k $changes -J device.bxj $dev; [ "$(sha256sum < $dev)" = "$first" ] && [ ! -s device.bxj ] || echo "wrong at $n"
  > done 2>&1 | sort | uniq -c
       10 0

# A device that is mounted (wants root losetup mkfs.ext2)

  $ head -c 1M /dev/zero > ../disk; dev=$(losetup -f --show ../disk) || left_out 'there are no loop devices'
  $ trap 'umount mounted 2> /dev/null; losetup -d $dev' EXIT
  $ mkfs.ext2 -q -F $dev; mkdir mounted; mount -o ro $dev mounted 2> /dev/null || left_out 'it cannot be mounted'
  $ echo '3ff: 00' > dump; refused 'cannot open file' << .
  > revert -f dump -J device.bxj $dev
  > dd if=dump of=$dev -J device.bxj
  > undo -J device.bxj $dev
  > redo -J device.bxj $dev
  > .
  $ bx revert --mounted -f dump -J device.bxj $dev; kept bx revert --fresh -f dump -J device.bxj $dev
  bx: cannot open file
  [1]
  $ bx log -J device.bxj $dev; bx undo --mounted -J device.bxj $dev
  1 1048576 1
  0

A device's texts are its user's alone; and once it is unmounted:

  $ stat -c %a device.bxj device.bxj.redo; umount mounted; bx revert -f dump -J device.bxj $dev
  600
  600

# A device that is mounted at a name that is no UTF-8 (wants root losetup mkfs.ext2)

  $ head -c 1M /dev/zero > ../disk; dev=$(losetup -f --show ../disk) || left_out 'there are no loop devices'
  $ place=$(printf 'm\374'); trap 'umount "$place" 2> /dev/null; losetup -d $dev' EXIT
  $ mkfs.ext2 -q -F $dev; mkdir "$place"; mount -o ro $dev "$place" 2> /dev/null || left_out 'it cannot be mounted'
  $ echo '3ff: 00' > dump; refused 'cannot open file' <<< "revert -f dump -J device.bxj $dev"

# A disk with a partition in use that the tables name alone (wants root losetup partx unshare)

It is refused, as one with btrfs, whose mounts have a number of their own, and one that is swap. The tables are stood in for by files.

  $ head -c 1M /dev/urandom > ../parts; table='\0\0\0\0\203\0\0\0\1\0\0\0\377\7\0\0'
  $ (printf "$table"; mega '\0' 48; printf '\125\252') | dd of=../parts bs=1 seek=446 conv=notrunc status=none
  $ dev=$(losetup -f --show ../parts) || left_out 'there are no loop devices'
  $ trap 'partx -d $dev; losetup -d $dev' EXIT; partx -a $dev; echo '10: 4142' > dump
  $ unshare -m true 2> /dev/null || left_out 'there are no mount namespaces'
  $ beside() { # MOUNT SWAP COMMAND ..
  >   unshare -m bash -c 'cat /proc/$$/mountinfo > ../mounts; echo "$1" >> ../mounts; mount --bind ../mounts /proc/$$/mountinfo
  >     printf "Filename Type Size Used Priority\n%s\n" "$2" > ../swaps; mount --bind ../swaps /proc/swaps; exec "${@:3}"' - "$@"
  > }
  $ for part in $dev ${dev}p1; do
  >   refused 'cannot open file' beside "'99 27 0:45 / /mnt rw - btrfs $part rw'" "''" bx <<< "revert -f dump -J device.bxj $dev"
  >   refused 'cannot open file' beside "''" "'$part partition 1020 0 -2'" bx <<< "revert -f dump -J device.bxj $dev"
  > done
  $ beside '99 27 0:45 / /mnt rw - btrfs /dev/none rw' '/swap file 1020 0 -2' bx revert -f dump -J device.bxj $dev; bx undo -J device.bxj $dev
  0

So is one where the table of swap can't be read: here it is a process's memory.

  $ unread() { unshare -m bash -c 'mount --bind /proc/$$/mem /proc/swaps; exec "$@"' - "$@"; }
  $ refused 'cannot open file' unread bx <<< "revert -f dump -J device.bxj $dev"

# A device that an array or a volume stands on (wants root losetup partx unshare)

It is refused, and so are a disk with such a partition and a partition of such a disk. The folder that names what stands on
a device is stood in for, and so is the table of all devices. The partitions begin at sectors 1 and 1024.

  $ table='\0\0\0\0\203\0\0\0\1\0\0\0\377\3\0\0\0\0\0\0\203\0\0\0\0\4\0\0\0\4\0\0'
  $ head -c 1M /dev/urandom > ../parts; mkdir ../holders; echo '10: 4142' > dump
  $ (printf "$table"; mega '\0' 32; printf '\125\252') | dd of=../parts bs=1 seek=446 conv=notrunc status=none
  $ dev=$(losetup -f --show ../parts) || left_out 'there are no loop devices'
  $ trap 'partx -d $dev; losetup -d $dev' EXIT; partx -a $dev
  $ unshare -m true 2> /dev/null || left_out 'there are no mount namespaces'
  $ below() { # HOLDER DEVICE COMMAND ..
  >   unshare -m bash -c 'rm -f ../holders/*; touch "../holders/${1/\//!}"; mount --bind ../holders /sys/class/block/${2#/dev/}/holders
  >     (cat /proc/partitions; printf " 252  0  1020 %s\n" "$1") > ../table; mount --bind ../table /proc/partitions; exec "${@:3}"' - "$@"
  > }
  $ for holder in dm-0 cciss/c0d0; do for held in $dev ${dev}p1; do refused 'cannot open file' below $holder $held bx << .
  > revert -f dump -J device.bxj $dev
  > revert -f dump -J device.bxj ${dev}p1
  > dd if=dump of=${dev}p1 -J device.bxj
  > .
  > done; done
  $ below dm-0 $dev bx revert --mounted -f dump -J device.bxj ${dev}p1
  $ refused 'cannot open file' below dm-0 $dev bx <<< "undo -J device.bxj ${dev}p1"
  $ below dm-0 $dev bx undo --mounted -J device.bxj ${dev}p1
  0

One whose neighbour is in use isn't refused:

  $ below dm-0 ${dev}p2 bx revert -f dump -J device.bxj ${dev}p1; below dm-0 ${dev}p2 bx undo -J device.bxj ${dev}p1
  0

But one is where the table can't be read:

  $ unread() { unshare -m bash -c 'mount --bind /proc/$$/mem /proc/partitions; exec "$@"' - "$@"; }
  $ refused 'cannot open file' unread bx <<< "revert -f dump -J device.bxj $dev"
  $ unread bx revert --mounted -f dump -J whole.bxj $dev; bx undo -J whole.bxj $dev
  0

# A device that is read-only, and a partition of one (wants root losetup partx)

Nothing is written or made. It may be looked at, but for a recovery. The partition begins at sector 1.

  $ head -c 1M /dev/urandom > ../parts; table='\0\0\0\0\203\0\0\0\1\0\0\0\377\7\0\0'
  $ (printf "$table"; mega '\0' 48; printf '\125\252') | dd of=../parts bs=1 seek=446 conv=notrunc status=none
  $ before=$(sha256sum < ../parts)
  $ dev=$(losetup -r -f --show ../parts) || left_out 'there are no loop devices'
  $ trap 'partx -d $dev; losetup -d $dev' EXIT; partx -a $dev; echo '10: 4142' > dump
  $ for name in $dev ${dev}p1; do refused 'cannot open file' << .
  > revert -f dump -J device.bxj $name
  > dd if=dump of=$name -J device.bxj
  > revert --mounted -f dump -J device.bxj $name
  > .
  > done
  $ (umask 077; printf %b "${patched/0000000000000008/0000000000100000}" | sed 's/0000000000000008/0000000000100000/' > device.bxj)
  $ refused 'cannot open file' << .
  > undo -J device.bxj $dev
  > redo -J device.bxj $dev
  > undo --mounted -J device.bxj $dev
  > redo -k 0 -J device.bxj $dev
  > .
  $ kept bx log -J device.bxj $dev
  1 1048576 2
  $ kept bx show -J device.bxj $dev > ../shown; head -3 device.bxj > begun; cat begun > device.bxj; kept bx log -J device.bxj $dev
  bx: cannot open file
  [1]
  $ [ "$(sha256sum < ../parts)" = "$before" ]
